//! What is answered, and the lines that say so.

use std::fmt;

/// Whether a crate is coherent with the crates that it uses. Impls count from 1 in their crate.
#[derive(Clone, Debug, PartialEq, Eq, Hash)]
pub enum Verdict {
    /// Every header keeps the orphan rule, and no two impls that the crate brings together overlap.
    Accepted,
    /// The header of an impl breaks the orphan rule.
    Orphan {
        /// The impl's number in the crate.
        number: u32,
        /// How it breaks the rule.
        reason: OrphanReason,
    },
    /// Two impls apply to one type, and none of their where-clauses could be refused.
    Overlap {
        /// The number of the crate's own impl.
        number: u32,
        /// The crate of the other impl.
        other_crate: String,
        /// The other impl's number there.
        other_number: u32,
    },
}

/// How a header breaks the orphan rule.
#[derive(Clone, Debug, PartialEq, Eq, Hash)]
pub enum OrphanReason {
    /// No type of the header is local to the crate.
    Nonlocal,
    /// A parameter comes before the first local type.
    Uncovered {
        /// The parameter.
        param: String,
        /// The first local type, if there is one.
        before: Option<String>,
    },
}

/// Whether the impls of a section `later` may be added by a later version of its crate.
#[derive(Clone, Copy, Debug, PartialEq, Eq, Hash)]
pub enum LaterAnswer {
    /// All of them may.
    Compatible,
    /// The impl of that number in the section may not; those before it may.
    Breaking(u32),
}

/// Whether the supertraits of a crate's impl headers are proved. Impls and supertraits count from 1.
#[derive(Clone, Copy, Debug, PartialEq, Eq, Hash)]
pub enum SupersAnswer {
    /// Each of them has a proof.
    Held,
    /// Of a supertrait of this impl no proof was found.
    Missing {
        /// The impl's number in the crate.
        number: u32,
        /// The supertrait's number.
        clause: u32,
    },
    /// Of a supertrait of this impl that is not settled.
    Undecided {
        /// The impl's number in the crate.
        number: u32,
        /// The supertrait's number.
        clause: u32,
    },
}

/// Whether a reference has a proof by the rules that a crate sees.
#[derive(Clone, Debug, PartialEq, Eq, Hash)]
pub enum ProveAnswer {
    /// It has one, with these values for its variables; one without a value is not listed.
    Yes(Vec<Value>),
    /// That is not settled. What is known of its variables are these values; one of which nothing is known is not listed. If the question has
    /// no parameters, each solution is an instance of them.
    Maybe(Vec<Value>),
    /// No proof was found.
    Unproved,
}

/// The value of a variable: in `?x = V<u8>` the variable is `x`, and the value is `V<u8>`.
#[derive(Clone, Debug, PartialEq, Eq, Hash)]
pub struct Value {
    /// The variable's name, without its sign.
    pub variable: String,
    /// The type or constant that it stands for, as text.
    pub value: String,
}

/// Whether no crate that may be linked can give a reference a proof.
#[derive(Clone, Copy, Debug, PartialEq, Eq, Hash)]
pub enum RefuteAnswer {
    /// None can, whatever its variables stand for.
    No,
    /// That is not settled.
    Open,
}

/// The answer to a query line.
#[derive(Clone, Debug, PartialEq, Eq, Hash)]
pub enum Answer {
    /// To a line `prove in ..`.
    Prove(ProveAnswer),
    /// To a line `refute in ..`.
    Refute(RefuteAnswer),
}

/// A line of an output. It is printed as it was written.
#[derive(Clone, Debug, PartialEq, Eq, Hash)]
pub enum Line {
    /// The verdict on a crate.
    Crate(String, Verdict),
    /// The answer of a section `later` of a crate.
    Later(String, LaterAnswer),
    /// The answer of a line `supers in` a crate.
    Supers(String, SupersAnswer),
    /// The answer to the query of that number; queries count from 1 over the text.
    Query(u32, Answer),
}

// ---- printed as the program prints them

impl fmt::Display for Verdict {
    fn fmt(&self, f: &mut fmt::Formatter<'_>) -> fmt::Result {
        match self {
            Verdict::Accepted => f.write_str("accepted"),
            Verdict::Orphan { number, reason } => write!(f, "orphan impl {number} {reason}"),
            Verdict::Overlap {
                number,
                other_crate,
                other_number,
            } => {
                write!(f, "overlap impl {number} with {other_crate} {other_number}")
            }
        }
    }
}

impl fmt::Display for OrphanReason {
    fn fmt(&self, f: &mut fmt::Formatter<'_>) -> fmt::Result {
        match self {
            OrphanReason::Nonlocal => f.write_str("nonlocal"),
            OrphanReason::Uncovered {
                param,
                before: None,
            } => write!(f, "uncovered {param}"),
            OrphanReason::Uncovered {
                param,
                before: Some(local),
            } => write!(f, "uncovered {param} before {local}"),
        }
    }
}

impl fmt::Display for LaterAnswer {
    fn fmt(&self, f: &mut fmt::Formatter<'_>) -> fmt::Result {
        match self {
            LaterAnswer::Compatible => f.write_str("compatible"),
            LaterAnswer::Breaking(number) => write!(f, "breaking impl {number}"),
        }
    }
}

impl fmt::Display for SupersAnswer {
    fn fmt(&self, f: &mut fmt::Formatter<'_>) -> fmt::Result {
        match self {
            SupersAnswer::Held => f.write_str("held"),
            SupersAnswer::Missing { number, clause } => {
                write!(f, "missing impl {number} clause {clause}")
            }
            SupersAnswer::Undecided { number, clause } => {
                write!(f, "undecided impl {number} clause {clause}")
            }
        }
    }
}

/// A word and the values behind it.
fn write_values(f: &mut fmt::Formatter<'_>, word: &str, values: &[Value]) -> fmt::Result {
    f.write_str(word)?;
    for (place, value) in values.iter().enumerate() {
        write!(f, "{}{value}", if place == 0 { " " } else { ", " })?;
    }
    Ok(())
}

impl fmt::Display for ProveAnswer {
    fn fmt(&self, f: &mut fmt::Formatter<'_>) -> fmt::Result {
        match self {
            ProveAnswer::Yes(values) => write_values(f, "yes", values),
            ProveAnswer::Maybe(values) => write_values(f, "maybe", values),
            ProveAnswer::Unproved => f.write_str("unproved"),
        }
    }
}

impl fmt::Display for Value {
    fn fmt(&self, f: &mut fmt::Formatter<'_>) -> fmt::Result {
        write!(f, "?{} = {}", self.variable, self.value)
    }
}

impl fmt::Display for RefuteAnswer {
    fn fmt(&self, f: &mut fmt::Formatter<'_>) -> fmt::Result {
        f.write_str(match self {
            RefuteAnswer::No => "no",
            RefuteAnswer::Open => "open",
        })
    }
}

impl fmt::Display for Answer {
    fn fmt(&self, f: &mut fmt::Formatter<'_>) -> fmt::Result {
        match self {
            Answer::Prove(answer) => answer.fmt(f),
            Answer::Refute(answer) => answer.fmt(f),
        }
    }
}

impl fmt::Display for Line {
    fn fmt(&self, f: &mut fmt::Formatter<'_>) -> fmt::Result {
        match self {
            Line::Crate(name, verdict) => write!(f, "crate {name}: {verdict}"),
            Line::Later(name, answer) => write!(f, "later {name}: {answer}"),
            Line::Supers(name, answer) => write!(f, "supers {name}: {answer}"),
            Line::Query(number, answer @ Answer::Prove(_)) => write!(f, "prove {number}: {answer}"),
            Line::Query(number, answer @ Answer::Refute(_)) => {
                write!(f, "refute {number}: {answer}")
            }
        }
    }
}
