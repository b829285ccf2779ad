//! Reads the lines that the library writes.

use crate::answers::{
    Answer, LaterAnswer, Line, OrphanReason, ProveAnswer, RefuteAnswer, SupersAnswer, Value,
    Verdict,
};
use crate::error::{Error, FaultKind};

/// A line of answers, without its end; none where it is of another form.
pub(crate) fn line(text: &str) -> Option<Line> {
    let (topic, answer) = text.split_once(": ")?;
    let (word, name) = topic.split_once(' ')?;
    match word {
        "crate" => Some(Line::Crate(name.to_string(), verdict(answer)?)),
        "later" => Some(Line::Later(name.to_string(), later(answer)?)),
        "supers" => Some(Line::Supers(name.to_string(), supers(answer)?)),
        "prove" => Some(Line::Query(
            name.parse().ok()?,
            Answer::Prove(prove(answer)?),
        )),
        "refute" => Some(Line::Query(
            name.parse().ok()?,
            Answer::Refute(refute(answer)?),
        )),
        _ => None,
    }
}

/// The line of a text's first fault, without its end.
pub(crate) fn fault(text: &str) -> Option<Error> {
    let (line, kind) = text.strip_prefix("line ")?.split_once(": fault ")?;
    Some(Error::Text {
        line: line.parse().ok()?,
        kind: FaultKind::of(kind.parse().ok()?)?,
    })
}

fn verdict(text: &str) -> Option<Verdict> {
    if text == "accepted" {
        return Some(Verdict::Accepted);
    }
    if let Some(rest) = text.strip_prefix("orphan impl ") {
        let (number, reason) = rest.split_once(' ')?;
        return Some(Verdict::Orphan {
            number: number.parse().ok()?,
            reason: orphan_reason(reason)?,
        });
    }
    let (number, other) = text.strip_prefix("overlap impl ")?.split_once(" with ")?;
    let (other_crate, other_number) = other.split_once(' ')?;
    Some(Verdict::Overlap {
        number: number.parse().ok()?,
        other_crate: other_crate.to_string(),
        other_number: other_number.parse().ok()?,
    })
}

fn orphan_reason(text: &str) -> Option<OrphanReason> {
    if text == "nonlocal" {
        return Some(OrphanReason::Nonlocal);
    }
    // A parameter is one word.
    let (param, before) = match text.strip_prefix("uncovered ")?.split_once(" before ") {
        Some((param, local)) => (param, Some(local.to_string())),
        None => (text.strip_prefix("uncovered ")?, None),
    };
    Some(OrphanReason::Uncovered {
        param: param.to_string(),
        before,
    })
}

fn later(text: &str) -> Option<LaterAnswer> {
    match text {
        "compatible" => Some(LaterAnswer::Compatible),
        _ => Some(LaterAnswer::Breaking(
            text.strip_prefix("breaking impl ")?.parse().ok()?,
        )),
    }
}

fn supers(text: &str) -> Option<SupersAnswer> {
    if text == "held" {
        return Some(SupersAnswer::Held);
    }
    let (word, numbers) = text.split_once(" impl ")?;
    let (number, clause) = numbers.split_once(" clause ")?;
    let (number, clause) = (number.parse().ok()?, clause.parse().ok()?);
    match word {
        "missing" => Some(SupersAnswer::Missing { number, clause }),
        "undecided" => Some(SupersAnswer::Undecided { number, clause }),
        _ => None,
    }
}

fn prove(text: &str) -> Option<ProveAnswer> {
    match text.split_once(' ') {
        None => match text {
            "yes" => Some(ProveAnswer::Yes(Vec::new())),
            "maybe" => Some(ProveAnswer::Maybe(Vec::new())),
            "unproved" => Some(ProveAnswer::Unproved),
            _ => None,
        },
        Some(("yes", rest)) => values(rest).map(ProveAnswer::Yes),
        Some(("maybe", rest)) => values(rest).map(ProveAnswer::Maybe),
        Some(_) => None,
    }
}

fn refute(text: &str) -> Option<RefuteAnswer> {
    match text {
        "no" => Some(RefuteAnswer::No),
        "open" => Some(RefuteAnswer::Open),
        _ => None,
    }
}

/// Values, as `?x = V<u8, ?1>, ?y = fn(u8) -> u8`: the commas inside a type stand in its brackets.
fn values(text: &str) -> Option<Vec<Value>> {
    let mut values = Vec::new();
    let (mut open, mut begin, mut before) = (0usize, 0, b' ');
    for (place, byte) in text.bytes().enumerate() {
        match byte {
            b'<' | b'(' | b'[' => open += 1,
            b')' | b']' => open = open.checked_sub(1)?,
            b'>' if before != b'-' => open = open.checked_sub(1)?,
            b',' if open == 0 => {
                values.push(value(&text[begin..place])?);
                begin = place + 2;
            }
            _ => {}
        }
        before = byte;
    }
    values.push(value(text.get(begin..)?)?);
    Some(values)
}

fn value(text: &str) -> Option<Value> {
    let (variable, value) = text.strip_prefix('?')?.split_once(" = ")?;
    Some(Value {
        variable: variable.to_string(),
        value: value.to_string(),
    })
}
