//! A type checker of a toy language, which infers types in a context of the library: cargo run --example type_checker -- FILE
//!
//! A program is the declarations of a text, an empty line, and then functions, `let` lines and calls. A number ends with its type. For each
//! parameter of a called function there is a variable. Arguments get the types of inputs, and the function's bounds are registered, with
//! `Sized` for each variable. A bound that is refused is an error, and then the program is checked again without it. At last each bound has to
//! be done, and each type has to be known.
//!
//! The body of a function is the lines between `{` and `}`, if it has one. It is checked in a snapshot, where the function's parameters are
//! parameters of the context, and its bounds are assumed. A bound that is not done is an error there too. For `examples/toy/program.txt` it
//! prints this, and the status is 1:
//! ```text
//! line 14: T: Named does not hold
//! line 20: V<u8>: Named does not hold
//! line 23: expected V<u16>, found V<u32>
//! ```

use celtisdarts::{Depth, Error::NoSolution, Infer, ObligationId, Selected, Standing, Term};
use std::collections::{BTreeMap, BTreeSet, HashMap};
use std::{env, error::Error, fs, mem, process::ExitCode};
use toy::{bound, is_sign, number_type, parts, with_names, Function};
mod toy;

type Checked<T> = Result<T, Box<dyn Error>>;
type Types = HashMap<String, Term>;
/// A line, and the number of a bound in it.
type Place = (usize, usize);
/// A bound that was registered: its trait, and the terms that have to implement it.
type Bound = (ObligationId, Place, String, Vec<Term>);

struct Checker {
    infer: Infer,
    /// What is said of the bounds that were refused.
    refused: BTreeMap<Place, String>,
    at: Place,
    round: Round,
}

/// What is known of a program that is checked once.
#[derive(Default)]
struct Round {
    functions: HashMap<String, String>,
    body: Body,
    /// The lines around the body of a function.
    outer: Option<Body>,
    errors: BTreeSet<(usize, String)>,
}

/// What is known in the body of a function, or in the lines outside of all of them.
#[derive(Default)]
struct Body {
    line: usize,
    params: Vec<String>,
    own: Types,
    output: Option<Term>,
    names: Types,
    /// Variables, with their lines.
    variables: Vec<(usize, Term)>,
    bounds: Vec<Bound>,
    returns: bool,
    is_wrong: bool,
}

impl Checker {
    fn shown(&mut self, terms: &[Term]) -> Checked<String> {
        let mut shown = Vec::new();
        for term in terms {
            let resolved = self.infer.resolve(*term)?;
            let text = self.infer.display(resolved)?;
            shown.push(with_names(&text, &self.round.body.params));
        }
        Ok(shown.join(", "))
    }

    fn shown_bound(&mut self, (_, _, name, args): &Bound) -> Checked<String> {
        let (own, others) = (self.shown(&args[..1])?, self.shown(&args[1..])?);
        let others = Some(others).filter(|it| !it.is_empty());
        let others = others.map_or(String::new(), |it| format!("<{it}>"));
        Ok(format!("{own}: {name}{others}"))
    }

    fn fresh(&mut self) -> Checked<Term> {
        let made = self.infer.fresh_ty()?;
        self.round.body.variables.push((self.at.0, made));
        self.register("Sized", vec![made])?;
        Ok(made)
    }

    /// The types that are written so, in a function with these parameters.
    fn types(&mut self, own: &Types, texts: &[&str]) -> Checked<Vec<Term>> {
        texts.iter().map(|it| self.written(own, it)).collect()
    }

    fn written(&mut self, own: &Types, text: &str) -> Checked<Term> {
        if let Some(param) = own.get(text) {
            return Ok(*param);
        }
        let (head, args) = parts(text);
        let args = self.types(own, &args)?;
        let made = match head.trim_end_matches('<') {
            "(" => self.infer.tuple(&args),
            name => self.infer.ty(name, &args),
        };
        made.map_err(|it| format!("{text}: {it}").into())
    }

    fn unify(&mut self, wanted: Term, found: Term) -> Checked<()> {
        match self.infer.eq(wanted, found) {
            Err(NoSolution) => {
                let (wanted, found) = (self.shown(&[wanted])?, self.shown(&[found])?);
                Err(format!("expected {wanted}, found {found}").into())
            }
            ended => Ok(ended?),
        }
    }

    fn register(&mut self, name: &str, args: Vec<Term>) -> Checked<()> {
        self.at.1 += 1;
        if self.refused.contains_key(&self.at) {
            self.round.body.is_wrong = true;
        } else {
            let id = self.infer.register(name, &args);
            let id = id.map_err(|it| format!("{name}: {it}"))?;
            let bound = (id, self.at, name.into(), args);
            self.round.body.bounds.push(bound);
        }
        Ok(())
    }

    fn select(&mut self) -> Checked<()> {
        if let Selected::Refused(id) = self.infer.select_where_possible()? {
            let outer = self.round.outer.iter().flat_map(|it| &it.bounds);
            let mut bounds = self.round.body.bounds.iter().chain(outer);
            let found = bounds.find(|it| it.0 == id).cloned();
            let found = found.ok_or("an obligation of nobody")?;
            let error = self.shown_bound(&found)? + " does not hold";
            self.refused.entry(found.1).or_insert(error);
        }
        Ok(())
    }

    /// The type of a number, a name or a call.
    fn type_of(&mut self, text: &str) -> Checked<Term> {
        let (head, args) = parts(text);
        if let Some(number) = number_type(text) {
            return self.written(&Types::new(), number);
        }
        let Some(name) = head.strip_suffix('(') else {
            let known = self.round.body.names.get(text).copied();
            return known.ok_or_else(|| format!("`{text}` is not known").into());
        };
        let function = self.round.functions.get(name).cloned();
        let function = function.ok_or_else(|| format!("`{name}` is not known"))?;
        self.call(&Function::of(&function), &args)
    }

    fn call(&mut self, function: &Function, args: &[&str]) -> Checked<Term> {
        let mut own = Types::new();
        for param in &function.params {
            own.insert(param.to_string(), self.fresh()?);
        }
        let inputs = self.types(&own, &function.inputs)?;
        let found: Checked<Vec<Term>> = args.iter().map(|it| self.type_of(it)).collect();
        let found = found?;
        if inputs.len() != found.len() {
            let (wanted, found) = (self.shown(&inputs)?, self.shown(&found)?);
            return Err(format!("expected ({wanted}), found ({found})").into());
        }
        let mut pairs = inputs.into_iter().zip(found);
        pairs.try_for_each(|(wanted, found)| self.unify(wanted, found))?;
        for (name, args) in function.bounds.iter().map(|it| bound(it)) {
            let args = self.types(&own, &args)?;
            self.register(name, args)?;
        }
        self.select()?;
        self.written(&own, function.output)
    }

    /// Begins the body of a function, in a snapshot.
    fn open(&mut self, function: &Function) -> Checked<()> {
        if self.round.outer.is_some() {
            return Err("it is inside of a function".into());
        }
        self.infer.start_snapshot()?;
        let params = function.params.iter().map(|it| it.to_string()).collect();
        let body = Body {
            line: self.at.0,
            params,
            ..Body::default()
        };
        self.round.outer = Some(mem::replace(&mut self.round.body, body));
        let mut own = Types::new();
        for (number, name) in (0..).zip(&function.params) {
            let param = self.infer.param(number)?;
            self.infer.assume("Sized", &[param])?;
            own.insert(name.to_string(), param);
        }
        self.round.body.own = own.clone();
        for (name, args) in function.bounds.iter().map(|it| bound(it)) {
            let args = self.types(&own, &args)?;
            let assumed = self.infer.assume(name, &args);
            assumed.map_err(|it| format!("{name}: {it}"))?;
        }
        let inputs = self.types(&own, &function.inputs)?;
        let names = function.names.iter().map(|it| it.to_string());
        self.round.body.names = names.zip(inputs).collect();
        self.round.body.output = Some(self.written(&own, function.output)?);
        Ok(())
    }

    /// Ends the body of a function. What was assumed and found in it is rolled back.
    fn close(&mut self) -> Checked<()> {
        let outer = self.round.outer.take().ok_or("no body ends here")?;
        let nothing = self.infer.tuple(&[])?;
        let output = self.round.body.output.filter(|_| !self.round.body.returns);
        if let Err(error) = self.unify(output.unwrap_or(nothing), nothing) {
            self.note(self.round.body.line, error.to_string());
        }
        self.check_end()?;
        self.infer.roll_back()?;
        self.round.body = outer;
        Ok(())
    }

    fn note(&mut self, line: usize, error: String) {
        self.round.body.is_wrong = true;
        self.round.errors.insert((line, error));
    }

    fn check_line(&mut self, text: &str) -> Checked<()> {
        if let Some(function) = text.strip_prefix("fn ") {
            let name = function.split(is_sign).next().unwrap_or("");
            let (head, has_body) = match function.strip_suffix(" {") {
                Some(head) => (head, true),
                None => (function, false),
            };
            self.round.functions.insert(name.into(), head.into());
            if has_body {
                self.open(&Function::of(head))?;
            }
        } else if text == "}" {
            self.close()?;
        } else if let Some(value) = text.strip_prefix("return ") {
            let wanted = self.round.body.output.ok_or("there is no function")?;
            self.round.body.returns = true;
            let found = self.type_of(value)?;
            self.unify(wanted, found)?;
            self.select()?;
        } else if let Some((left, right)) = text.split_once(" = ") {
            let left = left.strip_prefix("let ").ok_or("`let` is missing")?;
            let own = self.round.body.own.clone();
            let (name, wanted) = match left.split_once(": ") {
                Some((name, ty)) => (name, self.written(&own, ty)?),
                None => (left, self.fresh()?),
            };
            let found = self.type_of(right);
            self.round.body.names.insert(name.into(), wanted);
            self.unify(wanted, found?)?;
            self.select()?;
        } else if !text.is_empty() && !text.starts_with("//") {
            self.type_of(text)?;
        }
        Ok(())
    }

    /// Notes the lines of the body whose types or bounds are not decided, if nothing else is wrong there.
    fn check_end(&mut self) -> Checked<()> {
        if self.round.body.is_wrong {
            return Ok(());
        }
        let unknown = || String::from("type annotations needed");
        for (line, variable) in self.round.body.variables.clone() {
            if self.shown(&[variable])?.contains('_') {
                self.note(line, unknown());
            }
        }
        for bound in self.round.body.bounds.clone() {
            let shown = self.shown_bound(&bound)?;
            let error = match self.infer.standing(bound.0)? {
                Standing::Done | Standing::Refused => continue,
                Standing::Ambiguous if shown.contains('_') => unknown(),
                Standing::Ambiguous => shown + " does not hold",
                Standing::TooDeep => format!("overflow evaluating {}", bound.2),
            };
            self.note(bound.1 .0, error);
        }
        Ok(())
    }

    /// Checks the program without the bounds that were refused.
    fn check_once(&mut self, first: usize, lines: &str) -> Checked<()> {
        self.round = Round::default();
        for (line, text) in (first..).zip(lines.lines()) {
            self.at = (line, 0);
            if let Err(error) = self.check_line(text.trim()) {
                self.note(line, error.to_string());
            }
        }
        if self.round.outer.is_some() {
            self.note(self.round.body.line, "its `}` is missing".into());
            self.close()?;
        }
        self.check_end()
    }

    fn check(mut self, first: usize, lines: &str) -> Checked<BTreeSet<(usize, String)>> {
        loop {
            let before = self.refused.len();
            self.infer.start_snapshot()?;
            self.check_once(first, lines)?;
            self.infer.roll_back()?;
            if self.refused.len() == before {
                let refused = self.refused.into_iter().map(|(at, it)| (at.0, it));
                return Ok(self.round.errors.into_iter().chain(refused).collect());
            }
        }
    }
}

fn main() -> Checked<ExitCode> {
    let file = env::args().nth(1).ok_or("usage: type_checker FILE")?;
    let program = fs::read_to_string(&file).map_err(|it| format!("{file}: {it}"))?;
    let (text, lines) = program.split_once("\n\n").unwrap_or((&program, ""));
    let workspace = celtisdarts::Workspace::parse(text, Depth::default());
    let workspace = workspace.map_err(|it| it.to_string())?;
    let name = workspace.crates().last().ok_or("there is no crate")?;
    let checker = Checker {
        infer: workspace.session(name)?.infer()?,
        refused: BTreeMap::new(),
        at: (0, 0),
        round: Round::default(),
    };
    let errors = checker.check(text.lines().count() + 2, lines)?;
    for (line, error) in &errors {
        println!("line {line}: {error}");
    }
    Ok(ExitCode::from(u8::from(!errors.is_empty())))
}
