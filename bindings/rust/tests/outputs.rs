//! Texts in one call, and each of their queries asked at run time.

mod texts;

use celtisdarts::{run, Answer, Depth, Error, Line, Output, Session, Workspace};
use std::collections::HashMap;
use texts::Text;

fn depth(levels: u8) -> Depth {
    Depth::deep(levels).unwrap()
}

/// What the program writes for the text.
fn written(text: &Text, levels: u8) -> String {
    match run(&text.bytes, depth(levels)) {
        Ok(output) => output.text().to_string(),
        Err(Error::Text { line, kind }) => format!("line {line}: fault {}\n", kind.number()),
        Err(error) => format!("{error}\n"),
    }
}

#[test]
fn examples_have_their_outputs() {
    let texts = texts::examples();
    assert!(texts.len() > 100);
    for text in &texts {
        for levels in &text.depths {
            assert_eq!(
                Some(written(text, *levels)),
                text.expected,
                "{} at depth {levels}",
                text.name
            );
        }
    }
}

#[test]
fn lines_that_were_read_print_as_they_were() {
    for text in texts::examples().iter().chain(&texts::further()) {
        for levels in &text.depths {
            if let Ok(output) = run(&text.bytes, depth(*levels)) {
                let printed: String = output.lines().map(|line| format!("{line}\n")).collect();
                assert_eq!(printed, output.text(), "{} at depth {levels}", text.name);
            }
        }
    }
}

/// The crate of a query line.
fn asker(line: &str) -> &str {
    let mut words = line.split_whitespace();
    words
        .nth(2)
        .unwrap()
        .split(|it: char| !it.is_alphanumeric() && it != '_')
        .next()
        .unwrap()
}

fn session<'s>(
    sessions: &'s mut HashMap<String, Session>,
    workspace: &Workspace,
    name: &str,
) -> &'s Session {
    sessions
        .entry(name.to_string())
        .or_insert_with(|| workspace.session(name).unwrap())
}

fn is_query(line: &&str) -> bool {
    let word = line.trim_start().split(' ').next().unwrap_or("");
    word == "prove" || word == "refute"
}

/// Asks the crates and the queries of a text at run time: each answer is that of the output. Returns how many were compared.
fn compare(text: &Text, levels: u8, output: &Output) -> usize {
    let workspace = Workspace::parse(&text.bytes, depth(levels)).unwrap();
    let source = std::str::from_utf8(&text.bytes).unwrap();
    let mut queries = source.lines().filter(is_query);
    let mut sessions = HashMap::new();
    let mut compared = 0;
    for line in output.lines() {
        match line {
            Line::Crate(name, verdict) => {
                let found = session(&mut sessions, &workspace, &name).check_crate();
                assert_eq!(
                    found,
                    Ok(verdict),
                    "{}: crate {name} at depth {levels}",
                    text.name
                );
            }
            Line::Query(number, answer) => {
                let query = queries.next().unwrap();
                let session = session(&mut sessions, &workspace, asker(query));
                assert_eq!(
                    session.ask(query).as_ref(),
                    Ok(&answer),
                    "{}: query {number} at depth {levels}",
                    text.name
                );
            }
            Line::Later(..) | Line::Supers(..) => continue,
        }
        compared += 1;
    }
    assert_eq!(queries.next(), None, "{}", text.name);
    compared
}

#[test]
fn queries_asked_at_run_time_have_the_answers_of_a_run() {
    let mut compared = 0;
    for text in texts::examples().iter().chain(&texts::further()) {
        for levels in &text.depths {
            match run(&text.bytes, depth(*levels)) {
                Ok(output) => compared += compare(text, *levels, &output),
                Err(error) => assert_eq!(
                    Workspace::parse(&text.bytes, depth(*levels)),
                    Err(error),
                    "{}",
                    text.name
                ),
            }
        }
    }
    eprintln!("{compared} answers compared");
    assert!(compared > 400);
}

#[test]
fn values_are_told_by_their_variables() {
    let text = "crate a\nstruct P<T, U>(T, U)\ntrait Conv<T>\nimpl<T> Conv<(T, fn(T, u8) -> [T])> for P<T, bool>\n";
    let workspace = Workspace::parse(text, Depth::default()).unwrap();
    let session = workspace.session("a").unwrap();
    let Ok(Answer::Prove(answer)) = session.ask("prove in a P<?x, ?y>: Conv<(P<u8, str>, ?z)>")
    else {
        panic!("a proof");
    };
    assert_eq!(
        answer.to_string(),
        "yes ?x = P<u8, str>, ?y = bool, ?z = fn(P<u8, str>, u8) -> [P<u8, str>]"
    );
    let celtisdarts::ProveAnswer::Yes(values) = answer else {
        panic!("values");
    };
    let found: Vec<(&str, &str)> = values
        .iter()
        .map(|it| (it.variable.as_str(), it.value.as_str()))
        .collect();
    assert_eq!(
        found,
        [
            ("x", "P<u8, str>"),
            ("y", "bool"),
            ("z", "fn(P<u8, str>, u8) -> [P<u8, str>]")
        ]
    );
}
