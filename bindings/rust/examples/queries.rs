//! How long the queries of a text take, asked at run time: cargo run --release --example queries -- FILE [TIMES]

use celtisdarts::{Depth, Session, Workspace};
use std::collections::HashMap;
use std::error::Error;
use std::time::Instant;
use std::{env, fs};

fn asked_crate(line: &str) -> Option<&str> {
    let mut words = line.split_whitespace();
    let is_query = matches!(words.next(), Some("prove" | "refute"));
    words.nth(1).filter(|_| is_query)
}

fn main() -> Result<(), Box<dyn Error>> {
    let file = env::args().nth(1).ok_or("name a file")?;
    let times: u32 = env::args().nth(2).map_or(Ok(10), |word| word.parse())?;
    let text = fs::read_to_string(file)?;

    let begin = Instant::now();
    let workspace = Workspace::parse(&text, Depth::default())?;
    println!("read: {:?}", begin.elapsed());

    let mut sessions: HashMap<&str, Session> = HashMap::new();
    for name in workspace.crates() {
        sessions.insert(name, workspace.session(name)?);
    }
    let begin = Instant::now();
    for session in sessions.values() {
        session.check_crate()?;
    }
    println!("checked: {:?}", begin.elapsed());

    let queries: Vec<(&str, &str)> = text
        .lines()
        .filter_map(|line| Some((asked_crate(line)?, line)))
        .collect();
    for _ in 0..times {
        let begin = Instant::now();
        for (name, line) in &queries {
            sessions.get(name).ok_or("a query of no crate")?.ask(line)?;
        }
        let elapsed = begin.elapsed();
        println!(
            "{} queries: {elapsed:?}, {:?} each",
            queries.len(),
            elapsed / queries.len().max(1) as u32
        );
    }
    Ok(())
}
