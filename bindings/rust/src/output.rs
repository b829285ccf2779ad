//! Whole texts, each in one call.

use crate::answers::Line;
use crate::calls;
use crate::depth::Depth;
use crate::error::Error;
use crate::reading;
use crate::workspace::ascii;

/// All that a text is told: what the program `celtisdarts` writes for it.
#[derive(Clone, Debug, PartialEq, Eq)]
pub struct Output {
    text: String,
}

impl Output {
    /// The lines as they were written, each with its end.
    pub fn text(&self) -> &str {
        &self.text
    }

    /// The lines in their order: of each crate, then of each line `later` or `supers`, and then of each query.
    pub fn lines(&self) -> impl Iterator<Item = Line> + '_ {
        self.text
            .lines()
            .map(|line| reading::line(line).expect("a line of answers"))
    }
}

/// Judges all crates of a text and answers all its queries, to this depth.
///
/// For one text and all its answers that is the shortest way; who asks again makes a [`Workspace`](crate::Workspace).
///
/// # Errors
///
/// [`Error::Text`], with the text's first faulty line, [`Error::Memory`] or [`Error::Full`].
///
/// ```
/// use celtisdarts::{run, Depth, Line, Verdict};
///
/// let output = run("crate a\ntrait T\nimpl T for u8\nimpl T for u8\n", Depth::default())?;
/// assert_eq!(output.text(), "crate a: overlap impl 2 with a 1\n");
/// assert!(matches!(output.lines().next(), Some(Line::Crate(_, Verdict::Overlap { number: 2, .. }))));
/// # Ok::<(), celtisdarts::Error>(())
/// ```
pub fn run(text: impl AsRef<[u8]>, depth: Depth) -> Result<Output, Error> {
    let text = text.as_ref().to_vec();
    depth.with_stack(move || {
        // A guess, so that a second call is rare: a line of answers for each line.
        let lines = text.iter().filter(|byte| **byte == b'\n').count() + 1;
        let mut buffer = Vec::with_capacity(64 * lines);
        let is_answered = calls::run(&text, depth.levels(), &mut buffer)?;
        let written = ascii(&buffer);
        if is_answered {
            Ok(Output {
                text: written.to_string(),
            })
        } else {
            Err(reading::fault(written.trim_end()).expect("the line of a fault"))
        }
    })
}
