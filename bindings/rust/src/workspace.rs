//! Texts that are read, and what is asked of them.

use crate::answers::{Answer, Line, ProveAnswer, RefuteAnswer, Verdict};
use crate::calls::Asker;
use crate::depth::Depth;
use crate::error::Error;
use crate::reading;
use std::fmt;
use std::sync::{Arc, Mutex, MutexGuard, PoisonError};

/// How long a buffer for an answer is at first. A longer answer is asked for once more, in a longer one.
const FIRST_ROOM: usize = 1024;

/// A text of crates that was read: its first fault, if it had one, was told.
///
/// Its language is described in `docs/FORMAT.md`. It may be shared by threads, and a clone shares it; who asks makes a [`Session`].
///
/// Its sessions share what was read and found. The text is read once more only for calls that several threads make at once, or if there are
/// sessions for more crates than one reading keeps ([`Session`]). An inference context ([`Infer`](crate::Infer)) has a reading for itself, and
/// counts as a session. There are at most as many readings as sessions and calls at once.
///
/// ```
/// use celtisdarts::{Depth, Workspace};
///
/// let workspace = Workspace::parse("crate base\ntrait Show\nimpl Show for u8\n", Depth::default())?;
/// assert_eq!(workspace.crates(), ["base"]);
/// # Ok::<(), celtisdarts::Error>(())
/// ```
#[derive(Clone, Debug, PartialEq, Eq)]
pub struct Workspace {
    read: Arc<Read>,
}

/// Of so many crates a reading keeps what was found, if these are also no more than as often the text's length as makes so many bytes.
const KEPT_CRATES: usize = 16;
const KEPT_BYTES: usize = 4 << 20;

/// A text, and what was found in it.
struct Read {
    text: Box<[u8]>,
    depth: Depth,
    /// The names of the crates, that of `core` first.
    crates: Vec<String>,
    readings: Mutex<Readings>,
}

/// The readings of a text.
struct Readings {
    /// Those that no call uses now, the latest last.
    idle: Vec<Reading>,
    /// How many inference contexts have. They will be idle again.
    lent: usize,
    /// How many sessions there are, with those of inference contexts.
    sessions: usize,
}

/// A reading of a text.
pub(crate) struct Reading {
    pub(crate) asker: Asker,
    /// The crates in which it was asked, by their places.
    crates: Vec<usize>,
}

impl Read {
    /// Of how many crates a reading keeps what was found.
    fn most_crates(&self) -> usize {
        (KEPT_BYTES / self.text.len().max(1)).clamp(1, KEPT_CRATES)
    }

    fn readings(&self) -> MutexGuard<'_, Readings> {
        // (What it guards is whole at any time.)
        self.readings.lock().unwrap_or_else(PoisonError::into_inner)
    }

    /// An idle reading for a crate: one that was asked in it, one that keeps a further crate, or the oldest if there are enough for all sessions.
    fn idle(&self, number: usize) -> Option<Reading> {
        let mut readings = self.readings();
        let most = self.most_crates();
        let is_enough = (readings.idle.len() + readings.lent) * most >= readings.sessions;
        let idle = &mut readings.idle;
        let place = idle
            .iter()
            .rposition(|it| it.crates.contains(&number))
            .or_else(|| idle.iter().rposition(|it| it.crates.len() < most));
        match place {
            Some(place) => Some(idle.remove(place)),
            None if is_enough && !idle.is_empty() => Some(Reading {
                crates: Vec::new(),
                ..idle.remove(0)
            }),
            None => None,
        }
    }

    /// Takes out a reading for a crate, which no other call uses.
    fn take(&self, number: usize) -> Result<Reading, Error> {
        let mut reading = match self.idle(number) {
            Some(reading) => reading,
            None => Reading {
                asker: Asker::read(&self.text, self.depth.levels())?,
                crates: Vec::new(),
            },
        };
        if !reading.crates.contains(&number) {
            reading.crates.push(number);
        }
        Ok(reading)
    }

    /// Makes a call about a crate with a reading that no other call uses, and keeps that for later ones.
    fn ask<T>(
        &self,
        number: usize,
        call: impl FnOnce(&mut Asker) -> Result<T, Error>,
    ) -> Result<T, Error> {
        let mut reading = self.take(number)?;
        let answer = call(&mut reading.asker);
        self.readings().idle.push(reading);
        answer
    }

    /// Takes out a reading for an inference context of a crate, which is begun.
    fn lend(&self, number: usize) -> Result<Reading, Error> {
        let mut reading = self.take(number)?;
        let begun = reading.asker.infer_begin(number as u32);
        let mut readings = self.readings();
        match begun {
            Ok(()) => {
                readings.lent += 1;
                Ok(reading)
            }
            Err(error) => {
                readings.idle.push(reading);
                Err(error)
            }
        }
    }

    /// Notes that a session is gone: no more readings stay than there are sessions, and one.
    fn leave(&self) {
        let mut readings = self.readings();
        readings.sessions -= 1;
        let most = readings.sessions.max(1);
        let excess = (readings.idle.len() + readings.lent).saturating_sub(most);
        let excess = excess.min(readings.idle.len());
        readings.idle.drain(..excess);
    }
}

impl PartialEq for Read {
    fn eq(&self, other: &Read) -> bool {
        self.text == other.text && self.depth == other.depth
    }
}

impl Eq for Read {}

impl fmt::Debug for Read {
    fn fmt(&self, f: &mut fmt::Formatter<'_>) -> fmt::Result {
        f.debug_struct("Read")
            .field("text", &self.text)
            .field("depth", &self.depth)
            .field("crates", &self.crates)
            .finish_non_exhaustive()
    }
}

impl Workspace {
    /// Reads a text, to be asked to this depth.
    ///
    /// # Errors
    ///
    /// [`Error::Text`], with the text's first faulty line, or [`Error::Memory`].
    pub fn parse(text: impl AsRef<[u8]>, depth: Depth) -> Result<Workspace, Error> {
        let text: Box<[u8]> = text.as_ref().into();
        let read = depth.with_stack(move || {
            let mut asker = Asker::read(&text, depth.levels())?;
            Ok(Read {
                crates: crates(&mut asker)?,
                text,
                depth,
                readings: Mutex::new(Readings {
                    idle: vec![Reading {
                        asker,
                        crates: Vec::new(),
                    }],
                    lent: 0,
                    sessions: 0,
                }),
            })
        })?;
        Ok(Workspace {
            read: Arc::new(read),
        })
    }

    /// The names of the crates that the text declares, in their order; `core`, which each text has, is not among them.
    pub fn crates(&self) -> &[String] {
        &self.read.crates[1..]
    }

    /// The depth at which it is asked.
    pub fn depth(&self) -> Depth {
        self.read.depth
    }

    /// A session for a crate of the text, or for `core`. It owns what it needs: it may stand beside the workspace in a struct, or stay when that
    /// is gone. Nothing is read for it.
    ///
    /// # Errors
    ///
    /// [`Error::NoSuchCrate`].
    pub fn session(&self, name: &str) -> Result<Session, Error> {
        let number = self
            .read
            .crates
            .iter()
            .position(|it| it == name)
            .ok_or(Error::NoSuchCrate)?;
        Ok(Session::new(self, number))
    }
}

/// The names of all crates of a text that was read.
fn crates(asker: &mut Asker) -> Result<Vec<String>, Error> {
    let mut name = Vec::with_capacity(FIRST_ROOM);
    let mut crates = Vec::new();
    for number in 0.. {
        match asker.name(number, &mut name) {
            Ok(()) => crates.push(ascii(&name).to_string()),
            Err(Error::NoSuchCrate) => break,
            Err(error) => return Err(error),
        }
    }
    Ok(crates)
}

/// What the library wrote: bytes below 128.
pub(crate) fn ascii(bytes: &[u8]) -> &str {
    std::str::from_utf8(bytes).expect("the library writes ASCII")
}

/// A line, without the line feed with which it may end.
fn without_end(line: &str) -> &str {
    line.strip_suffix('\n').unwrap_or(line)
}

/// Asks in one crate of a text. What the crate sees, and what searches have found, is kept for later calls, also for those of the workspace's
/// other sessions.
///
/// A reading of the text keeps it for 16 crates, or for as many as 4 MiB hold the text, while the searches have started at most 65,536 frames, one
/// for each goal that was new; 64 bytes of a question count as a frame. Then it is dropped, and the next call lowers again what the crate sees. So
/// it is after [`Error::Memory`] and [`Error::Full`].
///
/// After any call, one that ended with an error too, it can be asked again, and answers as before. Threads may share it, and calls of several
/// threads are made side by side.
///
/// ```
/// use celtisdarts::{Depth, ProveAnswer, RefuteAnswer, Verdict, Workspace};
///
/// let text = "crate base\ntrait Show\nimpl Show for u8\ncrate a uses base\nstruct V<T>(T)\nimpl<T> Show for V<T> where T: Show\n";
/// let workspace = Workspace::parse(text, Depth::default())?;
/// let session = workspace.session("a")?;
/// assert_eq!(session.check_crate()?, Verdict::Accepted);
/// assert_eq!(session.prove("V<V<u8>>: Show")?, ProveAnswer::Yes(vec![]));
/// assert_eq!(session.prove("V<bool>: Show")?, ProveAnswer::Unproved);
/// assert_eq!(session.prove("fn(u8): Fn<?x>")?.to_string(), "yes ?x = (u8,)");
/// assert_eq!(session.refute("bool: Show")?, RefuteAnswer::Open);
/// # Ok::<(), celtisdarts::Error>(())
/// ```
pub struct Session {
    workspace: Workspace,
    /// The crate's place among those of the text.
    number: usize,
}

impl Session {
    fn new(workspace: &Workspace, number: usize) -> Session {
        workspace.read.readings().sessions += 1;
        Session {
            workspace: workspace.clone(),
            number,
        }
    }

    /// Takes out a reading with an inference context, and a session to hold it. The error is `Memory` or `Full`.
    pub(crate) fn lend(&self) -> Result<(Session, Reading), Error> {
        let (read, number) = (Arc::clone(&self.workspace.read), self.number);
        let reading = self
            .workspace
            .depth()
            .with_stack(move || read.lend(number))?;
        Ok((Session::new(&self.workspace, number), reading))
    }

    /// Ends the context of a reading that was taken out, which is idle then. It is closed where that is refused.
    pub(crate) fn give_back(&self, mut reading: Reading) {
        let ended = self.workspace.depth().with_stack(move || {
            reading.asker.infer_end()?;
            Ok(reading)
        });
        let mut readings = self.workspace.read.readings();
        readings.lent -= 1;
        readings.idle.extend(ended.ok());
    }

    /// The crate that it asks in.
    pub fn crate_name(&self) -> &str {
        &self.workspace.read.crates[self.number]
    }

    /// The text that it asks.
    pub fn workspace(&self) -> &Workspace {
        &self.workspace
    }

    /// Makes a call of the library, on a stack that is large enough, and reads the line that it writes.
    fn call(
        &self,
        call: impl FnOnce(&mut Asker, &mut Vec<u8>) -> Result<(), Error> + Send + 'static,
    ) -> Result<Line, Error> {
        let (read, number) = (Arc::clone(&self.workspace.read), self.number);
        self.workspace.depth().with_stack(move || {
            let mut buffer = Vec::with_capacity(FIRST_ROOM);
            read.ask(number, |asker| call(asker, &mut buffer))?;
            Ok(reading::line(ascii(&buffer).trim_end()).expect("a line of answers"))
        })
    }

    /// Whether the crate is coherent with those that it uses.
    ///
    /// # Errors
    ///
    /// [`Error::Memory`] or [`Error::Full`].
    pub fn check_crate(&self) -> Result<Verdict, Error> {
        let number = self.number as u32;
        match self.call(move |asker, buffer| asker.check(number, buffer))? {
            Line::Crate(_, verdict) => Ok(verdict),
            _ => unreachable!("the line of a crate"),
        }
    }

    /// Whether a reference has a proof by the rules that the crate sees.
    ///
    /// The question is what stands behind `prove in NAME` in a text: `[params] type: bound, .. [where]`, with a line feed at its end or none.
    ///
    /// # Errors
    ///
    /// [`Error::Question`] where that is faulty, [`Error::SeveralLines`], [`Error::TooLong`], [`Error::Memory`] or [`Error::Full`].
    pub fn prove(&self, question: &str) -> Result<ProveAnswer, Error> {
        match self.ask(&format!("prove in {} {question}", self.crate_name()))? {
            Answer::Prove(answer) => Ok(answer),
            Answer::Refute(_) => unreachable!("the line begins with `prove`"),
        }
    }

    /// Whether no crate that may be linked with this one can give a reference a proof. The question is what stands behind `refute in
    /// NAME` in a text: `type: bound, ..`.
    ///
    /// # Errors
    ///
    /// Those of [`Session::prove`].
    pub fn refute(&self, question: &str) -> Result<RefuteAnswer, Error> {
        match self.ask(&format!("refute in {} {question}", self.crate_name()))? {
            Answer::Refute(answer) => Ok(answer),
            Answer::Prove(_) => unreachable!("the line begins with `refute`"),
        }
    }

    /// The answer to a whole query line, which may ask in another crate of the text: what is found there is kept too.
    ///
    /// It is what the program `celtisdarts` answers last to the text with this line behind it.
    ///
    /// # Errors
    ///
    /// Those of [`Session::prove`], and [`Error::NotAQuery`].
    pub fn ask(&self, line: &str) -> Result<Answer, Error> {
        let line = without_end(line).to_string();
        match self.call(move |asker, buffer| asker.ask(line.as_bytes(), buffer))? {
            Line::Query(_, answer) => Ok(answer),
            _ => unreachable!("the line of a query"),
        }
    }
}

impl Drop for Session {
    fn drop(&mut self) {
        self.workspace.read.leave();
    }
}

impl fmt::Debug for Session {
    fn fmt(&self, f: &mut fmt::Formatter<'_>) -> fmt::Result {
        f.debug_struct("Session")
            .field("crate_name", &self.crate_name())
            .finish_non_exhaustive()
    }
}

#[cfg(test)]
mod tests {
    use super::*;

    /// How many readings are idle, how many contexts have, and how many sessions there are.
    fn counts(workspace: &Workspace) -> (usize, usize, usize) {
        let readings = workspace.read.readings();
        (readings.idle.len(), readings.lent, readings.sessions)
    }

    #[test]
    fn a_context_gives_its_reading_back() {
        let workspace = Workspace::parse("crate a\n", Depth::default()).unwrap();
        let session = workspace.session("a").unwrap();
        assert_eq!(counts(&workspace), (1, 0, 1));
        let first = session.infer().unwrap();
        assert_eq!(counts(&workspace), (0, 1, 2));
        session.prove("u8: Copy").unwrap();
        assert_eq!(counts(&workspace), (1, 1, 2));
        let second = session.infer().unwrap();
        session.prove("u8: Copy").unwrap();
        assert_eq!(counts(&workspace), (1, 2, 3));
        drop(first);
        assert_eq!(counts(&workspace), (1, 1, 2));
        drop(session);
        assert_eq!(counts(&workspace), (0, 1, 1));
        drop(second);
        assert_eq!(counts(&workspace), (1, 0, 0));
    }
}
