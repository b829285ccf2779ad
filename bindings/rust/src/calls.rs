//! The library's calls made safe: with the stack of [`crate::stack`], all that is `unsafe` here.
#![allow(unsafe_code)]

use crate::error::{Error, FaultKind};
use celtisdarts_sys::{
    celtisdarts_abi_version, celtisdarts_ask, celtisdarts_check, celtisdarts_close,
    celtisdarts_infer, celtisdarts_infer_begin, celtisdarts_infer_end, celtisdarts_infer_text,
    celtisdarts_name, celtisdarts_new, celtisdarts_read, celtisdarts_run, Handle, ABI_VERSION,
    DONE, FAULT, FULL, MEMORY, NOT_A_QUERY, NO_CRATE, NO_NAME, NO_SOLUTION, NO_TERM, SEVERAL_LINES,
    TOO_LONG, TOO_SHORT, WRONG_TERMS,
};
use std::mem::ManuallyDrop;
use std::ptr::{self, NonNull};

/// Refuses a library of another version, before its first call.
fn require_version() {
    // SAFETY: it is a constant of the library, which nothing writes.
    let linked = unsafe { celtisdarts_abi_version };
    assert!(
        linked == ABI_VERSION,
        "libceltisdarts.a has version {linked} of the calls, and {ABI_VERSION} is declared here"
    );
}

/// The error of a call that ended with this word, which is not that of a fault.
fn error_of(word: u32) -> Error {
    match word {
        MEMORY => Error::Memory,
        FULL => Error::Full,
        NOT_A_QUERY => Error::NotAQuery,
        SEVERAL_LINES => Error::SeveralLines,
        TOO_LONG => Error::TooLong,
        NO_CRATE => Error::NoSuchCrate,
        NO_TERM => Error::NoSuchTerm,
        NO_SOLUTION => Error::NoSolution,
        NO_NAME => Error::NoSuchName,
        WRONG_TERMS => Error::WrongTerms,
        _ => unreachable!("the call ends with no word {word}"),
    }
}

fn fault_kind(number: u32) -> FaultKind {
    FaultKind::of(number).expect("the number of a fault")
}

/// Makes a call that writes into the buffer; once more where the buffer was too short, since a call that ends so changes nothing. Returns the
/// word of the last call.
fn into_buffer(
    buffer: &mut Vec<u8>,
    mut call: impl FnMut(*mut u8, usize, &mut usize) -> u32,
) -> u32 {
    // All that was allocated is room.
    buffer.resize(buffer.capacity(), 0);
    let mut needed = 0;
    let mut word = call(buffer.as_mut_ptr(), buffer.len(), &mut needed);
    while word == TOO_SHORT {
        buffer.resize(needed, 0);
        word = call(buffer.as_mut_ptr(), buffer.len(), &mut needed);
    }
    buffer.truncate(needed);
    word
}

/// Writes the output for a text into the buffer, and tells whether it is answers; else it is the line of the text's first fault. The error is
/// `Memory` or `Full`.
pub(crate) fn run(text: &[u8], depth: u8, buffer: &mut Vec<u8>) -> Result<bool, Error> {
    require_version();
    let word = into_buffer(buffer, |at, room, needed| {
        // SAFETY: the declaration is the library's. `text` and the buffer are two blocks of so many bytes, which are borrowed here.
        unsafe {
            celtisdarts_run(
                text.as_ptr(),
                text.len(),
                u32::from(depth),
                at,
                room,
                needed,
            )
        }
    });
    match word {
        DONE => Ok(true),
        FAULT => Ok(false),
        word => Err(error_of(word)),
    }
}

/// An operation of an inference context, with what it takes.
#[derive(Default)]
pub(crate) struct Operation {
    /// An `INFER_..`.
    pub(crate) operation: u32,
    pub(crate) name: Box<str>,
    pub(crate) terms: Vec<u32>,
    pub(crate) number: u64,
}

/// A text that the library has read, to be asked by one call at a time.
pub(crate) struct Asker {
    handle: ManuallyDrop<Handle>,
}

impl Asker {
    /// Reads a text. The error is `Text` or `Memory`.
    pub(crate) fn read(text: &[u8], depth: u8) -> Result<Asker, Error> {
        require_version();
        let mut at = ptr::null_mut();
        // SAFETY: the declaration is the library's, and `at` may be written.
        let word = unsafe { celtisdarts_new(&mut at) };
        if word != DONE {
            return Err(error_of(word));
        }
        let at = NonNull::new(at).expect("a call that is done writes its handle");
        let mut asker = Asker {
            handle: ManuallyDrop::new(Handle { at }),
        };
        let (mut line, mut number) = (0, 0);
        // SAFETY: the declaration is the library's. The handle is what `celtisdarts_new` wrote, and `text` is a block of so many bytes.
        let word = unsafe {
            celtisdarts_read(
                &mut asker.handle,
                text.as_ptr(),
                text.len(),
                u32::from(depth),
                &mut line,
                &mut number,
            )
        };
        match word {
            DONE => Ok(asker),
            FAULT => Err(Error::Text {
                line,
                kind: fault_kind(number),
            }),
            word => Err(error_of(word)),
        }
    }

    /// Writes the name of a crate into the buffer; `core` is number 0. The error is `NoSuchCrate` or `Memory`.
    pub(crate) fn name(&mut self, number: u32, buffer: &mut Vec<u8>) -> Result<(), Error> {
        let word = into_buffer(buffer, |at, room, needed| {
            // SAFETY: the declaration is the library's, the handle is open, and the buffer is a block of so many bytes.
            unsafe { celtisdarts_name(&mut self.handle, number, at, room, needed) }
        });
        match word {
            DONE => Ok(()),
            word => Err(error_of(word)),
        }
    }

    /// Writes the line of a crate into the buffer. The error is `NoSuchCrate`, `Memory` or `Full`.
    pub(crate) fn check(&mut self, number: u32, buffer: &mut Vec<u8>) -> Result<(), Error> {
        let word = into_buffer(buffer, |at, room, needed| {
            // SAFETY: the declaration is the library's, the handle is open, and the buffer is a block of so many bytes.
            unsafe { celtisdarts_check(&mut self.handle, number, at, room, needed) }
        });
        match word {
            DONE => Ok(()),
            word => Err(error_of(word)),
        }
    }

    /// Writes the answer to a query line into the buffer. The error is any but `Text` and `NoSuchCrate`.
    pub(crate) fn ask(&mut self, line: &[u8], buffer: &mut Vec<u8>) -> Result<(), Error> {
        let mut number = 0;
        let word = into_buffer(buffer, |at, room, needed| {
            // SAFETY: the declaration is the library's, the handle is open, and line and buffer are two blocks of so many bytes.
            unsafe {
                celtisdarts_ask(
                    &mut self.handle,
                    line.as_ptr(),
                    line.len(),
                    at,
                    room,
                    needed,
                    &mut number,
                )
            }
        });
        match word {
            DONE => Ok(()),
            FAULT => Err(Error::Question(fault_kind(number))),
            word => Err(error_of(word)),
        }
    }

    /// Begins an inference context of a crate, in the place of the last one. The error is `NoSuchCrate`, `Memory` or `Full`.
    pub(crate) fn infer_begin(&mut self, number: u32) -> Result<(), Error> {
        // SAFETY: the declaration is the library's, and the handle is open.
        match unsafe { celtisdarts_infer_begin(&mut self.handle, number) } {
            DONE => Ok(()),
            word => Err(error_of(word)),
        }
    }

    /// Ends the inference context, of which there has to be one. The error is `Memory`.
    pub(crate) fn infer_end(&mut self) -> Result<(), Error> {
        // SAFETY: the declaration is the library's, and the handle is open.
        match unsafe { celtisdarts_infer_end(&mut self.handle) } {
            DONE => Ok(()),
            word => Err(error_of(word)),
        }
    }

    /// Does an operation of the inference context, of which there has to be one, and returns what that gives. The error is `NoSuchTerm`,
    /// `NoSolution`, `NoSuchName`, `WrongTerms`, `Memory` or `Full`.
    pub(crate) fn infer(&mut self, asked: &Operation) -> Result<u32, Error> {
        let mut given = 0;
        // SAFETY: the declaration is the library's, and the handle is open. Name and terms are two blocks of as many bytes and terms, which are
        // borrowed here, and `given` may be written.
        let word = unsafe {
            celtisdarts_infer(
                &mut self.handle,
                asked.operation,
                asked.name.as_ptr(),
                asked.name.len(),
                asked.terms.as_ptr(),
                asked.terms.len(),
                asked.number,
                &mut given,
            )
        };
        match word {
            DONE => Ok(given),
            word => Err(error_of(word)),
        }
    }

    /// Writes a term of the inference context, of which there has to be one, into the buffer. The error is `NoSuchTerm` or `Memory`.
    pub(crate) fn infer_text(&mut self, term: u32, buffer: &mut Vec<u8>) -> Result<(), Error> {
        let word = into_buffer(buffer, |at, room, needed| {
            // SAFETY: the declaration is the library's, the handle is open, and the buffer is a block of so many bytes.
            unsafe { celtisdarts_infer_text(&mut self.handle, term, at, room, needed) }
        });
        match word {
            DONE => Ok(()),
            word => Err(error_of(word)),
        }
    }
}

impl Drop for Asker {
    fn drop(&mut self) {
        // SAFETY: the declaration is the library's. The handle is open, and nobody has it after this.
        unsafe { celtisdarts_close(ManuallyDrop::take(&mut self.handle)) }
    }
}
