//! The calls of `libceltisdarts`, a proved trait solver and coherence checker, as C has them. The crate `celtisdarts` makes them safe.
//!
//! The package has the library itself, for Linux on x86-64 with glibc: `lib/libceltisdarts.a`, or that of the folder which the variable
//! `CELTISDARTS_LIB_DIR` names. [`ARCHIVE_SHA256`] says which it is. What each call promises is proved where it is defined, in
//! `crates/celtisdarts_c` of the repository. That it is declared here as it is there is compared by a test (`tests/declarations.rs` of
//! `celtisdarts`).
//!
//! # Safety
//!
//! Each pointer to bytes or terms is to as many as the length behind it says, and not null, not even where that is 0. A buffer that is written
//! overlaps nothing else that the call is given. A [`Handle`] is what [`celtisdarts_new`] wrote; it is closed once, and not used behind that. A
//! call takes up to 3 KiB of stack for each level of the depth, and 64 KiB more.
//!
//! Two calls may run at once where they have no handle in common, and a handle may move to another thread. The library has no data that it
//! writes but what is behind handles, no locks and no threads. What is behind a handle is plain data in blocks of `malloc`, which any thread
//! may free. (That it may move is proved, in `crates/celtisdarts_c/src/crossing.rt`.)
#![no_std]
#![deny(missing_docs)]

use core::ptr::NonNull;

/// The version of the calls that are declared here. It is that of the linked library if it is [`celtisdarts_abi_version`].
pub const ABI_VERSION: u32 = 2;

/// The SHA-256 sum of the archive that is linked, as it is noted beside it; `unknown` where nothing is.
pub const ARCHIVE_SHA256: &str = env!("CELTISDARTS_ARCHIVE_SHA256");

/// The SHA-256 sum of the sources from which it was built, as `tools/program.sh` of the repository takes it.
pub const SOURCES_SHA256: &str = env!("CELTISDARTS_SOURCES_SHA256");

/// The toolchain that proved and built it.
pub const TOOLCHAIN: &str = env!("CELTISDARTS_TOOLCHAIN");

/// The call has done what it says.
pub const DONE: u32 = 0;
/// The text, or the line, has a fault.
pub const FAULT: u32 = 1;
/// The depth is not from 1 to 255.
pub const NO_DEPTH: u32 = 2;
/// A request for memory was refused.
pub const MEMORY: u32 = 3;
/// A table of terms, of goals or of answers was full.
pub const FULL: u32 = 4;
/// The buffer is too short: `needed` is how long it has to be.
pub const TOO_SHORT: u32 = 5;
/// The line asks nothing. It has no fault, but of a trait or an impl with types that is not said.
pub const NOT_A_QUERY: u32 = 6;
/// The line holds a line feed.
pub const SEVERAL_LINES: u32 = 7;
/// The text and the line together are longer than 67,108,864 bytes.
pub const TOO_LONG: u32 = 8;
/// The text has no crate of that number.
pub const NO_CRATE: u32 = 9;
/// No text was read.
pub const NO_TEXT: u32 = 10;
/// No inference context was begun.
pub const NO_CONTEXT: u32 = 11;
/// No term, or no obligation, of the context has that number.
pub const NO_TERM: u32 = 12;
/// No solution of all that was asked makes the terms equal.
pub const NO_SOLUTION: u32 = 13;
/// The crate sees no struct, or no trait, of that name.
pub const NO_NAME: u32 = 14;
/// Other terms are taken: more, fewer, or of other kinds.
pub const WRONG_TERMS: u32 = 15;
/// There is no operation of that number.
pub const NO_OPERATION: u32 = 16;

/// Gives a term: a new type variable.
pub const INFER_FRESH_TYPE: u32 = 1;
/// Gives a term: a new constant variable.
pub const INFER_FRESH_CONST: u32 = 2;
/// Takes the name of a struct with its arguments, or of a type without parts, as `u8`. Gives a term.
pub const INFER_TYPE: u32 = 3;
/// Takes a number. Gives a term: the constant.
pub const INFER_CONSTANT: u32 = 4;
/// Gives a term: `'static`, since answers hold up to lifetimes.
pub const INFER_LIFETIME: u32 = 5;
/// Takes types. Gives a term: their tuple.
pub const INFER_TUPLE: u32 = 6;
/// Takes a type `T`. Gives a term: `[T]`.
pub const INFER_SLICE: u32 = 7;
/// Takes a type `T` and a constant `N`. Gives a term: `[T; N]`.
pub const INFER_ARRAY: u32 = 8;
/// Takes a type `T`. Gives a term: `&T`.
pub const INFER_REFERENCE: u32 = 9;
/// Takes a type `T`. Gives a term: `&mut T`.
pub const INFER_REFERENCE_MUT: u32 = 10;
/// Takes a type `T`. Gives a term: `*const T`.
pub const INFER_POINTER: u32 = 11;
/// Takes a type `T`. Gives a term: `*mut T`.
pub const INFER_POINTER_MUT: u32 = 12;
/// Takes the inputs and then the output. Gives a term: the type of such functions.
pub const INFER_FUNCTION: u32 = 13;
/// Takes a number below 2^32. Gives a term: the type parameter of that number, of which nothing is known but what is assumed.
pub const INFER_PARAM: u32 = 14;
/// Takes a number below 2^32. Gives a term: the constant parameter of that number.
pub const INFER_CONST_PARAM: u32 = 15;
/// Takes two terms. Makes them equal, or ends with [`NO_SOLUTION`].
pub const INFER_EQ: u32 = 20;
/// Takes two terms. Gives 1 if known values let them be equal, and 0 if no solution does. Changes nothing.
pub const INFER_CAN_EQ: u32 = 21;
/// Takes the name of a trait, and its arguments, the self type first. Gives an obligation, which is not evaluated.
pub const INFER_REGISTER: u32 = 22;
/// Takes how many nested goals may be started, or 0 for no bound. Gives 0 if all obligations are done, 1 if some are pending, 2 if it stopped
/// at the bound, so that another call goes on, and `3 + n` if obligation `n` has no solution.
pub const INFER_SELECT: u32 = 23;
/// Takes an obligation as the number. Gives 0 if it is done, 1 if it is pending, 2 if it is pending at a limit, and 3 if it was refused.
pub const INFER_STANDING: u32 = 24;
/// Takes a term. Gives a term in which each variable that has a value is replaced by it.
pub const INFER_RESOLVE: u32 = 25;
/// Opens a snapshot.
pub const INFER_SNAPSHOT: u32 = 26;
/// Gives 1 if a snapshot was open: the last one ends, and what was done since stays. Else 0.
pub const INFER_COMMIT: u32 = 27;
/// Gives 1 if a snapshot was open: all is as it was there, and numbers that were given since are taken back. Else 0.
pub const INFER_ROLL_BACK: u32 = 28;
/// Takes the name of a trait, and its arguments, the self type first. What is registered from now on has to hold under that and its supertraits.
pub const INFER_ASSUME: u32 = 29;

/// What is asked, behind a pointer that the library made. (The allocator that stands beside it there takes no bytes.)
#[repr(C)]
#[derive(Debug)]
pub struct Handle {
    /// What [`celtisdarts_new`] wrote.
    pub at: NonNull<u8>,
}

// SAFETY: what is behind it may move to another thread, as is said above.
unsafe impl Send for Handle {}

// The library's `&[u8]` is a pointer and a length here, and its `Global` is no parameter.
extern "C" {
    /// Judges all crates of a text and answers all its queries: writes the output of the program `celtisdarts`. At [`FAULT`] that is the line of
    /// the text's first fault.
    pub fn celtisdarts_run(
        text: *const u8,
        text_length: usize,
        depth: u32,
        buffer: *mut u8,
        room: usize,
        needed: &mut usize,
    ) -> u32;
    /// Makes a handle, without a text.
    pub fn celtisdarts_new(at: &mut *mut u8) -> u32;
    /// Lets a handle go.
    pub fn celtisdarts_close(handle: Handle);
    /// Reads a text, in the place of the one that was read before. At [`FAULT`] `line` and `number` are those of its first fault.
    pub fn celtisdarts_read(
        handle: &mut Handle,
        text: *const u8,
        text_length: usize,
        depth: u32,
        line: &mut u32,
        number: &mut u32,
    ) -> u32;
    /// Writes the name of a crate. That of `core` is number 0.
    pub fn celtisdarts_name(
        handle: &mut Handle,
        number: u32,
        buffer: *mut u8,
        room: usize,
        needed: &mut usize,
    ) -> u32;
    /// Writes the line of a crate, with its end: accepted, or why it is not.
    pub fn celtisdarts_check(
        handle: &mut Handle,
        number: u32,
        buffer: *mut u8,
        room: usize,
        needed: &mut usize,
    ) -> u32;
    /// Writes the answer to a query line, with its end. At [`FAULT`] `number` is the line's fault.
    pub fn celtisdarts_ask(
        handle: &mut Handle,
        line: *const u8,
        line_length: usize,
        buffer: *mut u8,
        room: usize,
        needed: &mut usize,
        number: &mut u32,
    ) -> u32;
    /// Begins an inference context of a crate, in the place of the handle's last one. Crates have the numbers of [`celtisdarts_name`].
    pub fn celtisdarts_infer_begin(handle: &mut Handle, number: u32) -> u32;
    /// Ends the context.
    pub fn celtisdarts_infer_end(handle: &mut Handle) -> u32;
    /// Does one operation of the context, an `INFER_..`, with a name, with terms by their numbers, and with a number.
    pub fn celtisdarts_infer(
        handle: &mut Handle,
        operation: u32,
        name: *const u8,
        name_length: usize,
        terms: *const u32,
        count: usize,
        number: u64,
        given: &mut u32,
    ) -> u32;
    /// Writes a term, as a type or a constant of a text; a type variable without a value as `?0t`, a constant variable as `?0c`, and
    /// parameters as `!0t` and `!0c`. Lifetimes are not written.
    pub fn celtisdarts_infer_text(
        handle: &mut Handle,
        term: u32,
        buffer: *mut u8,
        room: usize,
        needed: &mut usize,
    ) -> u32;
}

extern "C" {
    /// The version of the calls that the library was built with. (A library without it is older, and cannot be linked.)
    pub static celtisdarts_abi_version: u32;
}
