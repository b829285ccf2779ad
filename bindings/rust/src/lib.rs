//! Asks a proved trait solver and coherence checker in process.
//!
//! A text of crates with their structs, traits and impls is read once, as a [`Workspace`], and then asked at run time, by a [`Session`] for a
//! crate: whether the crate is coherent, whether a reference has a proof, and whether one can have none. A type checker keeps variables,
//! equations and bounds that have to hold together in a context of a crate, an [`Infer`]. [`run`] answers a whole text in one call. The language
//! of texts and the meaning of each answer stand in `docs/FORMAT.md` of the repository, and what the answers promise in `docs/PROMISES.md`.
//!
//! The answers are proved, up to the functions that the library exports for C. What is here is tested and not proved: that calls are declared
//! as the library defines them, that lines are read back right, and that stacks are large enough.
//!
//! The library itself is in the package `celtisdarts-sys`, for Linux on x86-64 with glibc. That it has the version of the calls that are
//! declared there is looked at before the first call, which panics if not. No other call panics.
//!
//! Threads may share a [`Workspace`] and a [`Session`]. What the library holds for one call is not used by another at the same time. That it may
//! move to another thread is proved, and the library has no data that threads share.
#![deny(missing_docs, unsafe_code)]
#![warn(clippy::missing_errors_doc)]

mod answers;
mod calls;
mod depth;
mod error;
mod infer;
mod output;
mod reading;
mod stack;
mod workspace;

pub use answers::{
    Answer, LaterAnswer, Line, OrphanReason, ProveAnswer, RefuteAnswer, SupersAnswer, Value,
    Verdict,
};
pub use depth::Depth;
pub use error::{Error, FaultKind};
pub use infer::{Infer, ObligationId, Selected, Standing, Term};
pub use output::{run, Output};
pub use workspace::{Session, Workspace};
