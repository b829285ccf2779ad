//! Calls on a stack that is large enough: the caller's, or that of a thread that is kept.
#![allow(unsafe_code)]

use std::cell::RefCell;
use std::ffi::{c_int, c_void};
use std::mem::MaybeUninit;
use std::panic::{self, AssertUnwindSafe};
use std::sync::mpsc::{self, Sender};
use std::{io, process, ptr, thread};

/// The stack of a thread that is kept, in bytes. At depth 255 a search takes some 0.7 MiB.
const KEPT_STACK: usize = 8 << 20;

/// What is to be left of a stack beside a call's own need, in bytes: for the callers in between, and for the pages that guard it.
const SPARE: usize = 64 << 10;

/// `pthread_attr_t` of glibc on x86-64.
#[repr(C, align(8))]
struct Attributes([u8; 56]);

extern "C" {
    fn pthread_self() -> usize;
    fn pthread_getattr_np(thread: usize, attributes: *mut Attributes) -> c_int;
    fn pthread_attr_getstack(
        attributes: *const Attributes,
        lowest: *mut *mut c_void,
        size: *mut usize,
    ) -> c_int;
    fn pthread_attr_destroy(attributes: *mut Attributes) -> c_int;
}

/// The lowest address of this thread's stack and the one behind its end; an empty range where that is not known.
fn bounds() -> (usize, usize) {
    let mut attributes = MaybeUninit::uninit();
    let (mut lowest, mut size) = (ptr::null_mut(), 0);
    // SAFETY: the declarations are those of glibc. The attributes are written by the first call, and read by the others if it succeeds.
    let is_known = unsafe {
        pthread_getattr_np(pthread_self(), attributes.as_mut_ptr()) == 0 && {
            let found = pthread_attr_getstack(attributes.as_ptr(), &mut lowest, &mut size);
            pthread_attr_destroy(attributes.as_mut_ptr());
            found == 0
        }
    };
    if is_known {
        (lowest as usize, lowest as usize + size)
    } else {
        (0, 0)
    }
}

type Call = Box<dyn FnOnce() + Send>;

/// A thread with a large stack, which makes calls one by one until nobody can send one.
struct Kept {
    calls: Sender<Call>,
    /// The process that it is of: a fork has no thread of before.
    process: u32,
}

impl Kept {
    fn start() -> io::Result<Kept> {
        let (calls, made) = mpsc::channel::<Call>();
        thread::Builder::new()
            .name("celtisdarts".to_string())
            .stack_size(KEPT_STACK)
            .spawn(move || made.iter().for_each(|call| call()))?;
        Ok(Kept {
            calls,
            process: process::id(),
        })
    }
}

thread_local! {
    static BOUNDS: (usize, usize) = bounds();
    static KEPT: RefCell<Option<Kept>> = const { RefCell::new(None) };
}

/// Whether so many bytes of this thread's stack are left.
fn has(bytes: usize) -> bool {
    let here = 0u8;
    let at = ptr::addr_of!(here) as usize;
    BOUNDS.try_with(|(lowest, end)| *lowest <= at && at < *end && at - lowest >= bytes) == Ok(true)
}

/// Makes a call on the thread that is kept for this one. The error is that no thread could be started.
fn on_kept<T: Send + 'static>(call: impl FnOnce() -> T + Send + 'static) -> io::Result<T> {
    let (answer, answered) = mpsc::channel();
    let sent: Call = Box::new(move || {
        // (Nobody waits for it where the receiver is gone.)
        let _ = answer.send(panic::catch_unwind(AssertUnwindSafe(call)));
    });
    let send = |kept: &RefCell<Option<Kept>>| {
        let mut kept = kept.borrow_mut();
        if kept.as_ref().map(|it| it.process) != Some(process::id()) {
            *kept = Some(Kept::start()?);
        }
        let kept = kept.as_ref().expect("it was started");
        kept.calls.send(sent).map_err(|_| ended())
    };
    KEPT.try_with(send).map_err(|_| ended())??;
    match answered.recv().map_err(|_| ended())? {
        Ok(answer) => Ok(answer),
        Err(panicked) => panic::resume_unwind(panicked),
    }
}

fn ended() -> io::Error {
    io::Error::new(io::ErrorKind::Other, "a thread has ended")
}

/// Makes a call that takes so many bytes of stack. The error is that no thread could be started.
pub(crate) fn with_stack<T: Send + 'static>(
    bytes: usize,
    call: impl FnOnce() -> T + Send + 'static,
) -> io::Result<T> {
    if has(bytes + SPARE) {
        Ok(call())
    } else {
        on_kept(call)
    }
}
