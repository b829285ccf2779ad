//! Method lookup by autoderef, as in rustc: cargo run --example method_lookup
//!
//! The steps of a call are the receiver's type, what that dereferences to, and so on. After a last array comes its slice. Each step is tried
//! by value, then by reference. The first type that a method takes ends the lookup. If methods of several traits take it, the call is
//! ambiguous. A method with `self` takes `T` if `T` has its trait, one with `&self` takes `&T`. Whether `self` may be moved is not looked at.
//!
//! `T: Sized` is written out. A trait whose bound is `maybe` counts, as in rustc: its arguments are open. If the bound is `unproved`, no impl
//! that the crate sees gives the type this trait. Another crate may. It prints:
//!
//! ```text
//! File.show(): step 0, &File: Show for File
//! Rc<File>.show(): step 1, &File: Show for File
//! &mut Box<Rc<File>>.show(): step 3, &File: Show for File
//! Rc<File>.twin(): step 0, &Rc<File>: Twin for Rc<File>
//! &File.twin(): step 0, &&File: Twin for &File
//! u8.double(): step 0, u8: Double for u8
//! &u8.double(): step 1, u8: Double for u8
//! Vec<u8>.total(): step 1, &[u8]: Total for [u8]
//! [u16; 3].total(): step 1, &[u16]: Total for [u16]
//! File.close(): step 0, File: Close for File
//! &File.close(): step 0, &File: Shut for File
//! Rc<File>.name(): step 0, &Rc<File>: Named for Rc<File>
//! File.convert(): step 0, &File: Convert<u16> for File
//! u8.convert(): step 0, &u8: Convert<?a> for u8 (maybe)
//! Box<File>.name(): step 1, &File: ambiguous: Named for File, Titled for File
//! Vec<File>.total(): no method
//! File.twin(): no method
//! Loop.show(): more than 128 steps
//! Door.close(): the question has fault 5: a name or a lifetime is not known
//! ```

use celtisdarts::{Depth, Error, ProveAnswer, Session, Workspace};
use std::fmt;
use Takes::{Reference, Value};

const TEXT: &str = "\
crate std
trait Deref { type Target; }
impl<'a, T> Deref for &'a T { type Target = T; }
impl<'a, T> Deref for &'a mut T { type Target = T; }
impl<T> Deref for Box<T> { type Target = T; }
struct Rc<T>(*const T)
impl<T> Deref for Rc<T> { type Target = T; }
struct Vec<T>(*const T)
impl<T> Deref for Vec<T> { type Target = [T]; }
crate app uses std
struct File
struct Loop
impl Deref for Loop { type Target = Loop; }
trait Show
impl Show for File
impl Show for Loop
trait Twin
impl<T> Twin for &T where T: Sized
impl<T> Twin for Rc<T> where T: Sized
trait Num
impl Num for u8
impl Num for u16
trait Double
impl<T> Double for T where T: Num
trait Total
impl<T> Total for [T] where T: Num
trait Close
impl Close for File
trait Shut
impl Shut for File
trait Named
impl Named for File
impl<T> Named for Rc<T> where T: Sized
trait Titled
impl Titled for File
trait Convert<T>
impl Convert<u16> for File
impl Convert<u16> for u8
impl Convert<u32> for u8
";

/// How a method takes its receiver: as `self`, or as `&self`.
enum Takes {
    Value,
    Reference,
}

/// The methods: their names, how they take receivers, and their traits.
const METHODS: [(&str, Takes, &str); 9] = [
    ("show", Reference, "Show"),
    ("twin", Reference, "Twin"),
    ("double", Value, "Double"),
    ("total", Reference, "Total"),
    ("close", Value, "Close"),
    ("close", Reference, "Shut"),
    ("name", Reference, "Named"),
    ("name", Reference, "Titled"),
    ("convert", Reference, "Convert<?a>"),
];

const CALLS: [(&str, &str); 19] = [
    ("File", "show"),
    ("Rc<File>", "show"),
    ("&mut Box<Rc<File>>", "show"),
    ("Rc<File>", "twin"),
    ("&File", "twin"),
    ("u8", "double"),
    ("&u8", "double"),
    ("Vec<u8>", "total"),
    ("[u16; 3]", "total"),
    ("File", "close"),
    ("&File", "close"),
    ("Rc<File>", "name"),
    ("File", "convert"),
    ("u8", "convert"),
    ("Box<File>", "name"),
    ("Vec<File>", "total"),
    ("File", "twin"),
    ("Loop", "show"),
    ("Door", "close"),
];

/// As rustc's `recursion_limit`.
const MOST_STEPS: usize = 128;

/// What a call means.
enum Lookup {
    /// The method takes this type, made of the step of that number.
    Found(Candidate, String, usize),
    Ambiguous(Vec<Candidate>, String, usize),
    NotFound,
    TooManySteps,
}

/// A trait with the method, and the type that has the trait.
struct Candidate {
    of: String,
    own: String,
    is_maybe: bool,
}

/// The value of `?t` in a bound that holds.
fn value(session: &Session, bound: &str) -> Result<Option<String>, Error> {
    match session.prove(bound)? {
        ProveAnswer::Yes(values) => {
            let found = values.into_iter().find(|it| it.variable == "t");
            Ok(found.map(|it| it.value))
        }
        ProveAnswer::Maybe(_) | ProveAnswer::Unproved => Ok(None),
    }
}

/// The types that a call looks at. None if there are too many.
fn steps(session: &Session, receiver: &str) -> Result<Option<Vec<String>>, Error> {
    let mut steps = Vec::new();
    let mut last = receiver.to_string();
    while let Some(target) = value(session, &format!("{last}: Deref<Target = ?t>"))? {
        if steps.len() == MOST_STEPS {
            return Ok(None);
        }
        steps.push(last);
        last = target;
    }
    let item = value(session, &format!("{last}: Unsize<[?t]>"))?;
    steps.push(last);
    steps.extend(item.map(|it| format!("[{it}]")));
    Ok(Some(steps))
}

/// The traits whose methods of that name take a receiver of that type.
fn candidates(session: &Session, taken: &str, name: &str) -> Result<Vec<Candidate>, Error> {
    let pointee = taken.strip_prefix('&').filter(|it| !it.starts_with("mut "));
    let mut found = Vec::new();
    for (_, takes, of) in METHODS.iter().filter(|it| it.0 == name) {
        let own = match takes {
            Value => Some(taken),
            Reference => pointee,
        };
        let Some(own) = own else { continue };
        let (mut of, mut is_maybe) = (of.to_string(), false);
        match session.prove(&format!("{own}: {of}"))? {
            ProveAnswer::Yes(values) => {
                for it in values {
                    of = of.replace(&format!("?{}", it.variable), &it.value);
                }
            }
            ProveAnswer::Maybe(_) => is_maybe = true,
            ProveAnswer::Unproved => continue,
        }
        let own = own.to_string();
        found.push(Candidate { of, own, is_maybe });
    }
    Ok(found)
}

fn look_up(session: &Session, receiver: &str, name: &str) -> Result<Lookup, Error> {
    let Some(steps) = steps(session, receiver)? else {
        return Ok(Lookup::TooManySteps);
    };
    for (number, step) in steps.into_iter().enumerate() {
        let reference = format!("&{step}");
        for taken in [step, reference] {
            let mut found = candidates(session, &taken, name)?;
            match found.len() {
                0 => {}
                1 => return Ok(Lookup::Found(found.remove(0), taken, number)),
                _ => return Ok(Lookup::Ambiguous(found, taken, number)),
            }
        }
    }
    Ok(Lookup::NotFound)
}

impl fmt::Display for Candidate {
    fn fmt(&self, f: &mut fmt::Formatter<'_>) -> fmt::Result {
        let doubt = if self.is_maybe { " (maybe)" } else { "" };
        write!(f, "{} for {}{doubt}", self.of, self.own)
    }
}

impl fmt::Display for Lookup {
    fn fmt(&self, f: &mut fmt::Formatter<'_>) -> fmt::Result {
        match self {
            Lookup::Found(it, taken, step) => write!(f, "step {step}, {taken}: {it}"),
            Lookup::Ambiguous(all, taken, step) => {
                let all: Vec<String> = all.iter().map(Candidate::to_string).collect();
                write!(f, "step {step}, {taken}: ambiguous: {}", all.join(", "))
            }
            Lookup::NotFound => f.write_str("no method"),
            Lookup::TooManySteps => write!(f, "more than {MOST_STEPS} steps"),
        }
    }
}

fn main() -> Result<(), Error> {
    let session = Workspace::parse(TEXT, Depth::default())?.session("app")?;
    for (receiver, name) in CALLS {
        match look_up(&session, receiver, name) {
            Ok(found) => println!("{receiver}.{name}(): {found}"),
            Err(error) => println!("{receiver}.{name}(): {error}"),
        }
    }
    Ok(())
}
