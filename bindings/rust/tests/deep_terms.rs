//! Terms that are deeper than those of a text can be, on stacks that are hardly large enough for a call. (A stack that overflows ends the process:
//! so they have a file of their own.)

use celtisdarts::{Depth, Error, Infer, Selected, Standing, Term, Workspace};
use std::thread;

const TEXT: &str = "crate a\nstruct V<T>(*const T)\ntrait Show\nimpl Show for u8\nimpl<T> Show for V<T> where T: Show\n";

/// A term in which `V` is applied so many times.
fn deep(infer: &mut Infer, inmost: Term, levels: usize) -> Result<Term, Error> {
    let mut term = inmost;
    for _ in 0..levels {
        term = infer.ty("V", &[term])?;
    }
    Ok(term)
}

fn infers(depth: Depth, levels: usize) -> Result<(), Error> {
    let session = Workspace::parse(TEXT, depth)?.session("a")?;
    let mut infer = session.infer()?;
    let (open, byte) = (infer.fresh_ty()?, infer.ty("u8", &[])?);
    let (left, right) = (
        deep(&mut infer, open, levels)?,
        deep(&mut infer, byte, levels)?,
    );
    assert_eq!(infer.can_eq(left, right), Ok(true));
    infer.eq(left, right)?;
    let value = infer.resolve(left)?;
    let written = infer.display(value)?;
    assert_eq!(
        written,
        "V<".repeat(levels) + "u8" + ">".repeat(levels).as_str()
    );
    let inside = infer.slice(left)?;
    assert_eq!(infer.eq(left, inside), Err(Error::NoSolution));
    let (sized, show) = (
        infer.register("Sized", &[left])?,
        infer.register("Show", &[left])?,
    );
    let is_deeper = levels >= usize::from(depth.levels());
    let wanted = if is_deeper {
        (Selected::Pending, Standing::TooDeep)
    } else {
        (Selected::AllDone, Standing::Done)
    };
    assert_eq!(infer.select_where_possible()?, wanted.0);
    assert_eq!(infer.standing(show)?, wanted.1);
    assert_eq!(infer.standing(sized)?, Standing::Done);
    Ok(())
}

#[test]
fn deep_terms_take_no_more_stack() {
    for levels in [1, 8, 128] {
        let depth = Depth::new(levels).unwrap();
        // From about where the caller's stack is large enough for a call.
        let least = (usize::from(levels) * 3 + 128) << 10;
        for bytes in [least, least + (8 << 10), least + (32 << 10), 2 << 20] {
            for levels in [3, 120, 126, 129, 1_000, 10_000] {
                let infers = move || infers(depth, levels);
                let thread = thread::Builder::new().stack_size(bytes).spawn(infers);
                assert_eq!(thread.unwrap().join().unwrap(), Ok(()), "{levels} levels");
            }
        }
    }
}
