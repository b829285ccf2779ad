use celtisdarts::{Depth, Error, Workspace};

const TEXT: &str = "\
crate base
trait Show
impl Show for u8
crate a uses base
struct V<T>(T)
impl<T> Show for V<T> where T: Show
";

fn main() -> Result<(), Error> {
    let workspace = Workspace::parse(TEXT, Depth::default())?;
    let session = workspace.session("a")?;
    println!("crate a: {}", session.check_crate()?);
    for question in ["V<u8>: Show", "V<bool>: Show", "fn(u8): Fn<?x>, ?x: Clone"] {
        println!("{question}: {}", session.prove(question)?);
    }
    println!("bool: Show: {}", session.refute("bool: Show")?);
    if let Err(error) = session.prove("W: Show") {
        println!("W: Show: {error}");
    }
    Ok(())
}
