//! A crate that uses `ab`, an alias of which it names. Its JSON is kept beside it: see ../make.py.
pub use ab::Sb;
pub struct Mine<T>(T);
impl ab::Ta for Mine<ab::Kept<u8>> {}
impl<T: ab::Ta> Clone for Mine<T> { fn clone(&self) -> Self { loop {} } }
pub struct Held<T>(ab::Kept<T>, T);
