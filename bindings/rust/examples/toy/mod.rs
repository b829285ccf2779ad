//! The text of the toy language: types, bounds and calls are names with arguments in brackets.

const INTEGERS: &str = "i8 i16 i32 i64 i128 isize u8 u16 u32 u64 u128 usize";

/// Whether it ends a word. A variable `?0t` is one word, and a parameter `!0t`.
pub fn is_sign(sign: char) -> bool {
    !sign.is_ascii_alphanumeric() && !"_?!".contains(sign)
}

/// The type as rustc prints it: `_` in place of each variable, and the name of each parameter.
pub fn with_names(text: &str, params: &[String]) -> String {
    let pieces = text.split_inclusive(is_sign).map(|piece| {
        let word = piece.trim_end_matches(is_sign);
        let number = word.strip_prefix('!').map(|it| it.trim_end_matches('t'));
        let param = number.and_then(|it| params.get(it.parse::<usize>().ok()?));
        let shown = if word.starts_with('?') { "_" } else { word };
        param.map_or(shown, |it| it).to_string() + &piece[word.len()..]
    });
    pieces.collect()
}

/// The items of a list: what is between the commas that are in no brackets.
fn items(list: &str) -> Vec<&str> {
    let mut depth = 0;
    let items = list.split(|sign| {
        depth += i32::from("<(".contains(sign)) - i32::from(">)".contains(sign));
        sign == ',' && depth == 0
    });
    items.map(str::trim).filter(|it| !it.is_empty()).collect()
}

/// The head and the arguments: `V<` and `u8`, `u16` of `V<u8, u16>`, `f(` and `x` of `f(x)`.
pub fn parts(text: &str) -> (&str, Vec<&str>) {
    let is_applied = text.ends_with(['>', ')']);
    match text.find(['<', '(']).filter(|_| is_applied) {
        Some(at) => (&text[..=at], items(&text[at + 1..text.len() - 1])),
        None => (text, Vec::new()),
    }
}

/// The type of a number: `u8` of `5u8`.
pub fn number_type(word: &str) -> Option<&str> {
    let suffix = word.trim_start_matches(|sign: char| sign.is_ascii_digit());
    let is_integer = INTEGERS.split(' ').any(|it| it == suffix);
    (is_integer && suffix != word).then_some(suffix)
}

/// A function `f<T>(T) -> V<T> where T: Num`: its parameters, inputs, output and bounds. An input may have a name, as in `f<T>(x: T)`.
pub struct Function<'t> {
    pub params: Vec<&'t str>,
    pub names: Vec<&'t str>,
    pub inputs: Vec<&'t str>,
    pub output: &'t str,
    pub bounds: Vec<&'t str>,
}

impl<'t> Function<'t> {
    pub fn of(text: &'t str) -> Function<'t> {
        let (head, bounds) = text.split_once(" where ").unwrap_or((text, ""));
        let (head, output) = head.split_once(" -> ").unwrap_or((head, "()"));
        let (name, inputs) = head.split_at(head.find('(').unwrap_or(0));
        let inputs = parts(inputs).1.into_iter();
        let (names, inputs) = inputs
            .map(|it| it.split_once(": ").unwrap_or(("_", it)))
            .unzip();
        Function {
            params: parts(name).1,
            names,
            inputs,
            output,
            bounds: items(bounds),
        }
    }
}

/// A bound `T: Less<U>` as the trait `Less` and its arguments `T` and `U`.
pub fn bound(text: &str) -> (&str, Vec<&str>) {
    let (own, of) = text.split_once(": ").unwrap_or(("", text));
    let (head, others) = parts(of);
    let args = [own].into_iter().chain(others);
    (head.trim_end_matches('<'), args.collect())
}
