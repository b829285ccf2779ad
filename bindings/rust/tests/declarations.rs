//! The calls that are declared in `sys/src/lib.rs`, in `bindings/c/celtisdarts.h` and in `bindings/python/celtisdarts.py` are those that the library
//! defines: nothing else compares them.

use std::collections::BTreeMap;
use std::fs;
use std::path::{Path, PathBuf};

/// A parameter or a result, as it crosses to C.
#[derive(Clone, Debug, PartialEq, Eq)]
enum Crossing {
    U32,
    U64,
    Size,
    /// A pointer to bytes that are read.
    Read,
    /// A pointer to terms that are read, by their numbers.
    Terms,
    /// A pointer to bytes that are written.
    Written,
    /// A pointer to a place that is written: of a number, a size, a pointer or a handle.
    U32Place,
    SizePlace,
    PointerPlace,
    HandlePlace,
    Handle,
    Nothing,
}

use Crossing::*;

/// The calls by their names: the parameters, and behind them the result.
type Calls = BTreeMap<String, Vec<Crossing>>;

fn top() -> PathBuf {
    Path::new(env!("CARGO_MANIFEST_DIR")).join("../..")
}

fn read(path: &str) -> String {
    let path = top().join(path);
    fs::read_to_string(&path).unwrap_or_else(|error| panic!("{}: {error}", path.display()))
}

/// What stands in parentheses behind the name, and what stands behind them up to one of these ends.
fn signature<'a>(text: &'a str, ends: &[char]) -> (&'a str, &'a str, &'a str) {
    let (name, rest) = text.split_once('(').unwrap();
    let (inside, rest) = rest.split_once(')').unwrap();
    let (result, _) = rest.split_once(ends).unwrap();
    (name.trim(), inside, result.trim())
}

fn words(text: &str) -> String {
    text.split_whitespace().collect::<Vec<_>>().join(" ")
}

/// What a parameter of the library is in C: a slice is a pointer and a length, and an allocator takes no place.
fn of_library(ty: &str) -> Vec<Crossing> {
    match ty {
        "Global" => vec![],
        "&[u8]" => vec![Read, Size],
        "&mut [u8]" => vec![Written, Size],
        "&[u32]" => vec![Terms, Size],
        "u32" => vec![U32],
        "u64" => vec![U64],
        "&mut usize" => vec![SizePlace],
        "&mut *mut u8" => vec![PointerPlace],
        "&mut Handle" => vec![HandlePlace],
        "&mut u32" => vec![U32Place],
        "Handle" => vec![Handle],
        _ => panic!("a parameter `{ty}` of the library"),
    }
}

fn of_rust(ty: &str) -> Vec<Crossing> {
    match ty {
        "*const u8" => vec![Read],
        "*mut u8" => vec![Written],
        "*const u32" => vec![Terms],
        "usize" => vec![Size],
        "u32" => vec![U32],
        "u64" => vec![U64],
        "&mut usize" => vec![SizePlace],
        "&mut *mut u8" => vec![PointerPlace],
        "&mut Handle" => vec![HandlePlace],
        "&mut u32" => vec![U32Place],
        "Handle" => vec![Handle],
        _ => panic!("a parameter `{ty}` in sys/src/lib.rs"),
    }
}

fn of_c(ty: &str) -> Vec<Crossing> {
    match ty {
        "const uint8_t *" => vec![Read],
        "uint8_t *" => vec![Written],
        "const uint32_t *" => vec![Terms],
        "size_t" => vec![Size],
        "uint32_t" => vec![U32],
        "uint64_t" => vec![U64],
        "size_t *" => vec![SizePlace],
        "void **" => vec![PointerPlace],
        "celtisdarts_handle *" => vec![HandlePlace],
        "uint32_t *" => vec![U32Place],
        "celtisdarts_handle" => vec![Handle],
        _ => panic!("a parameter `{ty}` in celtisdarts.h"),
    }
}

fn of_python(ty: &str) -> Vec<Crossing> {
    match ty {
        "READ" => vec![Read],
        "WRITTEN" => vec![Written],
        "NUMBERS" => vec![Terms],
        "c_size_t" => vec![Size],
        "c_uint32" => vec![U32],
        "c_uint64" => vec![U64],
        "POINTER(c_size_t)" => vec![SizePlace],
        "POINTER(c_void_p)" => vec![PointerPlace],
        "POINTER(Handle)" => vec![HandlePlace],
        "POINTER(c_uint32)" => vec![U32Place],
        "Handle" => vec![Handle],
        "None" => vec![Nothing],
        _ => panic!("a type `{ty}` in celtisdarts.py"),
    }
}

/// Signatures `NAME(name: TYPE, ..) -> RESULT` as Rust and Rattle write them.
fn rust_signature(text: &str, of: fn(&str) -> Vec<Crossing>) -> (String, Vec<Crossing>) {
    let (name, inside, result) = signature(text, &['\n', ';']);
    let params = inside.split(',').map(words).filter(|it| !it.is_empty());
    let mut crossings: Vec<Crossing> = params
        .flat_map(|it| of(it.split_once(": ").unwrap().1))
        .collect();
    match words(result).as_str() {
        "" | "{" => crossings.push(Nothing),
        "-> u32" | "-> u32 {" => crossings.push(U32),
        other => panic!("{name} returns `{other}`"),
    }
    (name.to_string(), crossings)
}

/// Those that the library defines.
fn library() -> Calls {
    let mut calls = Calls::new();
    for file in fs::read_dir(top().join("crates/celtisdarts_c/src")).unwrap() {
        let text = fs::read_to_string(file.unwrap().path()).unwrap();
        let exports = text.split("#[unsafe(no_mangle)]\npub extern \"C\" fn ");
        calls.extend(exports.skip(1).map(|it| rust_signature(it, of_library)));
    }
    calls
}

fn rust() -> Calls {
    let text = read("bindings/rust/sys/src/lib.rs");
    let (_, block) = text.split_once("extern \"C\" {\n").unwrap();
    let (block, _) = block.split_once("\n}\n").unwrap();
    block
        .split("fn ")
        .skip(1)
        .map(|it| rust_signature(it, of_rust))
        .collect()
}

fn c() -> Calls {
    let text = read("bindings/c/celtisdarts.h");
    let (declared, _) = text.split_once("/* ---- null with length 0").unwrap();
    let declared = declared
        .split('\n')
        .filter(|line| line.contains(" celtisdarts_") && line.ends_with(");"));
    let one = |line: &str| {
        let (head, inside, _) = signature(line, &[';']);
        let (result, name) = head.split_once(' ').unwrap();
        let of_param = |param: &str| {
            let param = param.trim();
            let end = param.rfind([' ', '*']).unwrap() + 1;
            of_c(param[..end].trim())
        };
        let mut crossings: Vec<Crossing> = inside.split(',').flat_map(of_param).collect();
        crossings.push(if result == "void" {
            Nothing
        } else {
            of_c(result).remove(0)
        });
        (name.to_string(), crossings)
    };
    declared.map(one).collect()
}

fn python() -> Calls {
    let text = read("bindings/python/celtisdarts.py");
    let (_, block) = text.split_once("CALLS: ").unwrap();
    let (block, _) = block.split_once("\n}\n").unwrap();
    let lines = block
        .lines()
        .skip(1)
        .map(str::trim)
        .filter(|it| !it.is_empty());
    let one = |line: &str| {
        let (name, rest) = line.trim_start_matches('"').split_once("\": ([").unwrap();
        let (inside, rest) = rest.split_once("], ").unwrap();
        let result = rest.trim_end_matches("),");
        let params = inside.split(", ").filter(|it| !it.is_empty());
        (
            name.to_string(),
            params.chain([result]).flat_map(of_python).collect(),
        )
    };
    lines.map(one).collect()
}

#[test]
fn calls_are_declared_as_the_library_defines_them() {
    let library = library();
    assert!(library.contains_key("celtisdarts_run"));
    assert_eq!(rust(), library);
    assert_eq!(c(), library);
    assert_eq!(python(), library);
}

/// The fields of a struct as the library has them, in their order.
fn fields(text: &str, head: &str) -> Vec<String> {
    let (_, body) = text
        .split_once(head)
        .unwrap_or_else(|| panic!("no `{head}`"));
    let (body, _) = body.split_once("\n}").unwrap();
    let lines = body
        .lines()
        .map(str::trim)
        .filter(|line| !line.is_empty() && !line.starts_with("//") && !line.contains("ghost "));
    lines
        .map(|line| {
            line.trim_start_matches("pub(crate) ")
                .trim_start_matches("pub ")
                .trim_end_matches(',')
                .to_string()
        })
        .collect()
}

#[test]
fn the_handle_is_declared_as_the_library_defines_it() {
    let handle = fields(
        &read("crates/celtisdarts_c/src/handle.rt"),
        "pub struct Handle {\n",
    );
    // (A `Global` takes no bytes.)
    assert_eq!(handle, ["at: *mut u8", "alloc: Global"]);
    assert_eq!(
        fields(&read("bindings/rust/sys/src/lib.rs"), "struct Handle {\n"),
        ["at: NonNull<u8>"]
    );
    assert!(read("bindings/c/celtisdarts.h")
        .contains("typedef struct {\n    void *at;\n} celtisdarts_handle;\n"));
    assert!(read("bindings/python/celtisdarts.py").contains("_fields_ = [(\"at\", c_void_p)]\n"));
}

/// The constants that lines of the text define, by their names.
fn constants<'t>(text: &'t str, before: &str, between: &str) -> BTreeMap<&'t str, u32> {
    let one = |line: &'t str| {
        let (name, rest) = line.trim().strip_prefix(before)?.split_once(between)?;
        let number: String = rest.chars().take_while(char::is_ascii_digit).collect();
        Some((name, number.parse().ok()?))
    };
    text.lines().filter_map(one).collect()
}

#[test]
fn words_and_the_version_of_the_calls_are_the_same_everywhere() {
    let (c, rust) = (
        read("bindings/c/celtisdarts.h"),
        read("bindings/rust/sys/src/lib.rs"),
    );
    let words = constants(&c, "CELTISDARTS_", " = ");
    let operations = words.keys().filter(|it| it.starts_with("INFER_")).count();
    assert_eq!((words.len() - operations, operations), (17, 25));
    let mut found = constants(&rust, "pub const ", ": u32 = ");
    let version = found.remove("ABI_VERSION").unwrap();
    assert_eq!(found, words);
    assert_eq!(
        constants(&c, "#define CELTISDARTS_", " ")["ABI_VERSION"],
        version
    );
    let python = read("bindings/python/celtisdarts.py");
    assert_eq!(constants(&python, "", " = ")["ABI_VERSION"], version);
}

#[test]
fn python_has_the_operations_of_the_header() {
    let c = read("bindings/c/celtisdarts.h");
    let python = read("bindings/python/celtisdarts.py");
    let (_, block) = python.split_once("class Operation(").unwrap();
    let (block, _) = block.split_once("\n\n\n").unwrap();
    assert_eq!(
        constants(block, "", " = "),
        constants(&c, "CELTISDARTS_INFER_", " = ")
    );
}

#[test]
fn all_bindings_have_one_version() {
    let version = env!("CARGO_PKG_VERSION");
    let line = |path: &str, wanted: &str| {
        let found = read(path).lines().any(|line| line == wanted);
        assert!(found, "{path}: no line `{wanted}`");
    };
    line(
        "bindings/c/celtisdarts.h",
        &format!("#define CELTISDARTS_VERSION \"{version}\""),
    );
    line(
        "bindings/python/celtisdarts.py",
        &format!("__version__ = \"{version}\""),
    );
    for path in ["python/pyproject.toml", "rust/sys/Cargo.toml"] {
        line(
            &format!("bindings/{path}"),
            &format!("version = \"{version}\""),
        );
    }
    let needed = format!("celtisdarts-sys = {{ version = \"={version}\", path = \"sys\" }}");
    line("bindings/rust/Cargo.toml", &needed);
}
