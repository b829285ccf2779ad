//! Texts that several tests ask.

use std::fs;
use std::path::{Path, PathBuf};

/// A text with the depths that it is asked at.
pub struct Text {
    pub name: String,
    pub bytes: Vec<u8>,
    pub depths: Vec<u8>,
    /// What the program writes for it at each of the depths, where that is kept.
    pub expected: Option<String>,
}

fn folders(top: &Path) -> Vec<PathBuf> {
    let mut found: Vec<PathBuf> = fs::read_dir(top)
        .unwrap()
        .map(|it| it.unwrap().path())
        .collect();
    found.sort();
    found
}

fn depths(folder: &Path) -> Vec<u8> {
    match fs::read_to_string(folder.join("depth")) {
        Ok(words) => words
            .split_whitespace()
            .map(|word| word.parse().unwrap())
            .collect(),
        Err(_) => vec![8],
    }
}

/// Those of the repository's `examples/`, with the outputs that were worked out by hand.
pub fn examples() -> Vec<Text> {
    let top = Path::new(env!("CARGO_MANIFEST_DIR")).join("../../examples");
    let read = |folder: PathBuf| Text {
        name: folder.file_name().unwrap().to_string_lossy().into_owned(),
        bytes: fs::read(folder.join("input.txt")).unwrap(),
        depths: depths(&folder),
        expected: Some(fs::read_to_string(folder.join("expected.txt")).unwrap()),
    };
    folders(&top)
        .into_iter()
        .filter(|it| it.is_dir())
        .map(read)
        .collect()
}

/// Those of the folder `CELTISDARTS_TEXTS`, if there is one: files `*.txt`, asked at depth 128.
pub fn further() -> Vec<Text> {
    let Some(top) = std::env::var_os("CELTISDARTS_TEXTS").filter(|it| !it.is_empty()) else {
        eprintln!("CELTISDARTS_TEXTS names no folder of further texts");
        return Vec::new();
    };
    let read = |file: PathBuf| Text {
        name: file.display().to_string(),
        bytes: fs::read(file).unwrap(),
        depths: vec![128],
        expected: None,
    };
    let is_text = |file: &PathBuf| file.extension().map_or(false, |it| it == "txt");
    folders(Path::new(&top))
        .into_iter()
        .filter(is_text)
        .map(read)
        .collect()
}
