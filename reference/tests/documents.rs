//! The examples of the documents: what `check`, `trace` and `host` print of the texts there.

use std::fs;
use std::path::{Path, PathBuf};
use std::process::Command;

/// An example: the words before the files, the exit status, and its blocks by their kinds.
struct Example {
    words: Vec<String>,
    status: i32,
    blocks: Vec<(String, String)>,
}

const JOBS: [&str; 3] = ["check", "trace", "host"];
/// The blocks that are files, in the order in which a command names them.
const FILES: [&str; 4] = ["drv", "image", "sched", "script"];

/// The head of an example: `<!-- example: trace --unchecked, status 1 -->`.
fn head(line: &str) -> Option<Example> {
    let (words, status) = line.strip_prefix("<!-- example: ")?.split_once(", status ")?;
    let words: Vec<String> = words.split(' ').map(str::to_string).collect();
    let status = status.strip_suffix(" -->")?.parse().ok()?;
    JOBS.contains(&words[0].as_str()).then_some(Example { words, status, blocks: Vec::new() })
}

fn examples(document: &str) -> Vec<Example> {
    let mut found: Vec<Example> = Vec::new();
    let mut is_open = false;
    let mut lines = document.lines();
    while let Some(line) = lines.next() {
        if let Some(example) = head(line) {
            found.push(example);
            is_open = true;
        } else if let (Some(kind), Some(example)) = (line.strip_prefix("```"), found.last_mut()) {
            let block: Vec<&str> = lines.by_ref().take_while(|line| *line != "```").collect();
            if is_open {
                example.blocks.push((kind.to_string(), block.join("\n") + "\n"));
            }
            is_open &= kind != "output";
        }
    }
    found
}

/// The bytes of a block: an image is written by its digits, with comments.
fn bytes(kind: &str, block: &str) -> Vec<u8> {
    if kind != "image" {
        return block.as_bytes().to_vec();
    }
    let code = block.lines().flat_map(|line| line.split(';').next().unwrap_or("").split(' '));
    let digits = code.filter(|digits| !digits.is_empty());
    digits.map(|digits| u8::from_str_radix(digits, 16).expect("two digits")).collect()
}

/// Both outputs of an example, one behind the other, and its exit status.
fn answer(example: &Example, folder: &Path) -> (String, Option<i32>) {
    let mut command = Command::new(env!("CARGO_BIN_EXE_reference"));
    command.arg(&example.words[0]);
    for (kind, block) in &example.blocks {
        if FILES.contains(&kind.as_str()) {
            let path: PathBuf = folder.join(kind);
            fs::write(&path, bytes(kind, block)).expect("the file is written");
            command.arg(path);
        }
    }
    let done = command.args(&example.words[1..]).output().expect("the program runs");
    let said = [done.stdout, done.stderr].concat();
    (String::from_utf8_lossy(&said).into_owned(), done.status.code())
}

#[test]
fn documents_have_these_answers() {
    let folder = PathBuf::from(env!("CARGO_TARGET_TMPDIR"));
    let mut count = 0;
    for name in ["TEXTS.md", "RULES.md", "GUIDE.md", "COMMANDS.md"] {
        let path = Path::new(env!("CARGO_MANIFEST_DIR")).join("../docs").join(name);
        let document = fs::read_to_string(path).expect("the document is read");
        for example in examples(&document) {
            let output = example.blocks.iter().find(|(kind, _)| kind == "output");
            let (_, wanted) = output.expect("an example has an output");
            let expected = (wanted.clone(), Some(example.status));
            assert_eq!(expected, answer(&example, &folder), "{:?}", example.blocks);
            count += 1;
        }
    }
    assert!(count > 100, "{count} examples");
}
