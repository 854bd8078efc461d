//! An executable reading of the documents, to compare the program with: `check`, `trace`, `host`,
//! `list` and `rewrite`.

mod files;
mod host;
mod image;
mod instr;
mod jobs;
mod lines;
mod list;
mod machine;
mod names;
mod report;
mod rules;
mod schedule;
mod set;
mod steps;
mod text;
mod verify;
mod world;

use std::process::ExitCode;

const USAGE: &str = "\
usage: reference check PATH.. [--jobs N]
       reference trace FILE SCHEDULE [--unchecked]
       reference host FILE SCRIPT --workers N [--history OUT]
       reference list FILE
       reference rewrite FILE OUT
";

/// The words of a command line: those that stand for themselves, and the values of flags.
#[derive(Default)]
struct Words {
    plain: Vec<String>,
    unchecked: bool,
    workers: Option<usize>,
    history: Option<String>,
}

fn main() -> ExitCode {
    let words: Vec<String> = std::env::args().skip(1).collect();
    match words.split_first().and_then(|(job, words)| perform(job, words)) {
        Some(status) => ExitCode::from(status),
        None => {
            eprint!("{USAGE}");
            ExitCode::from(2)
        }
    }
}

/// Performs a job; nothing where the words name none.
fn perform(job: &str, words: &[String]) -> Option<u8> {
    let Words { plain, unchecked, workers, history } = read_words(job, words)?;
    let plain: Vec<&str> = plain.iter().map(String::as_str).collect();
    match (job, &plain[..], workers) {
        ("check", [_, ..], None) => Some(jobs::check(&plain)),
        ("trace", [set, schedule], None) => Some(jobs::trace(set, schedule, unchecked).write()),
        ("host", [set, script], Some(workers)) => {
            Some(jobs::host(set, script, workers, history.as_deref()).write())
        }
        ("list", [set], None) => Some(jobs::list(set).write()),
        ("rewrite", [set, out], None) => Some(jobs::rewrite(set, out).write()),
        _ => None,
    }
}

/// The words of a job; the value of a flag stands behind it, or in the same word behind `=`.
fn read_words(job: &str, words: &[String]) -> Option<Words> {
    let mut read = Words::default();
    let mut left = words.iter();
    while let Some(word) = left.next() {
        let (flag, joined) = match word.split_once('=') {
            Some((flag, value)) if flag.starts_with("--") => (flag, Some(value)),
            _ => (word.as_str(), None),
        };
        let mut value = || joined.or_else(|| left.next().map(String::as_str));
        match (job, flag) {
            ("trace", "--unchecked") if !read.unchecked && joined.is_none() => {
                read.unchecked = true;
            }
            ("host", "--workers") if read.workers.is_none() => {
                read.workers = Some(count(value()?)?);
            }
            ("host", "--history") if read.history.is_none() => {
                read.history = Some(value()?.to_string());
            }
            // Files are answered one after another, whatever number is given.
            ("check", "--jobs") => drop(count(value()?)?),
            (_, flag) if flag.starts_with("--") => return None,
            _ => read.plain.push(word.clone()),
        }
    }
    Some(read)
}

/// A number of workers or jobs, in decimal digits.
fn count(word: &str) -> Option<usize> {
    let is_number = word.bytes().all(|byte| byte.is_ascii_digit());
    word.parse().ok().filter(|number| is_number && (1..=64).contains(number))
}
