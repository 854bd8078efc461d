//! The jobs of the program. Each answers its exit status.

use std::io::{BufWriter, Write};

use crate::files::{read, read_set, sets_at};
use crate::host::serve;
use crate::image::encode;
use crate::list::listing;
use crate::machine::apply;
use crate::names::TextFault;
use crate::report::{refusal_line, reply_text, text_fault_line, SCHEDULE_FAULTS};
use crate::schedule::{parse_schedule, parse_script, Schedule};
use crate::set::DriverSet;
use crate::verify::{certificate_lines, verify};
use crate::world::{Reply, World};

/// What a job comes to: what stands on the standard output and on the error output, and the exit
/// status.
#[derive(Default)]
pub struct Answer {
    pub out: String,
    pub err: String,
    pub status: u8,
}

impl Answer {
    fn said(out: String, status: u8) -> Answer {
        Answer { out, err: String::new(), status }
    }

    fn fault(err: String) -> Answer {
        Answer { out: String::new(), err, status: 2 }
    }

    /// Writes both texts; a write that fails is a fault.
    pub fn write(&self) -> u8 {
        let mut out = BufWriter::new(std::io::stdout().lock());
        let written = out.write_all(self.out.as_bytes()).and_then(|()| out.flush());
        let mut err = self.err.clone();
        if written.is_err() {
            err += "write failed\n";
        }
        let told = std::io::stderr().write_all(err.as_bytes());
        if written.is_err() || told.is_err() { 2 } else { self.status }
    }
}

pub fn check(paths: &[&str]) -> u8 {
    let is_alone = paths.len() == 1 && sets_at(paths[0]) == paths;
    let mut status = 0;
    for path in paths.iter().flat_map(|path| sets_at(path)) {
        let mut answer = check_one(&path);
        if !is_alone {
            answer.out = named(&path, &answer.out);
            answer.err = named(&path, &answer.err);
        }
        status = status.max(answer.write());
    }
    status
}

fn named(path: &str, text: &str) -> String {
    text.lines().map(|line| format!("{path}: {line}\n")).collect()
}

fn check_one(path: &str) -> Answer {
    let Ok(bytes) = read(path) else { return Answer::fault("read failed\n".to_string()) };
    match read_set(&bytes) {
        Err(fault) => Answer::fault(fault),
        Ok(set) => match verify(&set) {
            Ok(certificates) => Answer::said(certificate_lines(&set, &certificates), 0),
            Err(refusal) => Answer::said(refusal_line(&refusal), 1),
        },
    }
}

fn cannot_read(path: &str) -> Answer {
    Answer::fault(format!("read failed\ncannot read {path}\n"))
}

/// The set in a file, which is accepted unless that is not asked for.
fn set_to_run(path: &str, unchecked: bool) -> Result<DriverSet, Answer> {
    let bytes = read(path).map_err(|_| cannot_read(path))?;
    let set = read_set(&bytes).map_err(Answer::fault)?;
    if unchecked {
        return Ok(set);
    }
    match verify(&set) {
        Ok(_) => Ok(set),
        Err(refusal) => Err(Answer::said(refusal_line(&refusal), 1)),
    }
}

fn fault_of(what: &str, fault: &TextFault) -> Answer {
    Answer::fault(text_fault_line(what, &SCHEDULE_FAULTS, fault.kind, fault.line))
}

pub fn trace(set: &str, schedule: &str, unchecked: bool) -> Answer {
    traced(set, schedule, unchecked).unwrap_or_else(|answer| answer)
}

fn traced(path: &str, schedule: &str, unchecked: bool) -> Result<Answer, Answer> {
    let set = set_to_run(path, unchecked)?;
    let text = read(schedule).map_err(|_| cannot_read(schedule))?;
    let schedule = parse_schedule(&text).map_err(|fault| fault_of("schedule", &fault))?;
    Ok(run(set, &schedule))
}

/// The replies of a run, which ends with a bug check or a wrong operand.
fn run(set: DriverSet, schedule: &Schedule) -> Answer {
    let mut world = World::new(set, schedule.threads);
    let mut out = String::new();
    for (number, &event) in schedule.events.iter().enumerate() {
        let reply = apply(&mut world, event);
        out += &format!("{number} {}\n", reply_text(&reply));
        if matches!(reply, Reply::Bug(..) | Reply::Wrong { .. }) {
            return Answer::said(out, 1);
        }
    }
    Answer::said(out, 0)
}

pub fn host(set: &str, script: &str, workers: usize, history: Option<&str>) -> Answer {
    hosted(set, script, workers, history).unwrap_or_else(|answer| answer)
}

fn hosted(
    path: &str,
    script: &str,
    workers: usize,
    history: Option<&str>,
) -> Result<Answer, Answer> {
    let set = set_to_run(path, false)?;
    let text = read(script).map_err(|_| cannot_read(script))?;
    let commands = parse_script(&text).map_err(|fault| fault_of("script", &fault))?;
    let served = serve(set, workers, &commands);
    let mut answer = Answer::said(served.lines, 0);
    if let Some(out) = history {
        if std::fs::write(out, served.history).is_err() {
            (answer.err, answer.status) = ("write failed\n".to_string(), 2);
        }
    }
    Ok(answer)
}

pub fn list(path: &str) -> Answer {
    match read(path) {
        Err(_) if std::path::Path::new(path).is_dir() => cannot_read(path),
        Err(_) => Answer::fault(format!("cannot read {path}\n")),
        Ok(bytes) => match read_set(&bytes) {
            Ok(set) => Answer::said(listing(&set), 0),
            Err(fault) => Answer::fault(fault),
        },
    }
}

pub fn rewrite(path: &str, out: &str) -> Answer {
    let Ok(bytes) = read(path) else { return Answer::fault("read failed\n".to_string()) };
    match read_set(&bytes) {
        Err(fault) => Answer::fault(fault),
        Ok(set) => match std::fs::write(out, encode(&set)) {
            Ok(()) => Answer::default(),
            Err(_) => Answer::fault("write failed\n".to_string()),
        },
    }
}
