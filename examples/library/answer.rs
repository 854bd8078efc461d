//! Answers a command of the program from Rust, as answer.c does from C:
//!
//!     rustc -O examples/library/answer.rs -L out/lib -o answer && ./answer check FILE
use std::io::Write;
use std::process::exit;

#[link(name = "pafteis", kind = "static")]
unsafe extern "C" {
    fn pafteis_report(set: *const u8, length: usize, buffer: *mut u8, capacity: usize, needed: *mut usize) -> u32;
    fn pafteis_explain(set: *const u8, length: usize, extent: u32, buffer: *mut u8, capacity: usize, needed: *mut usize) -> u32;
    fn pafteis_explain_rule(rule: u32, buffer: *mut u8, capacity: usize, needed: *mut usize) -> u32;
    fn pafteis_list(set: *const u8, length: usize, buffer: *mut u8, capacity: usize, needed: *mut usize) -> u32;
    fn pafteis_rewrite(set: *const u8, length: usize, buffer: *mut u8, capacity: usize, needed: *mut usize) -> u32;
    fn pafteis_trace(set: *const u8, length: usize, schedule: *const u8, schedule_length: usize, flags: u32, buffer: *mut u8, capacity: usize, needed: *mut usize) -> u32;
    fn pafteis_tell(set: *const u8, length: usize, schedule: *const u8, schedule_length: usize, flags: u32, buffer: *mut u8, capacity: usize, needed: *mut usize) -> u32;
    fn pafteis_draw(set: *const u8, length: usize, schedule: *const u8, schedule_length: usize, flags: u32, buffer: *mut u8, capacity: usize, needed: *mut usize) -> u32;
    fn pafteis_hunt(set: *const u8, length: usize, asked: *const Hunting, buffer: *mut u8, capacity: usize, needed: *mut usize) -> u32;
    fn pafteis_mend(set: *const u8, length: usize, tries: u64, buffer: *mut u8, capacity: usize, needed: *mut usize) -> u32;
    fn pafteis_version(buffer: *mut u8, capacity: usize, needed: *mut usize) -> u32;
}

/// How far a hunt goes.
#[repr(C)]
struct Hunting {
    packets: u64,
    worlds: u64,
    events: u64,
    argument: u64,
    threads: u32,
    flags: u32,
}

/// As the program's own does.
const USUAL: Hunting =
    Hunting { packets: 2, worlds: 1_000_000, events: 0, argument: 0, threads: 2, flags: 0 };

/// A call that answers of a run.
type Run = unsafe extern "C" fn(*const u8, usize, *const u8, usize, u32, *mut u8, usize, *mut usize) -> u32;

/// The status and the bytes of a call that puts its answer into a buffer.
fn called(call: impl Fn(*mut u8, usize, *mut usize) -> u32) -> (u32, Vec<u8>) {
    let mut buffer = vec![0; 64];
    loop {
        let mut needed = 0;
        let status = call(buffer.as_mut_ptr(), buffer.len(), &mut needed);
        if needed <= buffer.len() {
            buffer.truncate(needed);
            return (status, buffer);
        }
        buffer = vec![0; needed];
    }
}

fn answered(words: &[String]) -> (u32, Vec<u8>) {
    let read = |at: usize| {
        let data = words.get(at).and_then(|name| std::fs::read(name).ok());
        data.unwrap_or_else(|| exit(2))
    };
    let word = words.get(1).map_or("", String::as_str);
    match word {
        "version" => return called(|b, c, n| unsafe { pafteis_version(b, c, n) }),
        "rule" => {
            let rule = words.get(2).and_then(|rule| rule.parse().ok()).unwrap_or(0);
            return called(|b, c, n| unsafe { pafteis_explain_rule(rule, b, c, n) });
        }
        _ => {}
    }
    let set = read(2);
    let (at, length) = (set.as_ptr(), set.len());
    match word {
        "check" => called(|b, c, n| unsafe { pafteis_report(at, length, b, c, n) }),
        "list" => called(|b, c, n| unsafe { pafteis_list(at, length, b, c, n) }),
        "rewrite" => called(|b, c, n| unsafe { pafteis_rewrite(at, length, b, c, n) }),
        "hunt" => called(|b, c, n| unsafe { pafteis_hunt(at, length, &USUAL, b, c, n) }),
        "mend" => called(|b, c, n| unsafe { pafteis_mend(at, length, 20_000, b, c, n) }),
        "explain" | "explain-each" => {
            let extent = u32::from(word != "explain");
            called(|b, c, n| unsafe { pafteis_explain(at, length, extent, b, c, n) })
        }
        _ => {
            let (run, flags): (Run, u32) = match word {
                "trace" => (pafteis_trace, 0),
                "trace-unchecked" => (pafteis_trace, 1),
                "tell" => (pafteis_tell, 0),
                "tell-every" => (pafteis_tell, 4),
                "draw" => (pafteis_draw, 0),
                _ => exit(2),
            };
            let events = read(3);
            called(|b, c, n| unsafe { run(at, length, events.as_ptr(), events.len(), flags, b, c, n) })
        }
    }
}

fn main() {
    let words: Vec<String> = std::env::args().collect();
    let (status, answer) = answered(&words);
    let answer = if status == 3 { b"out of memory\n".to_vec() } else { answer };
    if status >= 2 {
        std::io::stderr().write_all(&answer).unwrap();
    } else {
        std::io::stdout().write_all(&answer).unwrap();
    }
    exit(status as i32);
}
