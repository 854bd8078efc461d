//! A read, from a driver text to its end: cargo run --example first
use pafteis::{Error, Event, Major, Reply, World};

const TEXT: &str = "driver echo\ndispatch READ on_read\nroutine on_read dispatch\n\
                    complete r0 SUCCESS\nret SUCCESS\nendr\nendd\ndevice disk echo 1\n";

fn main() -> Result<(), Error> {
    let mut world = World::new(TEXT.as_bytes(), 2)?;
    let mut event = Event::Issue {
        thread: 0,
        device: 0,
        major: Major::Read,
        argument: 7,
    };
    loop {
        let reply = world.apply(event);
        println!("{reply:?}");
        if let Reply::Topped { packet, status, .. } = reply {
            println!("packet {packet}: 0x{status:08X}");
        }
        if reply == Reply::Finished {
            return Ok(());
        }
        event = Event::Step { thread: 0 };
    }
}
