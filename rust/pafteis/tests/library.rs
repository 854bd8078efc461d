//! Over the library, and the examples of the tree.
use pafteis::{bug_check_name, hunt, mend, name_in, rule_name, schedule, status_name, Hunting};
use pafteis::{check, describe, draw, order_of_locks, tell, trace, Detail, Error, Event, LockEdge};
use pafteis::{LockOrder, Major, Named, Reply, World, CANCEL_LOCK};
use std::fs;

fn example(name: &str) -> Vec<u8> {
    fs::read(format!(
        "{}/../../examples/{name}",
        env!("CARGO_MANIFEST_DIR")
    ))
    .unwrap()
}

#[test]
fn verdicts() {
    assert_eq!(check(&example("echo.drv")), Ok(None));
    let refusal = check(&example("twice.drv")).unwrap().unwrap();
    assert_eq!(refusal.to_string(), "refused V5 driver 0 routine 0 at 1");
    assert_eq!(check(b"what"), Err(Error::FaultyText { fault: 2, line: 1 }));
    assert_eq!(check(b"DVB2"), Err(Error::FaultyImage { fault: 2 }));
    assert_eq!(check(b"").unwrap().unwrap().rule, 1);
}

#[test]
fn orders_of_locks() {
    assert!(matches!(
        order_of_locks(&example("cancel.drv"), 0),
        Ok(LockOrder::Ordered(_))
    ));
    let edge = |held, taken, routine| LockEdge {
        position: 1,
        routine,
        held,
        taken,
    };
    let cycle = LockOrder::Cycle(vec![edge(CANCEL_LOCK, 0, 0), edge(0, CANCEL_LOCK, 1)]);
    assert_eq!(order_of_locks(&example("cancelring.drv"), 0), Ok(cycle));
    assert_eq!(
        order_of_locks(&example("cancelring.drv"), 1),
        Err(Error::WrongArgument)
    );
    assert!(matches!(
        order_of_locks(&example("twice.drv"), 0),
        Err(Error::Refused(_))
    ));
}

#[test]
fn traces() {
    let (set, schedule) = (example("twice.drv"), example("one-read.sched"));
    assert!(matches!(
        trace(&set, &schedule, false),
        Err(Error::Refused(_))
    ));
    let run = trace(&set, &schedule, true).unwrap();
    assert!(!run.complete && run.text.ends_with("3 bug 0x44 packet 0\n"));
    assert_eq!(
        trace(&set, b"what", true),
        Err(Error::FaultySchedule { fault: 2, line: 1 })
    );
}

#[test]
fn shapes() {
    let found = describe(&example("filter.drv")).unwrap();
    assert_eq!(found.devices.len(), 2);
    assert_eq!((found.devices[1].lower, found.devices[1].stack), (0, 2));
    assert!(found.drivers.iter().flatten().all(|it| it.certificate > 0));
    assert!(matches!(
        describe(&example("twice.drv")),
        Err(Error::Refused(_))
    ));
}

#[test]
fn runs_for_people() {
    let (set, schedule) = (example("echo.drv"), example("one-read.sched"));
    let told = tell(&set, &schedule, false, Detail::Every).unwrap();
    assert!(told.complete && told.text.contains("topped 0 0x00000000 0"));
    assert!(draw(&set, &schedule, false).unwrap().text.contains("<svg"));
    assert!(matches!(
        draw(&example("twice.drv"), &schedule, false),
        Err(Error::Refused(_))
    ));
}

#[test]
fn events_at_once() {
    let mut world = World::new(&example("echo.drv"), 1).unwrap();
    let read = Event::Issue {
        thread: 0,
        device: 0,
        major: Major::Read,
        argument: 7,
    };
    assert_eq!(
        world.apply_all(&[read, read, Event::Step { thread: 0 }]),
        [Reply::Started { packet: 0 }, Reply::Refused, Reply::Stepped]
    );
}

#[test]
fn worlds() {
    let mut world = World::new(&example("echo.drv"), 2).unwrap();
    let read = Event::Issue {
        thread: 0,
        device: 0,
        major: Major::Read,
        argument: 7,
    };
    assert_eq!(world.apply(read), Reply::Started { packet: 0 });
    assert_eq!(world.apply(read), Reply::Refused);
    assert_eq!(world.step(0), Reply::Stepped);
    assert_eq!(
        world.steps(0, 9),
        (
            1,
            Reply::Topped {
                packet: 0,
                status: 0,
                info: 0
            }
        )
    );
    assert_eq!(world.step(0), Reply::Finished);
    assert_eq!(world.step(0), Reply::Idle);
    assert!(matches!(world.thread(2), Err(Error::WrongArgument)));
    assert!(matches!(World::new(b"", 1), Err(Error::Refused(_))));
    assert!(matches!(
        World::new(&example("echo.drv"), 65),
        Err(Error::WrongArgument)
    ));
}

#[test]
fn what_threads_share() {
    let mut world = World::new(&example("counter.drv"), 2).unwrap();
    let read = Event::Issue {
        thread: 0,
        device: 0,
        major: Major::Read,
        argument: 7,
    };
    world.apply(read);
    assert_eq!(world.steps(0, 4).0, 4);
    assert_eq!(world.owner(0, 0), Ok(Some(0)));
    assert_eq!(world.owner(0, CANCEL_LOCK), Ok(None));
    assert_eq!(world.owner(1, 0), Err(Error::WrongArgument));
    let words = world.words(0).unwrap();
    assert_eq!((words[1], words[2]), (7, 4096));
    assert_eq!(world.number(words[0]), Ok(0));
    assert_eq!(world.number(1 << 40), Err(Error::WrongArgument));
    assert_eq!(world.words(1), Err(Error::WrongArgument));
    world.steps(0, 6);
    let asked = world.request(0).unwrap();
    assert_eq!((asked.major, asked.argument, asked.info), (3, 7, 1));
    assert_eq!(world.request(1), Err(Error::WrongArgument));
    assert_eq!(world.cells(0).unwrap().plain[0], 1);
    assert_eq!(world.another(1).unwrap().cells(0).unwrap().plain[0], 0);
    world.reset(1).unwrap();
    assert_eq!(world.cells(0).unwrap().plain[0], 0);
    assert_eq!(world.reset(0), Err(Error::WrongArgument));
}

#[test]
fn hunts_and_mends() {
    let found = hunt(&example("twice.drv"), &Hunting::default()).unwrap();
    assert!(!found.complete);
    let run = trace(&example("twice.drv"), found.text.as_bytes(), true).unwrap();
    assert!(!run.complete);
    assert!(mend(&example("echo.drv"), 20_000).unwrap().complete);
    assert_eq!(mend(&example("echo.drv"), 0), Err(Error::WrongArgument));
}

#[test]
fn names() {
    let text = example("counter.drv");
    assert_eq!(name_in(&text, Named::Driver(0)).unwrap(), "counter");
    let (driver, routine) = (0, 0);
    let on_read = Named::Routine { driver, routine };
    assert_eq!(name_in(&text, on_read).unwrap(), "on_read");
    assert_eq!(name_in(&text, Named::Device(1)), Err(Error::WrongArgument));
    assert_eq!(rule_name(11).unwrap(), "V11 Guard");
    assert_eq!(status_name(0).unwrap(), "STATUS_SUCCESS");
    assert_eq!(
        bug_check_name(0x48).unwrap(),
        "CANCEL_STATE_IN_COMPLETED_IRP"
    );
}

#[test]
fn schedules() {
    let size = schedule(&example("one-read.sched")).unwrap();
    assert_eq!((size.threads, size.events), (1, 5));
    assert_eq!(
        schedule(b"threads 1\nwhat\n"),
        Err(Error::FaultySchedule { fault: 2, line: 2 })
    );
}
