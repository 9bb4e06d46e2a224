//! Blocks of work, compared with the calls that they are made of.
use hourstable::*;
use hourstable_sys as sys;

const JOB: &str = "shop";
const HALF: u64 = 1 << 62;

fn grant(kind: &str, number: u64, generation: u64, keys: u64, ends: u64) -> Vec<u8> {
    let value = format!(
        r#"{{"ends":"{ends}","generation":"{generation}","kind":"{kind}","life":1,"number":"{number}","ranges":[["0","{keys}"]],"task":2,"until":"{}"}}"#,
        ends + 10
    );
    format!(r#"{{"job":"{JOB}","type":"grant","value":{value},"version":2}}"#).into_bytes()
}

/// The slicelet of task 2 with a guard of the lower half of the keys, which ends at 130.
fn half_task() -> Slicelet {
    let mut task = Slicelet::new(JOB, 2).unwrap();
    task.start(1, 5).unwrap();
    task.hear(&grant("guard", 7, 3, HALF, 130), 6).unwrap();
    task
}

fn new_clock() -> TaskClock {
    TaskClock::new(Drift { extra: 0, per: 1, grain: 0 }, 500).unwrap()
}

enum Step {
    /// The clock is then 6 ahead of the local one.
    Sample(u64),
    /// A local reading, a key, and how the line ends before its ticket, if there is one.
    Enter(u64, &'static [u8], Option<&'static str>),
    Leave(u64, Option<&'static str>),
}

const STEPS: [Step; 11] = [
    Step::Enter(0, b"hello", None), // the clock has no sample
    Step::Sample(0),
    Step::Enter(
        0,
        b"hello",
        Some(r#""handle life 1 position 2","slice_key":1619368272448737671,"task":2"#),
    ),
    Step::Leave(9, Some(r#""continuous","task":2"#)),
    Step::Leave(8, None), // the local clock went back
    Step::Enter(
        10,
        b"abc",
        Some(r#""denied not-owned 3","slice_key":6718257250126850037,"task":2"#),
    ),
    Step::Enter(
        11,
        b"hello",
        Some(r#""handle life 1 position 2","slice_key":1619368272448737671,"task":2"#),
    ),
    Step::Leave(123, Some(r#""continuous","task":2"#)),
    Step::Leave(124, Some(r#""broken","task":2"#)),
    Step::Enter(125, b"hello", Some(r#""denied ended","slice_key":1619368272448737671,"task":2"#)),
    Step::Enter(600, b"hello", None), // the sample is too old
];

/// What the steps of a block are made of: a clock, and the handle that was taken last.
struct Parts<'task> {
    task: &'task Slicelet,
    clock: TaskClock,
    handle: Handle,
}

/// The lease of an entry, or why it is denied, as text; and the line, if there is one.
type Played = (Result<String, Refused>, Option<String>);

impl Parts<'_> {
    fn enter(&mut self, now: u64, ticket: u64, key: &[u8]) -> Played {
        let at = match self.clock.read(now) {
            Ok(at) => at,
            Err(refused) => return (Err(refused), None),
        };
        let held = self.task.hold_served(key, at);
        if let Ok((handle, _)) = held {
            self.handle = handle;
        }
        let call = (sys::HS_CALL_HOLD, ticket, at, slice_key(key));
        let made = held.map(|(_, lease)| format!("{lease:?}"));
        let line = self.line(call, made.as_ref().err());
        (made, Some(line))
    }

    fn leave(&mut self, now: u64, ticket: u64) -> Played {
        let at = match self.clock.read(now) {
            Ok(at) => at,
            Err(refused) => return (Err(refused), None),
        };
        let checked = self.task.check(&self.handle, at).map(|()| String::new());
        let line = self.line((sys::HS_CALL_CHECK, ticket, at, 0), checked.as_ref().err());
        (checked, Some(line))
    }

    /// The line that `hs_log_line` writes.
    fn line(&self, call: (u32, u64, u64, u64), why: Option<&Refused>) -> String {
        let (call, ticket, at, slice_key) = call;
        let Handle { task, position, life, .. } = self.handle;
        let handle = sys::hs_key_handle { task, slice_key: self.handle.slice_key, position, life };
        let generation = why.map_or(0, Refused::generation);
        let told = sys::hs_told { generation, ..Default::default() };
        let code = why.map_or(0, |it| it.code().0);
        let it = sys::hs_logged_call {
            ticket,
            call,
            code,
            task: 2,
            at,
            slice_key,
            told,
            handle,
            ..Default::default()
        };
        let (mut out, mut needed) = ([0; 512], 0);
        let (name, text) = (JOB.as_ptr(), JOB.as_ptr());
        let done = unsafe {
            sys::hs_log_line(name, JOB.len(), &it, text, 0, out.as_mut_ptr(), 512, &mut needed)
        };
        assert_eq!(done, 0);
        String::from_utf8(out[..needed].to_vec()).unwrap()
    }
}

/// What a fused call returned, and the line of its block.
fn played(made: Result<String, Refused>, block: &Block) -> Played {
    let line = String::from_utf8(block.line().to_vec()).unwrap();
    assert!(block.is_called() || line.is_empty(), "a line of no call: {line}");
    (made, block.is_called().then_some(line))
}

/// Compares each step with its parts.
fn check_steps(mut block: Block, with_lines: bool, tickets: std::ops::Range<u64>) {
    let task = half_task();
    let (mut clock, handle) = (new_clock(), block.handle());
    let mut parts = Parts { task: &task, clock: clock.clone(), handle };
    for (ticket, step) in tickets.zip(&STEPS) {
        block.ticket = ticket;
        let (wanted, made, end) = match *step {
            Step::Sample(now) => {
                clock.sample(now, now + 6, now).unwrap();
                parts.clock.sample(now, now + 6, now).unwrap();
                continue;
            }
            Step::Enter(now, key, end) => {
                let entered = if ticket % 2 == 1 {
                    task.enter(&mut clock, now, key, &mut block)
                } else {
                    task.enter_at(&mut clock, now, slice_key(key), &mut block)
                };
                let entered = entered.map(|lease| format!("{lease:?}"));
                (parts.enter(now, ticket, key), played(entered, &block), end)
            }
            Step::Leave(now, end) => {
                let left = task.leave(&mut clock, now, &mut block).map(|()| String::new());
                (parts.leave(now, ticket), played(left, &block), end)
            }
        };
        match (&wanted.1, end) {
            (Some(line), Some(end)) => {
                assert!(line.ends_with(&format!("{end},\"ticket\":{ticket}}}\n")), "{line}");
            }
            (line, end) => assert_eq!(line.as_deref(), end),
        }
        let (result, line) = wanted;
        let line = line.map(|it| if with_lines { it } else { String::new() });
        assert_eq!(made, (result, line), "ticket {ticket}");
        assert_eq!(format!("{clock:?}"), format!("{:?}", parts.clock));
        assert_eq!(block.handle(), parts.handle);
    }
}

#[test]
fn blocks_are_made_of_their_parts() {
    check_steps(Block::with_lines(), true, 20..40);
    check_steps(Block::with_lines(), true, u64::MAX - 20..u64::MAX);
    check_steps(Block::new(), false, 20..40);
}

#[test]
fn what_is_no_call_of_a_block() {
    let (task, mut clock, mut block) = (half_task(), new_clock(), Block::with_lines());
    clock.sample(0, 6, 0).unwrap();
    let refused = task.enter_at(&mut clock, 90, 2 * HALF, &mut block).unwrap_err();
    assert_eq!(
        (refused.code(), block.is_called(), block.line()),
        (Code::WRONG_FORM, false, &b""[..])
    );
    block.ticket = 1;
    task.enter(&mut clock, 1, b"hello", &mut block).unwrap(); // 90 was not read
    assert_eq!(block.at(), 7);
    let refused = Slicelet::new(JOB, 1).unwrap().leave(&mut clock, 2, &mut block).unwrap_err();
    assert_eq!((refused.code(), block.is_called()), (Code::STRANGER, true));
    assert!(block.line().ends_with(b"\"reply\":\"refused stranger\",\"task\":1,\"ticket\":1}\n"));
}

/// A bridge of generation 4 covers the lower half beside a guard of generation 3.
#[test]
fn the_newest_lease_that_covers_a_key() {
    let mut task = Slicelet::new(JOB, 2).unwrap();
    task.start(1, 5).unwrap();
    task.hear(&grant("guard", 7, 3, 2 * HALF, 130), 6).unwrap();
    task.hear(&grant("bridge", 8, 4, HALF, 200), 7).unwrap();
    let served = task.serve(b"hello", 8).unwrap();
    assert_eq!((served.kind(), served.generation(), served.covering()), (Kind::Guard, 3, 4));
    assert_eq!(task.hold_served(b"hello", 8).unwrap().1, served);
    let (handle, held) = task.hold_served_at(HALF, 8).unwrap();
    assert_eq!((handle.slice_key, held.number(), held.until(), held.covering()), (HALF, 7, 130, 3));
    assert_eq!(task.hold(b"hello", 200).unwrap_err().covering(), 4);
    assert_eq!(task.serve_at(HALF, 200).unwrap_err().covering(), 3);
}
