//! Grants that a task receives, compared with the calls that a receipt is made of.
use hourstable::*;

const JOB: &str = "shop";
const POLICY: Policy =
    Policy { low: 1, high: 1, skew: 10, guard: 100, bridge: 200, job: 1000, numbers: 1000 };
const GRANT_LINE: &str = r#""grant":{"ends":130,"generation":3,"kind":"guard","life":1,"number":7,"ranges":[[0,9223372036854775808]],"task":2,"until":140}"#;

/// A guard of all keys for task 2, which the table made at 40.
fn grant() -> Vec<u8> {
    let value = r#"{"ends":"130","generation":"3","kind":"guard","life":1,"number":"7","ranges":[["0","9223372036854775808"]],"task":2,"until":"140"}"#;
    format!(r#"{{"job":"{JOB}","type":"grant","value":{value},"version":2}}"#).into_bytes()
}

fn started_task() -> Slicelet {
    let mut task = Slicelet::new(JOB, 2).unwrap();
    task.start(1, 5).unwrap();
    task
}

/// A clock that is 6 ahead of the local one.
fn clock() -> TaskClock {
    let mut clock = TaskClock::new(Drift { extra: 0, per: 1, grain: 0 }, 500).unwrap();
    clock.sample(0, 6, 0).unwrap();
    clock
}

fn line_of(receipt: &Receipt, words: &str) -> String {
    let (at, ticket) = (receipt.at(), receipt.ticket);
    format!("{{\"at\":{at},\"do\":\"hear\",{GRANT_LINE},\"reply\":\"{words}\",\"task\":2,\"ticket\":{ticket}}}\n")
}

fn check_receipt(mut receipt: Receipt, has_lines: bool) {
    let (mut task, mut clock) = (started_task(), clock());
    receipt.ticket = 20;
    assert_eq!(task.receive(&mut clock, 23, POLICY, &grant(), &mut receipt), Ok(None));
    assert!(receipt.is_called() && receipt.line().is_empty());
    assert_eq!(task.serve(b"hello", 29).unwrap_err().code(), Code::NO_LEASE);

    let lease = task.receive(&mut clock, 24, POLICY, &grant(), &mut receipt).unwrap().unwrap();
    let told = (lease.kind(), lease.generation(), lease.number(), lease.until(), lease.covering());
    assert_eq!(told, (Kind::Guard, 3, 7, 130, 0));
    assert_eq!(receipt.at(), 30);
    let wanted = if has_lines { line_of(&receipt, "heard 7") } else { String::new() };
    assert_eq!(receipt.line(), wanted.as_bytes());

    receipt.ticket = 21;
    let refused = task.receive(&mut clock, 25, POLICY, &grant(), &mut receipt).unwrap_err();
    assert_eq!((refused.to_string().as_str(), receipt.is_called()), ("old 7", true));
    let wanted = if has_lines { line_of(&receipt, "refused old 7") } else { String::new() };
    assert_eq!(receipt.line(), wanted.as_bytes());

    let refused = task.receive(&mut clock, 26, POLICY, b"{", &mut receipt).unwrap_err();
    assert_eq!((refused.code(), receipt.is_called()), (Code::NOT_JSON, false));
    assert!(receipt.line().is_empty());
    let refused = task.receive(&mut clock, 24, POLICY, &grant(), &mut receipt).unwrap_err();
    assert_eq!((refused.code(), receipt.is_called()), (Code::CLOCK_BACK, false)); // 25 was read
    assert_eq!(task.serve(b"hello", 31).unwrap().number(), 7);
}

#[test]
fn grants_are_received() {
    check_receipt(Receipt::with_lines(), true);
    check_receipt(Receipt::new(), false);
}

#[test]
fn a_clock_with_no_sample() {
    let mut clock = TaskClock::new(Drift { extra: 0, per: 1, grain: 0 }, 500).unwrap();
    let mut receipt = Receipt::with_lines();
    let refused =
        started_task().receive(&mut clock, 1, POLICY, &grant(), &mut receipt).unwrap_err();
    assert_eq!((refused.code(), receipt.is_called()), (Code::NO_SAMPLE, false));
}
