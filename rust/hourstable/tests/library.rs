//! The calls of the library, with expected values that were worked out by hand, or are those of `examples/c`.
use std::ops::Range;
use std::sync::RwLock;
use std::thread;

use hourstable::*;

const EVERY_KEY: &str = r#"[["0","9223372036854775808"]]"#;
const HALF: u64 = 1 << 62;

/// That of `examples/c/job.c`.
const POLICY: Policy =
    Policy { low: 1, high: 1, skew: 10, guard: 100, bridge: 100, job: 1000, numbers: 1000 };

fn assignment(generation: u64, slices: &str) -> Vec<u8> {
    let value = format!(r#"{{"generation":"{generation}","slices":{slices}}}"#);
    format!(r#"{{"job":"shop","type":"assignment","value":{value},"version":2}}"#).into_bytes()
}

/// A guard of all keys for task 2 in life 1, which ends at `ends` of its clock.
fn grant(number: u64, ends: u64) -> Vec<u8> {
    let value = format!(
        r#"{{"ends":"{ends}","generation":"3","kind":"guard","life":1,"number":"{number}","ranges":{EVERY_KEY},"task":2,"until":"{}"}}"#,
        ends + 10
    );
    format!(r#"{{"job":"shop","type":"grant","value":{value},"version":2}}"#).into_bytes()
}

fn text(bytes: Vec<u8>) -> String {
    String::from_utf8(bytes).expect("a message is text")
}

/// The call is refused with this code, whose text is that of a script.
#[track_caller]
fn refuses<T: std::fmt::Debug>(call: Result<T, Refused>, code: Code, reply: &str) {
    let refused = call.expect_err(reply);
    assert_eq!(refused.code(), code);
    assert_eq!(refused.to_string(), reply);
}

/// The slicelet of task 2 in life 1 with a guard of all keys, which ends at 8.
fn serving_task() -> Slicelet {
    let mut task = Slicelet::new("shop", 2).unwrap();
    task.start(1, 3).unwrap();
    task.hear(&grant(7, 8), 5).unwrap();
    task
}

/// All keys are committed to task 1, as in `examples/c/job.c`.
fn steady_table() -> Table {
    let mut table = Table::new("shop", POLICY).unwrap();
    assert_eq!(table.take(1, 0), Ok(Term { number: 1, assigner: 1, until: 1000 }));
    table.propose(1, &assignment(1, r#"[["0",[1]]]"#), 1).unwrap();
    assert_eq!(table.commit(1, 2), Ok(1));
    table
}

#[test]
fn a_hand_over_as_in_job_c() {
    let (mut table, mut task) = (steady_table(), Slicelet::new("shop", 1).unwrap());
    task.start(1, 0).unwrap();
    let grant = table.grant(1, 1, 5).unwrap();
    task.hear(&grant, 6).unwrap();
    let serving = task.serve(b"hello", 7).unwrap();
    assert_eq!((serving.kind(), serving.generation()), (Kind::Guard, 1));
    assert_eq!((serving.number(), serving.until()), (1, 95));
    table.propose(1, &assignment(2, r#"[["0",[2]]]"#), 20).unwrap();
    let refused = table.commit(1, 21).unwrap_err();
    assert_eq!((refused.task(), refused.kind(), refused.number()), (1, Some(Kind::Guard), 1));
    refuses(table.commit(1, 21), Code::HELD, "held 1 guard 1");
    let note = task.release(Kind::Guard, 22).unwrap();
    refuses(task.serve(b"hello", 22), Code::NO_LEASE, "no-lease");
    assert_eq!(table.free(&note, 23), Ok(1));
    assert_eq!(table.commit(1, 24), Ok(2));
    assert_eq!(table.committed().unwrap(), assignment(2, r#"[["0",[2]]]"#));
    assert_eq!(
        text(note),
        r#"{"job":"shop","type":"note","value":{"kind":"guard","life":1,"number":"1","task":1},"version":2}"#
    );
}

#[test]
fn refusals_of_a_slicelet() {
    let mut task = Slicelet::new("shop", 2).unwrap();
    refuses(task.serve(b"apples", 1), Code::DOWN, "down");
    refuses(task.hear(&grant(7, 8), 1), Code::NOT_STARTED, "not-started");
    let mut task = serving_task();
    refuses(task.start(1, 5), Code::OLD_LIFE, "old-life");
    refuses(task.hear(b"", 5), Code::NOT_JSON, "not-json");
    refuses(task.hear(br#"{"version":3}"#, 5), Code::VERSION, "version 3");
    refuses(task.hear(&grant(7, 9), 5), Code::OLD, "old 7");
    refuses(task.hear(&grant(8, 6), 6), Code::TOO_LATE, "too-late");
    refuses(task.serve(b"", 4), Code::CLOCK_BACK, "clock-back");
    refuses(task.serve(b"", 8), Code::ENDED, "ended");
    refuses(task.release(Kind::Bridge, 8), Code::NOTHING_HELD, "nothing-held");
    assert_eq!(task.calls_left(), Ok(65536 - 2));
    assert_eq!(task.held(Kind::Guard), Ok(Lease { number: 7, generation: 3, until: 8 }));
    refuses(Slicelet::new("shop", 65), Code::WRONG_FORM, "wrong-form");
    refuses(Slicelet::new(&"j".repeat(65), 2), Code::WRONG_FORM, "wrong-form");
}

/// The grant is of the upper half of the keys, and "hello" is in the lower.
#[test]
fn keys_that_are_not_owned() {
    let mut task = Slicelet::new("shop", 2).unwrap();
    task.start(1, 3).unwrap();
    let all = String::from_utf8(grant(7, 8)).unwrap();
    let upper = all.replace(r#"["0","#, r#"["4611686018427387904","#);
    task.hear(upper.as_bytes(), 5).unwrap();
    refuses(task.serve(b"hello", 6), Code::NOT_OWNED, "not-owned 3");
    refuses(task.hold_at(HALF - 1, 6), Code::NOT_OWNED, "not-owned 3");
    assert_eq!(task.serve_at(HALF, 6).unwrap().generation(), 3);
    assert_eq!(task.permitted(6).unwrap(), [Range { start: HALF, end: 2 * HALF }]);
    assert!(task.permitted(8).unwrap().is_empty());
    refuses(task.serve_at(2 * HALF, 6), Code::WRONG_FORM, "wrong-form");
}

#[test]
fn handles_live_over_a_renewal() {
    let mut task = serving_task();
    let handle = task.hold(b"hello", 5).unwrap();
    assert_eq!((handle.task, handle.slice_key, handle.life), (2, 0x167926dd2fd85187, 1));
    task.hear(&grant(8, 20), 6).unwrap();
    assert_eq!(task.check(&handle, 19), Ok(()));
    refuses(task.check(&handle, 20), Code::BROKEN, "broken");
    let other = Slicelet::new("shop", 1).unwrap();
    refuses(other.check(&handle, 6), Code::STRANGER, "stranger");
}

#[test]
fn what_a_task_does_next() {
    let (mut table, mut task) = (steady_table(), Slicelet::new("shop", 1).unwrap());
    let steady = table.phase().unwrap();
    assert_eq!(steady, Phase { committed: 1, proposed: 0 });
    assert_eq!(task.next(steady, 3), Ok(TaskAction::Start));
    task.start(1, 3).unwrap();
    assert_eq!(task.next(steady, 3), Ok(TaskAction::Ask(Kind::Guard)));
    task.hear(&table.grant(1, 1, 4).unwrap(), 4).unwrap();
    assert_eq!(task.next(steady, 4), Ok(TaskAction::Rest));
    table.propose(1, &assignment(2, r#"[["0",[1]]]"#), 5).unwrap();
    let bridging = table.phase().unwrap();
    assert_eq!(task.next(bridging, 5), Ok(TaskAction::Ask(Kind::Bridge)));
    task.hear(&table.grant(1, 1, 6).unwrap(), 6).unwrap();
    assert_eq!(task.next(bridging, 6), Ok(TaskAction::GiveUp(Kind::Guard)));
    refuses(task.next(Phase { committed: 1, proposed: 3 }, 6), Code::WRONG_FORM, "wrong-form");
}

/// The grant is made at 5, with a guard of 100 ticks.
#[test]
fn a_table_is_restored() {
    let mut table = steady_table();
    table.grant(1, 1, 5).unwrap();
    let row =
        Row { number: 1, task: 1, life: 1, kind: Kind::Guard, generation: 1, table_ends: 105 };
    assert_eq!(table.rows(), Ok(vec![row]));
    let kept = table.kept().unwrap();
    assert_eq!(table.restart(), Ok(1));
    assert_eq!(table.rows(), Ok(vec![]));
    let mut restored = Table::restore("shop", POLICY, &kept).unwrap();
    assert_eq!(restored.kept(), Ok(kept.clone()));
    restored.propose(1, &assignment(2, r#"[["0",[2]]]"#), 20).unwrap();
    refuses(restored.commit(1, 104), Code::GRACE, "grace 105");
    assert_eq!(restored.commit(1, 105), Ok(2));
    let other = Policy { guard: 101, ..POLICY };
    refuses(Table::restore("shop", other, &kept), Code::OTHER_POLICY, "other-policy");
    refuses(Table::restore("store", POLICY, &kept), Code::OTHER_JOB, "other-job");
}

/// One grant was made, at 5, whose row ends at 105; 10 grants and 50 ticks ahead these are 11, 55 and 155.
#[test]
fn values_are_saved_ahead() {
    let mut table = steady_table();
    table.grant(1, 1, 5).unwrap();
    let ahead = text(table.kept().unwrap())
        .replace(r#""deadline":"105""#, r#""deadline":"155""#)
        .replace(r#""granted":"1""#, r#""granted":"11""#)
        .replace(r#""last":"5""#, r#""last":"55""#);
    let saved = table.save(b"", 10, 50).unwrap().expect("nothing was saved");
    assert_eq!(text(saved.clone()), ahead);
    table.grant(1, 1, 55).unwrap();
    assert_eq!(table.save(&saved, 10, 50), Ok(None));
    table.grant(1, 1, 56).unwrap();
    assert!(table.save(&saved, 10, 50).unwrap().is_some());
    refuses(table.save(b"{", 10, 50), Code::NOT_JSON, "not-json");
}

#[test]
fn what_a_grant_says() {
    let read = read_grant("shop", &grant(7, 8)).unwrap();
    let wanted = Grant {
        number: 7,
        task: 2,
        life: 1,
        kind: Kind::Guard,
        generation: 3,
        ends: 8,
        table_ends: 18,
        ranges: std::iter::once(0..2 * HALF).collect(),
    };
    assert_eq!(read, wanted);
    refuses(read_grant("store", &grant(7, 8)), Code::OTHER_JOB, "other-job");
    let many: Vec<_> = (0..100).map(|it| 2 * it..2 * it + 1).collect();
    let pairs: Vec<_> = many.iter().map(|it| format!(r#"["{}","{}"]"#, it.start, it.end)).collect();
    let long = text(grant(7, 8)).replace(EVERY_KEY, &format!("[{}]", pairs.join(",")));
    assert_eq!(read_grant("shop", long.as_bytes()).unwrap().ranges, many);
}

#[test]
fn refusals_of_a_table() {
    let mut table = steady_table();
    refuses(table.take(2, 3), Code::JOB_HELD, "job-held 1000");
    refuses(table.renew(2, 3), Code::NOT_HOLDER, "not-holder 1");
    assert_eq!(table.renew(1, 3), Ok(Term { number: 1, assigner: 1, until: 1003 }));
    refuses(
        table.propose(1, &assignment(3, r#"[["0",[1]]]"#), 4),
        Code::STALE_BASE,
        "stale-base 1",
    );
    refuses(table.propose(1, &assignment(2, "[]"), 4), Code::NO_SLICES, "no-slices");
    refuses(table.commit(1, 4), Code::NOTHING_PENDING, "nothing-pending");
    refuses(table.grant(1, 1, HALF), Code::READING_RANGE, "reading-range");
    let note = ended_note("shop", 1, 1, Kind::Guard).unwrap();
    refuses(table.free(&note, 5), Code::NO_ROW, "no-row");
    table.grant(1, 1, 5).unwrap();
    table.grant(1, 1, 5).unwrap();
    assert_eq!(table.free(&note, 6), Ok(2));
}

/// A grant for each of 64 tasks, and one more row than the first buffer of `rows` holds.
#[test]
fn rows_of_any_number() {
    let mut table = steady_table();
    for task in (1..=64).chain([1]) {
        table.grant(task, 1, 5).unwrap();
    }
    let rows = table.rows().unwrap();
    let tasks: Vec<u64> = rows.iter().map(|row| row.task).collect();
    assert_eq!(tasks, (1..=64).chain([1]).collect::<Vec<u64>>());
}

/// A text of more than the first buffer: 1,024 slices, of which task 5 owns every 64th.
#[test]
fn texts_of_any_length() {
    let mut table = steady_table();
    let width = 2 * HALF / 1024;
    let slice = |number: u64| format!(r#"["{}",[{}]]"#, number * width, number % 64 + 1);
    let wide = assignment(2, &format!("[{}]", (0..1024).map(slice).collect::<Vec<_>>().join(",")));
    table.propose(1, &wide, 3).unwrap();
    assert_eq!(table.commit(1, 4), Ok(2));
    assert_eq!(table.committed(), Ok(wide));
    let owned = (0..16).map(|it| (it * 64 + 4) * width);
    let ranges: Vec<_> = owned.map(|it| format!(r#"["{it}","{}"]"#, it + width)).collect();
    let grant = text(table.grant(5, 1, 5).unwrap());
    assert!(grant.contains(&format!(r#""ranges":[{}],"#, ranges.join(","))), "{grant}");
}

#[test]
fn a_clerk_learns() {
    let mut clerk = Clerk::new("shop").unwrap();
    refuses(clerk.look(b"hello"), Code::UNKNOWN, "unknown");
    let slices = r#"[["0",[64,3]],["4611686018427387904",[7]]]"#;
    clerk.learn(&assignment(4, slices)).unwrap();
    let owners = clerk.look(b"hello").unwrap();
    assert_eq!((owners.generation(), owners.tasks()), (4, &[3, 64][..]));
    assert_eq!(clerk.look_at(HALF).unwrap().tasks(), [7]);
    refuses(clerk.learn(&assignment(4, slices)), Code::OLD_GENERATION, "old 4");
    clerk.forget().unwrap();
    refuses(clerk.look_at(HALF), Code::UNKNOWN, "unknown");
}

#[test]
fn what_an_assigner_does_next() {
    let mut assigner = Assigner::new(1, 1000).unwrap();
    let phase = |committed, proposed| Phase { committed, proposed };
    assert_eq!(assigner.next(0, phase(0, 0), false), Ok((Action::Take, 0)));
    assigner.adopt(Term { number: 1, assigner: 1, until: 1000 }).unwrap();
    assert_eq!(assigner.next(1, phase(0, 0), true), Ok((Action::Propose, 1)));
    assert_eq!(assigner.next(1, phase(0, 1), false), Ok((Action::Commit, 1)));
    assert_eq!(assigner.next(1, phase(1, 0), false), Ok((Action::Rest, 1)));
    let other = Term { number: 2, assigner: 2, until: 2000 };
    refuses(assigner.adopt(other), Code::NOT_ADOPTED, "not-adopted");
    assigner.drop_term().unwrap();
    assert_eq!(assigner.next(2, phase(1, 0), true), Ok((Action::Take, 0)));
}

/// A hundred slices find no room at first, and the records are counted once all the same.
#[test]
fn a_load_book_counts_each_record_once() {
    let mut book = LoadBook::new("shop").unwrap();
    let record = |slice_key, weight| LoadRecord { slice_key, weight };
    let slices: Vec<String> = (0..100u64).map(|at| format!(r#"["{}",[1]]"#, at << 50)).collect();
    let hundred = assignment(1, &format!("[{}]", slices.join(",")));
    let records = [record((99 << 50) + 5, 7), record((1 << 50) - 1, 2), record(1 << 50, 1 << 32)];
    let mut wanted = vec![0; 100];
    wanted[0] = 2;
    wanted[1] = 1 << 32;
    wanted[99] = 7;
    assert_eq!(book.gather(&hundred, 2, &records), Ok(wanted));
    let one = assignment(2, r#"[["0",[1]]]"#);
    assert_eq!(book.gather(&one, 2, &[]), Ok(vec![0]));
    assert_eq!([1, 2, 64].map(|task| book.total(task)), [Ok(0), Ok((1 << 32) + 9), Ok(0)]);
    refuses(book.gather(&one, 2, &[record(5, 0)]), Code::WEIGHT_RANGE, "weight-range");
    refuses(book.gather(&one, 3, &[record(5, 1 << 32); 256]), Code::TOTAL_RANGE, "total-range");
    refuses(book.gather(&one, 2, &[record(2 * HALF, 1)]), Code::WRONG_FORM, "wrong-form");
    refuses(book.gather(b"{", 2, &[]), Code::NOT_JSON, "not-json");
    refuses(book.total(65), Code::WRONG_FORM, "wrong-form");
    assert_eq!(book.total(2), Ok((1 << 32) + 9));
}

/// The plan of `examples/scripts/load-moves-a-slice.json`.
#[test]
fn a_plan_moves_a_slice() {
    let bounds = PlanPolicy { low: 1, high: 1, churn: 2 * HALF, cold: 0, hot: 100, most: 1024 };
    let slices = |middle| {
        format!(r#"[["0",[1]],["2305843009213693952",[{middle}]],["4611686018427387904",[2]]]"#)
    };
    let before = assignment(1, &slices(1));
    let after = plan("shop", &before, &[6, 4, 1], &[1, 2], bounds);
    assert_eq!(after, Ok(assignment(2, &slices(2))));
    refuses(plan("shop", &before, &[6, 4, 1], &[], bounds), Code::NO_TASKS, "no-tasks");
    refuses(plan("shop", &before, &[], &[1], bounds), Code::LOADS_LENGTH, "loads-length");
}

/// A drift of one tick in three and a grain of one: 100 and six ticks are 109.
#[test]
fn clocks() {
    let mut clock = TaskClock::new(Drift { extra: 1, per: 3, grain: 1 }, 30).unwrap();
    refuses(clock.read(5), Code::NO_SAMPLE, "no-sample");
    clock.sample(10, 100, 12).unwrap();
    assert_eq!((clock.read(12), clock.read(16)), (Ok(104), Ok(109)));
    refuses(clock.read(15), Code::CLOCK_BACK, "clock-back");
    refuses(clock.read(41), Code::TOO_OLD, "too-old");
    refuses(clock.sample(18, 100, 17), Code::SENT_AHEAD, "sent-ahead");
    refuses(
        TaskClock::new(Drift { extra: 1, per: 0, grain: 0 }, 30),
        Code::WRONG_FORM,
        "wrong-form",
    );

    let mut clock = TableClock::open(1000, 100, 7).unwrap();
    refuses(clock.read(106), Code::NOT_YET, "not-yet 1000");
    assert_eq!((clock.read(107), clock.read(110)), (Ok(1000), Ok(1003)));
    refuses(clock.read(109), Code::CLOCK_BACK, "clock-back");

    let (before, after) = (boottime_ticks().unwrap(), boottime_ticks().unwrap());
    assert!(before > 0 && before <= after && after < before + 60_000);
}

/// A grant that ends at 130 of the task's clock, with a skew of 10 and a guard of 100, was made at 40.
#[test]
fn evidence_of_clocks() {
    assert_eq!(clock_evidence("shop", &grant(7, 130), 29, POLICY), Ok(true));
    assert_eq!(clock_evidence("shop", &grant(7, 130), 30, POLICY), Ok(false));
    refuses(clock_evidence("shop", b"{", 30, POLICY), Code::NOT_JSON, "not-json");
}

#[test]
fn a_new_process_starts_a_new_life() {
    let mut task = Slicelet::resume("shop", 2, 4).unwrap();
    refuses(task.start(4, 1), Code::OLD_LIFE, "old-life");
    task.start(5, 1).unwrap();
}

#[test]
fn numbers_of_the_library() {
    let sys = hourstable_sys::HS_LIBRARY_VERSION;
    let (major, minor, patch) = library_version();
    assert_eq!(format!("{major}.{minor}.{patch}"), sys);
    assert_eq!(slice_key(b"hello"), 0x167926dd2fd85187);
    assert_eq!(slice_key(b""), 0x71d862214c7e0e0a);
}

/// Four threads serve and check a key while its lease is renewed.
#[test]
fn threads_read_beside_each_other() {
    let mut task = Slicelet::new("shop", 2).unwrap();
    task.start(1, 0).unwrap();
    task.hear(&grant(1, 1000), 1).unwrap();
    let handle = task.hold(b"apples", 1).unwrap();
    let task = RwLock::new(task);
    thread::scope(|scope| {
        for _ in 0..4 {
            scope.spawn(|| {
                for _ in 0..500 {
                    let task = task.read().unwrap();
                    assert_eq!(task.serve(b"apples", 500).map(|it| it.generation()), Ok(3));
                    assert_eq!(task.check(&handle, 500), Ok(()));
                }
            });
        }
        scope.spawn(|| {
            for number in 2..102 {
                task.write().unwrap().hear(&grant(number, 1000), 1).unwrap();
            }
        });
    });
    assert_eq!(task.read().unwrap().calls_left(), Ok(65536 - 102));
}

#[test]
fn tokens() {
    let mut task = serving_task();
    let token = task.token(1, 9, b"hello", 6).unwrap();
    assert_eq!(token, Token::new(9, 3, 1));
    assert_eq!(token.to_string(), "00000009000000000000000300000001");
    assert_eq!(Token::parse(&token.to_string()), Some(token));
    assert_eq!(Token::parse("+0000009000000000000000300000001"), None);
    assert_eq!(task.token_at(1, 9, slice_key(b"hello"), 6), Ok(token));
    refuses(task.token(2, 9, b"hello", 6), Code::MANY_OWNERS, "many-owners");
    refuses(task.token(1, 9, b"hello", 8), Code::ENDED, "ended");
    refuses(task.token_at(1, 9, 1 << 63, 6), Code::WRONG_FORM, "wrong-form");
    let bridge = text(grant(8, 20)).replace("guard", "bridge").replace(r#""3""#, r#""4""#);
    task.hear(bridge.as_bytes(), 6).unwrap();
    assert_eq!(task.token(1, 9, b"hello", 6), Ok(Token::new(9, 4, 1)));
    assert!(Token::new(0, 9, 9) < token && Token::new(9, 2, 9) < token);
}

#[test]
fn a_fence_refuses_lower_tokens() {
    let mut fence = Fence::default();
    assert!(fence.accept(Token::new(1, 2, 200)));
    assert!(fence.accept(Token::new(1, 2, 200)));
    assert!(!fence.accept(Token::new(1, 2, 199)) && !fence.accept(Token::new(0, 9, 9)));
    assert_eq!(fence.greatest, Token::new(1, 2, 200));
    assert!(fence.accept(Token::new(1, 128, 1)) && fence.accept(Token::new(2, 1, 1)));
}
