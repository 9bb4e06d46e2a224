//! Prints what calls for a held key cost, as serve.c does.
use std::time::Duration;

use hourstable::{Block, Drift, Refused, Slicelet, TaskClock};

const GRANT: &[u8] = br#"{"job":"shop","type":"grant","value":{"ends":"1000","generation":"1","kind":"guard","life":1,
"number":"1","ranges":[["0","9223372036854775808"]],"task":1,"until":"1010"},"version":2}"#;

const CLOCK_THREAD_CPUTIME_ID: i32 = 3;

extern "C" {
    fn clock_gettime(clock: i32, out: *mut [i64; 2]) -> i32;
}

/// How long this thread had the processor.
fn now() -> Duration {
    let mut it = [0; 2];
    assert_eq!(unsafe { clock_gettime(CLOCK_THREAD_CPUTIME_ID, &mut it) }, 0);
    Duration::new(it[0] as u64, it[1] as u32)
}

fn tell(calls: u32, mut play: impl FnMut(&[u8], u32) -> Result<(), Refused>) -> Result<(), Refused> {
    let mut key = *b"a key of 20 bytes, 0";
    let mut least = Duration::MAX;
    for _ in 0..100 {
        let begun = now();
        for call in 0..calls {
            key[19] = call as u8;
            play(&key, call)?;
        }
        least = least.min(now() - begun);
    }
    println!("{}", least.as_nanos() / u128::from(calls));
    Ok(())
}

fn main() -> Result<(), Refused> {
    let calls: u32 = std::env::args().nth(1).and_then(|it| it.parse().ok()).expect("how many calls");
    let mut task = Slicelet::new("shop", 1)?;
    task.start(1, 0)?;
    task.hear(GRANT, 1)?;
    let mut clock = TaskClock::new(Drift { extra: 0, per: 1, grain: 0 }, 100)?;
    clock.sample(0, 1, 0)?;
    tell(calls, |key, _| task.serve(key, 2).map(drop))?;
    for mut block in [Block::new(), Block::with_lines()] {
        tell(calls, |key, call| {
            block.ticket = u64::from(2 * call);
            task.enter(&mut clock, 2, key, &mut block)?;
            block.ticket += 1;
            task.leave(&mut clock, 2, &mut block)
        })?;
    }
    Ok(())
}
