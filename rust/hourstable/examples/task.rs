//! A server task that asks before each answer, until its lease ends, as `examples/c/slicelet.c`.
use hourstable::{Code, Kind, Refused, Slicelet};

const GRANT: &[u8] = br#"{"job":"shop","type":"grant","value":{"ends":"8","generation":"3",
"kind":"guard","life":1,"number":"7","ranges":[["0","9223372036854775808"]],"task":2,"until":"10"},
"version":2}"#;

fn main() -> Result<(), Refused> {
    let mut task = Slicelet::new("shop", 2)?;
    task.start(1, 3)?;
    task.hear(GRANT, 5)?;
    for now in 5.. {
        let key = if now % 2 == 1 { "apples" } else { "pears" };
        match task.serve(key.as_bytes(), now) {
            Ok(it) => println!("{now} {key}: served under generation {}", it.generation()),
            Err(refused) if refused.code() == Code::ENDED => break,
            Err(refused) => return Err(refused),
        }
    }
    println!("stopped: the lease has ended");
    println!("{}", String::from_utf8_lossy(&task.release(Kind::Guard, 8)?));
    Ok(())
}
