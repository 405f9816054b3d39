//! Each byte of a small journal with every kind of record is changed. The store comes up with what the records now
//! say, or refuses the file and leaves it as it is; it never crashes, hangs or prints anything else.

use crate::cuts::Script;
use crate::journal::{answers, decode, Record, Register, Rest};
use crate::session::{contents, put_contents, Outcome, Place};
use std::path::Path;

pub fn check(place: &Place) -> Outcome<String> {
    let file = place.file("small");
    make_journal(place, &file)?;
    let bytes = contents(&file)?;
    let damaged = place.file("damaged");
    let (mut up, mut refused) = (0, 0);
    for at in 0..bytes.len() {
        let mut values = vec![bytes[at] ^ 1, bytes[at] ^ 128, 255];
        values.sort();
        values.dedup();
        for value in values.into_iter().filter(|value| *value != bytes[at]) {
            let mut changed = bytes.clone();
            changed[at] = value;
            let what = format!("byte {at} of {} changed from {} to {value}", bytes.len(), bytes[at]);
            let came_up = start(place, &damaged, &changed).map_err(|why| format!("{what}: {why}"))?;
            if came_up {
                up += 1
            } else {
                refused += 1
            }
        }
    }
    if up == 0 || refused == 0 {
        return Err(format!("{up} starts and {refused} refusals: one kind is missing"));
    }
    Ok(format!(
        "{} bytes, {} changes: {up} came up with what the file said, {refused} refused and left",
        bytes.len(),
        up + refused
    ))
}

/// Starts on these bytes; tells whether it came up.
fn start(place: &Place, file: &Path, bytes: &[u8]) -> Outcome<bool> {
    put_contents(file, bytes)?;
    let decoded = decode(bytes);
    let register = Register::after(&decoded.records);
    let keys: Vec<u16> = register.rows.keys().copied().chain(0..4).collect();
    let input: String = keys.iter().map(|key| format!("0 read {key}\n")).collect();
    let ended = place.run(file, &[], input.as_bytes())?;
    let lines = ended.lines()?;
    let afterwards = contents(file)?;
    let first = lines.first().map_or("", String::as_str);
    if answers(first, "refused 1") {
        ended.must_give_up()?;
        if lines.len() > 1 {
            return Err(format!("it refused the file and went on: {}", lines[1]));
        }
        if afterwards != bytes {
            return Err("it refused the file and changed it".to_string());
        }
        return Ok(false);
    }
    if first != format!("up {}", register.epoch + 1) {
        return Err(format!("it printed `{first}`, ended with {}, and said: {}", ended.status, ended.err.trim_end()));
    }
    ended.must_end_well()?;
    if decoded.rest == Rest::Bad {
        return Err(format!("it came up, and at byte {} the file has no record", decoded.whole));
    }
    let mut whole = bytes[..decoded.whole].to_vec();
    whole.extend(Record::CameUp.encode());
    if afterwards != whole {
        return Err("it came up, and the file is not its whole records and the coming-up".to_string());
    }
    if lines.len() != keys.len() + 1 {
        return Err(format!("{} answers to {} lines", lines.len() - 1, keys.len()));
    }
    for (key, got) in keys.iter().zip(&lines[1..]) {
        if !answers(got, &register.read(*key)) {
            return Err(format!("key {key} reads `{got}` and not `{}`", register.read(*key)));
        }
    }
    Ok(true)
}

fn make_journal(place: &Place, file: &Path) -> Outcome<()> {
    let mut s = Script::new();
    s.say("0 loan", "loan 1");
    s.write(0, 0, [5, 20, 5], "");
    s.write(0, 1, [6, 21, 5], "");
    s.write(0, 3, [6, 20, 5], "");
    s.say("make 0 0", "ok");
    s.say("make 1 1 unique", "ok");
    s.later(10_000);
    s.times(2, "up 0");
    s.times(2, "up 1");
    s.say("0 loan", "loan 1 0=2 1=2");
    s.times(3, "fill 0");
    s.write(0, 1, [7, 22, 5], "");
    s.write(0, 9, [7, 29, 5], "");
    s.times(3, "fill 1");
    s.say("fill 1", "turned");
    s.later(10_000);
    s.say("down 1", "ok");
    s.say("1 loan", "loan 1 0=2 1=1");
    s.write(1, 2, [5, 22, 5], "");
    s.say("1 off 0", "ok");
    s.times(2, "clear 1");
    s.say("fill 0", "ok");
    s.say("make 7 7", "ok");
    s.say("turn 7", "ok");
    s.say("down 7", "ok");
    place.play(file, &["--clock", "lines"], &s.lines)
}
