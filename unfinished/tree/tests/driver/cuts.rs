//! A journal in which an index is public, a unique one has turned, and one is being filled, all with writes under
//! way, is cut at each byte of its end. Each time the store comes up with what the whole records say.

use crate::journal::{answers, decode, stage_words, Columns, Record, Register, Rest};
use crate::session::{contents, put_contents, Outcome, Place};
use std::path::Path;

const LAST: usize = 200;

pub fn check(place: &Place) -> Outcome<String> {
    let file = place.file("long");
    make_journal(place, &file)?;
    let bytes = contents(&file)?;
    let cut = place.file("cut");
    let mut parts = 0;
    for length in bytes.len() - LAST..=bytes.len() {
        let part = come_up(place, &cut, &bytes[..length]).map_err(|why| format!("cut to {length} bytes: {why}"))?;
        parts += usize::from(part);
    }
    Ok(format!(
        "a journal of {} bytes cut at each of its last {LAST} and whole; {parts} times a part record was cut off \
         and reported",
        bytes.len()
    ))
}

/// Comes up on these bytes, which may end with a part record; tells whether they did.
fn come_up(place: &Place, file: &Path, bytes: &[u8]) -> Outcome<bool> {
    put_contents(file, bytes)?;
    let decoded = decode(bytes);
    if decoded.rest == Rest::Bad {
        return Err(format!("at byte {} the file has no record", decoded.whole));
    }
    let register = Register::after(&decoded.records);
    let mut expected = vec![(String::new(), format!("up {}", register.epoch + 1))];
    for key in (0..16).chain([50, 99, 100, 101, 200, 4095]) {
        expected.push((format!("3 read {key}"), register.read(key)));
    }
    let stages = register.stages();
    expected.push(("3 loan".to_string(), format!("loan {}{}", register.epoch + 1, stage_words(&stages))));
    for (index, stage) in stages {
        for value in [5, 6, 7] {
            let found = register.look(register.indexes[&index].0, value);
            let answer = if stage == 3 { found } else { "refused 3".to_string() };
            expected.push((format!("3 look {index} {value}"), answer));
        }
    }
    let input: String = expected[1..].iter().map(|(line, _)| format!("{line}\n")).collect();
    let ended = place.run(file, &[], input.as_bytes())?;
    ended.must_end_well()?;
    let lines = ended.lines()?;
    if lines.len() != expected.len() {
        return Err(format!("{} lines were printed and not {}", lines.len(), expected.len()));
    }
    for ((line, answer), got) in expected.iter().zip(&lines) {
        if !answers(got, answer) {
            return Err(format!("`{line}` was answered `{got}` and not `{answer}`"));
        }
    }
    let part = bytes.len() - decoded.whole;
    let said = ended.err.replace(&file.display().to_string(), "");
    let numbers = said.split(|c: char| !c.is_ascii_digit()).filter_map(|word| word.parse::<usize>().ok());
    if part == 0 && !said.is_empty() {
        return Err(format!("nothing was cut off, and it says: {}", said.trim_end()));
    }
    if part > 0 && !numbers.into_iter().any(|number| number == part) {
        return Err(format!("that {part} bytes were cut off is not reported, but: {}", said.trim_end()));
    }
    let mut whole = bytes[..decoded.whole].to_vec();
    whole.extend(Record::CameUp.encode());
    if contents(file)? != whole {
        return Err("the file is not its whole records and the coming-up".to_string());
    }
    Ok(part > 0)
}

/// Lines with the clock's reading before them and the answers that they get.
pub struct Script {
    pub lines: Vec<(String, String)>,
    pub reading: u64,
}

impl Script {
    pub fn new() -> Script {
        Script { lines: Vec::new(), reading: 0 }
    }

    pub fn later(&mut self, milliseconds: u64) {
        self.reading += milliseconds;
    }

    pub fn say(&mut self, line: &str, answer: &str) {
        self.lines.push((format!("{} {line}", self.reading), answer.to_string()));
    }

    pub fn times(&mut self, count: usize, line: &str) {
        (0..count).for_each(|_| self.say(line, "ok"));
    }

    /// A row with these values in its first three columns.
    pub fn write(&mut self, office: u8, key: u16, first: [u32; 3], claim: &str) {
        let columns: Columns = [first[0], first[1], first[2], u32::MAX, 0, 1, 0x0900_0102, u32::from(key)];
        let numbers: String = columns.iter().map(|c| format!(" {c}")).collect();
        self.say(&format!("{office} write {key}{numbers}{claim}"), "ok");
    }
}

fn make_journal(place: &Place, file: &Path) -> Outcome<()> {
    let mut s = Script::new();
    s.say("0 loan", "loan 1");
    for (key, first) in [(0, 5), (1, 6), (2, 5), (3, 7), (5, 6), (9, 5), (4095, 7)] {
        let second = if key == 5 { 102 } else { 100 + u32::from(key) };
        s.write(0, key, [first, second, 5], "");
    }
    s.say("make 0 0", "ok");
    s.later(10_000);
    s.say("up 0", "ok");
    s.say("1 loan", "loan 1 0=1");
    s.write(1, 2, [6, 102, 6], "");
    s.later(10_000);
    s.say("up 0", "ok");
    s.say("0 loan", "loan 1 0=2");
    s.write(0, 3, [5, 103, 7], " on 1 0=2");
    s.times(100, "fill 0");
    s.write(0, 50, [5, 150, 5], "");
    s.write(0, 200, [6, 300, 5], "");
    s.say("0 off 1", "ok");
    s.times(3996, "fill 0");
    s.later(10_000);
    s.say("up 0", "ok");
    s.say("make 1 1 unique", "ok");
    s.times(2, "up 1");
    s.say("0 loan", "loan 1 0=3 1=2");
    s.write(0, 9, [7, 109, 6], "");
    s.times(5, "fill 1");
    s.say("fill 1", "turned");
    s.write(0, 7, [7, 107, 7], " on 1 0=3 1=2");
    s.say("0 off 3 on 1 0=3 1=2", "ok");
    s.later(10_000);
    s.say("down 1", "ok");
    s.say("make 2 2", "ok");
    s.times(2, "up 2");
    s.say("2 loan", "loan 1 0=3 1=1 2=2");
    s.times(3, "fill 2");
    s.write(2, 11, [5, 111, 5], "");
    s.say("2 off 5", "ok");
    s.times(2, "clear 1");
    place.play(file, &["--clock", "lines"], &s.lines)
}
