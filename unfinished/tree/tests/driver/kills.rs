//! The store is killed under load, over and over on one file. After each coming-up the rows are those after every
//! answered line and after some first part, in order, of the lines that were sent and got no answer.
//!
//! Index 0 (column 0) is public and index 1 (column 1, unique) is write-only all the while, so that each line's
//! answer is known beforehand: a value of column 1 that another row has is refused by 4, and a look by index 0 finds
//! what the rows say.

use crate::journal::{answers, decode, Columns, Record, Register, Rest, Stages};
use crate::random::Random;
use crate::session::{contents, Outcome, Place, Session, PATIENCE};
use std::ops::RangeInclusive;
use std::path::Path;
use std::time::{Duration, Instant};

const OFFICES: u64 = 4;
const KEYS: [u16; 24] =
    [0, 1, 2, 3, 7, 15, 30, 31, 32, 33, 63, 64, 65, 100, 255, 256, 1000, 1023, 1024, 2047, 2048, 4000, 4094, 4095];

/// A line that was sent: the answer that it must get, and what it does to the rows.
struct Sent {
    line: String,
    answer: String,
    record: Option<Record>,
}

pub fn check(place: &Place, kills: usize) -> Outcome<String> {
    let file = place.file("killed");
    let mut random = Random::new(Random::any_seed());
    make_indexes(place, &file)?;
    let mut rows = Register::default();
    let mut unanswered: Vec<Sent> = Vec::new();
    // Which epochs may be next.
    let mut next = 2..=2;
    let (mut answered, mut lost, mut early) = (0, 0, 0);
    for life in 0..=kills {
        let after = |why| format!("after {life} kills: {why}");
        let (mut session, written) = come_up(place, &file, &next).map_err(after)?;
        let epoch = written.epoch;
        let (found, done) = find(&mut session, &rows, &unanswered).map_err(after)?;
        if found.rows != written.rows {
            return Err(after("the rows are not those of the file's records".to_string()));
        }
        lost += unanswered.len() - done;
        rows = found;
        if life == kills {
            session.finish(PATIENCE)?.must_end_well()?;
            break;
        }
        let (mut sent, count) = load_and_kill(&mut session, epoch, &rows, &mut random)?;
        unanswered = sent.split_off(count);
        sent.iter().flat_map(|line| &line.record).for_each(|record| rows.apply(record));
        answered += count;
        next = epoch + 1..=epoch + 1;
        if random.once_in(4) {
            // Killed while it comes up: its coming-up may or may not be in the file.
            let mut session = place.start(&file, &[])?;
            std::thread::sleep(Duration::from_micros(random.below(4000)));
            session.kill()?;
            next = epoch + 1..=epoch + 2;
            early += 1;
        }
    }
    Ok(format!(
        "{kills} kills under load and {early} in coming up, on one file; {answered} answered lines all there, \
         {lost} of the unanswered not done, none out of order"
    ))
}

fn make_indexes(place: &Place, file: &Path) -> Outcome<()> {
    let mut script = vec![("0 make 0 0", 1), ("0 make 1 1 unique", 1), ("10000 up 0", 2), ("10000 fill 0", 4096)];
    script.extend([("10000 up 0", 1), ("10000 up 1", 2)]);
    let lines = script.iter().flat_map(|(line, times)| vec![(line.to_string(), "ok".to_string()); *times]);
    place.play(file, &["--clock", "lines"], &lines.collect::<Vec<_>>())
}

fn stages() -> Stages {
    vec![(0, 3), (1, 2)]
}

/// Starts it. Its epoch is one more than the file has, and one of those that may be next; a part record is cut off.
/// Gives what the file says that it came up with.
fn come_up(place: &Place, file: &Path, next: &RangeInclusive<u64>) -> Outcome<(Session, Register)> {
    let before = contents(file)?;
    let decoded = decode(&before);
    if decoded.rest == Rest::Bad {
        return Err(format!("at byte {} the file has no record", decoded.whole));
    }
    let mut register = Register::after(&decoded.records);
    register.apply(&Record::CameUp);
    let epoch = register.epoch;
    let mut session = place.start(file, &[])?;
    session.must_answer("coming up", &format!("up {epoch}"))?;
    if !next.contains(&epoch) {
        return Err(format!("it came up as {epoch}, and {} is next", next.start()));
    }
    let mut whole = before[..decoded.whole].to_vec();
    whole.extend(Record::CameUp.encode());
    if contents(file)? != whole {
        return Err("having come up, the file is not its whole records and the coming-up".to_string());
    }
    Ok((session, register))
}

/// Reads every key, and finds after how many of the unanswered lines the rows are these.
fn find(session: &mut Session, rows: &Register, unanswered: &[Sent]) -> Outcome<(Register, usize)> {
    let mut lines = String::new();
    KEYS.iter().for_each(|key| lines.push_str(&format!("9 read {key}\n")));
    session.send(lines.as_bytes());
    let mut got = Vec::new();
    for _ in KEYS {
        got.push(session.line()?);
    }
    let mut register = rows.clone();
    for done in 0..=unanswered.len() {
        if KEYS.iter().zip(&got).all(|(key, answer)| answers(answer, &register.read(*key))) {
            return Ok((register, done));
        }
        if let Some(record) = unanswered.get(done).and_then(|sent| sent.record.as_ref()) {
            register.apply(record);
        }
    }
    let text = KEYS.iter().zip(&got).find(|(key, answer)| !answers(answer, &rows.read(**key)));
    let text = text.map_or(String::new(), |(key, answer)| {
        format!("; key {key} reads `{answer}`, after the answered lines it was `{}`", rows.read(*key))
    });
    let count = unanswered.len();
    Err(format!("the rows are those after no first part of the {count} unanswered lines{text}"))
}

/// Sends lines without end, kills the store at some moment, and gives back what was sent and how many got their
/// answers.
fn load_and_kill(
    session: &mut Session,
    epoch: u64,
    rows: &Register,
    random: &mut Random,
) -> Outcome<(Vec<Sent>, usize)> {
    let loan = format!("loan {epoch} 0=3 1=2");
    for office in 0..OFFICES {
        let line = format!("{office} loan");
        let got = session.ask(&line)?;
        if got != loan {
            return Err(format!("`{line}` was answered `{got}` and not `{loan}`"));
        }
    }
    let window = *random.pick(&[&1, &8, &100, &3000]);
    let end = Instant::now() + Duration::from_micros(random.below(50_000));
    let mut model = rows.clone();
    let mut sent: Vec<Sent> = Vec::new();
    let mut answered = 0;
    while Instant::now() < end {
        if sent.len() < answered + window && session.unsent() == 0 {
            let group = 1 + random.below((answered + window - sent.len()) as u64);
            for _ in 0..group {
                let next = made_line(epoch, &model, random);
                session.send(next.line.as_bytes());
                session.send(b"\n");
                next.record.iter().for_each(|record| model.apply(record));
                sent.push(next);
            }
        }
        session.step(end);
        while session.printed().contains(&b'\n') {
            take_answer(&session.line()?, &sent, &mut answered)?;
        }
        if session.is_silent() {
            return Err("it ended by itself under load".to_string());
        }
    }
    let ended = session.kill()?;
    let whole = ended.out.iter().rposition(|b| *b == b'\n').map_or(0, |at| at + 1);
    for line in crate::session::whole_lines(&ended.out[..whole])? {
        take_answer(&line, &sent, &mut answered)?;
    }
    Ok((sent, answered))
}

fn take_answer(got: &str, sent: &[Sent], answered: &mut usize) -> Outcome<()> {
    let Some(Sent { line, answer, .. }) = sent.get(*answered) else {
        return Err(format!("`{got}` answers no line"));
    };
    if !answers(got, answer) {
        return Err(format!("`{line}` was answered `{got}` and not `{answer}`"));
    }
    *answered += 1;
    Ok(())
}

fn made_line(epoch: u64, model: &Register, random: &mut Random) -> Sent {
    let office = random.below(OFFICES);
    let key = KEYS[random.below(KEYS.len() as u64) as usize];
    let (claim, holds) = match random.below(20) {
        0 => (format!(" on {} 0=3 1=2", epoch - 1), false),
        1 => (format!(" on {epoch} 0=2 1=2"), false),
        2..=9 => (format!(" on {epoch} 0=3 1=2"), true),
        _ => (String::new(), true),
    };
    let (line, answer, record) = match random.below(12) {
        0 => (format!("{office} read {key}"), model.read(key), None),
        1 => {
            let value = random.below(6) as u32;
            (format!("{office} look 0 {value}{claim}"), model.look(0, value), None)
        }
        2 | 3 => {
            let there = model.rows.contains_key(&key);
            let record = there.then(|| Record::Off { key, stages: stages() });
            (format!("{office} off {key}{claim}"), if there { "ok" } else { "refused 9" }.to_string(), record)
        }
        _ => {
            let mut columns: Columns = [0; 8].map(|_: u32| random.next() as u32);
            columns[0] = random.below(6) as u32;
            columns[1] = random.below(200) as u32;
            let taken = model.rows.iter().any(|(other, row)| *other != key && row[1] == columns[1]);
            let numbers: String = columns.iter().map(|c| format!(" {c}")).collect();
            let record = (!taken).then(|| Record::Put { key, columns, stages: stages() });
            (
                format!("{office} write {key}{numbers}{claim}"),
                if taken { "refused 4" } else { "ok" }.to_string(),
                record,
            )
        }
    };
    if holds || line.contains("read") {
        return Sent { line, answer, record };
    }
    Sent { line, answer: "refused 2".to_string(), record: None }
}
