//! The file may not grow beyond a limit, so that a write fails in the middle of a group. Nothing is answered `ok`
//! that is not in the file afterwards, the store ends with status 1 and says why, and without the limit it comes up
//! again.

use crate::journal::{answers, decode, Columns, Record, Register};
use crate::session::{contents, put_contents, Ended, Outcome, Place, Session, PATIENCE};
use std::os::unix::process::CommandExt;
use std::path::Path;
use std::time::Instant;

#[repr(C)]
struct Limit {
    soft: u64,
    hard: u64,
}

const RLIMIT_FSIZE: i32 = 1;
const SIGXFSZ: i32 = 25;
const SIG_IGN: usize = 1;

extern "C" {
    fn setrlimit(resource: i32, limit: *const Limit) -> i32;
    fn signal(number: i32, handler: usize) -> usize;
}

/// How many bytes a row's record has where no index is there.
const RECORD: u64 = 36;
const ROWS: usize = 400;

pub fn check(place: &Place) -> Outcome<String> {
    let file = place.file("full");
    let limits = [
        (0, 1),
        (1, 1),
        (2, 1),
        (1 + 3 * RECORD, 1),
        (1 + 5 * RECORD + 1, 1),
        (1 + 10 * RECORD, 20),
        (1 + 10 * RECORD + 35, 20),
        (1 + 47 * RECORD + 18, 20),
        (1 + 100 * RECORD + 3, 64),
        (1 + 200 * RECORD + 17, ROWS),
        (1 + 399 * RECORD + 35, ROWS),
    ];
    let (mut answered, mut cut) = (0, 0);
    for (limit, group) in limits {
        let what = format!("a limit of {limit} bytes, groups of {group}");
        let (oks, part) = fill_up(place, &file, limit, group).map_err(|why| format!("{what}: {why}"))?;
        answered += oks;
        cut += usize::from(part);
    }
    no_room_to_come_up(place, &file).map_err(|why| format!("no room for the coming-up: {why}"))?;
    Ok(format!(
        "{} limits, {answered} writes answered and all there, {cut} part records cut off in coming up again",
        limits.len() + 1
    ))
}

fn columns(row: usize) -> Columns {
    [row as u32, 1, 2, 3, 4, 5, 6, u32::MAX]
}

fn line(row: usize) -> String {
    let numbers: String = columns(row).iter().map(|c| format!(" {c}")).collect();
    format!("0 write {row}{numbers}\n")
}

/// Starts a store whose files may not grow beyond the limit.
fn start_limited(place: &Place, file: &Path, limit: u64) -> Outcome<Session> {
    let mut command = place.command(file, &[]);
    let limited = move || {
        let limit = Limit { soft: limit, hard: limit };
        // Ignored, the signal leaves the failed write to the program.
        let set = unsafe { signal(SIGXFSZ, SIG_IGN) != usize::MAX && setrlimit(RLIMIT_FSIZE, &limit) == 0 };
        if set {
            Ok(())
        } else {
            Err(std::io::Error::last_os_error())
        }
    };
    unsafe { command.pre_exec(limited) };
    Session::start(&mut command)
}

/// Writes rows in groups until it gives up; tells how many were answered, and whether a part record was left.
fn fill_up(place: &Place, file: &Path, limit: u64, group: usize) -> Outcome<(usize, bool)> {
    let _ = std::fs::remove_file(file);
    let mut session = start_limited(place, file, limit)?;
    let mut input = String::from("0 loan\n");
    let mut sent = 0;
    let mut lines = Vec::new();
    let ended: Ended = loop {
        (sent..ROWS.min(sent + group)).for_each(|row| input.push_str(&line(row)));
        sent = ROWS.min(sent + group);
        session.send(input.as_bytes());
        input.clear();
        // The next group follows when all of this one is answered.
        let until = Instant::now() + PATIENCE;
        while session.printed().iter().filter(|b| **b == b'\n').count() + lines.len() < sent + 2 && !session.is_silent()
        {
            if Instant::now() >= until {
                return Err("neither answers nor an end came in time".to_string());
            }
            session.step(until);
        }
        while session.printed().contains(&b'\n') {
            lines.push(session.line()?);
        }
        if session.is_silent() || sent == ROWS {
            break session.finish(PATIENCE)?;
        }
    };
    lines.extend(ended.lines()?);
    ended.must_give_up()?;
    let bytes = contents(file)?;
    let decoded = decode(&bytes);
    let rows = decoded.records.iter().filter(|record| matches!(record, Record::Put { .. })).count();
    let mut expected = Record::CameUp.encode();
    (0..ROWS).for_each(|row| {
        expected.extend(Record::Put { key: row as u16, columns: columns(row), stages: Vec::new() }.encode())
    });
    if bytes.len() as u64 > limit || !expected.starts_with(&bytes) {
        return Err("the file is no first part of what was to be written".to_string());
    }
    for (at, got) in lines.iter().enumerate() {
        let answer = ["up 1", "loan 1"].get(at).copied().unwrap_or("ok");
        if got != answer || at >= 2 + rows || (at == 0 && bytes.is_empty()) {
            return Err(format!("answer {at} is `{got}`, with {rows} whole rows in the file"));
        }
    }
    come_up_again(place, file, &bytes)?;
    Ok((lines.len().saturating_sub(2), bytes.len() > decoded.whole))
}

/// Without the limit it comes up with the whole records, and takes a write.
fn come_up_again(place: &Place, file: &Path, bytes: &[u8]) -> Outcome<()> {
    let register = Register::after(&decode(bytes).records);
    let mut session = place.start(file, &[])?;
    session.must_answer("coming up", &format!("up {}", register.epoch + 1))?;
    for row in 0..ROWS as u16 {
        session.send(format!("0 read {row}\n").as_bytes());
    }
    for row in 0..ROWS as u16 {
        session.must_answer(&format!("0 read {row}"), &register.read(row))?;
    }
    for line in ["0 loan".to_string(), line(0).trim_end().to_string()] {
        let got = session.ask(&line)?;
        if !answers(&got, "ok") && !got.starts_with("loan ") {
            return Err(format!("without the limit `{line}` was answered `{got}`"));
        }
    }
    session.finish(PATIENCE)?.must_end_well()
}

/// A file that may not grow at all: no coming-up, and nothing is lost.
fn no_room_to_come_up(place: &Place, file: &Path) -> Outcome<()> {
    let mut bytes = Record::CameUp.encode();
    (0..3).for_each(|row| {
        bytes.extend(Record::Put { key: row, columns: columns(row.into()), stages: Vec::new() }.encode())
    });
    put_contents(file, &bytes)?;
    let ended = start_limited(place, file, bytes.len() as u64)?.run(b"0 loan\n", PATIENCE)?;
    ended.must_give_up()?;
    if ended.lines()?.iter().any(|line| !answers(line, "refused 1")) {
        return Err("it answered without having come up".to_string());
    }
    if contents(file)? != bytes {
        return Err("the file was changed".to_string());
    }
    come_up_again(place, file, &bytes)
}
