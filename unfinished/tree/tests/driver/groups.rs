//! When an answer arrives, its record is in the file already: for lines that are sent one at a time and for many sent
//! at once. And no answer leaves the program between a write to the file and the sync that follows it, which `strace`
//! shows where it is there.

use crate::journal::{Columns, Record};
use crate::random::Random;
use crate::session::{contents, Outcome, Place, Session, PATIENCE};
use std::path::Path;
use std::process::Command;
use std::time::Instant;

pub fn check(place: &Place) -> Outcome<String> {
    let file = place.file("grouped");
    let mut random = Random::new(7);
    let mut session = place.start(&file, &[])?;
    session.must_answer("coming up", "up 1")?;
    let mut journal = Record::CameUp.encode();
    if contents(&file)? != journal {
        return Err("`up 1` came before the coming-up was in the file".to_string());
    }
    session.ask("0 loan")?;
    let sizes = [1; 100].into_iter().chain([2, 3, 10, 100, 1000, 5000, 1, 500]);
    let (mut groups, mut lines) = (0, 0);
    for size in sizes {
        send_group(&mut session, &file, &mut journal, size, &mut random)
            .map_err(|why| format!("in a group of {size}: {why}"))?;
        groups += 1;
        lines += size;
    }
    // A line that is still on its way holds up no answer.
    session.send(b"0 read 4096\n0 re");
    session.must_answer("0 read 4096", "refused 1")?;
    session.send(b"ad 4096\n");
    session.must_answer("0 read 4096", "refused 1")?;
    session.finish(PATIENCE)?.must_end_well()?;
    if contents(&file)? != journal {
        return Err("at the end the file is not the answered records".to_string());
    }
    let syncs = order_of_syncs(place, &mut random)?;
    Ok(format!(
        "{lines} writes in {groups} groups of 1 to 5000, one at a time among them: no answer before its record; {syncs}"
    ))
}

/// Lets `strace` write down what the store does, and reads the order of writes, syncs and answers in it.
fn order_of_syncs(place: &Place, random: &mut Random) -> Outcome<String> {
    let (file, trace) = (place.file("traced"), place.file("trace"));
    let calls = "trace=write,writev,pwrite64,pwritev,pwritev2,fsync,fdatasync,ftruncate";
    let mut command = Command::new("strace");
    command.args(["-f", "-y", "-e", calls, "-o"]).arg(&trace).arg(&place.store).arg("--file").arg(&file);
    let Ok(mut session) = Session::start(&mut command) else {
        return Ok("order of syncs not looked at: no strace".to_string());
    };
    if session.line().is_err() {
        return Ok("order of syncs not looked at: strace may not trace here".to_string());
    }
    session.ask("0 loan")?;
    let mut journal = Record::CameUp.encode();
    for size in [1, 1, 1, 50, 500, 3000, 1] {
        send_group(&mut session, &file, &mut journal, size, random)?;
    }
    session.finish(PATIENCE)?.must_end_well()?;
    let text = String::from_utf8_lossy(&contents(&trace)?).to_string();
    let (mut unsynced, mut syncs, mut answers) = (false, 0, 0);
    for line in text.lines() {
        let call = line.trim_start_matches(|c: char| c.is_ascii_digit() || c == ' ');
        let on_file = call.contains(&format!("<{}>", file.display()));
        if on_file && (call.starts_with("fsync(") || call.starts_with("fdatasync(")) {
            unsynced = false;
            syncs += 1;
        } else if on_file {
            unsynced = true;
        } else if call.starts_with("write(1<") || call.starts_with("writev(1<") {
            answers += 1;
            if unsynced {
                return Err(format!("answers went out before the file was synced: {call}"));
            }
        }
    }
    if syncs < 8 || answers < 8 {
        return Err(format!("{syncs} syncs and {answers} writes of answers for a coming-up and 7 groups"));
    }
    Ok(format!("{syncs} syncs, each before the answers to what it synced"))
}

fn send_group(
    session: &mut Session,
    file: &Path,
    journal: &mut Vec<u8>,
    size: usize,
    random: &mut Random,
) -> Outcome<()> {
    let mut ends = Vec::new();
    let mut input = String::new();
    for _ in 0..size {
        let key = random.below(4096) as u16;
        let columns: Columns = [0; 8].map(|_: u32| random.next() as u32);
        let numbers: String = columns.iter().map(|c| format!(" {c}")).collect();
        input.push_str(&format!("0 write {key}{numbers}\n"));
        journal.extend(Record::Put { key, columns, stages: Vec::new() }.encode());
        ends.push(journal.len());
    }
    session.send(input.as_bytes());
    let mut answered = 0;
    let until = Instant::now() + PATIENCE;
    while answered < size {
        session.step(until);
        let arrived = answered + session.printed().iter().filter(|b| **b == b'\n').count();
        if arrived > answered {
            let there = contents(file)?;
            let end = *ends.get(arrived - 1).ok_or("more answers than lines")?;
            if there.len() < end || there[..end] != journal[..end] {
                return Err(format!("answer {arrived} arrived and the file has {} of {end} bytes", there.len()));
            }
        }
        while answered < arrived {
            session.must_answer("a write", "ok")?;
            answered += 1;
        }
        if session.is_silent() || Instant::now() >= until {
            return Err(format!("only {answered} answers came"));
        }
    }
    Ok(())
}
