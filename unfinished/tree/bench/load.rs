//! Puts load on a store and measures it; `run` beside it says what to measure and prints the table.
//!
//!     load journal FILE RECORDS                      makes a journal of row records
//!     load one STORE FILE RAW BYTES MILLISECONDS     writes one by one, and appends with a sync each: a turn of each
//!                                                    for each line of its input, answered by a line
//!     load piped STORE FILE SECONDS                  writes, many lines at once
//!     load look STORE FILE SECONDS                   lookups by index 0, many lines at once
//!     load raw RAW BYTES GROUP SECONDS               appends of GROUP records with a sync each
//!     load up STORE FILE                             a coming-up
//!
//! Each prints words NAME=NUMBER.

use std::fs::{File, OpenOptions};
use std::io::{BufRead, BufReader, BufWriter, Read, Write};
use std::os::fd::AsRawFd;
use std::process::{Child, ChildStdin, ChildStdout, Command, Stdio};
use std::time::{Duration, Instant};

type Outcome<T> = Result<T, Box<dyn std::error::Error>>;

const KEYS: u64 = 4096;

/// A lease that outlasts every measurement.
const TIMES: [&str; 6] = ["--long", "100000000", "--short", "90000000", "--rate", "1000"];

fn main() {
    let words: Vec<String> = std::env::args().skip(1).collect();
    let words: Vec<&str> = words.iter().map(String::as_str).collect();
    let outcome = match words[..] {
        ["journal", file, records] => journal(file, records),
        ["one", store, file, raw, bytes, turn] => one_by_one(store, file, raw, bytes, turn),
        ["piped", store, file, seconds] => piped(store, file, seconds, &write_lines(), "ok"),
        ["look", store, file, seconds] => piped(store, file, seconds, &look_lines(), "keys "),
        ["raw", raw, bytes, group, seconds] => raw_groups(raw, bytes, group, seconds),
        ["up", store, file] => come_up(store, file),
        _ => Err("not known; see the head of this file".into()),
    };
    if let Err(why) = outcome {
        eprintln!("load {}: {why}", words.join(" "));
        std::process::exit(1);
    }
}

struct Random(u64);

impl Random {
    fn next(&mut self) -> u64 {
        self.0 ^= self.0 << 13;
        self.0 ^= self.0 >> 7;
        self.0 ^= self.0 << 17;
        self.0
    }
}

/// The value that a made row has in a column: no two have one.
fn value(key: u64, column: u64) -> u32 {
    ((key * 8 + column) as u32).wrapping_mul(2_654_435_761)
}

/// A journal of a coming-up and of rows, each key in turn, with no index.
fn journal(file: &str, records: &str) -> Outcome<()> {
    let mut out = BufWriter::new(File::create(file)?);
    out.write_all(&[9])?;
    for at in 0..records.parse::<u64>()? {
        let key = at % KEYS;
        let mut record = vec![1];
        record.extend((key as u16).to_be_bytes());
        (0..8).for_each(|column| record.extend(value(key, column).to_be_bytes()));
        record.push(0);
        out.write_all(&record)?;
    }
    let file = out.into_inner()?;
    file.sync_all()?;
    println!("bytes={}", file.metadata()?.len());
    Ok(())
}

fn write_line(random: &mut Random, into: &mut String) {
    into.push_str(&format!("0 write {}", random.next() % KEYS));
    for _ in 0..8 {
        into.push_str(&format!(" {}", random.next() as u32));
    }
    into.push('\n');
}

const LINES: usize = 50_000;

fn write_lines() -> String {
    let mut random = Random(88_172_645_463_325_252);
    let mut lines = String::new();
    (0..LINES).for_each(|_| write_line(&mut random, &mut lines));
    lines
}

fn look_lines() -> String {
    let mut random = Random(362_436_069);
    (0..LINES).map(|_| format!("0 look 0 {}\n", value(random.next() % KEYS, 0))).collect()
}

const F_SETPIPE_SZ: i32 = 1031;

extern "C" {
    fn fcntl(fd: i32, command: i32, argument: i32) -> i32;
}

/// A store that has come up.
struct Store {
    child: Child,
    input: ChildStdin,
    output: BufReader<ChildStdout>,
}

impl Store {
    fn start(store: &str, file: &str) -> Outcome<Store> {
        let mut command = Command::new(store);
        command.arg("--file").arg(file).args(TIMES).stdin(Stdio::piped()).stdout(Stdio::piped());
        let mut child = command.spawn()?;
        let input = child.stdin.take().ok_or("no input")?;
        // Where it may be had, the pipe takes a megabyte of lines, so that the store finds many at once.
        unsafe { fcntl(input.as_raw_fd(), F_SETPIPE_SZ, 1 << 20) };
        let output = BufReader::with_capacity(1 << 16, child.stdout.take().ok_or("no output")?);
        let mut store = Store { child, input, output };
        store.must_get("up ")?;
        Ok(store)
    }

    fn line(&mut self) -> Outcome<String> {
        let mut line = String::new();
        self.output.read_line(&mut line)?;
        Ok(line)
    }

    fn must_get(&mut self, begin: &str) -> Outcome<String> {
        let line = self.line()?;
        if line.starts_with(begin) {
            Ok(line)
        } else {
            Err(format!("`{}` and not `{begin}`", line.trim_end()).into())
        }
    }

    fn ask(&mut self, line: &str, begin: &str) -> Outcome<String> {
        self.input.write_all(line.as_bytes())?;
        self.must_get(begin)
    }

    /// A number out of a file of /proc about it.
    fn proc_number(&self, file: &str, name: &str) -> Outcome<u64> {
        let text = std::fs::read_to_string(format!("/proc/{}/{file}", self.child.id()))?;
        let line = text.lines().find(|line| line.starts_with(name)).ok_or("not in /proc")?;
        Ok(line.split_whitespace().nth(1).ok_or("not in /proc")?.parse()?)
    }

    /// The most memory that it ever had, in kB.
    fn most_memory(&self) -> Outcome<u64> {
        self.proc_number("status", "VmHWM:")
    }

    fn end(self) -> Outcome<()> {
        let Store { mut child, input, mut output } = self;
        drop(input);
        output.read_to_end(&mut Vec::new())?;
        if child.wait()?.success() {
            Ok(())
        } else {
            Err("the store did not end well".into())
        }
    }
}

fn appended(raw: &str) -> Outcome<File> {
    Ok(OpenOptions::new().create(true).append(true).open(raw)?)
}

/// In short turns, so that both meet the same disk.
fn one_by_one(store: &str, file: &str, raw: &str, bytes: &str, turn: &str) -> Outcome<()> {
    let mut store = Store::start(store, file)?;
    store.ask("0 loan\n", "loan ")?;
    let mut raw = appended(raw)?;
    let record = vec![1; bytes.parse()?];
    let turn = Duration::from_millis(turn.parse()?);
    let mut random = Random(88_172_645_463_325_252);
    let (mut writes, mut appends) = (0, 0);
    let (mut write_time, mut append_time) = (Duration::ZERO, Duration::ZERO);
    let mut line = String::new();
    for asked in std::io::stdin().lines() {
        asked?;
        let begin = Instant::now();
        while begin.elapsed() < turn {
            line.clear();
            write_line(&mut random, &mut line);
            store.ask(&line, "ok")?;
            writes += 1;
        }
        write_time += begin.elapsed();
        let begin = Instant::now();
        while begin.elapsed() < turn {
            raw.write_all(&record)?;
            raw.sync_data()?;
            appends += 1;
        }
        append_time += begin.elapsed();
        println!("turn");
    }
    println!("store={} raw={}", rate(writes, write_time), rate(appends, append_time));
    store.end()
}

fn rate(count: usize, time: Duration) -> f64 {
    count as f64 / time.as_secs_f64()
}

/// Sends the lines over and over for some time, and counts the answers, each of which must begin so.
fn piped(store: &str, file: &str, seconds: &str, lines: &str, begin: &str) -> Outcome<()> {
    let mut store = Store::start(store, file)?;
    store.ask("0 loan\n", "loan ")?;
    let before = store.proc_number("io", "syscw:").unwrap_or(0);
    let time = Duration::from_secs_f64(seconds.parse()?);
    let started = Instant::now();
    let Store { child, mut input, mut output } = store;
    let mut answered = 0;
    let (input, sent) = std::thread::scope(|scope| -> Outcome<(ChildStdin, usize)> {
        let sender = scope.spawn(move || {
            let mut sent = 0;
            while started.elapsed() < time && input.write_all(lines.as_bytes()).is_ok() {
                sent += LINES;
            }
            // A line that marks the end: its answer is unlike the others.
            let _ = input.write_all(b"end\n");
            (input, sent)
        });
        let mut line = String::new();
        loop {
            line.clear();
            output.read_line(&mut line)?;
            if line.starts_with("refused 1") {
                break;
            }
            if !line.starts_with(begin) {
                return Err(format!("`{}` and not `{begin}`", line.trim_end()).into());
            }
            answered += 1;
        }
        sender.join().map_err(|_| "the sender failed".into())
    })?;
    let elapsed = started.elapsed();
    if answered != sent {
        return Err(format!("{answered} answers to {sent} lines").into());
    }
    let store = Store { child, input, output };
    // A group has one write to the journal and one of the answers.
    let groups = (store.proc_number("io", "syscw:").unwrap_or(0) - before) / 2;
    let kilobytes = store.most_memory()?;
    println!("rate={} lines={sent} groups={groups} kb={kilobytes}", rate(answered, elapsed));
    store.end()
}

fn raw_groups(raw: &str, bytes: &str, group: &str, seconds: &str) -> Outcome<()> {
    let mut raw = appended(raw)?;
    let group: usize = group.parse()?;
    let records = vec![1; bytes.parse::<usize>()? * group];
    let time = Duration::from_secs_f64(seconds.parse()?);
    let begin = Instant::now();
    let mut appended = 0;
    while begin.elapsed() < time {
        raw.write_all(&records)?;
        raw.sync_data()?;
        appended += group;
    }
    println!("rate={}", rate(appended, begin.elapsed()));
    Ok(())
}

/// From the start of the program to its first line.
fn come_up(store: &str, file: &str) -> Outcome<()> {
    let begin = Instant::now();
    let store = Store::start(store, file)?;
    let seconds = begin.elapsed().as_secs_f64();
    println!("seconds={seconds} kb={}", store.most_memory()?);
    store.end()
}
