//! A hundred thousand made lines, good and bad. Each that isn't skipped gets exactly one answer, of a form that such
//! a line may get; each `ok` and `turned` is one record in the file; and with the clock read from the lines two runs
//! agree byte for byte.

use crate::journal::{decode, Record, Register, Rest};
use crate::random::Random;
use crate::session::{contents, Ended, Outcome, Place};
use std::path::Path;
use std::time::Duration;

const TIMES: [&str; 6] = ["--long", "50", "--short", "20", "--rate", "1000"];
const LONGEST: usize = 4096;

/// What a line is, which says what it may be answered.
#[derive(Clone, Copy, Debug, PartialEq)]
enum Kind {
    /// Empty, or a comment: no answer.
    Skipped,
    /// Cannot be read: `refused 1`.
    Bad,
    /// Any answer of a known form.
    Any,
    Write,
    Off,
    Read,
    Look,
    Loan,
    Make,
    Step,
    Fill,
    Clear,
    Rows,
}

struct Line {
    kind: Kind,
    bytes: Vec<u8>,
    /// How many milliseconds after the line before.
    later: u64,
}

pub fn check(place: &Place, count: usize) -> Outcome<String> {
    let lines = made_lines(count);
    let mut plain = Vec::new();
    let mut timed = Vec::new();
    let mut reading = 0;
    for (at, line) in lines.iter().enumerate() {
        plain.extend_from_slice(&line.bytes);
        plain.push(b'\n');
        reading += line.later;
        if line.kind != Kind::Skipped {
            // Near the end the readings are as large as they get.
            let shown = if at + 20 < lines.len() { reading } else { u64::MAX - (lines.len() - at) as u64 };
            timed.extend_from_slice(format!("{shown} ").as_bytes());
        }
        timed.extend_from_slice(&line.bytes);
        timed.push(b'\n');
    }
    let steady = place.file("steady");
    let by_machine = run(place, &steady, &[], &plain)?;
    judge(place, &steady, &lines, &by_machine).map_err(|why| format!("by the machine's clock: {why}"))?;
    let (one, two) = (place.file("one"), place.file("two"));
    let first = run(place, &one, &["--clock", "lines"], &timed)?;
    let second = run(place, &two, &["--clock", "lines"], &timed)?;
    if first.out != second.out {
        return Err("two runs by the lines' clock give different answers".to_string());
    }
    if contents(&one)? != contents(&two)? {
        return Err("two runs by the lines' clock leave different files".to_string());
    }
    let by_lines = judge(place, &one, &lines, &first).map_err(|why| format!("by the lines' clock: {why}"))?;
    longest_line(place)?;
    if count >= 100_000 {
        must_vary(&by_lines)?;
    }
    Ok(format!(
        "3 runs of {} lines, {} of them skipped: one answer for each other, of a form that it may get ({by_lines}); \
         two runs by the lines' clock alike to the byte",
        lines.len(),
        lines.iter().filter(|line| line.kind == Kind::Skipped).count()
    ))
}

/// A line may have 4,096 bytes; its end is not counted. One that is far longer is refused once.
fn longest_line(place: &Place) -> Outcome<()> {
    let padded = |length: usize| format!("0 read{}5\n", " ".repeat(length - 7));
    let input: String = [LONGEST - 1, LONGEST, LONGEST + 1, 3_000_000, 8].map(padded).concat();
    let lines = place.run(&place.file("longest"), &[], input.as_bytes())?.lines()?;
    let expected = ["up 1", "refused 9", "refused 9", "refused 1", "refused 1", "refused 9"];
    let right = lines.iter().zip(expected).all(|(got, answer)| crate::journal::answers(got, answer));
    if lines.len() != expected.len() || !right {
        return Err(format!("lines of 4095, 4096, 4097, 3000000 and 8 bytes are answered {lines:?}"));
    }
    Ok(())
}

fn run(place: &Place, file: &Path, options: &[&str], input: &[u8]) -> Outcome<Ended> {
    let ended = place.start(file, &[&TIMES, options].concat())?.run(input, Duration::from_secs(60))?;
    ended.must_end_well()?;
    Ok(ended)
}

/// How many of each answer there were: `refused N` by N, `ok`, `turned`, and those that tell something.
#[derive(Default)]
struct Counts {
    refused: [usize; 10],
    ok: usize,
    turned: usize,
    told: usize,
}

impl std::fmt::Display for Counts {
    fn fmt(&self, f: &mut std::fmt::Formatter) -> std::fmt::Result {
        let refused: Vec<String> = (1..10).map(|n| format!("{n}: {}", self.refused[n])).collect();
        write!(f, "{} ok, {} turned, {} told, refused {}", self.ok, self.turned, self.told, refused.join(" "))
    }
}

/// The lines are made so that every answer comes up; that they do shows that the run reached all of the rules.
fn must_vary(counts: &Counts) -> Outcome<()> {
    let none = (1..10).find(|n| counts.refused[*n] == 0);
    if let Some(number) = none {
        return Err(format!("no line was refused by {number}: {counts}"));
    }
    if counts.ok == 0 || counts.turned == 0 || counts.told == 0 {
        return Err(format!("a kind of answer never came: {counts}"));
    }
    Ok(())
}

fn judge(place: &Place, file: &Path, lines: &[Line], ended: &Ended) -> Outcome<Counts> {
    let answers = ended.lines()?;
    let asked: Vec<&Line> = lines.iter().filter(|line| line.kind != Kind::Skipped).collect();
    if answers.first().map(String::as_str) != Some("up 1") {
        return Err("the first line that it printed is not `up 1`".to_string());
    }
    let mut counts = Counts::default();
    for (line, got) in asked.iter().zip(&answers[1..]) {
        let Some(form) = form_of(got) else {
            return Err(format!("{} was answered by no known form: `{got}`", shown(line)));
        };
        if !may_get(line.kind, form) {
            return Err(format!(
                "{} was answered `{got}`, which a line of its kind ({:?}) never is",
                shown(line),
                line.kind
            ));
        }
        match form {
            Form::Ok => counts.ok += 1,
            Form::Turned => counts.turned += 1,
            Form::Refused(number) => counts.refused[number] += 1,
            _ => counts.told += 1,
        }
    }
    if answers.len() != asked.len() + 1 {
        return Err(format!("{} answers to {} lines", answers.len() - 1, asked.len()));
    }
    let decoded = decode(&contents(file)?);
    let records = decoded.records.len();
    if decoded.rest != Rest::Nothing || records != 1 + counts.ok + counts.turned {
        return Err(format!("{records} whole records in the file for the coming-up and {counts}"));
    }
    same_rows(place, file, &decoded.records)?;
    Ok(counts)
}

/// Comes up once more and reads every key.
fn same_rows(place: &Place, file: &Path, records: &[Record]) -> Outcome<()> {
    let register = Register::after(records);
    let input: String = (0..4096).map(|key| format!("0 read {key}\n")).collect();
    let ended = place.run(file, &[], input.as_bytes())?;
    ended.must_end_well()?;
    let answers = ended.lines()?;
    let right = |(key, got): (u16, &String)| crate::journal::answers(got, &register.read(key));
    if answers.len() != 4097 || answers[0] != "up 2" || !(0..4096).zip(&answers[1..]).all(right) {
        return Err("coming up again, the rows are not those of the file's records".to_string());
    }
    Ok(())
}

fn shown(line: &Line) -> String {
    let text = String::from_utf8_lossy(&line.bytes[..line.bytes.len().min(80)]).to_string();
    format!("`{}`{}", text.escape_debug(), if line.bytes.len() > 80 { " and so on" } else { "" })
}

#[derive(Clone, Copy, PartialEq)]
enum Form {
    Ok,
    Turned,
    Row,
    Keys,
    Loan,
    Refused(usize),
}

fn number(word: &str, limit: u64) -> Option<u64> {
    let digits = !word.is_empty() && word.bytes().all(|b| b.is_ascii_digit());
    word.parse().ok().filter(|n| digits && *n < limit)
}

/// The form of an answer, where it is one: words with one space between them, numbers in range, lists rising.
fn form_of(answer: &str) -> Option<Form> {
    let words: Vec<&str> = answer.split(' ').collect();
    let rest = &words[1..];
    let rising = |numbers: &[u64]| numbers.windows(2).all(|pair| pair[0] < pair[1]);
    match words[0] {
        "ok" if rest.is_empty() => Some(Form::Ok),
        "turned" if rest.is_empty() => Some(Form::Turned),
        "row" => {
            let columns: Option<Vec<u64>> = rest.iter().map(|word| number(word, 1 << 32)).collect();
            columns.filter(|c| c.len() == 8).map(|_| Form::Row)
        }
        "keys" => {
            let keys: Option<Vec<u64>> = rest.iter().map(|word| number(word, 4096)).collect();
            keys.filter(|k| rising(k)).map(|_| Form::Keys)
        }
        "loan" => {
            number(rest.first()?, u64::MAX)?;
            let stage = |word: &&str| {
                let (index, stage) = word.split_once('=')?;
                number(stage, 4).filter(|s| *s > 0)?;
                number(index, 8)
            };
            let indexes: Option<Vec<u64>> = rest[1..].iter().map(stage).collect();
            indexes.filter(|i| rising(i)).map(|_| Form::Loan)
        }
        "refused" => number(rest.first()?, 10).filter(|n| *n > 0).map(|n| Form::Refused(n as usize)),
        _ => None,
    }
}

fn may_get(kind: Kind, form: Form) -> bool {
    let refused = |numbers: &[usize]| matches!(form, Form::Refused(n) if numbers.contains(&n));
    match kind {
        Kind::Skipped => false,
        Kind::Bad => refused(&[1]),
        Kind::Any => true,
        Kind::Write => form == Form::Ok || refused(&[2, 4]),
        Kind::Off => form == Form::Ok || refused(&[2, 9]),
        Kind::Read => form == Form::Row || refused(&[9]),
        Kind::Look => form == Form::Keys || refused(&[2, 3]),
        Kind::Loan => form == Form::Loan,
        Kind::Make => form == Form::Ok || refused(&[6]),
        Kind::Step => form == Form::Ok || refused(&[5, 6, 8]),
        Kind::Fill => form == Form::Ok || form == Form::Turned || refused(&[5, 7, 8]),
        Kind::Clear => form == Form::Ok || refused(&[5, 7, 8]),
        Kind::Rows => form == Form::Keys || refused(&[6]),
    }
}

/// Where an index presumably is. The store may know better; a step that doesn't fit is then refused, which is tried
/// as well.
#[derive(Clone, Copy)]
enum Guess {
    Gone,
    Up { stage: u8, unique: bool },
    Filled,
    Down { stage: u8 },
    Cleared,
}

impl Guess {
    /// The next step of the change, how often it is said, and where the index then presumably is.
    fn next(self, index: u64, random: &mut Random) -> (Kind, String, usize, Guess) {
        let step = |word: &str| format!("{word} {index}");
        match self {
            Guess::Gone => {
                let unique = random.once_in(2);
                (Kind::Make, made_index(index, unique, random), 1, Guess::Up { stage: 0, unique })
            }
            Guess::Up { stage: 3, .. } => (Kind::Step, step("turn"), 1, Guess::Down { stage: 3 }),
            Guess::Up { stage: 2, unique: true } => (Kind::Fill, step("fill"), 50, Guess::Down { stage: 2 }),
            Guess::Up { stage: 2, .. } => (Kind::Fill, step("fill"), 4100, Guess::Filled),
            Guess::Up { stage, unique } => (Kind::Step, step("up"), 1, Guess::Up { stage: stage + 1, unique }),
            Guess::Filled => (Kind::Step, step("up"), 1, Guess::Up { stage: 3, unique: false }),
            Guess::Down { stage: 1 } => (Kind::Clear, step("clear"), 4100, Guess::Cleared),
            Guess::Down { stage: 0 } => (Kind::Step, step("down"), 1, Guess::Gone),
            Guess::Down { stage } => (Kind::Step, step("down"), 1, Guess::Down { stage: stage - 1 }),
            Guess::Cleared => (Kind::Step, step("down"), 1, Guess::Down { stage: 0 }),
        }
    }
}

/// Stretches of offices' lines, and between them stretches in which leases may be over and changes go on.
fn made_lines(count: usize) -> Vec<Line> {
    let mut random = Random::new(20_260_101);
    let mut lines = Vec::new();
    let add = |lines: &mut Vec<Line>, (kind, text): (Kind, String), later| {
        lines.push(Line { kind, bytes: text.into_bytes(), later });
    };
    let mut guesses = [Guess::Gone; 8];
    while lines.len() < count {
        // At first the store is quiet after its coming-up; later all leases are over by the end of the pause.
        let pause = if lines.len() < 500 { 0 } else { 60 };
        for _ in 0..1 + random.below(8) {
            let index = random.below(8);
            let (kind, text, times, then) = guesses[index as usize].next(index, &mut random);
            guesses[index as usize] = if pause == 0 && kind != Kind::Make { guesses[index as usize] } else { then };
            for at in 0..times {
                let later = if at == 0 && !random.once_in(4) { pause } else { 0 };
                add(&mut lines, (kind, text.clone()), later);
                if random.once_in(100) {
                    add(&mut lines, office_line(&mut random), 0);
                }
            }
        }
        for _ in 0..300 + random.below(600) {
            let later = u64::from(random.once_in(8));
            if random.once_in(6) {
                let (kind, bytes) = odd_line(&mut random);
                lines.push(Line { kind, bytes, later });
            } else {
                add(&mut lines, office_line(&mut random), later);
            }
        }
    }
    lines.truncate(count);
    lines
}

fn made_index(index: u64, unique: bool, random: &mut Random) -> String {
    format!("make {index} {}{}", random.below(8), if unique { " unique" } else { "" })
}

fn office_line(random: &mut Random) -> (Kind, String) {
    let office = if random.once_in(20) { random.below(64) } else { random.below(4) };
    let key = if random.once_in(10) { random.below(4096) } else { random.below(40) };
    let claim = match random.below(6) {
        0 => " on 1".to_string(),
        1 => format!(" on {} {}={}", random.below(3), random.below(8), 1 + random.below(3)),
        _ => String::new(),
    };
    let value = |random: &mut Random| if random.once_in(8) { random.next() as u32 } else { random.below(30) as u32 };
    match random.below(20) {
        0..=8 => {
            let numbers: String = (0..8).map(|_| format!(" {}", value(random))).collect();
            (Kind::Write, format!("{office} write {key}{numbers}{claim}"))
        }
        9 | 10 => (Kind::Off, format!("{office} off {key}{claim}")),
        11 | 12 => (Kind::Read, format!("{office}  read   {key}")),
        13 | 14 => (Kind::Look, format!("{office} look {} {}{claim}", random.below(8), value(random))),
        15 => (Kind::Rows, format!("rows {} {}", random.below(8), value(random))),
        16 => (Kind::Step, format!("{} {}", random.pick(&["up", "down", "turn"]), random.below(8))),
        17 => (Kind::Fill, format!("fill {}", random.below(8))),
        18 => (Kind::Clear, format!("clear {}", random.below(8))),
        _ => (Kind::Loan, format!("{office} loan")),
    }
}

fn odd_line(random: &mut Random) -> (Kind, Vec<u8>) {
    const SKIPPED: [&str; 4] = ["", "#", "# a comment", "#0 read 5"];
    const BAD: [&str; 46] = [
        "hello",
        "0",
        "0 jump 5",
        "0 READ 5",
        "0 read",
        "0 read 5 6",
        "0 read 4096",
        "0 read -5",
        "0 read +5",
        "0 read 0x5",
        "0 read 5.0",
        "0 read 99999999999999999999999999999999",
        "0 read 5 on 1",
        "64 read 5",
        "18446744073709551616 read 5",
        "read 5",
        "0 write",
        "0 write 5 1 2 3 4 5 6 7",
        "0 write 5 1 2 3 4 5 6 7 8 9",
        "0 write 4096 1 2 3 4 5 6 7 8",
        "0 write 5 1 2 3 4 5 6 7 4294967296",
        "64 write 5 1 2 3 4 5 6 7 8",
        "0 write 5 1 2 3 4 5 6 7 8 on",
        "0 write 5 1 2 3 4 5 6 7 8 on 1 0=4",
        "0 write 5 1 2 3 4 5 6 7 8 on 1 0=2 0=2",
        "0 off",
        "0 off 5 6",
        "0 off 65536",
        "0 off 5 on 1 8=1",
        "0 off 5 on 1 0=",
        "0 off 5 on 1 =2",
        "0 look 0",
        "0 look 8 1",
        "0 look 0 4294967296",
        "0 look 0 1 2",
        "0 loan 1",
        "64 loan",
        "make 0",
        "make 8 0",
        "make 0 8",
        "make 0 0 uniquely",
        "make 0 0 unique 1",
        "up",
        "up 8",
        "fill 0 1",
        "rows 0 4294967296",
    ];
    const ANY: [&str; 7] = [
        "0 read 005",
        " 0 read 5",
        "0 read 5 ",
        "0\tread\t5",
        "0 read 5\r",
        "0 off 5 on 1 1=2 0=2",
        "0 off 5 on 1 0=0",
    ];
    let text = |kind, line: &str| (kind, line.as_bytes().to_vec());
    match random.below(12) {
        0 => text(Kind::Skipped, random.pick(&SKIPPED)),
        1..=6 => text(Kind::Bad, random.pick(&BAD)),
        7 => text(Kind::Any, random.pick(&ANY)),
        8 => (Kind::Bad, [b"0 read ".as_slice(), &[0xff, 0xfe, random.next() as u8 | 0x80]].concat()),
        9 => {
            let noise = (0..1 + random.below(60)).map(|_| random.next() as u8).filter(|b| *b != b'\n');
            (Kind::Bad, [b"\xc3(".to_vec(), noise.collect()].concat())
        }
        10 => (Kind::Bad, b"0 read 5\0".to_vec()),
        _ => {
            let length = [LONGEST - 40, LONGEST + 1, LONGEST + 300, 20_000][random.below(4) as usize];
            let kind = if length < LONGEST { Kind::Read } else { Kind::Bad };
            (kind, format!("0 read{:>1$}", 5, length - 6).into_bytes())
        }
    }
}
