//! The bytes of the journal, decoded and encoded here on their own, and what its records leave: rows, the stage of each
//! index, and the number of comings-up. Numbers have their high byte first.
//!
//! | first byte | then |
//! |---|---|
//! | 1 row put | key (2), eight columns (4 each), a stage list |
//! | 2 row taken away | key (2), a stage list |
//! | 3 index made | index (1), column (1), 1 if unique, else 0 (1) |
//! | 4 went up, 5 turned, 6 went down | index (1) |
//! | 7 filled, 8 cleared | index (1), key (2) |
//! | 9 came up | |
//!
//! A stage list is how many stages that aren't 0 (1), and for each its index (1) and stage (1), rising by index.

use std::collections::BTreeMap;

pub const KEYS: u16 = 4096;
pub const INDEXES: u8 = 8;
pub const COLUMNS: u8 = 8;

pub type Columns = [u32; 8];
pub type Rows = BTreeMap<u16, Columns>;
pub type Stages = Vec<(u8, u8)>;

#[derive(Clone, Debug, PartialEq)]
pub enum Record {
    Put { key: u16, columns: Columns, stages: Stages },
    Off { key: u16, stages: Stages },
    Made { index: u8, column: u8, unique: bool },
    WentUp(u8),
    Turned(u8),
    WentDown(u8),
    Filled(u8, u16),
    Cleared(u8, u16),
    CameUp,
}

impl Record {
    pub fn encode(&self) -> Vec<u8> {
        let mut bytes = Vec::new();
        match self {
            Record::Put { key, columns, stages } => {
                bytes.push(1);
                bytes.extend(key.to_be_bytes());
                columns.iter().for_each(|c| bytes.extend(c.to_be_bytes()));
                encode_stages(stages, &mut bytes);
            }
            Record::Off { key, stages } => {
                bytes.push(2);
                bytes.extend(key.to_be_bytes());
                encode_stages(stages, &mut bytes);
            }
            Record::Made { index, column, unique } => bytes.extend([3, *index, *column, u8::from(*unique)]),
            Record::WentUp(index) => bytes.extend([4, *index]),
            Record::Turned(index) => bytes.extend([5, *index]),
            Record::WentDown(index) => bytes.extend([6, *index]),
            Record::Filled(index, key) => {
                bytes.extend([7, *index]);
                bytes.extend(key.to_be_bytes());
            }
            Record::Cleared(index, key) => {
                bytes.extend([8, *index]);
                bytes.extend(key.to_be_bytes());
            }
            Record::CameUp => bytes.push(9),
        }
        bytes
    }
}

fn encode_stages(stages: &Stages, bytes: &mut Vec<u8>) {
    bytes.push(stages.len() as u8);
    stages.iter().for_each(|(index, stage)| bytes.extend([*index, *stage]));
}

/// What follows the last whole record.
#[derive(Clone, Copy, Debug, PartialEq)]
pub enum Rest {
    Nothing,
    /// The first bytes of a record.
    Part,
    /// A first byte that isn't known, or a whole record that is out of range.
    Bad,
}

pub struct Decoded {
    pub records: Vec<Record>,
    /// How many bytes the whole records have.
    pub whole: usize,
    pub rest: Rest,
}

/// Takes the bytes apart, up to the first that are no whole record in range.
pub fn decode(bytes: &[u8]) -> Decoded {
    let mut records = Vec::new();
    let mut at = 0;
    let rest = loop {
        if at == bytes.len() {
            break Rest::Nothing;
        }
        match first_record(&bytes[at..]) {
            Ok((record, length)) => {
                records.push(record);
                at += length;
            }
            Err(rest) => break rest,
        }
    };
    Decoded { records, whole: at, rest }
}

fn first_record(bytes: &[u8]) -> Result<(Record, usize), Rest> {
    let fixed = match bytes[0] {
        1 => 36,
        2 | 3 | 7 | 8 => 4,
        4 | 5 | 6 => 2,
        9 => 1,
        _ => return Err(Rest::Bad),
    };
    if bytes.len() < fixed {
        return Err(Rest::Part);
    }
    let listed = if bytes[0] <= 2 { 2 * usize::from(bytes[fixed - 1]) } else { 0 };
    let length = fixed + listed;
    if bytes.len() < length {
        return Err(Rest::Part);
    }
    let stages = || stages_in_range(&bytes[fixed..length]);
    let key = |at: usize| below(u16::from_be_bytes([bytes[at], bytes[at + 1]]), KEYS);
    let index = || below(bytes[1], INDEXES);
    let record = match bytes[0] {
        1 => {
            let column = |c: usize| u32::from_be_bytes([3, 4, 5, 6].map(|b| bytes[4 * c + b]));
            Record::Put { key: key(1)?, columns: [0, 1, 2, 3, 4, 5, 6, 7].map(column), stages: stages()? }
        }
        2 => Record::Off { key: key(1)?, stages: stages()? },
        3 => Record::Made { index: index()?, column: below(bytes[2], COLUMNS)?, unique: below(bytes[3], 2)? == 1 },
        4 => Record::WentUp(index()?),
        5 => Record::Turned(index()?),
        6 => Record::WentDown(index()?),
        7 => Record::Filled(index()?, key(2)?),
        8 => Record::Cleared(index()?, key(2)?),
        _ => Record::CameUp,
    };
    Ok((record, length))
}

fn below<N: PartialOrd>(number: N, limit: N) -> Result<N, Rest> {
    if number < limit {
        Ok(number)
    } else {
        Err(Rest::Bad)
    }
}

fn stages_in_range(bytes: &[u8]) -> Result<Stages, Rest> {
    let mut stages = Stages::new();
    for pair in bytes.chunks(2) {
        let rises = stages.last().map_or(true, |(before, _)| *before < pair[0]);
        if !rises || pair[0] >= INDEXES || pair[1] == 0 || pair[1] > 3 {
            return Err(Rest::Bad);
        }
        stages.push((pair[0], pair[1]));
    }
    Ok(stages)
}

/// What a journal leaves, as far as it can be told without the entries of its indexes.
#[derive(Clone, Default, PartialEq)]
pub struct Register {
    pub rows: Rows,
    /// The column and the stage of each index that is there.
    pub indexes: BTreeMap<u8, (u8, u8)>,
    pub epoch: u64,
}

impl Register {
    pub fn after(records: &[Record]) -> Register {
        let mut register = Register::default();
        records.iter().for_each(|record| register.apply(record));
        register
    }

    pub fn apply(&mut self, record: &Record) {
        match record {
            Record::Put { key, columns, .. } => {
                self.rows.insert(*key, *columns);
            }
            Record::Off { key, .. } => {
                self.rows.remove(key);
            }
            Record::Made { index, column, .. } => {
                self.indexes.insert(*index, (*column, 0));
            }
            Record::WentUp(index) => {
                self.indexes.entry(*index).and_modify(|head| head.1 += 1);
            }
            Record::WentDown(index) => match self.indexes.get_mut(index) {
                Some(head) if head.1 > 0 => head.1 -= 1,
                _ => {
                    self.indexes.remove(index);
                }
            },
            Record::Turned(_) | Record::Filled(..) | Record::Cleared(..) => {}
            Record::CameUp => self.epoch += 1,
        }
    }

    /// The answer to `read` of this key, as far as it is fixed.
    pub fn read(&self, key: u16) -> String {
        match self.rows.get(&key) {
            Some(columns) => row_answer(columns),
            None => "refused 9".to_string(),
        }
    }

    /// The answer to `look` by an index on this column, where it is public.
    pub fn look(&self, column: u8, value: u32) -> String {
        let mut answer = "keys".to_string();
        for (key, columns) in &self.rows {
            if columns[usize::from(column)] == value {
                answer.push_str(&format!(" {key}"));
            }
        }
        answer
    }

    /// The stages of all indexes that aren't in stage 0.
    pub fn stages(&self) -> Stages {
        let heads = self.indexes.iter().map(|(index, (_, stage))| (*index, *stage));
        heads.filter(|(_, stage)| *stage > 0).collect()
    }
}

pub fn row_answer(columns: &Columns) -> String {
    let numbers: Vec<String> = columns.iter().map(u32::to_string).collect();
    format!("row {}", numbers.join(" "))
}

/// ` I=S` for each stage.
pub fn stage_words(stages: &Stages) -> String {
    stages.iter().map(|(index, stage)| format!(" {index}={stage}")).collect()
}

/// Whether an answer is the expected one. After `refused N` a few words may follow.
pub fn answers(got: &str, expected: &str) -> bool {
    got == expected || (expected.starts_with("refused ") && got.starts_with(&format!("{expected} ")))
}
