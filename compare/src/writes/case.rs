//! One case of a run: a list written into buffers of several lengths, and a file taken back.

use super::call::{Call, Made, Name};
use super::tally::Tally;
use super::{engine, second};
use crate::call::ACCEPTED;
use compare::circuit::read;
use compare::record::{List, Record};
use compare::rng::Rng;
use compare::writer::words_of;

pub struct Case<'t> {
    pub number: u64,
    pub rng: Rng,
    pub tally: &'t mut Tally,
    /// Whether each call is printed.
    pub print: bool,
}

impl Case<'_> {
    /// Makes a call of both programs, and counts it.
    pub fn make(&mut self, call: &Call) -> Made {
        let made = Made {
            ours: second::run(call),
            engines: engine::run(call),
        };
        if self.print {
            let (ours, engines) = (made.ours.answer, made.engines.answer);
            println!("{call}: second {ours}, engine {engines}");
        }
        self.tally.count(self.number, call, &made);
        made
    }

    /// Counts whether a law holds.
    pub fn law(&mut self, law: &'static str, holds: bool) {
        if self.print && !holds {
            println!("does not hold: {law}");
        }
        self.tally.law(self.number, law, holds);
    }

    /// Writes a list into buffers of several lengths, and takes back what was written.
    pub fn play_list(&mut self, list: &List) {
        let mut taken_back = false;
        for length in self.buffers(list) {
            let call = write_call(list, length, &mut self.rng);
            let made = self.make(&call);
            if made.engines.answer == ACCEPTED && !taken_back {
                taken_back = true;
                self.taken_back(list, &made);
            }
        }
        self.reader_agrees(list);
    }

    /// Lengths of buffers for a list: exact, longer, a byte and a word too short, none at all and
    /// any; every length in the first case. Where the list is refused, one that would do for its
    /// words, and shorter ones.
    fn buffers(&mut self, list: &List) -> Vec<usize> {
        let List { records, tables } = list;
        let rng = &mut self.rng;
        match words_of(records, tables) {
            Ok(words) if self.number == 0 => (0..=4 * words.len() + 9).collect(),
            Ok(words) => {
                let exact = 4 * words.len();
                let longer = exact + rng.between(1, 9);
                let any = rng.below(exact);
                vec![exact, longer, exact - 1, exact - 4, 0, any]
            }
            Err(_) => {
                let enough = 4 * (2 + 2 * records.len() + tables.len());
                vec![enough, 0, rng.below(enough)]
            }
        }
    }

    /// Takes back a file, accepted or not, into buffers of right and wrong lengths.
    pub fn play_file(&mut self, file: &[u8]) {
        let Ok(circuit) = read(file) else {
            let lengths = (self.rng.below(9), self.rng.below(9));
            let call = records_call(file, lengths, &mut self.rng);
            self.make(&call);
            return;
        };
        let list = List::of(&circuit);
        let exact = (list.records.len(), list.tables.len());
        let call = records_call(file, exact, &mut self.rng);
        let taken = self.make(&call);
        if taken.engines.answer == ACCEPTED {
            self.written_again(file, &taken);
        }
        for _ in 0..3 {
            let wrong = wrong_lengths(exact, &mut self.rng);
            let call = records_call(file, wrong, &mut self.rng);
            self.make(&call);
        }
    }

    /// Takes back a file that was good and is damaged, into buffers that were right for it.
    pub fn play_damaged(&mut self, file: &[u8], lengths: (usize, usize)) {
        let mut damaged = file.to_vec();
        match self.rng.below(4) {
            0 => damaged.truncate(self.rng.below(file.len())),
            1 => damaged.push(0),
            _ => {
                let at = self.rng.below(file.len());
                damaged[at] ^= 1 << self.rng.below(8);
            }
        }
        let call = records_call(&damaged, lengths, &mut self.rng);
        self.make(&call);
    }
}

/// The writing of a list into a buffer of this length, filled with anything.
pub fn write_call(list: &List, length: usize, rng: &mut Rng) -> Call {
    Call {
        name: Name::Write,
        records: list.records.clone(),
        tables: list.tables.clone(),
        file: rng.bytes(length),
        words: rng.next_u32(),
        nulls: rng.once_in(2),
    }
}

/// The taking back of a file into so many records and entries, filled with anything.
pub fn records_call(file: &[u8], (records, tables): (usize, usize), rng: &mut Rng) -> Call {
    Call {
        name: Name::Records,
        records: (0..records).map(|_| any_record(rng)).collect(),
        tables: rng.bytes(tables),
        file: file.to_vec(),
        words: 0,
        nulls: rng.once_in(2),
    }
}

fn any_record(rng: &mut Rng) -> Record {
    let mut record = Record::default();
    for field in record.fields_mut() {
        *field = rng.next_u32();
    }
    record.named = rng.next_u32() as u8;
    record
}

/// One of the two lengths wrong, or both.
fn wrong_lengths((records, tables): (usize, usize), rng: &mut Rng) -> (usize, usize) {
    match rng.below(3) {
        0 => (another_length(records, rng), tables),
        1 => (records, another_length(tables, rng)),
        _ => (another_length(records, rng), another_length(tables, rng)),
    }
}

fn another_length(length: usize, rng: &mut Rng) -> usize {
    match rng.below(4) {
        0 if length > 0 => length - 1,
        1 if length > 0 => 0,
        2 => length + rng.between(1, 300),
        _ => length + 1,
    }
}
