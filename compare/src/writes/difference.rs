//! A difference between the two programs, printed so that it can be looked into.

use super::call::{Call, Made, Name};
use crate::hex;
use crate::smallest::{self, Sort};

/// Longer lists and files are not printed, but can be made again.
const SHOWN_RECORDS: usize = 40;
const SHOWN_BYTES: usize = 600;

pub struct Difference {
    pub case: u64,
    pub call: Call,
    pub made: Made,
}

impl smallest::Difference for Difference {
    fn sort(&self) -> Sort {
        let Made { ours, engines } = &self.made;
        let name = self.call.name.text();
        (name, ours.answer.number, engines.answer.number)
    }

    fn size(&self) -> usize {
        let Call {
            records,
            tables,
            file,
            ..
        } = &self.call;
        32 * records.len() + tables.len() + file.len()
    }
}

impl Difference {
    pub fn print(&self, seed: u64) {
        let Made { ours, engines } = &self.made;
        println!("difference in: {}", self.call);
        println!("  second: {}", ours.answer);
        println!("  engine: {}", engines.answer);
        self.print_partings();
        println!("  from: compare write {seed} {}", self.case);
        match self.call.name {
            Name::Write => self.print_list(),
            Name::Records => self.print_file(),
        }
    }

    /// Where what the two programs left in the buffers parts.
    fn print_partings(&self) {
        let (ours, engines) = (&self.made.ours.loan, &self.made.engines.loan);
        if ours.words != engines.words {
            let (one, other) = (ours.words[0], engines.words[0]);
            println!("  words: second {one}, engine {other}");
        }
        let buffers = [
            ("tables", &ours.tables, &engines.tables),
            ("file", &ours.file, &engines.file),
        ];
        for (name, one, other) in buffers {
            let parting = parting(one.content(), other.content());
            print_parting(name, parting, one != other);
        }
        let parting = parting(ours.records.content(), engines.records.content());
        print_parting("records", parting, ours.records != engines.records);
    }

    fn print_list(&self) {
        let Call {
            records, tables, ..
        } = &self.call;
        if records.len() <= SHOWN_RECORDS && tables.len() <= SHOWN_BYTES {
            for (at, record) in records.iter().enumerate() {
                println!("  {at}: {record:?}");
            }
            println!("  tables: {tables:?}");
        }
    }

    fn print_file(&self) {
        if self.call.file.len() <= SHOWN_BYTES {
            print!("{}", hex::text_of(&self.call.file));
        }
    }
}

/// The first place where two buffers of one length differ.
fn parting<T: PartialEq>(one: &[T], other: &[T]) -> Option<usize> {
    one.iter().zip(other).position(|(one, other)| one != other)
}

fn print_parting(name: &str, place: Option<usize>, differ: bool) {
    match place {
        Some(place) => println!("  {name}: not the same from {place} on"),
        None if differ => println!("  {name}: the engine wrote around them"),
        None => {}
    }
}
