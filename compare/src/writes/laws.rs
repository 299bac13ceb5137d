//! What must hold between calls, beside that both programs answer each alike.

use super::call::Made;
use super::case::{Case, records_call, write_call};
use crate::call::{ACCEPTED, Answer, Call};
use crate::{engine, second};
use compare::circuit::Refusal;
use compare::record::{List, Record};
use compare::word;
use compare::writer::{Fault, words_of};

impl Case<'_> {
    /// What the engine wrote of a list, it takes back to the same list, and every call reads it.
    pub fn taken_back(&mut self, list: &List, written: &Made) {
        let after = &written.engines;
        let length = 4 * after.loan.words[0] as usize;
        let written = after.loan.file.content().get(..length);
        let Some(file) = written.filter(|file| !file.is_empty()) else {
            return self.law("there are words, and the buffer holds them", false);
        };
        let file = file.to_vec();
        let lengths = (list.records.len(), list.tables.len());
        let call = records_call(&file, lengths, &mut self.rng);
        let back = self.make(&call).engines;
        let same = back.loan.records.content() == list.records
            && back.loan.tables.content() == list.tables;
        let holds = back.answer == ACCEPTED && same;
        self.law("what was written is taken back to the same list", holds);
        self.read_alike(&file, ACCEPTED);
        self.play_damaged(&file, lengths);
    }

    /// The records and tables that the engine took from an accepted file, written, are that file.
    pub fn written_again(&mut self, file: &[u8], taken: &Made) {
        let loan = &taken.engines.loan;
        let list = List {
            records: loan.records.content().to_vec(),
            tables: loan.tables.content().to_vec(),
        };
        let call = write_call(&list, file.len(), &mut self.rng);
        let again = self.make(&call).engines;
        let same = again.loan.file.content() == file;
        let counted = 4 * again.loan.words[0] as usize == file.len();
        let holds = again.answer == ACCEPTED && same && counted;
        self.law("an accepted file comes out as the same words", holds);
    }

    /// Where a refused record fits the bits of a word, both readers refuse that word by the same
    /// number. 2 is about fields that no word has, and 14 about words that are missing.
    pub fn reader_agrees(&mut self, list: &List) {
        let Err(Fault { refusal, words }) = words_of(&list.records, &list.tables) else {
            return;
        };
        let Refusal { number, place } = refusal;
        let fits = list.records.get(place).is_none_or(Record::fits);
        if (3..=9).contains(&number) && fits {
            let place = words.len() - 1;
            self.read_alike(&word::file(&words), Answer { number, place });
        }
    }

    /// Both programs read the file with this answer.
    fn read_alike(&mut self, file: &[u8], expected: Answer) {
        let ours = second::run(file, &Call::Read);
        let engines = engine::run(file, &Call::Read);
        let holds = ours.answer == expected && ours == engines;
        self.law("the readers agree with the writer", holds);
    }
}
