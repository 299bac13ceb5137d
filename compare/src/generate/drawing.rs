//! Lists drawn record by record, each choice right but for once in so many times.

use super::named::named;
use super::records::{RAISES, WIDE, any_seats};
use crate::record::{ADD, INPUT, List, MULTIPLY, PROJECT, Record, SCALE, SELECT};
use crate::rng::Rng;

pub struct Drawing<'r> {
    rng: &'r mut Rng,
    /// How seldom a choice is wrong; never where there is no such number.
    odds: Option<usize>,
    list: List,
    /// The moduli of the wires made so far, right or wrong.
    moduli: Vec<u32>,
}

/// The moduli chosen from: few, so that wires find partners, and 2 most often, for selects.
const MODULI: [u32; 8] = [2, 2, 2, 3, 3, 5, 7, 251];

impl<'r> Drawing<'r> {
    pub fn new(rng: &'r mut Rng, odds: Option<usize>) -> Self {
        Drawing {
            rng,
            odds,
            list: List::default(),
            moduli: Vec::new(),
        }
    }

    pub fn rng(&mut self) -> &mut Rng {
        self.rng
    }

    /// From here on choices are wrong once in so many times.
    pub fn odds(&mut self, odds: usize) {
        self.odds = Some(odds);
    }

    /// Draws so many records of any of these kinds.
    pub fn run(&mut self, count: usize, kinds: &[u32]) {
        for _ in 0..count {
            let kind = self.rng.pick(kinds);
            let mut record = self.record(kind);
            if self.fault() {
                self.stray(&mut record);
            }
            self.list.records.push(record);
        }
    }

    pub fn end(self) -> List {
        self.list
    }

    fn fault(&mut self) -> bool {
        self.odds.is_some_and(|odds| self.rng.once_in(odds))
    }

    fn record(&mut self, kind: u32) -> Record {
        match kind {
            INPUT => self.input(),
            ADD | MULTIPLY => self.two_wired(kind),
            SCALE => self.scale(),
            PROJECT => self.project(),
            SELECT => self.select(),
            _ => self.output(),
        }
    }

    /// Sets a field, as often as not one that the kind does not use; or gives it another kind.
    fn stray(&mut self, record: &mut Record) {
        if self.rng.once_in(6) {
            record.named = any_seats(self.rng);
            return;
        }
        let value = match self.rng.below(3) {
            0 => self.rng.pick(&WIDE),
            1 => self.rng.pick(&RAISES),
            _ => self.rng.between(1, 13) as u32,
        };
        let [kind, others @ ..] = record.fields_mut();
        if self.rng.once_in(6) {
            *kind = value;
            return;
        }
        let mut unset: Vec<&mut u32> = others.into_iter().filter(|field| **field == 0).collect();
        let at = self.rng.below(unset.len());
        *unset[at] = value;
    }

    fn input(&mut self) -> Record {
        let modulus = self.modulus();
        let owner = self.below_or_wrong(8);
        self.moduli.push(modulus);
        Record::input(owner, modulus)
    }

    fn two_wired(&mut self, kind: u32) -> Record {
        let a = self.wire();
        let b = self.partner(a);
        self.moduli.push(self.modulus_of(a));
        if kind == ADD {
            Record::add(a, b)
        } else {
            Record::multiply(a, b)
        }
    }

    fn scale(&mut self) -> Record {
        let a = self.wire();
        let modulus = self.modulus_of(a);
        let constant = if self.fault() {
            self.wrong(modulus)
        } else {
            self.rng.between(1, modulus.max(2) as usize - 1) as u32
        };
        self.moduli.push(modulus);
        Record::scale(constant, a)
    }

    fn project(&mut self) -> Record {
        let modulus = self.modulus();
        let a = self.wire();
        // A wire that is not as it should be gets a table that would do for a bit.
        let length = self.modulus_of(a).min(255);
        let missing = u32::from(self.fault());
        for _ in missing..length {
            let image = self.image(modulus);
            self.list.tables.push(image);
        }
        self.moduli.push(modulus);
        Record::project(modulus, a)
    }

    /// Long tables would hardly ever be right if each entry were wrong as often as a field.
    fn image(&mut self, modulus: u32) -> u8 {
        let bound = modulus.clamp(1, 255);
        if self.fault() && self.rng.once_in(8) {
            return self.rng.between(bound as usize, 255) as u8;
        }
        self.rng.below(bound as usize) as u8
    }

    fn select(&mut self) -> Record {
        let bit = self.wire_of(2);
        let a = self.wire();
        let b = self.partner(a);
        self.moduli.push(self.modulus_of(a));
        match bit {
            Some(bit) => Record::select(bit, a, b),
            // There is no wire of modulus 2: a sum instead, or a fault.
            None if self.fault() => Record::select(a, a, b),
            None => Record::add(a, b),
        }
    }

    /// Which seats an output names is nobody's fault.
    fn output(&mut self) -> Record {
        Record::named_output(named(8, self.rng), self.wire())
    }

    fn modulus(&mut self) -> u32 {
        if !self.fault() {
            return self.rng.pick(&MODULI);
        }
        let composite = [0, 1, 4, 9, 15, 49, 121, 169, 221, 247, 250, 252, 253, 255];
        match self.rng.below(3) {
            0 => self.rng.pick(&composite),
            1 => self.rng.pick(&WIDE),
            _ => self.rng.pick(&MODULI) + self.rng.pick(&RAISES),
        }
    }

    /// A number below the bound, or a wrong one.
    fn below_or_wrong(&mut self, bound: u32) -> u32 {
        if self.fault() {
            self.wrong(bound)
        } else {
            self.rng.below(bound as usize) as u32
        }
    }

    /// 0, or a number not below the bound, often one that would be below it if it were cut.
    fn wrong(&mut self, bound: u32) -> u32 {
        match self.rng.below(4) {
            0 => 0,
            1 => bound.saturating_add(self.rng.below(2) as u32),
            2 => self.rng.pick(&WIDE),
            _ => self.rng.pick(&RAISES) + self.rng.below(bound.clamp(1, 255) as usize) as u32,
        }
    }

    fn modulus_of(&self, wire: u32) -> u32 {
        self.moduli.get(wire as usize).copied().unwrap_or(2)
    }

    /// A wire made already, or a wrong one.
    fn wire(&mut self) -> u32 {
        let made = self.moduli.len() as u32;
        if made > 0 && !self.fault() {
            return self.rng.below(made as usize) as u32;
        }
        match self.rng.below(4) {
            0 => made,
            1 => made + self.rng.below(3) as u32,
            2 => self.rng.pick(&WIDE),
            _ => self.rng.pick(&RAISES) + self.rng.below(made.max(1) as usize) as u32,
        }
    }

    /// A wire made already that has this modulus, if there is one.
    fn wire_of(&mut self, modulus: u32) -> Option<u32> {
        let made = self.moduli.len();
        let start = self.rng.below(made.max(1));
        let mut wires = (start..made).chain(0..start.min(made));
        let found = wires.find(|wire| self.moduli[*wire] == modulus);
        found.map(|wire| wire as u32)
    }

    /// A wire of the same modulus, or a wrong one, or one of another modulus.
    fn partner(&mut self, a: u32) -> u32 {
        if self.fault() {
            return self.wire();
        }
        let modulus = self.modulus_of(a);
        self.wire_of(modulus).unwrap_or(a)
    }
}
