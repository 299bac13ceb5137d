//! One call for two, and what is lent to it.

use crate::call::{Lent, Loan};
use compare::circuit::Circuit;
use compare::generate::meters::with_space;
use compare::generate::pair_settings::PairSetting;
use compare::meter::Meter;
use compare::pair::draw::{byte_moduli, length};
use compare::pair::{row_moduli, total_rows};
use compare::rng::Rng;
use std::fmt;

/// The calls for two, in the order of a round.
#[derive(Clone, Copy, Debug, PartialEq, Eq, PartialOrd, Ord)]
pub enum Name {
    Read,
    Garble,
    InputKeys,
    Open,
    Decode,
}

use Name::{Decode, Garble, InputKeys, Open, Read};

pub const NAMES: [Name; 5] = [Read, Garble, InputKeys, Open, Decode];

/// Those that take more than a file.
pub const WITH_BUFFERS: [Name; 4] = [Garble, InputKeys, Open, Decode];

impl Name {
    pub fn text(self) -> &'static str {
        match self {
            Read => "pair_read",
            Garble => "pair_garble",
            InputKeys => "pair_input_keys",
            Open => "pair_open",
            Decode => "pair_decode",
        }
    }

    /// The refusals that this call can give, beside 1 to 10, in the order of its checks.
    pub fn refusals(self) -> &'static [u32] {
        match self {
            Read => &[26],
            Garble => &[26, 11, 13, 14, 25, 16, 27, 21],
            InputKeys => &[26, 11, 13, 14, 15, 16, 27],
            Open => &[26, 11, 13, 14, 18],
            Decode => &[14, 15],
        }
    }

    /// Whether this is one of its refusals.
    pub fn gives(self, number: u32) -> bool {
        self.refusals().contains(&number)
    }

    /// The names of its buffers, in the order of its parameters.
    pub fn buffers(self) -> &'static [&'static str] {
        match self {
            Read => &[],
            Garble => &["draw", "rows", "output_masks"],
            InputKeys => &["draw", "values", "keys"],
            Open => &["keys", "rows", "wire_keys", "wire_externals"],
            Decode => &["externals", "masks", "outputs"],
        }
    }

    /// Whether it takes the round number.
    pub fn has_round(self) -> bool {
        matches!(self, Garble | Open)
    }

    /// Whether its first buffer is the garbler's draw.
    pub fn has_draw(self) -> bool {
        matches!(self, Garble | InputKeys)
    }

    /// How many bytes each buffer has.
    pub fn lengths(self, circuit: &Circuit, k: usize) -> Vec<usize> {
        let (wires, inputs) = (circuit.wires.len(), circuit.inputs);
        let (draw, rows) = (length(circuit, k), k * total_rows(circuit) as usize);
        let outputs = circuit.outputs.len();
        match self {
            Read => vec![],
            Garble => vec![draw, rows, outputs],
            InputKeys => vec![draw, inputs, k * inputs],
            Open => vec![k * inputs, rows, k * wires, wires],
            Decode => vec![wires, outputs, outputs],
        }
    }

    /// The modulus of each byte of the buffers that it only reads.
    fn moduli(self, circuit: &Circuit, k: usize) -> Vec<Vec<u8>> {
        let inputs: Vec<u8> = circuit.input_moduli().collect();
        let each = |moduli: &[u8]| moduli.iter().flat_map(|p| vec![*p; k]).collect();
        match self {
            Read => vec![],
            Garble => vec![byte_moduli(circuit, k)],
            InputKeys => vec![byte_moduli(circuit, k), inputs],
            Open => vec![each(&inputs), each(&row_moduli(circuit))],
            Decode => vec![
                circuit.wires.iter().map(|wire| wire.modulus).collect(),
                circuit.output_moduli().collect(),
            ],
        }
    }
}

/// A call with all that it is given; numbers that it does not take are not looked at.
#[derive(Clone, Debug)]
pub struct Step {
    pub name: Name,
    pub file: Vec<u8>,
    pub k: u32,
    pub round: u32,
    pub account: u32,
    pub meter: Meter,
    /// What stands before in the number of rows that reading writes.
    pub before: u32,
    pub buffers: Vec<Vec<u8>>,
    /// Whether an empty buffer is lent as a null pointer.
    pub nulls: bool,
}

impl Step {
    /// A call of a round with no fault, lent these buffers to read. What is to be written holds
    /// anything before, and the total that garbling names has space.
    pub fn new(
        setting: &PairSetting,
        circuit: &Circuit,
        name: Name,
        given: Vec<Vec<u8>>,
        rng: &mut Rng,
    ) -> Self {
        let PairSetting { k, account, .. } = *setting;
        let mut buffers = given;
        for length in &name.lengths(circuit, k as usize)[buffers.len()..] {
            buffers.push(rng.bytes(*length));
        }
        Step {
            name,
            file: setting.file.clone(),
            k,
            round: setting.round,
            account,
            meter: with_space(account, total_rows(circuit), rng),
            before: rng.next_u32(),
            buffers,
            nulls: rng.once_in(2),
        }
    }

    /// The modulus of each byte of the buffers that are only read.
    pub fn moduli(&self, circuit: &Circuit) -> Vec<Vec<u8>> {
        self.name.moduli(circuit, self.k as usize)
    }

    pub fn loan(&self) -> Loan {
        let numbers = match self.name {
            Read => vec![self.before],
            Garble => self.meter.totals.to_vec(),
            InputKeys | Open | Decode => Vec::new(),
        };
        let lent = |buffer: &Vec<u8>| Lent::of(buffer).null_if_empty(self.nulls);
        let buffers = self.buffers.iter().map(lent).collect();
        let mut loan = Loan::of(&self.file, buffers, &numbers);
        loan.file = loan.file.null_if_empty(self.nulls);
        loan
    }
}

impl fmt::Display for Step {
    fn fmt(&self, to: &mut fmt::Formatter) -> fmt::Result {
        let Step { k, account, .. } = self;
        // In hexadecimal, as the pads take its bytes.
        let round = format!("{:#010x}", self.round);
        write!(to, "{}", self.name.text())?;
        match self.name {
            Read | Decode => write!(to, " file of {} bytes", self.file.len()),
            Garble => {
                write!(to, " k={k} round={round} account={account}")?;
                write!(to, " meter={:?}", self.meter.totals)
            }
            InputKeys => write!(to, " k={k}"),
            Open => write!(to, " k={k} round={round}"),
        }
    }
}
