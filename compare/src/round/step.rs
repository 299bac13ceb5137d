//! One call of a round, and what is lent to it.

use crate::call::{Lent, Loan};
use compare::circuit::Circuit;
use compare::contribution::{byte_moduli, length};
use compare::generate::meters::with_space;
use compare::generate::settings::Setting;
use compare::meter::Meter;
use compare::rng::Rng;
use compare::session::row_moduli;
use std::fmt;

/// The calls of a round beside plain evaluation.
#[derive(Clone, Copy, Debug, PartialEq, Eq, PartialOrd, Ord)]
pub enum Name {
    Garble,
    Externals,
    InputKeys,
    Open,
    Decode,
}

use Name::{Decode, Externals, Garble, InputKeys, Open};

pub const NAMES: [Name; 5] = [Garble, Externals, InputKeys, Open, Decode];

impl Name {
    pub fn text(self) -> &'static str {
        match self {
            Garble => "garble",
            Externals => "externals",
            InputKeys => "input_keys",
            Open => "open",
            Decode => "decode",
        }
    }

    /// The refusals that this call can give, beside 1 to 10, in the order of its checks.
    pub fn refusals(self) -> &'static [u32] {
        match self {
            Garble => &[11, 13, 28, 14, 25, 16, 17, 21],
            Externals | Decode => &[11, 12, 13, 28, 14, 15],
            InputKeys => &[11, 12, 13, 28, 14, 15, 16, 17],
            Open => &[11, 12, 13, 28, 14, 15, 16, 17, 18, 19, 20],
        }
    }

    /// The names of its buffers, in the order of its parameters.
    pub fn buffers(self) -> &'static [&'static str] {
        match self {
            Garble => &["contributions", "rows", "input_masks", "output_masks"],
            Externals => &["values", "masks", "externals"],
            InputKeys => &["contribution", "externals", "keys"],
            Open => &[
                "contribution",
                "externals",
                "keys",
                "rows",
                "wire_keys",
                "wire_externals",
            ],
            Decode => &["externals", "masks", "outputs"],
        }
    }

    /// How many of its buffers it only reads; it writes the others, which come after them.
    pub fn read_only(self) -> usize {
        match self {
            Garble => 1,
            Externals | InputKeys | Decode => 2,
            Open => 4,
        }
    }

    /// Whether it takes the round number.
    pub fn has_round(self) -> bool {
        matches!(self, Garble | Open)
    }

    /// Whether its first buffer holds one or several contributions. Then it takes the key length too.
    pub fn has_contribution(self) -> bool {
        matches!(self, Garble | InputKeys | Open)
    }

    /// How many bytes each buffer has.
    pub fn lengths(self, circuit: &Circuit, n: usize, k: usize, party: u32) -> Vec<usize> {
        let counts = circuit.counts();
        let (wires, inputs) = (counts.wires as usize, counts.inputs as usize);
        let (outputs, rows) = (counts.outputs as usize, counts.rows as usize * n * k);
        let contribution = length(circuit, k);
        let own = circuit.inputs_of(party) as usize;
        match self {
            Garble => vec![n * contribution, rows, inputs, n * outputs],
            Externals => vec![own; 3],
            InputKeys => vec![contribution, inputs, inputs * k],
            Open => {
                let keys = inputs * n * k;
                vec![contribution, inputs, keys, rows, wires * n * k, wires]
            }
            Decode => vec![wires, outputs, outputs],
        }
    }

    /// The modulus of each byte of the buffers that it only reads; of a sheet's also where its party may
    /// not read.
    fn moduli(self, circuit: &Circuit, n: usize, k: usize, party: u32) -> Vec<Vec<u8>> {
        let inputs: Vec<u8> = circuit.input_moduli().collect();
        let each = |moduli: &[u8], times: usize| -> Vec<u8> {
            let repeated = |p: &u8| vec![*p; times];
            moduli.iter().flat_map(repeated).collect()
        };
        match self {
            Garble => vec![byte_moduli(circuit, k).repeat(n)],
            Externals => {
                let own = |(owner, _): &(u8, u8)| u32::from(*owner) == party;
                let owned = circuit.owners().zip(inputs).filter(own);
                vec![owned.map(|(_, p)| p).collect(); 2]
            }
            InputKeys => vec![byte_moduli(circuit, k), inputs],
            Open => vec![
                byte_moduli(circuit, k),
                inputs.clone(),
                each(&inputs, n * k),
                each(&row_moduli(circuit), n * k),
            ],
            Decode => vec![
                circuit.wires.iter().map(|wire| wire.modulus).collect(),
                circuit.output_moduli().collect(),
            ],
        }
    }
}

/// A call with all that it is given; numbers that it does not take are not looked at.
#[derive(Clone, Debug)]
pub struct Step {
    pub name: Name,
    pub file: Vec<u8>,
    pub n: u32,
    pub k: u32,
    pub party: u32,
    pub round: u32,
    pub account: u32,
    pub meter: Meter,
    pub buffers: Vec<Vec<u8>>,
    /// Whether an empty buffer is lent as a null pointer.
    pub nulls: bool,
}

impl Step {
    /// A call of a round with no fault, lent these buffers to read. What is to be written holds
    /// anything before, and the total that garbling names has space.
    pub fn new(
        setting: &Setting,
        circuit: &Circuit,
        (name, party): (Name, u32),
        given: Vec<Vec<u8>>,
        rng: &mut Rng,
    ) -> Self {
        let Setting { n, k, account, .. } = *setting;
        let mut buffers = given;
        let lengths = name.lengths(circuit, n as usize, k as usize, party);
        for length in &lengths[buffers.len()..] {
            buffers.push(rng.bytes(*length));
        }
        Step {
            name,
            file: setting.file.clone(),
            n,
            k,
            party,
            round: setting.round,
            account,
            meter: with_space(account, circuit.counts().rows, rng),
            buffers,
            nulls: rng.once_in(2),
        }
    }

    /// The modulus of each byte of the buffers that are only read.
    pub fn moduli(&self, circuit: &Circuit) -> Vec<Vec<u8>> {
        let (n, k) = (self.n as usize, self.k as usize);
        self.name.moduli(circuit, n, k, self.party)
    }

    pub fn loan(&self) -> Loan {
        let numbers = match self.name {
            Garble => self.meter.totals.to_vec(),
            _ => Vec::new(),
        };
        let lent = |buffer: &Vec<u8>| Lent::of(buffer).null_if_empty(self.nulls);
        let buffers = self.buffers.iter().map(lent).collect();
        let mut loan = Loan::of(&self.file, buffers, &numbers);
        loan.file = loan.file.null_if_empty(self.nulls);
        loan
    }
}

impl fmt::Display for Step {
    fn fmt(&self, to: &mut fmt::Formatter) -> fmt::Result {
        let Step {
            n,
            k,
            party,
            account,
            ..
        } = self;
        // In hexadecimal, as the pads take its bytes.
        let round = format!("{:#010x}", self.round);
        write!(to, "{}", self.name.text())?;
        match self.name {
            Garble => {
                write!(to, " n={n} k={k} round={round} account={account}")?;
                write!(to, " meter={:?}", self.meter.totals)
            }
            Externals | Decode => write!(to, " n={n} party={party}"),
            InputKeys => write!(to, " n={n} k={k} party={party}"),
            Open => write!(to, " n={n} k={k} party={party} round={round}"),
        }
    }
}
