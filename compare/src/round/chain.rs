//! A whole round: each call takes what the calls before it wrote.

use super::step::{Name, Step};
use crate::call::{ACCEPTED, After, Call};
use crate::{engine, second};
use compare::circuit::{Circuit, Output, read};
use compare::garble::UNREAD;
use compare::generate::settings::Setting;
use compare::rng::Rng;

/// A call of both programs: what this program answered, and what the engine did.
#[derive(Clone)]
pub struct Made {
    pub ours: After,
    pub engines: After,
}

/// The calls of a round, of which the first is its garbling, the sheet of each party, what it decoded,
/// and whether that is what plain evaluation gives, or 255 where it may not read.
pub struct Round {
    pub steps: Vec<Step>,
    pub sheets: Vec<Vec<u8>>,
    pub decoded: Vec<Vec<u8>>,
    pub right: bool,
}

/// Plays a round; `make` makes a call of both programs.
pub fn play(setting: &Setting, rng: &mut Rng, make: &mut dyn FnMut(&Step) -> Made) -> Round {
    let circuit = read(&setting.file).expect("an accepted circuit");
    let mut player = Player {
        setting,
        circuit: &circuit,
        rng,
        make,
        steps: Vec::new(),
        sheets: Vec::new(),
        decoded: Vec::new(),
        accepted: true,
    };
    let right = player.round();
    Round {
        steps: player.steps,
        sheets: player.sheets,
        decoded: player.decoded,
        right,
    }
}

struct Player<'p> {
    setting: &'p Setting,
    circuit: &'p Circuit<'p>,
    rng: &'p mut Rng,
    make: &'p mut dyn FnMut(&Step) -> Made,
    steps: Vec<Step>,
    sheets: Vec<Vec<u8>>,
    decoded: Vec<Vec<u8>>,
    accepted: bool,
}

impl Player<'_> {
    /// Whether the engine accepted every call and every party decoded the plain outputs that it may read.
    fn round(&mut self) -> bool {
        let parties = 0..self.setting.n;
        let garbled = self.written(Name::Garble, 0, vec![self.setting.contributions.clone()]);
        let [rows, input_masks, output_masks] = &garbled[..] else {
            unreachable!("garbling writes three buffers");
        };
        let sheets = output_masks.chunks(self.circuit.outputs.len());
        self.sheets = sheets.map(<[u8]>::to_vec).collect();
        let externals = self.externals(input_masks);
        let keys = self.input_keys(&externals);
        let plain = self.plain();
        let mut right = true;
        for party in parties {
            let own = self.contribution(party);
            let given = vec![own, externals.clone(), keys.clone(), rows.clone()];
            let opened = self.written(Name::Open, party, given);
            let sheet = self.sheets[party as usize].clone();
            let given = vec![opened[1].clone(), sheet];
            let decoded = self.written(Name::Decode, party, given).swap_remove(0);
            right &= self.due(party, plain.as_deref()) == Some(decoded.clone());
            self.decoded.push(decoded);
        }
        right && self.accepted
    }

    /// What a party must decode: the plain outputs, and 255 where it may not read.
    fn due(&self, party: u32, plain: Option<&[u8]>) -> Option<Vec<u8>> {
        let outputs = self.circuit.outputs.iter().zip(plain?);
        let due = |(output, value): (&Output, &u8)| match output.is_for(party) {
            true => *value,
            false => UNREAD,
        };
        Some(outputs.map(due).collect())
    }

    /// Makes a call of both programs, and gives what the engine wrote.
    fn written(&mut self, name: Name, party: u32, given: Vec<Vec<u8>>) -> Vec<Vec<u8>> {
        let call = (name, party);
        let step = Step::new(self.setting, self.circuit, call, given, self.rng);
        let made = (self.make)(&step);
        self.accepted &= made.engines.answer == ACCEPTED;
        self.steps.push(step);
        let written = made.engines.loan.buffers.iter().skip(name.read_only());
        written.map(|buffer| buffer.content().to_vec()).collect()
    }

    fn contribution(&self, party: u32) -> Vec<u8> {
        let all = &self.setting.contributions;
        let each = all.len() / self.setting.n as usize;
        all[party as usize * each..][..each].to_vec()
    }

    /// The external values of all inputs, from each party's own.
    fn externals(&mut self, input_masks: &[u8]) -> Vec<u8> {
        let owners: Vec<u8> = self.circuit.owners().collect();
        let mut externals = vec![0; owners.len()];
        for party in 0..self.setting.n {
            let own: Vec<usize> = (0..owners.len())
                .filter(|wire| u32::from(owners[*wire]) == party)
                .collect();
            let of = |all: &[u8]| own.iter().map(|wire| all[*wire]).collect();
            let given = vec![of(&self.setting.values), of(input_masks)];
            let written = self.written(Name::Externals, party, given);
            for (wire, external) in own.iter().zip(&written[0]) {
                externals[*wire] = *external;
            }
        }
        externals
    }

    /// All parties' input keys, by input and then by party.
    fn input_keys(&mut self, externals: &[u8]) -> Vec<u8> {
        let mut by_party = Vec::new();
        for party in 0..self.setting.n {
            let given = vec![self.contribution(party), externals.to_vec()];
            by_party.extend(self.written(Name::InputKeys, party, given));
        }
        let k = self.setting.k as usize;
        let mut keys = Vec::new();
        for input in 0..self.circuit.inputs {
            for own in &by_party {
                keys.extend(&own[input * k..][..k]);
            }
        }
        keys
    }

    /// The plain outputs, if both programs give the same.
    fn plain(&self) -> Option<Vec<u8>> {
        let call = Call::Plain {
            values: self.setting.values.clone(),
            outputs: self.circuit.outputs.len(),
        };
        let ours = second::run(&self.setting.file, &call);
        let engines = engine::run(&self.setting.file, &call);
        let outputs = || engines.loan.buffers[1].content().to_vec();
        (ours == engines).then(outputs)
    }
}
