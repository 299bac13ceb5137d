//! The rounds that are worked through by hand: the engine's rows and masks must be those.

use super::case::Case;
use super::laws::AS_BY_HAND;
use compare::generate::pair_example::{BIT_MASKS, BIT_ROWS, MASKS, ROWS, bit_by_hand, by_hand};
use compare::generate::pair_settings::PairSetting;

impl Case<'_> {
    /// Plays them for every choice of values; each time they are garbled anew.
    pub fn play_examples(&mut self) {
        for values in 0..9 {
            self.play_example(&by_hand([values / 3, values % 3]), &ROWS, &MASKS);
        }
        for bit in 0..2 {
            self.play_example(&bit_by_hand(bit), &BIT_ROWS, &BIT_MASKS);
        }
    }

    fn play_example(&mut self, setting: &PairSetting, rows: &[u8], masks: &[u8]) {
        let round = self.play_round(setting);
        let [.., opening, _] = &round.steps;
        let as_by_hand = opening.buffers[1] == rows && round.output_masks == masks;
        self.law(AS_BY_HAND, as_by_hand && round.right);
    }
}
