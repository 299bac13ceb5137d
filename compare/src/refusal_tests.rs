//! The order and the places of the refusals of garbling, input keys and opening.

use crate::circuit::{Refusal, read};
use crate::contribution::length;
use crate::garble::{Written, garble};
use crate::generate::settings::Setting;
use crate::inputs::{externals, input_keys};
use crate::meter::{Meter, carry};
use crate::open::{Given, open};
use crate::round_tests::FULL;
use crate::word::{self, *};

/// Two parties and keys of two bytes: a wire of modulus 2 and one of modulus 5, which is squared and
/// multiplied with its square.
fn setting() -> Setting {
    let words = [
        HEAD,
        input(0, 2),
        input(1, 5),
        multiply(1, 1),
        multiply(1, 2),
        output(3),
        END,
    ];
    let own = [
        1, 0, 2, 1, // offsets
        1, 0, 1, 3, 4, 2, 4, 1, 3, // bit; wire 1; its square
        0, 1, 2, 3, 4, 1, // product
    ];
    Setting {
        file: word::file(&words),
        n: 2,
        k: 2,
        round: 0x0403_0201,
        account: 5,
        contributions: own.repeat(2),
        values: vec![1, 3],
    }
}

/// The bytes of a contribution, 2·2 + 3·(2 + 1 + 2), and where the offset of modulus 5 and the
/// square's record start in it.
const EACH: usize = 19;
const OFFSET_5: usize = 2;
const SQUARE: usize = 10;

/// 5 of the square, 10 of the product.
const ROWS: u32 = 15;

/// A row is two keys of two bytes.
const ROW_BYTES: usize = ROWS as usize * 4;

/// A meter in which every account has space.
const NEW: Meter = Meter { totals: [0; 8] };

/// Garbles with this meter; the rows, and the meter afterwards. Where that is refused, nothing is
/// written and every total is as it was.
fn garbled(setting: &Setting, before: Meter) -> Result<(Vec<u8>, Meter), (u32, usize)> {
    let mut rows = vec![7; ROW_BYTES];
    let mut masks = [7; 4];
    let (input_masks, output_masks) = masks.split_at_mut(2);
    let written = Written {
        rows: &mut rows,
        input_masks,
        output_masks,
    };
    let mut meter = before;
    let numbers = (setting.n, setting.k, setting.round, setting.account);
    let contributions = &setting.contributions;
    match garble(&setting.file, numbers, contributions, written, &mut meter) {
        Ok(()) => Ok((rows, meter)),
        Err(Refusal { number, place }) => {
            assert_eq!((meter, masks), (before, [7; 4]));
            assert_eq!(rows, [7; ROW_BYTES]);
            Err((number, place))
        }
    }
}

/// This meter with another total in one account.
fn with_total(mut meter: Meter, account: u32, total: u32) -> Meter {
    meter.totals[account as usize] = total;
    meter
}

/// Each account named in turn: it alone has a limit, at which it may stand, and it alone moves. The
/// others may be full.
#[test]
fn the_named_total_has_a_limit() {
    let mut setting = setting();
    assert_eq!(length(&read(&setting.file).unwrap(), 2), EACH);
    let last = u32::MAX - ROWS;
    let any = Meter {
        totals: [9, 1 << 31, u32::MAX, 0, last, last + 1, 1, 77],
    };
    for account in 0..8 {
        setting.account = account;
        for others in [NEW, FULL, any] {
            for total in [0, 1, 1 << 31, last - 1, last] {
                let (_, meter) = garbled(&setting, with_total(others, account, total)).unwrap();
                assert_eq!(meter, with_total(others, account, total + ROWS));
            }
            for total in [last + 1, last + 2, u32::MAX] {
                let meter = with_total(others, account, total);
                assert_eq!(garbled(&setting, meter), Err((21, 0)));
            }
        }
    }
}

/// Where there are no rows, a full account takes the garbling too.
#[test]
fn no_rows_have_space_in_a_full_account() {
    let mut meter = FULL;
    let file = word::file(&[HEAD, input(0, 2), output(0), END]);
    let (mut input_masks, mut output_masks) = ([7], [7; 2]);
    let written = Written {
        rows: &mut [],
        input_masks: &mut input_masks,
        output_masks: &mut output_masks,
    };
    let contributions = [1, 0, 1, 1, 1, 0];
    garble(&file, (2, 1, 0, 6), &contributions, written, &mut meter).unwrap();
    assert_eq!((meter, input_masks, output_masks), (FULL, [1], [1, 1]));
}

/// Several garblings with the meter of a unit from the field: account 0 goes on from the old total
/// until it is full, the others from 0.
#[test]
fn accounts_go_on_from_what_was_carried_over() {
    let mut meter = FULL;
    carry(u32::MAX - 2 * ROWS, &mut meter);
    let mut setting = setting();
    let mut refused = 0;
    for account in [0, 3, 8, 0, 7, 0, 3, 8, 0, 3] {
        setting.account = account;
        match garbled(&setting, meter) {
            Ok((_, after)) => meter = after,
            Err((number, place)) => {
                assert_eq!((number, place), (if account == 8 { 25 } else { 21 }, 0));
                refused += 1;
            }
        }
    }
    assert_eq!(refused, 4);
    assert_eq!(meter.totals, [u32::MAX, 0, 0, 3 * ROWS, 0, 0, 0, ROWS]);
}

#[test]
fn garbling_judges_bytes_then_offsets_then_the_meter() {
    let mut setting = setting();
    setting.contributions[OFFSET_5..][..2].fill(0);
    assert_eq!(garbled(&setting, FULL), Err((17, 5)));
    // The lowest modulus, though of a later party.
    setting.contributions[EACH..][..2].fill(0);
    assert_eq!(garbled(&setting, FULL), Err((17, 2)));
    // A byte of the last party before any offset.
    setting.contributions[EACH + 4] = 2;
    assert_eq!(garbled(&setting, FULL), Err((16, EACH + 4)));
    setting.contributions.pop();
    assert_eq!(garbled(&setting, FULL), Err((14, 0)));
    setting.n = 1;
    assert_eq!(garbled(&setting, FULL), Err((11, 0)));
}

/// Accounts above 7, also such as would be one of the eight if they were cut to fewer bits.
const ABOVE: [u32; 10] = [
    8,
    9,
    13,
    255,
    256,
    256 + 5,
    65_536 + 5,
    1 << 31,
    1 << 31 | 5,
    u32::MAX,
];

/// The account is judged after lengths, and before what the contributions and the meter hold.
#[test]
fn garbling_judges_lengths_then_the_account_then_bytes() {
    for account in ABOVE {
        let mut setting = setting();
        setting.account = account;
        assert_eq!(garbled(&setting, NEW), Err((25, 0)));
        assert_eq!(garbled(&setting, FULL), Err((25, 0)));
        setting.contributions[OFFSET_5..][..2].fill(0);
        assert_eq!(garbled(&setting, NEW), Err((25, 0)));
        assert_eq!(garbled(&setting, FULL), Err((25, 0)));
        setting.contributions[EACH + 4] = 2;
        assert_eq!(garbled(&setting, NEW), Err((25, 0)));
        assert_eq!(garbled(&setting, FULL), Err((25, 0)));
        setting.contributions.pop();
        assert_eq!(garbled(&setting, FULL), Err((14, 0)));
        let owner = word::file(&[input(6, 2)]);
        setting.file[4..8].copy_from_slice(&owner);
        assert_eq!(garbled(&setting, FULL), Err((13, 0)));
        setting.k = 129;
        assert_eq!(garbled(&setting, FULL), Err((11, 0)));
        setting.file.pop();
        assert_eq!(garbled(&setting, FULL), Err((10, 6)));
    }
}

/// From the last byte on, one after another too large: each is the lowest of all that are.
#[test]
fn garbling_names_the_lowest_byte_of_all_contributions() {
    let mut setting = setting();
    for at in (0..2 * EACH).rev() {
        setting.contributions[at] = 5;
        assert_eq!(garbled(&setting, FULL), Err((16, at)));
    }
}

#[test]
fn garbling_takes_every_round_number_and_each_has_its_rows() {
    let mut setting = setting();
    let mut seen = Vec::new();
    for round in [0, 1, 1 << 24, 0x0403_0201, 0x0102_0304, u32::MAX] {
        setting.round = round;
        let (rows, meter) = garbled(&setting, NEW).unwrap();
        assert_eq!(meter, with_total(NEW, setting.account, ROWS));
        assert!(!seen.contains(&rows), "{round:#010x}");
        seen.push(rows);
    }
}

/// Party 0's part of both parties' contributions, whatever their lengths.
fn own(setting: &Setting) -> &[u8] {
    let both = &setting.contributions;
    &both[..both.len() / 2]
}

/// What party 0 opens with, in a round with no fault.
struct Opening {
    setting: Setting,
    round: u32,
    externals: Vec<u8>,
    keys: Vec<u8>,
    rows: Vec<u8>,
}

fn opening() -> Opening {
    let setting = setting();
    let (rows, _) = garbled(&setting, NEW).unwrap();
    // Both parties have the same shares: masks 1 + 1 and 2 + 2.
    let mut all = vec![0; 2];
    for (party, mask) in [(0, 0), (1, 4)] {
        let at = party as usize;
        let (value, external) = (&setting.values[at..][..1], &mut all[at..][..1]);
        externals(&setting.file, (2, party), value, &[mask], external).unwrap();
    }
    let mut keys = vec![0; 4];
    let contribution = own(&setting);
    input_keys(&setting.file, (2, 2, 0), contribution, &all, &mut keys).unwrap();
    // The other party's keys are the same, as its contribution is.
    let keys = [&keys[..2], &keys[..2], &keys[2..], &keys[2..]].concat();
    Opening {
        round: setting.round,
        setting,
        externals: all,
        keys,
        rows,
    }
}

/// Opens; the answer, and what the first byte of each written buffer then holds.
fn opened(opening: &Opening) -> (Result<(), (u32, usize)>, [u8; 2]) {
    let given = Given {
        contribution: own(&opening.setting),
        externals: &opening.externals,
        keys: &opening.keys,
        rows: &opening.rows,
    };
    let (mut keys, mut externals) = (vec![9; 4 * 4], vec![9; 4]);
    let (file, numbers) = (&opening.setting.file, (2, 2, 0, opening.round));
    let result = open(file, numbers, &given, &mut keys, &mut externals);
    let result = result.map_err(|refusal| (refusal.number, refusal.place));
    (result, [keys[0], externals[0]])
}

#[test]
fn opening_judges_bytes_then_own_keys_then_gates() {
    let mut opening = opening();
    assert_eq!(opened(&opening).0, Ok(()));
    // Every row changed: no multiplier fits, and what is written is zero.
    opening
        .rows
        .iter_mut()
        .for_each(|byte| *byte = (*byte + 1) % 5);
    assert_eq!(opened(&opening), (Err((20, 2)), [0, 0]));
    // Another party's key is no fault by itself.
    opening.keys[6] = (opening.keys[6] + 1) % 5;
    assert_eq!(opened(&opening), (Err((20, 2)), [0, 0]));
    opening.keys[4] = (opening.keys[4] + 1) % 5;
    assert_eq!(opened(&opening), (Err((19, 1)), [9, 9]));
    opening.rows[3] = 5;
    assert_eq!(opened(&opening), (Err((18, 3)), [9, 9]));
    opening.keys[7] = 5;
    assert_eq!(opened(&opening), (Err((18, 7)), [9, 9]));
    opening.setting.contributions[OFFSET_5..][..2].fill(0);
    assert_eq!(opened(&opening), (Err((17, 5)), [9, 9]));
    opening.setting.contributions[EACH - 1] = 5;
    assert_eq!(opened(&opening), (Err((16, EACH - 1)), [9, 9]));
    opening.externals[1] = 5;
    assert_eq!(opened(&opening), (Err((15, 1)), [9, 9]));
    opening.keys.pop();
    assert_eq!(opened(&opening), (Err((14, 0)), [9, 9]));
}

/// Opened with a number that is another in one bit, whichever: mostly no multiplier fits. There are 5
/// multipliers and 25 keys, so that now and then one does, and wrong keys are opened: of the square,
/// and then now and then of the product too.
#[test]
fn opening_with_another_round_number() {
    let mut opening = opening();
    let garbled = opening.round;
    let mut refused = [0; 4];
    for bit in 0..32 {
        opening.round = garbled ^ 1 << bit;
        let (result, written) = opened(&opening);
        if let Err((number, wire)) = result {
            assert_eq!((number, written), (20, [0, 0]));
            refused[wire] += 1;
        }
    }
    assert!((16..32).contains(&refused[2]), "{refused:?}");
    assert!(refused[3] > 0, "{refused:?}");
    opening.round = garbled;
    assert_eq!(opened(&opening).0, Ok(()));
}

/// The round number is judged by nothing: another one comes to light after all other faults.
#[test]
fn another_round_number_shows_after_all_checks() {
    let mut opening = opening();
    opening.round ^= 1 << 31;
    opening.keys[4] = (opening.keys[4] + 1) % 5;
    assert_eq!(opened(&opening), (Err((19, 1)), [9, 9]));
    opening.rows[3] = 5;
    assert_eq!(opened(&opening), (Err((18, 3)), [9, 9]));
    opening.keys.pop();
    assert_eq!(opened(&opening), (Err((14, 0)), [9, 9]));
}

/// Asks for the input keys of party 0; nothing is written where that is refused.
fn keyed(opening: &Opening) -> Result<(), (u32, usize)> {
    let own = own(&opening.setting);
    let (file, externals) = (&opening.setting.file, &opening.externals);
    let mut keys = [9; 4];
    let result = input_keys(file, (2, 2, 0), own, externals, &mut keys);
    assert_eq!(result.is_err(), keys == [9; 4]);
    result.map_err(|refusal| (refusal.number, refusal.place))
}

#[test]
fn input_keys_and_opening_name_the_lowest_byte_of_the_contribution() {
    let mut opening = opening();
    assert_eq!(keyed(&opening), Ok(()));
    for at in (0..EACH).rev() {
        opening.setting.contributions[at] = 5;
        assert_eq!(keyed(&opening), Err((16, at)));
        assert_eq!(opened(&opening), (Err((16, at)), [9, 9]));
    }
}

/// With the record of another product for the square: zero key, first-part key, two shares. That has
/// three bytes too many in each contribution, whatever they hold.
#[test]
fn a_square_in_the_old_layout_has_the_wrong_length() {
    let mut opening = opening();
    for start in [EACH + SQUARE, SQUARE] {
        let record = [4, 1, 0, 2, 3, 1];
        let old = &mut opening.setting.contributions;
        old.splice(start..start + 3, record);
    }
    assert_eq!(own(&opening.setting).len(), EACH + 3);
    assert_eq!(garbled(&opening.setting, NEW), Err((14, 0)));
    assert_eq!(keyed(&opening), Err((14, 0)));
    assert_eq!(opened(&opening), (Err((14, 0)), [9, 9]));
    // Bytes too large and a zero offset would come after it.
    opening.setting.contributions.fill(0);
    assert_eq!(garbled(&opening.setting, FULL), Err((14, 0)));
    opening.setting.contributions.fill(255);
    assert_eq!(keyed(&opening), Err((14, 0)));
    assert_eq!(opened(&opening), (Err((14, 0)), [9, 9]));
}

#[test]
fn opening_names_the_lowest_key_byte() {
    let mut opening = opening();
    for at in (0..opening.keys.len()).rev() {
        opening.keys[at] = 5;
        assert_eq!(opened(&opening), (Err((18, at)), [9, 9]));
    }
}

#[test]
fn opening_names_the_lowest_row_byte() {
    let mut opening = opening();
    for at in (0..opening.rows.len()).rev() {
        opening.rows[at] = 5;
        assert_eq!(opened(&opening), (Err((18, at)), [9, 9]));
    }
}

#[test]
fn opening_names_a_key_byte_before_a_lower_row_byte() {
    let mut opening = opening();
    opening.rows[2] = 5;
    opening.keys[7] = 5;
    assert_eq!(opened(&opening), (Err((18, 7)), [9, 9]));
    opening.rows.fill(5);
    assert_eq!(opened(&opening), (Err((18, 7)), [9, 9]));
    opening.keys[1] = 2;
    assert_eq!(opened(&opening), (Err((18, 1)), [9, 9]));
}
