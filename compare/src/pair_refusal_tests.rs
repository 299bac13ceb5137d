//! The order and the places of the refusals of the calls for two.

use crate::circuit::Refusal;
use crate::meter::Meter;
use crate::pair::{decode, garble, input_keys, open, read};
use crate::round_tests::FULL;
use crate::word::{self, *};

/// Keys of two bytes: a wire of modulus 2 and one of modulus 5, which is squared.
const WORDS: [u32; 6] = [
    HEAD,
    input(0, 2),
    input(1, 5),
    multiply(1, 1),
    output(2),
    END,
];

/// Offsets modulo 2 and 5; zero keys of the inputs.
const DRAW: [u8; 8] = [1, 0, 1, 4, 1, 1, 3, 0];

/// Where the offset of modulus 5 and the zero keys start.
const OFFSET_5: usize = 2;
const ZERO_KEYS: usize = 4;

/// 2·5 − 2.
const ROWS: u32 = 8;

/// All that the calls are given. Each test changes some of it.
#[derive(Clone)]
struct Given {
    file: Vec<u8>,
    k: u32,
    account: u32,
    meter: Meter,
    draw: Vec<u8>,
    values: Vec<u8>,
    keys: Vec<u8>,
    rows: Vec<u8>,
    /// How many bytes garbling, input keys and opening write: rows, masks, keys, wire keys and
    /// external values.
    written: [usize; 5],
}

fn good() -> Given {
    Given {
        file: word::file(&WORDS),
        k: 2,
        account: 4,
        meter: Meter::default(),
        draw: DRAW.to_vec(),
        values: vec![1, 4],
        keys: vec![0, 1, 2, 3],
        rows: vec![4; 2 * ROWS as usize],
        written: [2 * ROWS as usize, 1, 4, 6, 3],
    }
}

type Answer = Result<(), (u32, usize)>;

/// The answer to a call that was lent these buffers full of sevens. Where it is refused, they still
/// are.
fn answer(result: Result<(), Refusal>, lent: &[&[u8]]) -> Answer {
    result.map_err(|Refusal { number, place }| {
        assert!(lent.iter().all(|lent| lent.iter().all(|byte| *byte == 7)));
        (number, place)
    })
}

fn garbled(given: &Given) -> Answer {
    let (mut rows, mut masks) = (vec![7; given.written[0]], vec![7; given.written[1]]);
    let mut meter = given.meter;
    let numbers = (given.k, 9, given.account);
    let lent = (&mut rows[..], &mut masks[..]);
    let result = garble(
        &given.file,
        numbers,
        &given.draw,
        lent.0,
        lent.1,
        &mut meter,
    );
    let mut due = given.meter;
    if result.is_ok() {
        due.totals[given.account as usize] += ROWS;
    }
    assert_eq!(meter, due);
    answer(result, &[&rows, &masks])
}

fn keyed(given: &Given) -> Answer {
    let mut keys = vec![7; given.written[2]];
    let result = input_keys(&given.file, given.k, &given.draw, &given.values, &mut keys);
    answer(result, &[&keys])
}

fn opened(given: &Given) -> Answer {
    let (mut keys, mut externals) = (vec![7; given.written[3]], vec![7; given.written[4]]);
    let numbers = (given.k, 9);
    let lent = (&mut keys[..], &mut externals[..]);
    let result = open(
        &given.file,
        numbers,
        &given.keys,
        &given.rows,
        lent.0,
        lent.1,
    );
    answer(result, &[&keys, &externals])
}

fn answers(given: &Given) -> [Answer; 3] {
    [garbled(given), keyed(given), opened(given)]
}

/// What all three calls answer to a good call with this changed.
fn changed(change: impl Fn(&mut Given)) -> [Answer; 3] {
    let mut given = good();
    change(&mut given);
    answers(&given)
}

fn read_answer(words: &[u32]) -> Result<u32, (u32, usize)> {
    read(&word::file(words)).map_err(|Refusal { number, place }| (number, place))
}

#[test]
fn what_is_good_is_accepted() {
    assert_eq!(answers(&good()), [Ok(()); 3]);
    assert_eq!(read_answer(&WORDS), Ok(ROWS));
    // Whatever opens: there is nothing to compare keys with.
    let mut any = good();
    (any.keys, any.rows) = (vec![1, 0, 4, 4], vec![0; 2 * ROWS as usize]);
    assert_eq!(opened(&any), Ok(()));
}

/// A sum, then two selectors: the place is the first one's word, not its wire.
#[test]
fn the_first_selector_is_named() {
    let words = [
        HEAD,
        input(0, 2),
        input(1, 2),
        project(3, 0),
        entry(2),
        entry(0),
        add(0, 1),
        select(3),
        branches(0, 1),
        select(1),
        branches(2, 2),
        output(5),
        END,
    ];
    assert_eq!(read_answer(&words), Err((26, 7)));
    let refused = [Err((26, 7)); 3];
    assert_eq!(changed(|given| given.file = word::file(&words)), refused);
    // It comes after all that is wrong with the file, and before all else.
    let mut cut = words;
    cut[12] = output(6);
    assert_eq!(read_answer(&cut), Err((5, 12)));
    assert_eq!(read_answer(&words[..12]), Err((10, 12)));
    let mut strange = words;
    strange[1] = input(2, 2);
    assert_eq!(read_answer(&strange), Err((26, 7)));
    for k in [0, 2, 129] {
        let answers = changed(|given| {
            given.file = word::file(&strange);
            given.k = k;
            given.draw = Vec::new();
            given.account = 8;
        });
        assert_eq!(answers, refused);
    }
    // Decoding takes circuits with selectors.
    let mut outputs = [7];
    decode(&word::file(&words), &[0; 6], &[1], &mut outputs).unwrap();
    assert_eq!(outputs, [2]);
}

#[test]
fn files_are_judged_first() {
    let answers = changed(|given| {
        given.file.pop();
        given.k = 0;
    });
    assert_eq!(answers, [Err((10, 5)); 3]);
    assert_eq!(changed(|given| given.file.clear()), [Err((1, 0)); 3]);
}

#[test]
fn key_lengths_come_before_owners() {
    for k in [0, 129, 258, 65_538, 1 << 31 | 2, u32::MAX] {
        let answers = changed(|given| {
            given.k = k;
            given.file[4 + 2] = 5;
            given.draw.clear();
        });
        assert_eq!(answers, [Err((11, 0)); 3]);
    }
}

/// Two parties take part; reading does not look at that.
#[test]
fn owners_come_before_lengths() {
    for owner in 2..8 {
        for (inputs, lowest) in [(&[0][..], 0), (&[1], 1), (&[0, 1], 0)] {
            let answers = changed(|given| {
                for input in inputs {
                    given.file[4 * (1 + input) + 2] = owner;
                }
                given.draw.pop();
                given.keys.pop();
            });
            assert_eq!(answers, [Err((13, lowest)); 3]);
        }
    }
    let mut strange = WORDS;
    strange[1] = input(7, 2);
    assert_eq!(read_answer(&strange), Ok(ROWS));
}

/// Each length of each call by itself, too short and too long, beside an account above 7 and bytes too
/// large.
#[test]
fn lengths_are_exact() {
    let worse = |given: &mut Given| {
        given.account = 8;
        (given.draw[0], given.keys[0], given.values[0]) = (255, 255, 255);
    };
    type Lend = fn(&mut Given) -> Vec<&mut Vec<u8>>;
    let read_only: [(usize, Lend); 3] = [
        (0, |given| vec![&mut given.draw]),
        (1, |given| vec![&mut given.draw, &mut given.values]),
        (2, |given| vec![&mut given.keys, &mut given.rows]),
    ];
    for (call, lend) in read_only {
        for at in 0..lend(&mut good()).len() {
            let exact = lend(&mut good())[at].len();
            for length in [0, exact - 1, exact + 1, 2 * exact, 1000] {
                let mut given = good();
                worse(&mut given);
                lend(&mut given)[at].resize(length, 0);
                assert_eq!(answers(&given)[call], Err((14, 0)));
            }
        }
    }
    for (at, call) in [0, 0, 1, 2, 2].into_iter().enumerate() {
        let exact = good().written[at];
        for length in [0, exact - 1, exact + 1, 2 * exact, 1000] {
            let mut given = good();
            worse(&mut given);
            given.written[at] = length;
            assert_eq!(answers(&given)[call], Err((14, 0)));
        }
    }
}

#[test]
fn accounts_come_before_bytes() {
    for account in [8, 255, 256, 1 << 31, u32::MAX] {
        let mut given = good();
        (given.account, given.draw[0]) = (account, 2);
        given.meter = FULL;
        assert_eq!(garbled(&given), Err((25, 0)));
        // The others are not given it.
        given.draw[0] = 1;
        assert_eq!((keyed(&given), opened(&given)), (Ok(()), Ok(())));
    }
}

/// Values, then the draw, each with the lowest place.
#[test]
fn values_come_before_the_draw() {
    for (values, place) in [([2, 4], 0), ([1, 5], 1), ([255, 255], 0)] {
        let mut given = good();
        given.values = values.to_vec();
        given.draw[ZERO_KEYS] = 2;
        given.draw[OFFSET_5] = 3;
        assert_eq!(keyed(&given), Err((15, place)));
        assert_eq!(garbled(&given), Err((16, ZERO_KEYS)));
    }
}

/// Each byte by itself and beside all higher ones, and offsets that begin with another byte than 1,
/// which is judged after.
#[test]
fn the_lowest_byte_of_a_draw_is_named() {
    let moduli = [2, 2, 5, 5, 2, 2, 5, 5];
    for at in 0..DRAW.len() {
        for all in [false, true] {
            let mut given = good();
            given.meter = FULL;
            // Modulus 5's is wrong in itself, and modulus 2's is lower than the byte.
            given.draw[OFFSET_5] = 2;
            given.draw[0] = 0;
            let end = if all { DRAW.len() } else { at + 1 };
            given.draw[at..end].copy_from_slice(&moduli[at..end]);
            assert_eq!(garbled(&given), Err((16, at)));
            assert_eq!(keyed(&given), Err((16, at)));
        }
    }
}

#[test]
fn offsets_begin_with_1() {
    // An offset that is not zero but does not begin with 1, and one that is zero.
    for (offset_2, offset_5, lowest) in [
        ([0, 1], [1, 0], 2),
        ([0, 0], [1, 0], 2),
        ([1, 1], [0, 4], 5),
        ([1, 0], [2, 0], 5),
        ([1, 0], [4, 1], 5),
        ([0, 1], [3, 3], 2),
    ] {
        let mut given = good();
        given.meter = FULL;
        given.draw[..2].copy_from_slice(&offset_2);
        given.draw[2..4].copy_from_slice(&offset_5);
        assert_eq!(garbled(&given), Err((27, lowest)));
        assert_eq!(keyed(&given), Err((27, lowest)));
    }
    // What comes after the 1 may be anything, all zero too.
    let mut given = good();
    given.draw[..4].copy_from_slice(&[1, 0, 1, 0]);
    assert_eq!((garbled(&given), keyed(&given)), (Ok(()), Ok(())));
}

/// Keys are judged by their inputs' moduli, rows by the wire they are for, and keys before rows.
#[test]
fn the_lowest_byte_of_keys_and_rows_is_named() {
    let last = good().rows.len() - 1;
    for (at, byte) in [(0, 2), (1, 255), (2, 5), (3, 6)] {
        let mut given = good();
        given.keys[at..].fill(255);
        given.keys[at] = byte;
        given.rows[0] = 5;
        assert_eq!(opened(&given), Err((18, at)));
    }
    for at in [0, 1, last - 1, last] {
        let mut given = good();
        given.rows[at..].fill(5);
        assert_eq!(opened(&given), Err((18, at)));
    }
}

/// Each account named in turn: it alone has a limit, at which it may stand, and it alone moves.
#[test]
fn the_named_total_has_a_limit() {
    let last = u32::MAX - ROWS;
    for account in 0..8 {
        for others in [0, last, u32::MAX] {
            for (total, due) in [
                (0, Ok(())),
                (last - 1, Ok(())),
                (last, Ok(())),
                (last + 1, Err((21, 0))),
                (u32::MAX, Err((21, 0))),
            ] {
                let mut given = good();
                given.account = account;
                given.meter.totals = [others; 8];
                given.meter.totals[account as usize] = total;
                assert_eq!(garbled(&given), due);
            }
        }
    }
}
