//! Bundles against numbers and words by hand, each refusal before those that come after it, and
//! parts in circuits that are evaluated.

use crate::bundle::{add, join, multiply, primes, product, scale, split};
use crate::circuit::{Refusal, read};
use crate::generate::bundle_circuits::{Bundle, Draft};
use crate::generate::bundle_numbers::{integer_with_zeros, wrong_counts};
use crate::plain::plain;
use crate::rng::Rng;

const MOST: u64 = 6_469_693_230;

fn answer<T>(result: Result<T, Refusal>) -> Result<T, (u32, usize)> {
    result.map_err(|Refusal { number, place }| (number, place))
}

/// The residues, in a buffer of this length; a refused call leaves it as it was.
fn residues(r: u32, integer: u64, length: usize) -> Result<Vec<u8>, (u32, usize)> {
    let mut residues = vec![0xEE; length];
    let result = answer(split(r, integer, &mut residues));
    assert!(result.is_ok() || residues == vec![0xEE; length]);
    result.map(|()| residues)
}

/// The integer; a refused call leaves the number as it was.
fn joined(r: u32, residues: &[u8]) -> Result<u64, (u32, usize)> {
    let mut integer = 77;
    let result = answer(join(r, residues, &mut integer));
    assert!(result.is_ok() || integer == 77);
    result.map(|()| integer)
}

type Writer<'w> = &'w dyn Fn(&mut [u8], &mut u32) -> Result<(), Refusal>;

/// The words of a part, in a buffer of so many bytes; those past the words, or all of them where the
/// part is refused, stay as they were.
fn part(length: usize, write: Writer<'_>) -> Result<Vec<u32>, (u32, usize)> {
    let (mut file, mut words) = (vec![0xEE; length], 77);
    let result = answer(write(&mut file, &mut words));
    let written = result.map_or(0, |()| 4 * words as usize);
    assert!(file[written..].iter().all(|byte| *byte == 0xEE));
    assert!(result.is_ok() || words == 77);
    let (file, _) = file[..written].as_chunks();
    result.map(|()| file.iter().map(|word| u32::from_le_bytes(*word)).collect())
}

#[test]
fn products_of_the_first_primes() {
    assert_eq!(primes(10).unwrap(), [2, 3, 5, 7, 11, 13, 17, 19, 23, 29]);
    let products = [
        6,
        30,
        210,
        2310,
        30_030,
        510_510,
        9_699_690,
        223_092_870,
        MOST,
    ];
    for (r, due) in (2..).zip(products) {
        assert_eq!(product(&primes(r).unwrap()), due);
    }
    // Ten primes suffice for integers of 32 bits.
    assert!(MOST > 1 << 32 && products[7] < 1 << 32);
}

/// The table of source document 001, residues of 2, 3, 5 and 7 in turn; and 123.
#[test]
fn integers_and_residues_by_hand() {
    let table = [
        (0, [0, 0, 0, 0]),
        (1, [1, 1, 1, 1]),
        (2, [0, 2, 2, 2]),
        (3, [1, 0, 3, 3]),
        (4, [0, 1, 4, 4]),
        (5, [1, 2, 0, 5]),
        (6, [0, 0, 1, 6]),
        (7, [1, 1, 2, 0]),
        (29, [1, 2, 4, 1]),
        (30, [0, 0, 0, 2]),
        (123, [1, 0, 3, 4]),
        (209, [1, 2, 4, 6]),
    ];
    for (integer, by_hand) in table {
        assert_eq!(residues(4, integer, 4), Ok(by_hand.to_vec()));
        assert_eq!(joined(4, &by_hand), Ok(integer));
    }
    // One less than a product is -1 modulo each prime.
    let last = [1, 2, 4, 6, 10, 12, 16, 18, 22, 28];
    assert_eq!(residues(10, MOST - 1, 10), Ok(last.to_vec()));
    assert_eq!(joined(10, &last), Ok(MOST - 1));
    assert_eq!(joined(2, &last[..2]), Ok(5));
    // 2^32: 4 modulo 7, as 2^3 is 1, and 1 modulo 17, as 2^8 is.
    let two_to_32 = [0, 1, 1, 4, 4, 9, 1, 6, 12, 16];
    assert_eq!(residues(10, 1 << 32, 10), Ok(two_to_32.to_vec()));
    assert_eq!(joined(10, &two_to_32), Ok(1 << 32));
}

#[test]
fn splitting_and_joining_undo_each_other() {
    for r in 2..=6 {
        for integer in 0..product(&primes(r).unwrap()) {
            let split = residues(r, integer, r as usize).unwrap();
            assert_eq!(joined(r, &split), Ok(integer));
        }
    }
    let mut rng = Rng::new(1);
    for r in 7..=10 {
        for _ in 0..1000 {
            let integer = rng.next_u64() % product(&primes(r).unwrap());
            let split = residues(r, integer, r as usize).unwrap();
            assert_eq!(joined(r, &split), Ok(integer));
        }
    }
}

#[test]
fn the_count_comes_before_the_length_and_that_before_the_numbers() {
    for r in (2..=10).flat_map(wrong_counts) {
        assert_eq!(residues(r, u64::MAX, 4), Err((23, 0)), "{r}");
        assert_eq!(joined(r, &[255; 4]), Err((23, 0)), "{r}");
        // Even where the length is what is asked for.
        if r < 16 {
            assert_eq!(residues(r, 0, r as usize), Err((23, 0)));
            assert_eq!(joined(r, &vec![0; r as usize]), Err((23, 0)));
        }
    }
    for length in (0..12).filter(|length| *length != 4) {
        assert_eq!(residues(4, 210, length), Err((14, 0)));
        assert_eq!(joined(4, &vec![255; length]), Err((14, 0)));
    }
    assert_eq!(residues(4, 209, 4), Ok(vec![1, 2, 4, 6]));
    for integer in [210, 211, 1 << 32, (1 << 32) + 5, u64::MAX] {
        assert_eq!(residues(4, integer, 4), Err((24, 0)));
    }
    assert_eq!(residues(10, MOST, 10), Err((24, 0)));
    for (at, p) in primes(10).unwrap().into_iter().enumerate() {
        let mut one = [0; 10];
        one[at] = p as u8 - 1;
        assert!(joined(10, &one).is_ok());
        for residue in [p as u8, p as u8 + 1, 255] {
            one[at] = residue;
            assert_eq!(joined(10, &one), Err((24, 0)));
        }
    }
}

#[test]
fn sums_and_products_by_hand() {
    let sum = part(8, &|file, words| add(2, (4, 0, 2), file, words));
    assert_eq!(sum, Ok(vec![0x3000_0002, 0x3000_0403]));
    // The last wires that there are.
    let product = |file: &mut [u8], words: &mut u32| multiply(2, (1022, 1020, 1018), file, words);
    assert_eq!(part(8, &product), Ok(vec![0x500F_F3FA, 0x500F_F7FB]));
    // A bundle by itself, with no other wire there, into a longer buffer.
    let square = part(99, &|file, words| multiply(3, (3, 0, 0), file, words));
    assert_eq!(square, Ok(vec![0x5000_0000, 0x5000_0401, 0x5000_0802]));
}

/// 10 is 0 modulo 2, 1 modulo 3 and 0 modulo 5: projections of wires 4 and 6, a scale of wire 5.
#[test]
fn scaling_by_hand() {
    let by_hand = [
        0x6000_0804,
        0x7000_0000,
        0x7000_0000,
        0x4000_0405,
        0x6000_1406,
        0x7000_0000,
        0x7000_0000,
        0x7000_0000,
        0x7000_0000,
        0x7000_0000,
    ];
    let ten = |file: &mut [u8], words: &mut u32| scale(3, (9, 4), 10, file, words);
    assert_eq!(part(40, &ten), Ok(by_hand.to_vec()));
    assert_eq!(part(43, &ten), Ok(by_hand.to_vec()));
    assert_eq!(part(39, &ten), Err((22, 0)));
    // 29 is 1, 2 and 4.
    let last = part(12, &|file, words| scale(3, (3, 0), 29, file, words));
    assert_eq!(last, Ok(vec![0x4000_0400, 0x4000_0801, 0x4000_1002]));
    // By 0: a projection and as many entries as the prime, for each.
    let zero = |file: &mut [u8], words: &mut u32| scale(10, (10, 0), 0, file, words);
    assert_eq!(part(600, &zero).unwrap().len(), 139);
    assert_eq!(part(4 * 139, &zero).unwrap().len(), 139);
    assert_eq!(part(4 * 139 - 1, &zero), Err((22, 0)));
}

/// The refusal of each of the three parts, the scale by 0.
fn refused(r: u32, (first, a, b): (u32, u32, u32), length: usize) -> [Option<u32>; 3] {
    let number = |write: Writer| {
        let refusal = part(length, write).err();
        refusal.map(|(number, place)| {
            assert_eq!(place, 0);
            number
        })
    };
    [
        number(&|file, words| add(r, (first, a, b), file, words)),
        number(&|file, words| multiply(r, (first, a, b), file, words)),
        number(&|file, words| scale(r, (first, a.max(b)), 0, file, words)),
    ]
}

#[test]
fn parts_are_judged_in_order() {
    let good = |r: u32| (1024 - r, 1024 - 2 * r, 0);
    for r in 2..=10 {
        assert_eq!(refused(r, good(r), 600), [None; 3]);
        for length in [0, 4 * r as usize - 1] {
            assert_eq!(refused(r, good(r), length), [Some(22); 3]);
        }
        for wrong in wrong_counts(r) {
            assert_eq!(refused(wrong, (u32::MAX, u32::MAX, 0), 0), [Some(23); 3]);
        }
        // 8 before 22: the first wire is one too high, or far too high. Cut to 32 bits, some of the
        // sums would be in range.
        let wrapping = 0_u32.wrapping_sub(r);
        for first in [1025 - r, 1024, 1 << 31, wrapping - 1, wrapping, u32::MAX] {
            assert_eq!(refused(r, (first, first - r, 0), 0), [Some(8); 3]);
            assert_eq!(refused(r, (first, 0, first - r), 600), [Some(8); 3]);
            // 5 before 8.
            for bundle in [first - r + 1, first, u32::MAX] {
                assert_eq!(refused(r, (first, bundle, 0), 0), [Some(5); 3]);
                assert_eq!(refused(r, (first, 0, bundle), 600), [Some(5); 3]);
            }
        }
        for bundle in [101 - r, 100, 1 << 31, 0_u32.wrapping_sub(r), u32::MAX] {
            assert_eq!(refused(r, (100, bundle, 0), 0), [Some(5); 3]);
            assert_eq!(refused(r, (100, 0, bundle), 600), [Some(5); 3]);
        }
        assert_eq!(refused(r, (r - 1, 0, 0), 600), [Some(5); 3]);
        assert_eq!(refused(r, (r, 0, 0), 600), [None; 3]);
    }
}

#[test]
fn a_constant_is_judged_after_the_count_and_before_the_wires() {
    let scaled = |r, constant, first, length| {
        let write = move |file: &mut [u8], words: &mut u32| {
            scale(r, (first, first - 1), constant, file, words)
        };
        part(length, &write).map_err(|(number, _)| number)
    };
    assert_eq!(scaled(11, u64::MAX, 2000, 0), Err(23));
    for constant in [30, 31, 1 << 32, u64::MAX] {
        assert_eq!(scaled(3, constant, 2000, 0), Err(24));
    }
    assert_eq!(scaled(3, 29, 2000, 0), Err(5));
    let at_limit = |constant, length| {
        let write =
            move |file: &mut [u8], words: &mut u32| scale(10, (1014, 3), constant, file, words);
        part(length, &write).map_err(|(number, _)| number)
    };
    assert_eq!(at_limit(MOST, 0), Err(24));
    assert_eq!(at_limit(MOST - 1, 39), Err(22));
    assert_eq!(at_limit(MOST - 1, 40).unwrap().len(), 10);
}

/// Writes a part behind a circuit's gates, and gives the bundle that it makes.
fn appended(draft: &mut Draft, r: u32, write: &dyn Fn(u32, &mut [u8], &mut u32)) -> Bundle {
    let first = draft.next_bundle(r).first;
    let filled = |file: &mut [u8], words: &mut u32| {
        write(first, file, words);
        Ok(())
    };
    let words = part(600, &filled).unwrap();
    draft.part(r, &words)
}

/// Two integers x and y: x + y, (x + y)·y, the square of that, and its multiple, modulo the product.
#[test]
fn parts_reckon_modulo_the_product() {
    let mut rng = Rng::new(1);
    for case in 0..900 {
        let r = 2 + case % 9;
        let primes = primes(r).unwrap();
        let whole = product(&primes);
        let [x, y] = [rng.next_u64(), rng.next_u64()].map(|any| any % whole);
        let zeros: Vec<bool> = (0..r).map(|_| rng.once_in(2)).collect();
        let constant = integer_with_zeros(&zeros, &mut rng);
        let mut draft = Draft::new(&mut rng, 2);
        let [a, b] = [x, y].map(|integer| draft.bundle(&residues(r, integer, r as usize).unwrap()));
        let sum = appended(&mut draft, r, &|first, file, words| {
            add(r, (first, a.first, b.first), file, words).unwrap()
        });
        let product = appended(&mut draft, r, &|first, file, words| {
            multiply(r, (first, sum.first, b.first), file, words).unwrap()
        });
        let square = appended(&mut draft, r, &|first, file, words| {
            multiply(r, (first, product.first, product.first), file, words).unwrap()
        });
        let multiple = appended(&mut draft, r, &|first, file, words| {
            scale(r, (first, square.first), constant, file, words).unwrap()
        });
        for bundle in [sum, product, square, multiple] {
            draft.outputs_of(bundle);
        }
        let (file, values) = draft.end();
        read(&file).expect("parts of an accepted circuit are accepted");
        let mut outputs = vec![0; 4 * r as usize];
        plain(&file, &values, &mut outputs).unwrap();
        let due = reckoned(x, y, constant, whole);
        for (decoded, due) in outputs.chunks(r as usize).zip(due) {
            assert_eq!(joined(r, decoded), Ok(due));
        }
    }
}

fn reckoned(x: u64, y: u64, constant: u64, whole: u64) -> [u64; 4] {
    let [x, y, constant, whole] = [x, y, constant, whole].map(u128::from);
    let sum = (x + y) % whole;
    let product = sum * y % whole;
    let square = product * product % whole;
    [sum, product, square, constant * square % whole].map(|integer| integer as u64)
}
