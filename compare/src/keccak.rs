//! Keccak-f[1600], from FIPS 202, section 3.

/// The state as 25 lanes: lane x + 5y holds A[x, y], bit z of it the bit z of weight 2^z.
pub type State = [u64; 25];

/// The permutation: 24 rounds of θ, ρ, π, χ and ι.
pub fn permute(a: &mut State) {
    for constant in ROUND_CONSTANTS {
        theta(a);
        let b = rho_and_pi(a);
        chi(a, &b);
        a[0] ^= constant;
    }
}

/// θ: to each lane the parities of two columns.
#[inline(always)]
fn theta(a: &mut State) {
    let mut parity = [0; 5];
    for x in 0..5 {
        parity[x] = a[x] ^ a[x + 5] ^ a[x + 10] ^ a[x + 15] ^ a[x + 20];
    }
    for x in 0..5 {
        let d = parity[(x + 4) % 5] ^ parity[(x + 1) % 5].rotate_left(1);
        for y in 0..5 {
            a[x + 5 * y] ^= d;
        }
    }
}

/// ρ turns each lane, π moves it: the new A[x, y] is the turned A[x + 3y, x].
#[inline(always)]
fn rho_and_pi(a: &State) -> State {
    let mut b = [0; 25];
    for y in 0..5 {
        for x in 0..5 {
            let from = (x + 3 * y) % 5 + 5 * x;
            b[x + 5 * y] = a[from].rotate_left(OFFSETS[from]);
        }
    }
    b
}

/// χ: each bit by the two after it in its row.
#[inline(always)]
fn chi(a: &mut State, b: &State) {
    for y in 0..5 {
        for x in 0..5 {
            let (next, after) = (b[(x + 1) % 5 + 5 * y], b[(x + 2) % 5 + 5 * y]);
            a[x + 5 * y] = b[x + 5 * y] ^ (!next & after);
        }
    }
}

/// How far ρ turns each lane (algorithm 2 of FIPS 202).
const OFFSETS: [u32; 25] = {
    let mut offsets = [0; 25];
    let (mut x, mut y) = (1, 0);
    let mut t = 0;
    while t < 24 {
        offsets[x + 5 * y] = ((t + 1) * (t + 2) / 2 % 64) as u32;
        (x, y) = (y, (2 * x + 3 * y) % 5);
        t += 1;
    }
    offsets
};

/// What ι adds in each round: bit 2^j - 1 is rc(j + 7·round).
const ROUND_CONSTANTS: [u64; 24] = {
    let mut constants = [0; 24];
    let mut round = 0;
    while round < 24 {
        let mut j = 0;
        while j <= 6 {
            if rc(j + 7 * round) {
                constants[round] |= 1 << ((1 << j) - 1);
            }
            j += 1;
        }
        round += 1;
    }
    constants
};

/// The bit rc(t): the low bit of a shift register after t steps (algorithm 5 of FIPS 202).
const fn rc(t: usize) -> bool {
    let mut register: u32 = 1;
    let mut step = 0;
    while step < t % 255 {
        // The bit that leaves at the top comes in at places 0, 4, 5 and 6.
        register <<= 1;
        if register & 0x100 != 0 {
            register ^= 0x100 | 0b0111_0001;
        }
        step += 1;
    }
    register & 1 == 1
}

#[cfg(test)]
mod tests {
    use super::*;

    #[test]
    fn constants_as_commonly_printed() {
        assert_eq!(ROUND_CONSTANTS[0], 0x0000_0000_0000_0001);
        assert_eq!(ROUND_CONSTANTS[1], 0x0000_0000_0000_8082);
        assert_eq!(ROUND_CONSTANTS[2], 0x8000_0000_0000_808A);
        assert_eq!(ROUND_CONSTANTS[23], 0x8000_0000_8000_8008);
        // The offsets of table 2 of FIPS 202, modulo 64, from x = 0 and y = 0 on.
        assert_eq!(OFFSETS[..5], [0, 1, 62, 28, 27]);
        assert_eq!(OFFSETS[20..], [18, 2, 61, 56, 14]);
    }

    #[test]
    fn the_zero_state() {
        let mut state = [0; 25];
        permute(&mut state);
        assert_eq!(state[0], 0xF125_8F79_40E1_DDE7);
        assert_eq!(state[24], 0xEAF1_FF7B_5CEC_A249);
    }
}
