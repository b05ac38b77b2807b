//! First guesses of roots in whole numbers, as in `pv_num`.
use crate::num::{Negative, Num};

const START: u64 = 0xfc18_0000;
const FALL: u64 = 0x90e3;

/// One step of Newton's method for 1 / sqrt(part / 2^32), times 2^31.
#[inline]
fn nearer_square(part: u32, inverse: u32) -> u32 {
    let root = (part as u64 * inverse as u64 >> 32) as u32;
    let missing = ((1u64 << 62).saturating_sub(root as u64 * inverse as u64) >> 31) as u32;
    inverse + (missing as u64 * inverse as u64 >> 32) as u32
}

/// A root of which twice as many bits are right.
#[inline]
fn corrected(wide: u128, root: u64, inverse: u32) -> u64 {
    let rest = (wide - root as u128 * root as u128 >> 34) as u64;
    root + (rest as u128 * inverse as u128 >> 60) as u64
}

/// The whole part of the square root of a number of 123 or 124 bits.
#[inline]
pub fn whole_root(wide: u128) -> u64 {
    let part = (wide >> 92) as u32;
    let mut inverse = (START - (part as u64 * FALL >> 16)) as u32;
    for _ in 0..4 {
        inverse = nearer_square(part, inverse);
    }
    let inverse = inverse - 4;
    let root = corrected(wide, corrected(wide, part as u64 * inverse as u64 / 2, inverse), inverse);
    root + ((root as u128 * 2) < wide - root as u128 * root as u128) as u64
}

const ONE: u64 = 1 << 16;

/// About what the logarithm of 1 + x is above x, both times 2^16.
fn bend(x: u64) -> u64 {
    x * (ONE - x) / ONE * 22_500 / ONE
}

/// word 2^twos inverse^count; the inverse has 41 bits behind the point.
#[inline]
fn scaled(word: u64, inverse: u64, count: u64, twos: u64) -> u64 {
    (0..count).fold(word, |t, i| (t as u128 * inverse as u128 >> if i < twos { 40 } else { 41 }) as u64)
}

/// A number near an n-th root: the inverse root of the mantissa to 40 bits, and then one step with all bits.
pub fn near_root(z: Num, n: u8) -> Num {
    let zeros = z.mantissa.leading_zeros();
    let word = z.mantissa << zeros;
    let exponent = z.exponent as u64 + (63 - zeros) as u64 + 512 * (n as u64 - 1);
    let share = (1u64 << 32) / n as u64 + 1;
    let whole = exponent * share >> 32;
    let twos = exponent - whole * n as u64;
    let fraction = (word >> 47) % ONE;
    let down = ONE - ((twos * ONE + fraction + bend(fraction)) * share >> 32) % ONE;
    let mut inverse = (ONE + down - bend(down)) << 24;
    let word = word >> 9;
    for _ in 0..if n <= 16 { 3 } else { 4 } {
        let missing = (1i64 << 54) - scaled(word, inverse, n as u64, twos) as i64;
        let part = inverse as u128 * share as u128 >> 41;
        inverse = inverse.wrapping_add_signed((missing as i128 * part as i128 >> 45) as i64);
    }
    let root = scaled(word, inverse, n as u64 - 1, twos);
    let x = Num::by_rank(((whole as u128 - 61) << 61) + ((root as u128) << 7));
    let rest = z.sub(x.pow(n, false), false);
    let share = (x.mantissa >> 31) * (rest.mantissa >> 31) / ((z.mantissa >> 31) * n as u64).max(1);
    let more = (share >> (z.exponent.saturating_sub(rest.exponent).saturating_sub(31)).min(63)) as u128;
    Num::by_rank(if rest.class == Negative { x.rank().saturating_sub(more) } else { x.rank() + more })
}
