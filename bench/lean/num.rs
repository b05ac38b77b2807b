//! The arithmetic of `pv_num` in plain Rust: 62-bit mantissas, rounded outward.
use crate::roots::{near_root, whole_root};
use std::cmp::Ordering;

#[derive(Clone, Copy, PartialEq, Eq, PartialOrd, Ord, Debug)]
pub enum Class {
    NegInf,
    Negative,
    Positive,
    PosInf,
}
pub use self::Class::*;

/// mantissa·2^(exponent - 512), with the top bit of 62 set where the exponent is above 0.
#[derive(Clone, Copy, PartialEq, Eq, Debug)]
pub struct Num {
    pub class: Class,
    pub exponent: u16,
    pub mantissa: u64,
}

const TOP_EXPONENT: u32 = 962;
pub const ZERO: Num = Num { class: Positive, exponent: 0, mantissa: 0 };
pub const NEG_INF: Num = Num { class: NegInf, exponent: 0, mantissa: 0 };
pub const POS_INF: Num = Num { class: PosInf, exponent: 0, mantissa: 0 };
pub const ONE: Num = Num { class: Positive, exponent: 451, mantissa: 1 << 61 };

/// parts·2^at in units of 2^-512, rounded towards zero or away from it.
#[inline]
fn round(parts: u128, at: i32, away: bool) -> Option<(u16, u64)> {
    let bits = 128 - parts.leading_zeros() as i32;
    let exponent = (at + bits - 62).max(0);
    let shift = exponent - at;
    let (mut mantissa, lost) = if shift <= 0 {
        ((parts << -shift) as u64, false)
    } else if shift >= 128 {
        (0, parts != 0)
    } else {
        ((parts >> shift) as u64, parts & ((1u128 << shift) - 1) != 0)
    };
    let mut exponent = exponent as u32;
    if lost && away {
        mantissa += 1;
        if mantissa == 1 << 62 {
            mantissa = 1 << 61;
            exponent += 1;
        }
    }
    (exponent <= TOP_EXPONENT).then_some((exponent as u16, mantissa))
}

#[inline]
pub fn finite(negative: bool, parts: u128, at: i32, up: bool) -> Num {
    if parts == 0 {
        return ZERO;
    }
    let class = if negative { Negative } else { Positive };
    let away = up != negative;
    match round(parts, at, away) {
        Some((exponent, mantissa)) if mantissa > 0 => Num { class, exponent, mantissa },
        Some(_) => ZERO,
        None if away => if negative { NEG_INF } else { POS_INF },
        None => Num { class, exponent: TOP_EXPONENT as u16, mantissa: (1 << 62) - 1 },
    }
}

impl PartialOrd for Num {
    #[inline]
    fn partial_cmp(&self, other: &Num) -> Option<Ordering> {
        Some(self.cmp(other))
    }
}

impl Ord for Num {
    #[inline]
    fn cmp(&self, other: &Num) -> Ordering {
        match self.class.cmp(&other.class) {
            Ordering::Equal if self.class == Negative => (other.exponent, other.mantissa).cmp(&(self.exponent, self.mantissa)),
            Ordering::Equal => (self.exponent, self.mantissa).cmp(&(other.exponent, other.mantissa)),
            unequal => unequal,
        }
    }
}

impl Num {
    #[inline]
    pub fn is_finite(self) -> bool {
        matches!(self.class, Negative | Positive)
    }

    #[inline]
    pub fn is_zero(self) -> bool {
        self.mantissa == 0 && self.class == Positive
    }

    #[inline]
    pub fn is_below_zero(self) -> bool {
        self.class <= Negative
    }

    #[inline]
    pub fn neg(self) -> Num {
        let class = match self.class {
            NegInf => PosInf,
            PosInf => NegInf,
            Negative => Positive,
            Positive if self.mantissa > 0 => Negative,
            Positive => Positive,
        };
        Num { class, ..self }
    }

    #[inline]
    pub fn mul(self, other: Num, up: bool) -> Num {
        if self.is_finite() && other.is_finite() {
            let parts = self.mantissa as u128 * other.mantissa as u128;
            let at = self.exponent as i32 + other.exponent as i32 - 512;
            return finite((self.class == Negative) != (other.class == Negative), parts, at, up);
        }
        if self.is_zero() || other.is_zero() {
            return ZERO;
        }
        if self.is_below_zero() == other.is_below_zero() { POS_INF } else { NEG_INF }
    }

    #[inline]
    pub fn add(self, other: Num, up: bool) -> Num {
        if !(self.is_finite() && other.is_finite()) {
            if !self.is_finite() && !other.is_finite() && self != other {
                return if up { POS_INF } else { NEG_INF };
            }
            return if self.is_finite() { other } else { self };
        }
        let (far, near) = if self.exponent >= other.exponent { (self, other) } else { (other, self) };
        let distance = (far.exponent - near.exponent) as u32;
        let same = far.class == near.class;
        if distance > 64 {
            let parts = (far.mantissa as u128) << 64;
            let tail = (near.mantissa != 0) as u128;
            let parts = if same { parts + tail } else { parts - tail };
            return finite(far.class == Negative, parts, far.exponent as i32 - 64, up);
        }
        let high = (far.mantissa as u128) << distance;
        let low = near.mantissa as u128;
        let at = near.exponent as i32;
        if same {
            finite(far.class == Negative, high + low, at, up)
        } else if high >= low {
            finite(far.class == Negative, high - low, at, up)
        } else {
            finite(near.class == Negative, low - high, at, up)
        }
    }

    #[inline]
    pub fn sub(self, other: Num, up: bool) -> Num {
        self.add(other.neg(), up)
    }

    #[inline]
    pub fn div(self, other: Num, up: bool) -> Num {
        if !other.is_finite() {
            return ZERO;
        }
        if !self.is_finite() {
            return if other.is_below_zero() { self.neg() } else { self };
        }
        let shift = other.mantissa.leading_zeros();
        let high = (self.mantissa as u128) << 64;
        let by = (other.mantissa << shift) as u128;
        let parts = 2 * (high / by) + (high % by != 0) as u128;
        let at = self.exponent as i32 - 65 - other.exponent as i32 + 512 + shift as i32;
        finite((self.class == Negative) != (other.class == Negative), parts, at, up)
    }

    #[inline]
    pub fn pow(self, n: u8, up: bool) -> Num {
        if n == 0 {
            return ONE;
        }
        (1..n).fold(self, |r, _| r.mul(self, up))
    }

    pub fn by_rank(rank: u128) -> Num {
        if rank < 1 << 61 {
            return Num { class: Positive, exponent: 0, mantissa: rank as u64 };
        }
        let exponent = ((rank >> 61) - 1) as u16;
        Num { class: Positive, exponent, mantissa: (rank - ((exponent as u128) << 61)) as u64 }
    }

    pub fn rank(self) -> u128 {
        ((self.exponent as u128) << 61) + self.mantissa as u128
    }

    /// The square root of a number with 62 bits in its mantissa: the whole part of the root of one number of 123 or 124
    /// bits, and one more where a rest is left and the root is rounded up.
    fn square_root(self, up: bool) -> Num {
        let odd = (self.exponent & 1) as u32;
        let parts = (self.mantissa as u128) << (62 - odd);
        let root = whole_root(parts);
        let more = up && root as u128 * root as u128 != parts;
        let rank = ((self.exponent as u128 + 450 + odd as u128) / 2 << 61) + root as u128 + more as u128;
        Num::by_rank(rank)
    }

    /// self at least 0. Gallops from the guess, and then bisects.
    pub fn root(self, n: u8, up: bool) -> Num {
        if self.class == PosInf {
            return POS_INF;
        }
        if n == 1 || self.is_zero() {
            return self;
        }
        if n == 2 && self.exponent > 0 {
            return self.square_root(up);
        }
        let good = |rank: u128| {
            let r = Num::by_rank(rank);
            if up { r.pow(n, false) >= self } else { r.pow(n, true) > self }
        };
        // the least good rank; for Down the answer is the one before it
        let (mut low, mut high) = (near_root(self, n).rank(), 0);
        let mut step = 1;
        if good(low) {
            high = low;
            while low > 0 && good(low - 1) {
                high = low - 1;
                low = high.saturating_sub(step);
                step *= 2;
                if low > 0 && !good(low - 1) || low == 0 {
                    break;
                }
            }
        } else {
            high = high.max(low + 1);
            while !good(high) {
                low = high + 1;
                high += step;
                step *= 2;
            }
        }
        while low < high {
            let mid = (low + high) / 2;
            if good(mid) { high = mid } else { low = mid + 1 }
        }
        Num::by_rank(if up { low } else { low - 1 })
    }

    pub fn ratio(p: i128, q: u128, up: bool) -> Num {
        // p below 10^37 and q up to 10^36: two steps of 64 bits of quotient
        let (mut rest, by) = (p.unsigned_abs(), q);
        let mut whole: u128 = rest / by;
        rest %= by;
        let mut at = 512i32;
        while whole < 1 << 64 && at > 512 - 700 && rest != 0 {
            rest *= 2;
            whole = whole * 2 + (rest >= by) as u128;
            if rest >= by {
                rest -= by;
            }
            at -= 1;
        }
        finite(p < 0, (whole << 1) | (rest != 0) as u128, at - 1, up)
    }

    pub fn middle(lo: Num, hi: Num) -> Option<Num> {
        let inside = |cut: Num| (cut.is_finite() && lo < cut && cut < hi).then_some(cut);
        let half = |up: bool| {
            if hi.is_zero() && lo.is_zero() {
                return ZERO;
            }
            // exact up to the one rounding: half of each end shifts the exponent, by one more bit below
            lo.scaled_add(hi, up)
        };
        match (lo.is_finite(), hi.is_finite()) {
            (false, false) => Some(ZERO),
            (false, true) if hi > ZERO => Some(ZERO),
            (false, true) => inside(hi.add(hi, false).add(ONE.neg(), false)),
            (true, false) if lo < ZERO => Some(ZERO),
            (true, false) => inside(lo.add(lo, true).add(ONE, true)),
            (true, true) => {
                let cut = half(false);
                inside(if cut > lo { cut } else { half(true) })
            }
        }
    }

    /// (self + other) / 2, rounded once.
    fn scaled_add(self, other: Num, up: bool) -> Num {
        let (far, near) = if self.exponent >= other.exponent { (self, other) } else { (other, self) };
        let distance = (far.exponent - near.exponent) as u32;
        let same = far.class == near.class;
        let (high, low, at) = if distance > 64 {
            ((far.mantissa as u128) << 64, (near.mantissa != 0) as u128, far.exponent as i32 - 64)
        } else {
            ((far.mantissa as u128) << distance, near.mantissa as u128, near.exponent as i32)
        };
        let (negative, parts) = if same {
            (far.class == Negative, high + low)
        } else if high >= low {
            (far.class == Negative, high - low)
        } else {
            (near.class == Negative, low - high)
        };
        finite(negative, parts, at - 1, up)
    }

    /// The sign, the odd mantissa and the exponent; of an infinite end its text.
    pub fn spelled(self) -> Result<(bool, u64, i32), &'static str> {
        match self.class {
            NegInf => Err("-oo"),
            PosInf => Err("+oo"),
            _ if self.mantissa == 0 => Ok((false, 0, 0)),
            class => {
                let odd = self.mantissa.trailing_zeros();
                Ok((class == Negative, self.mantissa >> odd, self.exponent as i32 - 512 + odd as i32))
            }
        }
    }

    pub fn spelling(self) -> String {
        match self.spelled() {
            Err(end) => end.into(),
            Ok((negative, mantissa, exponent)) => format!("{}{mantissa}:{exponent}", if negative { "-" } else { "" }),
        }
    }
}
