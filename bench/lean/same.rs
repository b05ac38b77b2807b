//! The code of `pv_num`'s add, sub, mul and div carried over to Rust line by line, in the chains of `numbers.rs`: what the
//! two compilers make of the same code.
//!
//!     rustc --edition 2021 -O bench/lean/same.rs -o /tmp/same && /tmp/same mul 10000000
use std::env::args;
use std::hint::black_box;

#[derive(Clone, Copy, PartialEq, Eq)]
enum End {
    Down,
    Up,
}

#[derive(Clone, Copy, PartialEq, Eq)]
enum Class {
    MinusOo,
    Negative,
    NonNegative,
    PlusOo,
}

impl Class {
    #[inline(always)]
    fn opposite(self) -> Class {
        match self {
            Class::MinusOo => Class::PlusOo,
            Class::Negative => Class::NonNegative,
            Class::NonNegative => Class::Negative,
            Class::PlusOo => Class::MinusOo,
        }
    }
}

#[derive(Clone, Copy, PartialEq, Eq)]
struct Num {
    class: Class,
    exponent: u16,
    mantissa: u64,
}

#[derive(Clone, Copy, PartialEq, Eq)]
enum Toward {
    Zero,
    Away,
}

impl Toward {
    #[inline(always)]
    fn other(self) -> Toward {
        match self {
            Toward::Zero => Toward::Away,
            Toward::Away => Toward::Zero,
        }
    }

    #[inline(always)]
    fn up(self) -> u64 {
        match self {
            Toward::Zero => 0,
            Toward::Away => 1,
        }
    }
}

#[derive(Clone, Copy)]
struct Magnitude {
    mantissa: u64,
    exponent: u16,
}

const FINE_BITS: u16 = 1024;
const MANTISSA_BITS: u16 = 62;
const TOP_EXPONENT: u16 = 962;
const FULL: u128 = 0x400_0000_0000_0000_0000_0000_0000_0000;
const LONG: u128 = 0x800_0000_0000_0000_0000_0000_0000_0000;
const LEAST_SCALE: u16 = 451;
const GREATEST_SCALE: u16 = 1412;
const ZERO: Num = Num { class: Class::NonNegative, exponent: 0, mantissa: 0 };
const ONE: Num = Num { class: Class::NonNegative, exponent: 451, mantissa: 1 << 61 };
const NEG_INF: Num = Num { class: Class::MinusOo, exponent: 0, mantissa: 0 };
const POS_INF: Num = Num { class: Class::PlusOo, exponent: 0, mantissa: 0 };

#[inline(always)]
fn round(parts: u128, at: u16, toward: Toward) -> Option<Magnitude> {
    if parts == 0 {
        return Some(Magnitude { mantissa: 0, exponent: 0 });
    }
    let exponent = (bit_length(parts) + at).saturating_sub(FINE_BITS + MANTISSA_BITS);
    if exponent > TOP_EXPONENT {
        return beyond(toward);
    }
    let (mantissa, exact) = aligned(parts, at, FINE_BITS + exponent);
    next(mantissa, exponent, exact, toward)
}

#[cold]
#[inline(never)]
fn beyond(toward: Toward) -> Option<Magnitude> {
    match toward {
        Toward::Zero => Some(Magnitude { mantissa: (1 << 62) - 1, exponent: 962 }),
        Toward::Away => None,
    }
}

#[inline]
fn bit_length(parts: u128) -> u16 {
    128 - parts.leading_zeros() as u16
}

#[inline]
fn aligned(parts: u128, at: u16, cut: u16) -> (u64, bool) {
    if cut <= at {
        return ((parts << (at - cut)) as u64, true);
    }
    let dropped = cut - at;
    if dropped >= 128 {
        return (0, false);
    }
    let kept = parts >> dropped;
    (kept as u64, kept << dropped == parts)
}

#[inline]
fn raised(mantissa: u64, exponent: u16) -> Option<Magnitude> {
    if mantissa < 0x3fff_ffff_ffff_ffff {
        return Some(Magnitude { mantissa: mantissa + 1, exponent });
    }
    carried(mantissa, exponent)
}

#[cold]
#[inline(never)]
fn carried(_mantissa: u64, exponent: u16) -> Option<Magnitude> {
    if exponent == TOP_EXPONENT {
        return None;
    }
    Some(Magnitude { mantissa: 0x2000_0000_0000_0000, exponent: exponent + 1 })
}

#[inline]
fn toward(side: End, negative: bool) -> Toward {
    match (side, negative) {
        (End::Down, true) | (End::Up, false) => Toward::Away,
        _ => Toward::Zero,
    }
}

#[inline]
fn infinite(negative: bool) -> Num {
    if negative { NEG_INF } else { POS_INF }
}

#[inline]
fn signed(negative: bool, size: Option<Magnitude>) -> Num {
    match size {
        None => infinite(negative),
        Some(m) => {
            if negative && m.mantissa > 0 {
                Num { class: Class::Negative, exponent: m.exponent, mantissa: m.mantissa }
            } else {
                Num { class: Class::NonNegative, exponent: m.exponent, mantissa: m.mantissa }
            }
        }
    }
}

#[inline(always)]
fn nonzero(negative: bool, size: Magnitude) -> Num {
    if negative {
        Num { class: Class::Negative, exponent: size.exponent, mantissa: size.mantissa }
    } else {
        Num { class: Class::NonNegative, exponent: size.exponent, mantissa: size.mantissa }
    }
}

#[inline]
fn is_smaller(x: Magnitude, y: Magnitude) -> bool {
    if x.exponent < y.exponent {
        true
    } else if y.exponent < x.exponent {
        false
    } else {
        x.mantissa < y.mantissa
    }
}

#[inline]
fn next(mantissa: u64, exponent: u16, exact: bool, toward: Toward) -> Option<Magnitude> {
    match toward {
        Toward::Zero => Some(Magnitude { mantissa, exponent }),
        Toward::Away => {
            if exact {
                Some(Magnitude { mantissa, exponent })
            } else {
                raised(mantissa, exponent)
            }
        }
    }
}

#[inline(always)]
fn alike_sum(a: Num, b: Num, side: End) -> Num {
    let (x, y) = (a.size(), b.size());
    if x.exponent < y.exponent { ordered_sum(a, y, x, side) } else { ordered_sum(a, x, y, side) }
}

#[inline(always)]
fn ordered_sum(like: Num, x: Magnitude, y: Magnitude, side: End) -> Num {
    let negative = like.is_negative();
    let toward = toward(side, negative);
    let sum = x.mantissa + whole(y.mantissa, x.exponent - y.exponent, toward);
    if sum >= 0x4000_0000_0000_0000 && x.exponent == TOP_EXPONENT {
        return signed(negative, beyond(toward));
    }
    like.with_size(fitted(sum, x.exponent, toward))
}

#[inline(always)]
fn fitted(word: u64, exponent: u16, toward: Toward) -> Magnitude {
    if word < 0x4000_0000_0000_0000 {
        return Magnitude { mantissa: word, exponent };
    }
    Magnitude { mantissa: whole(word, 1, toward), exponent: exponent + 1 }
}

#[inline(always)]
fn whole(mantissa: u64, distance: u16, toward: Toward) -> u64 {
    let up = toward.up() as i64;
    (((mantissa as i64 - up) >> reach(distance)) + up) as u64
}

#[inline(always)]
fn reach(distance: u16) -> u16 {
    if distance < 63 { distance } else { 63 }
}

#[inline(always)]
fn unlike_sum(a: Num, b: Num, side: End) -> Num {
    let (x, y) = (a.size(), b.size());
    let smaller = is_smaller(x, y);
    let negative = a.is_negative() ^ smaller;
    let size = distance(x, y, smaller, toward(side, negative));
    signed(negative, Some(size))
}

#[inline(never)]
fn distance(x: Magnitude, y: Magnitude, smaller: bool, toward: Toward) -> Magnitude {
    if smaller { size_difference(y, x, toward) } else { size_difference(x, y, toward) }
}

#[inline]
fn size_difference(x: Magnitude, y: Magnitude, toward: Toward) -> Magnitude {
    if x.exponent == 0 {
        return justified(x.mantissa - y.mantissa, 0);
    }
    let exponent = x.exponent - 1;
    let word = x.mantissa * 2 - units(y, exponent, toward.other());
    if word < 0x2000_0000_0000_0000 {
        return justified(word, exponent);
    }
    fitted(word, exponent, toward)
}

#[inline(always)]
fn units(size: Magnitude, exponent: u16, toward: Toward) -> u64 {
    if exponent < size.exponent {
        return size.mantissa * 2;
    }
    whole(size.mantissa, exponent - size.exponent, toward)
}

#[inline]
fn justified(word: u64, exponent: u16) -> Magnitude {
    if word == 0 {
        return Magnitude { mantissa: 0, exponent: 0 };
    }
    let free = 62 - bit_length(word as u128);
    if free < exponent {
        return Magnitude { mantissa: word << free, exponent: exponent - free };
    }
    Magnitude { mantissa: word << exponent, exponent: 0 }
}

#[inline(always)]
fn infinite_sum(a: Num, b: Num, side: End) -> Num {
    match a.class {
        Class::MinusOo => match b.class {
            Class::PlusOo => end(side),
            _ => NEG_INF,
        },
        Class::PlusOo => match b.class {
            Class::MinusOo => end(side),
            _ => POS_INF,
        },
        _ => b,
    }
}

#[inline]
fn end(side: End) -> Num {
    match side {
        End::Down => NEG_INF,
        End::Up => POS_INF,
    }
}

#[inline(always)]
fn infinite_product(a: Num, b: Num) -> Num {
    if a.is_zero() {
        return ZERO;
    }
    if b.is_zero() {
        return ZERO;
    }
    infinite(a.is_negative() ^ b.is_negative())
}

#[inline(always)]
fn product(negative: bool, x: Magnitude, y: Magnitude, side: End) -> Num {
    let toward = toward(side, negative);
    let parts = x.mantissa as u128 * y.mantissa as u128;
    let scale = x.exponent + y.exponent;
    if parts < FULL || scale < LEAST_SCALE || scale > GREATEST_SCALE {
        return signed(negative, rare_product(parts, scale, toward));
    }
    nonzero(negative, full_product(parts, scale, toward))
}

#[cold]
#[inline(never)]
fn rare_product(parts: u128, scale: u16, toward: Toward) -> Option<Magnitude> {
    round(parts, scale + 512, toward)
}

#[inline(always)]
fn full_product(parts: u128, scale: u16, toward: Toward) -> Magnitude {
    let word = cut(parts, toward);
    let exponent = scale - LEAST_SCALE;
    if parts >= LONG {
        return Magnitude { mantissa: whole(word, 1, toward), exponent: exponent + 1 };
    }
    fitted(word, exponent, toward)
}

#[inline(always)]
fn cut(parts: u128, toward: Toward) -> u64 {
    let up = toward.up();
    ((parts - up as u128) >> 61) as u64 + up
}

fn quotient(x: Magnitude, y: Magnitude, toward: Toward) -> Option<Magnitude> {
    if x.mantissa == 0 {
        return round(0, 0, toward);
    }
    let (n, shift) = left_aligned(x.mantissa as u128, 126);
    let d = y.mantissa as u128;
    let q = n / d;
    let parts = 2 * q + inexact(n - q * d);
    round(parts, x.exponent + 1535 - y.exponent - shift, toward)
}

#[inline]
fn inexact(rest: u128) -> u128 {
    if rest == 0 { 0 } else { 1 }
}

#[inline]
fn left_aligned(n: u128, bits: u16) -> (u128, u16) {
    let shift = bits - bit_length(n);
    (n << shift, shift)
}

impl Num {
    #[inline]
    fn neg(self) -> Num {
        if self.is_zero() {
            return self;
        }
        Num { class: self.class.opposite(), exponent: self.exponent, mantissa: self.mantissa }
    }

    #[inline]
    fn is_negative(self) -> bool {
        match self.class {
            Class::MinusOo => true,
            Class::Negative => true,
            Class::NonNegative => false,
            Class::PlusOo => false,
        }
    }

    #[inline]
    fn is_infinite(self) -> bool {
        match self.class {
            Class::MinusOo => true,
            Class::Negative => false,
            Class::NonNegative => false,
            Class::PlusOo => true,
        }
    }

    #[inline(always)]
    fn is_alike(self, other: Num) -> bool {
        self.class == other.class
    }

    #[inline(always)]
    fn with_size(self, size: Magnitude) -> Num {
        Num { class: self.class, exponent: size.exponent, mantissa: size.mantissa }
    }

    #[inline]
    fn is_zero(self) -> bool {
        match self.class {
            Class::NonNegative => self.mantissa == 0,
            _ => false,
        }
    }

    #[inline]
    fn size(self) -> Magnitude {
        Magnitude { mantissa: self.mantissa, exponent: self.exponent }
    }

    #[inline(always)]
    fn add(self, other: Num, side: End) -> Num {
        if other.is_infinite() {
            return infinite_sum(self, other, side);
        }
        if self.is_alike(other) {
            return alike_sum(self, other, side);
        }
        if self.is_infinite() {
            return infinite_sum(self, other, side);
        }
        unlike_sum(self, other, side)
    }

    #[inline(always)]
    fn sub(self, other: Num, side: End) -> Num {
        self.add(other.neg(), side)
    }

    #[inline(always)]
    fn mul(self, other: Num, side: End) -> Num {
        if self.is_infinite() {
            return infinite_product(self, other);
        }
        if other.is_infinite() {
            return infinite_product(self, other);
        }
        let negative = !self.is_alike(other);
        product(negative, self.size(), other.size(), side)
    }

    fn div(self, other: Num, side: End) -> Num {
        if other.is_infinite() {
            return ZERO;
        }
        let negative = self.is_negative() ^ other.is_negative();
        if self.is_infinite() {
            return infinite(negative);
        }
        let size = quotient(self.size(), other.size(), toward(side, negative));
        signed(negative, size)
    }
}

#[inline]
fn side_of(step: u64) -> End {
    if step % 2 == 1 { End::Up } else { End::Down }
}

#[inline(never)]
fn sums(by: Num, steps: u64) -> Num {
    let mut x = ONE;
    for step in 0..steps {
        x = x.add(by, side_of(step));
    }
    x
}

#[inline(never)]
fn differences(by: Num, steps: u64) -> Num {
    let mut x = ONE;
    for step in 0..steps {
        x = by.sub(x, side_of(step));
    }
    x
}

#[inline(never)]
fn products(by: Num, steps: u64) -> Num {
    let mut x = ONE;
    for step in 0..steps {
        x = x.mul(by, side_of(step));
    }
    x
}

#[inline(never)]
fn quotients(by: Num, steps: u64) -> Num {
    let mut x = ONE;
    for step in 0..steps {
        x = x.div(by, side_of(step));
    }
    x
}

fn main() {
    let words: Vec<String> = args().collect();
    let steps: u64 = words[2].parse().unwrap();
    // behind a black box: a program whose operand is known when it is compiled leaves half of add out
    let half = black_box(Num { class: Class::NonNegative, exponent: 451, mantissa: 3 << 60 });
    let below_one = black_box(Num { class: Class::NonNegative, exponent: 450, mantissa: 2305843009213693951 << 1 });
    let x = match words[1].as_str() {
        "add" => sums(half, steps),
        "sub" => differences(half, steps),
        "mul" => products(below_one, steps),
        "div" => quotients(below_one, steps),
        _ => ONE,
    };
    println!("{}:{}", x.mantissa, x.exponent as i32 - 512);
}
