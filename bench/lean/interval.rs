//! Interval operations and projections by their tables, signs first.
use crate::num::{Num, NEG_INF, ONE, POS_INF, ZERO};

#[derive(Clone, Copy, PartialEq, Eq, Debug)]
pub struct Interval {
    pub lo: Num,
    pub hi: Num,
}

pub const ALL: Interval = Interval { lo: NEG_INF, hi: POS_INF };

#[inline]
fn of(lo: Num, hi: Num) -> Interval {
    Interval { lo, hi }
}

impl Interval {
    #[inline]
    fn is_zero(self) -> bool {
        self.lo.is_zero() && self.hi.is_zero()
    }

    #[inline]
    pub fn has_zero(self) -> bool {
        self.lo <= ZERO && ZERO <= self.hi
    }

    #[inline]
    pub fn add(self, y: Interval) -> Interval {
        of(self.lo.add(y.lo, false), self.hi.add(y.hi, true))
    }

    #[inline]
    pub fn sub(self, y: Interval) -> Interval {
        of(self.lo.sub(y.hi, false), self.hi.sub(y.lo, true))
    }

    #[inline]
    pub fn mul(self, y: Interval) -> Interval {
        let (x_up, x_down, y_up, y_down) = (self.lo >= ZERO, self.hi <= ZERO, y.lo >= ZERO, y.hi <= ZERO);
        let pick = |a: Num, c: Num, b: Num, d: Num| of(a.mul(c, false), b.mul(d, true));
        match (x_up, x_down, y_up, y_down) {
            (true, _, true, _) => pick(self.lo, y.lo, self.hi, y.hi),
            (true, _, _, true) => pick(self.hi, y.lo, self.lo, y.hi),
            (true, _, _, _) => pick(self.hi, y.lo, self.hi, y.hi),
            (_, true, true, _) => pick(self.lo, y.hi, self.hi, y.lo),
            (_, true, _, true) => pick(self.hi, y.hi, self.lo, y.lo),
            (_, true, _, _) => pick(self.lo, y.hi, self.lo, y.lo),
            (_, _, true, _) => pick(self.lo, y.hi, self.hi, y.hi),
            (_, _, _, true) => pick(self.hi, y.lo, self.lo, y.lo),
            _ => of(
                self.lo.mul(y.hi, false).min(self.hi.mul(y.lo, false)),
                self.lo.mul(y.lo, true).max(self.hi.mul(y.hi, true)),
            ),
        }
    }

    #[inline]
    pub fn neg(self) -> Interval {
        of(self.hi.neg(), self.lo.neg())
    }

    pub fn abs(self) -> Interval {
        if self.lo >= ZERO {
            self
        } else if self.hi <= ZERO {
            self.neg()
        } else {
            of(ZERO, self.hi.max(self.lo.neg()))
        }
    }

    pub fn min(self, y: Interval) -> Interval {
        of(self.lo.min(y.lo), self.hi.min(y.hi))
    }

    pub fn max(self, y: Interval) -> Interval {
        of(self.lo.max(y.lo), self.hi.max(y.hi))
    }

    pub fn pow(self, n: u8) -> Interval {
        let (a, b) = (self.lo, self.hi);
        if n == 0 {
            return of(ONE, ONE);
        }
        if n % 2 == 1 {
            let lo = if a >= ZERO { a.pow(n, false) } else { a.neg().pow(n, true).neg() };
            let hi = if b >= ZERO { b.pow(n, true) } else { b.neg().pow(n, false).neg() };
            return of(lo, hi);
        }
        if a >= ZERO {
            of(a.pow(n, false), b.pow(n, true))
        } else if b <= ZERO {
            of(b.neg().pow(n, false), a.neg().pow(n, true))
        } else {
            of(ZERO, a.neg().max(b).pow(n, true))
        }
    }

    pub fn quotient(self, y: Interval) -> Option<Interval> {
        if y.is_zero() {
            return None;
        }
        if y.has_zero() {
            return Some(self.quotient_at_zero(y));
        }
        let (a, b, c, d) = (self.lo, self.hi, y.lo, y.hi);
        let pick = |p: Num, q: Num, r: Num, s: Num| Some(of(p.div(q, false), r.div(s, true)));
        match (c > ZERO, a >= ZERO, b <= ZERO) {
            (true, true, _) => pick(a, d, b, c),
            (true, _, true) => pick(a, c, b, d),
            (true, _, _) => pick(a, c, b, c),
            (_, true, _) => pick(b, d, a, c),
            (_, _, true) => pick(b, c, a, d),
            _ => pick(b, d, a, d),
        }
    }

    fn quotient_at_zero(self, y: Interval) -> Interval {
        if self.is_zero() {
            return self;
        }
        if (y.lo < ZERO && ZERO < y.hi) || (self.lo < ZERO && ZERO < self.hi) {
            return ALL;
        }
        match (y.lo.is_zero(), self.lo >= ZERO) {
            (true, true) => of(self.lo.div(y.hi, false), POS_INF),
            (true, false) => of(NEG_INF, self.hi.div(y.hi, true)),
            (false, true) => of(NEG_INF, self.lo.div(y.lo, true)),
            (false, false) => of(self.hi.div(y.lo, false), POS_INF),
        }
    }

    #[inline]
    pub fn meet(self, y: Interval) -> Option<Interval> {
        let meet = of(self.lo.max(y.lo), self.hi.min(y.hi));
        (meet.lo <= meet.hi).then_some(meet)
    }

    pub fn hull(self, y: Interval) -> Interval {
        of(self.lo.min(y.lo), self.hi.max(y.hi))
    }

    pub fn width(self) -> Num {
        self.hi.sub(self.lo, true)
    }
}

fn factor(z: Interval, y: Interval) -> Option<Interval> {
    if z.has_zero() && y.has_zero() { Some(ALL) } else { z.quotient(y) }
}

pub fn back_add(z: Interval, x: Interval, y: Interval) -> Option<(Interval, Interval)> {
    let x1 = x.meet(z.sub(y))?;
    Some((x1, y.meet(z.sub(x1))?))
}

pub fn back_sub(z: Interval, x: Interval, y: Interval) -> Option<(Interval, Interval)> {
    let x1 = x.meet(z.add(y))?;
    Some((x1, y.meet(x1.sub(z))?))
}

pub fn back_mul(z: Interval, x: Interval, y: Interval) -> Option<(Interval, Interval)> {
    let x1 = x.meet(factor(z, y)?)?;
    Some((x1, y.meet(factor(z, x1)?)?))
}

pub fn back_div(z: Interval, x: Interval, y: Interval) -> Option<(Interval, Interval)> {
    if y.is_zero() {
        return None;
    }
    let x1 = x.meet(z.mul(y))?;
    Some((x1, y.meet(factor(x1, z)?)?))
}

pub fn back_min(z: Interval, x: Interval, y: Interval) -> Option<(Interval, Interval)> {
    let above = of(z.lo, POS_INF);
    let x1 = x.meet(if y.lo > z.hi { z } else { above })?;
    Some((x1, y.meet(if x1.lo > z.hi { z } else { above })?))
}

pub fn back_max(z: Interval, x: Interval, y: Interval) -> Option<(Interval, Interval)> {
    let below = of(NEG_INF, z.hi);
    let x1 = x.meet(if y.hi < z.lo { z } else { below })?;
    Some((x1, y.meet(if x1.hi < z.lo { z } else { below })?))
}

fn hull_of(x: Option<Interval>, y: Option<Interval>) -> Option<Interval> {
    match (x, y) {
        (Some(x), Some(y)) => Some(x.hull(y)),
        (x, y) => x.or(y),
    }
}

pub fn back_abs(z: Interval, x: Interval) -> Option<Interval> {
    let w = z.meet(of(ZERO, POS_INF))?;
    hull_of(x.meet(w), x.meet(w.neg()))
}

pub fn back_pow(z: Interval, x: Interval, n: u8) -> Option<Interval> {
    if n == 0 {
        return (z.lo <= ONE && ONE <= z.hi).then_some(x);
    }
    if n % 2 == 1 {
        let lo = if z.lo >= ZERO {
            z.lo.root(n, false)
        } else if z.lo == NEG_INF {
            NEG_INF
        } else {
            z.lo.neg().root(n, true).neg()
        };
        let hi = if z.hi >= ZERO { z.hi.root(n, true) } else { z.hi.neg().root(n, false).neg() };
        return x.meet(of(lo, hi));
    }
    let w = z.meet(of(ZERO, POS_INF))?;
    let (s, r) = (w.lo.root(n, false), w.hi.root(n, true));
    hull_of(x.meet(of(s, r)), x.meet(of(r.neg(), s.neg())))
}
