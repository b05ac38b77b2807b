//! A lean paver in plain Rust with the same arithmetic and the same results, as a yardstick; one thread.
//!
//!     rustc --edition 2021 -O bench/lean/paver.rs -o /tmp/lean && /tmp/lean SYSTEM --eps 0.25 --boxes 100000 --depth 60
//!
//! It takes the same short cuts as paver. A constraint that is sure on a box is sure on every part of it, and is neither
//! revised nor tested there again. One that was kept is clean, and passed over until a place of one of its variables
//! changes, by a contraction or a cut. Both facts go with a box to its halves. A pass down stops where a
//! target is the node's own interval. Leaves wait on a stack, and a node is
//! printed when it is settled.
mod graph;
mod interval;
mod num;
mod program;
mod reader;
mod roots;
use graph::{Box_, Graph};
use interval::*;
use num::{Num, NEG_INF, POS_INF};
use program::Program;
use std::io::Write;

/// What is known of each of up to 64 constraints on a box.
#[derive(Clone, Copy)]
struct Known {
    sure: u64,
    clean: u64,
}

const NOTHING: Known = Known { sure: 0, clean: 0 };

struct Paver {
    graphs: Vec<Graph>,
    /// For each variable the constraints that have it.
    users: [u64; 12],
    dims: usize,
    eps: Num,
    values: Vec<Interval>,
}

impl Paver {
    /// Whether something of the box changed; None where nothing is left.
    fn contract(&mut self, program: &Program, bx: &mut Box_, known: &mut Known) -> Option<bool> {
        match program {
            Program::Hc4(i) => self.revise(*i, bx, known),
            Program::Compose(parts) => {
                let mut changed = false;
                for part in parts {
                    changed |= self.contract(part, bx, known)?;
                }
                Some(changed)
            }
            Program::Hull(q, parts) => {
                let hull = self.hull(*q, parts, bx, *known)?;
                let changed = bx[..self.dims] != hull[..self.dims];
                if changed {
                    *bx = hull;
                    known.clean = 0;
                }
                Some(changed)
            }
            Program::Fix(turns, part) => self.in_turns(*turns, |p| p.contract(part, bx, known)),
            Program::Prop(turns) => self.in_turns(*turns, |p| {
                let mut changed = false;
                for i in 0..p.graphs.len() {
                    changed |= p.revise(i, bx, known)?;
                }
                Some(changed)
            }),
        }
    }

    fn in_turns(&mut self, turns: usize, mut turn: impl FnMut(&mut Paver) -> Option<bool>) -> Option<bool> {
        for done in 0..turns {
            if !turn(self)? {
                return Some(done > 0);
            }
        }
        Some(turns > 0)
    }

    fn hull(&mut self, q: Option<usize>, parts: &[Program], bx: &Box_, known: Known) -> Option<Box_> {
        let mut found: Vec<Box_> = Vec::with_capacity(parts.len());
        for part in parts {
            let (mut to, mut here) = (*bx, known);
            if self.contract(part, &mut to, &mut here).is_some() {
                found.push(to);
            }
        }
        let mut hull = *found.first()?;
        match q {
            None => {
                for other in &found[1..] {
                    (0..self.dims).for_each(|i| hull[i] = hull[i].hull(other[i]));
                }
            }
            Some(q) => {
                for i in 0..self.dims {
                    hull[i] = q_hull(q, i, &found)?;
                }
            }
        }
        Some(hull)
    }

    fn revise(&mut self, i: usize, bx: &mut Box_, known: &mut Known) -> Option<bool> {
        let bit = 1u64 << i;
        if (known.sure | known.clean) & bit != 0 {
            return Some(false);
        }
        let g = &self.graphs[i];
        let total = g.forward(bx, &mut self.values)?;
        let (l, r) = (self.values[g.left], self.values[g.right]);
        if total && g.decided(l, r) {
            known.sure |= bit;
            return Some(false);
        }
        let (l, r) = g.related(l, r)?;
        let before = *bx;
        g.down(g.left, l, &self.values, total, bx)?;
        g.down(g.right, r, &self.values, total, bx)?;
        let mut touched = 0;
        for k in 0..self.dims {
            if bx[k] != before[k] {
                touched |= self.users[k];
            }
        }
        if touched == 0 {
            known.clean |= bit;
            return Some(false);
        }
        known.clean &= !touched;
        Some(true)
    }

    fn sure(&mut self, program: &Program, bx: &Box_, known: &mut Known) -> bool {
        match program {
            Program::Hc4(i) => self.is_sure(*i, bx, known),
            Program::Compose(parts) => parts.iter().all(|part| self.sure(part, bx, known)),
            Program::Hull(q, parts) => {
                let q = q.unwrap_or(1);
                q == 0 || parts.iter().filter(|part| self.sure(part, bx, known)).take(q).count() == q
            }
            Program::Fix(_, part) => self.sure(part, bx, known),
            Program::Prop(_) => (0..self.graphs.len()).all(|i| self.is_sure(i, bx, known)),
        }
    }

    fn is_sure(&mut self, i: usize, bx: &Box_, known: &mut Known) -> bool {
        let bit = 1u64 << i;
        if (known.sure | known.clean) & bit != 0 {
            return known.sure & bit != 0;
        }
        let g = &self.graphs[i];
        let sure = g.forward(bx, &mut self.values) == Some(true) && g.decided(self.values[g.left], self.values[g.right]);
        if sure {
            known.sure |= bit;
        }
        sure
    }

    fn choose(&self, bx: &Box_) -> Option<(usize, Num)> {
        let mut best: Option<(usize, Num)> = None;
        let mut widest = NEG_INF;
        for (i, x) in bx[..self.dims].iter().enumerate() {
            let width = x.width();
            if width > widest {
                if let Some(cut) = Num::middle(x.lo, x.hi) {
                    best = Some((i, cut));
                    widest = width;
                }
            }
        }
        best
    }
}

/// From the least lower end to the greatest upper one that lie in at least q of the intervals. An end is only counted
/// where it is better than the best so far.
fn q_hull(q: usize, i: usize, found: &[Box_]) -> Option<Interval> {
    let enough = |n: Num| found.iter().filter(|b| b[i].lo <= n && n <= b[i].hi).count() >= q;
    let mut low: Option<Num> = None;
    let mut high: Option<Num> = None;
    for b in found {
        let Interval { lo, hi } = b[i];
        if low.is_none_or(|best| lo < best) && enough(lo) {
            low = Some(lo);
        }
        if high.is_none_or(|best| best < hi) && enough(hi) {
            high = Some(hi);
        }
    }
    let (lo, hi) = (low?, high?);
    (lo <= hi).then_some(Interval { lo, hi })
}

const PAIRS: &[u8; 200] = b"0001020304050607080910111213141516171819202122232425262728293031323334353637383940414243444546474849\
5051525354555657585960616263646566676869707172737475767778798081828384858687888990919293949596979899";

/// A number in digits, behind a sign; two digits a step.
fn write_number(out: &mut Vec<u8>, negative: bool, mut n: u64) {
    let mut digits = [0u8; 20];
    let mut at = 20;
    while n >= 100 {
        let pair = (n % 100) as usize * 2;
        n /= 100;
        at -= 2;
        digits[at..at + 2].copy_from_slice(&PAIRS[pair..pair + 2]);
    }
    if n >= 10 {
        at -= 2;
        digits[at..at + 2].copy_from_slice(&PAIRS[n as usize * 2..n as usize * 2 + 2]);
    } else {
        at -= 1;
        digits[at] = b'0' + n as u8;
    }
    if negative {
        out.push(b'-');
    }
    out.extend_from_slice(&digits[at..]);
}

fn write_num(out: &mut Vec<u8>, n: Num) {
    out.push(b' ');
    match n.spelled() {
        Ok((negative, mantissa, exponent)) => {
            write_number(out, negative, mantissa);
            out.push(b':');
            write_number(out, exponent < 0, exponent.unsigned_abs() as u64);
        }
        Err(end) => out.extend_from_slice(end.as_bytes()),
    }
}

fn option(words: &[String], name: &str, default: &str) -> String {
    words.iter().position(|w| w == name).map_or(default.into(), |i| words[i + 1].clone())
}

fn search_box(system: &reader::System) -> Box_ {
    let mut root = [ALL; 12];
    for (i, (lo, hi)) in system.domains.iter().enumerate() {
        root[i].lo = lo.map_or(NEG_INF, |(p, q)| Num::ratio(p, q, false));
        root[i].hi = hi.map_or(POS_INF, |(p, q)| Num::ratio(p, q, true));
    }
    root
}

fn paver_of(system: &reader::System, eps: Num) -> Paver {
    let graphs: Vec<Graph> = system.constraints.iter().map(|(o, l, r)| Graph::of(o, l, r)).collect();
    let mut users = [0; 12];
    for (i, g) in graphs.iter().enumerate() {
        (0..12).filter(|v| g.uses & 1 << v != 0).for_each(|v| users[v] |= 1u64 << i);
    }
    Paver { graphs, users, dims: system.names.len(), eps, values: vec![] }
}

struct Printed {
    lines: Vec<u8>,
    cut: usize,
    removed: usize,
    inner: usize,
    small: usize,
}

/// Settles one leaf, and says where it is cut.
fn settle(p: &mut Paver, program: &Program, bx: &mut Box_, known: &mut Known, depth_left: usize, to: &mut Printed) -> Option<(usize, Num)> {
    if p.contract(program, bx, known).is_none() {
        to.removed += 1;
        to.lines.extend_from_slice(b"X\n");
        return None;
    }
    let mut choice = None;
    if p.sure(program, bx, known) {
        to.inner += 1;
        to.lines.push(b'I');
    } else {
        if depth_left > 0 && !bx[..p.dims].iter().all(|x| x.width() <= p.eps) {
            choice = p.choose(bx);
        }
        match choice {
            None => {
                to.small += 1;
                to.lines.push(b'S');
            }
            Some((i, at)) => {
                to.cut += 1;
                to.lines.extend_from_slice(b"C ");
                write_number(&mut to.lines, false, i as u64);
                write_num(&mut to.lines, at);
            }
        }
    }
    for x in &bx[..p.dims] {
        write_num(&mut to.lines, x.lo);
        write_num(&mut to.lines, x.hi);
    }
    to.lines.push(b'\n');
    choice
}

fn main() {
    let words: Vec<String> = std::env::args().collect();
    let system = reader::read(&std::fs::read_to_string(&words[1]).unwrap());
    let program = program::read(&option(&words, "--contract", "prop(8)"));
    let eps: f64 = option(&words, "--eps", "0.125").parse().unwrap();
    let (depth, budget): (usize, usize) =
        (option(&words, "--depth", "60").parse().unwrap(), option(&words, "--boxes", "20000").parse().unwrap());
    let mut p = paver_of(&system, Num::ratio((eps * (1u64 << 40) as f64) as i128, 1 << 40, false));
    let mut to = Printed { lines: vec![], cut: 0, removed: 0, inner: 0, small: 0 };
    let mut settled = 0;
    let mut waiting = vec![(search_box(&system), NOTHING, depth)];
    while settled < budget {
        let Some((mut bx, mut known, depth_left)) = waiting.pop() else { break };
        settled += 1;
        if let Some((i, at)) = settle(&mut p, &program, &mut bx, &mut known, depth_left, &mut to) {
            known.clean &= !p.users[i];
            let mut low = bx;
            low[i].hi = at;
            bx[i].lo = at;
            waiting.push((bx, known, depth_left - 1));
            waiting.push((low, known, depth_left - 1));
        }
    }
    for _ in &waiting {
        to.lines.extend_from_slice(b"O\n");
    }
    let Printed { lines, cut, removed, inner, small } = to;
    let summary = format!("settled {settled} cut {cut} removed {removed} inner {inner} small {small} open {}\n", waiting.len());
    let mut out = std::io::stdout().lock();
    out.write_all(summary.as_bytes()).unwrap();
    out.write_all(&lines).unwrap();
}
