//! A constraint as a list of nodes, with its passes up and down.
use crate::interval::*;
use crate::num::Num;
use crate::reader::Expr;
use std::collections::HashMap;

pub type Box_ = [Interval; 12];

#[derive(Clone, Copy, PartialEq, Eq, Hash)]
enum Op {
    Add,
    Sub,
    Mul,
    Div,
    Min,
    Max,
}
use self::Op::*;

#[derive(Clone, Copy, PartialEq, Eq, Hash)]
enum Node {
    Const(usize),
    Var(usize),
    Neg(usize),
    Abs(usize),
    Two(Op, usize, usize),
    Pow(usize, u8),
}

#[derive(Clone, Copy)]
enum Relation {
    Eq,
    Le,
    Lt,
    Ge,
    Gt,
}
use self::Relation::*;

pub struct Graph {
    nodes: Vec<Node>,
    constants: Vec<Interval>,
    relation: Relation,
    pub left: usize,
    pub right: usize,
    pub uses: u16,
}

impl Graph {
    pub fn of(relation: &str, left: &Expr, right: &Expr) -> Graph {
        let relation = match relation {
            "=" => Eq,
            "<=" => Le,
            "<" => Lt,
            ">=" => Ge,
            _ => Gt,
        };
        let mut g = Graph { nodes: vec![], constants: vec![], relation, left: 0, right: 0, uses: 0 };
        let mut seen = HashMap::new();
        g.left = g.intern(left, &mut seen);
        g.right = g.intern(right, &mut seen);
        g
    }

    fn intern(&mut self, e: &Expr, seen: &mut HashMap<Node, usize>) -> usize {
        let node = match e {
            Expr::Const(p, q) => {
                let x = Interval { lo: Num::ratio(*p, *q, false), hi: Num::ratio(*p, *q, true) };
                let at = self.constants.iter().position(|y| *y == x).unwrap_or(self.constants.len());
                if at == self.constants.len() {
                    self.constants.push(x);
                }
                Node::Const(at)
            }
            Expr::Var(i) => {
                self.uses |= 1 << i;
                Node::Var(*i)
            }
            Expr::One('-', e) => Node::Neg(self.intern(e, seen)),
            Expr::One(_, e) => Node::Abs(self.intern(e, seen)),
            Expr::Two(o, e, f) => {
                let op = match o {
                    '+' => Add,
                    '-' => Sub,
                    '*' => Mul,
                    'm' => Min,
                    'M' => Max,
                    _ => Div,
                };
                Node::Two(op, self.intern(e, seen), self.intern(f, seen))
            }
            Expr::Pow(e, n) => Node::Pow(self.intern(e, seen), *n),
            Expr::Parameter(_) => unreachable!(),
        };
        *seen.entry(node).or_insert_with(|| {
            self.nodes.push(node);
            self.nodes.len() - 1
        })
    }

    /// Whether no divisor holds 0; None where a divisor is [0,0].
    pub fn forward(&self, bx: &Box_, values: &mut Vec<Interval>) -> Option<bool> {
        values.clear();
        values.reserve(self.nodes.len());
        let mut total = true;
        for node in &self.nodes {
            let x = match *node {
                Node::Const(i) => self.constants[i],
                Node::Var(i) => bx[i],
                Node::Neg(e) => values[e].neg(),
                Node::Abs(e) => values[e].abs(),
                Node::Pow(e, n) => values[e].pow(n),
                Node::Two(o, e, f) => {
                    let (x, y) = (values[e], values[f]);
                    match o {
                        Add => x.add(y),
                        Sub => x.sub(y),
                        Mul => x.mul(y),
                        Min => x.min(y),
                        Max => x.max(y),
                        Div => {
                            total &= !y.has_zero();
                            x.quotient(y)?
                        }
                    }
                }
            };
            values.push(x);
        }
        Some(total)
    }

    pub fn related(&self, l: Interval, r: Interval) -> Option<(Interval, Interval)> {
        let below = |l: Interval, r: Interval, strict: bool| {
            if l.lo > r.hi || (strict && l.lo >= r.hi) {
                return None;
            }
            Some((Interval { lo: l.lo, hi: l.hi.min(r.hi) }, Interval { lo: r.lo.max(l.lo), hi: r.hi }))
        };
        match self.relation {
            Eq => l.meet(r).map(|x| (x, x)),
            Le => below(l, r, false),
            Lt => below(l, r, true),
            Ge => below(r, l, false).map(|(r, l)| (l, r)),
            Gt => below(r, l, true).map(|(r, l)| (l, r)),
        }
    }

    pub fn decided(&self, l: Interval, r: Interval) -> bool {
        match self.relation {
            Eq => l.lo == l.hi && r.lo == r.hi && l.lo == r.lo,
            Le => l.hi <= r.lo,
            Lt => l.hi < r.lo,
            Ge => l.lo >= r.hi,
            Gt => l.lo > r.hi,
        }
    }

    /// Where no divisor holds 0, a target that is the node's own interval narrows nothing.
    pub fn down(&self, at: usize, z: Interval, values: &[Interval], total: bool, bx: &mut Box_) -> Option<()> {
        if total && z == values[at] {
            return Some(());
        }
        match self.nodes[at] {
            Node::Const(_) => {}
            Node::Var(i) => bx[i] = bx[i].meet(z)?,
            Node::Neg(e) => self.down(e, values[e].meet(z.neg())?, values, total, bx)?,
            Node::Abs(e) => self.down(e, back_abs(z, values[e])?, values, total, bx)?,
            Node::Pow(e, n) => self.down(e, back_pow(z, values[e], n)?, values, total, bx)?,
            Node::Two(o, e, f) => {
                let (x, y) = (values[e], values[f]);
                let (x1, y1) = match o {
                    Add => back_add(z, x, y)?,
                    Sub => back_sub(z, x, y)?,
                    Mul => back_mul(z, x, y)?,
                    Min => back_min(z, x, y)?,
                    Max => back_max(z, x, y)?,
                    Div => back_div(z, x, y)?,
                };
                self.down(e, x1, values, total, bx)?;
                self.down(f, y1, values, total, bx)?;
            }
        }
        Some(())
    }
}
