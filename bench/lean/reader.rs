//! A reader of good Minibex texts; it stops at a bad one.
use std::collections::HashMap;

#[derive(Clone, Debug, PartialEq, Eq, Hash)]
pub enum Expr {
    Const(i128, u128),
    Var(usize),
    Parameter(usize),
    One(char, Box<Expr>),
    Two(char, Box<Expr>, Box<Expr>),
    Pow(Box<Expr>, u8),
}
use self::Expr::*;

pub struct System {
    pub names: Vec<String>,
    pub domains: Vec<(Option<(i128, u128)>, Option<(i128, u128)>)>,
    pub constraints: Vec<(String, Expr, Expr)>,
}

struct Reader {
    tokens: Vec<String>,
    at: usize,
    constants: HashMap<String, (i128, u128)>,
    functions: HashMap<String, Expr>,
    scope: HashMap<String, Expr>,
}

fn tokens(text: &str) -> Vec<String> {
    let bytes: Vec<char> = text.chars().collect();
    let (mut found, mut i) = (vec![], 0);
    while i < bytes.len() {
        let start = i;
        let c = bytes[i];
        let two: String = bytes[i..bytes.len().min(i + 2)].iter().collect();
        i += 1;
        if c.is_whitespace() {
            continue;
        } else if two == "//" {
            while i < bytes.len() && bytes[i] != '\n' {
                i += 1;
            }
            continue;
        } else if two == "/*" {
            i += 1;
            while i + 1 < bytes.len() && !(bytes[i] == '*' && bytes[i + 1] == '/') {
                i += 1;
            }
            i += 2;
            continue;
        } else if c.is_ascii_alphabetic() || c == '_' {
            while i < bytes.len() && (bytes[i].is_ascii_alphanumeric() || bytes[i] == '_') {
                i += 1;
            }
        } else if c.is_ascii_digit() {
            while i < bytes.len() && (bytes[i].is_ascii_digit() || bytes[i] == '.') {
                i += 1;
            }
        } else if two == "<=" || two == ">=" {
            i += 1;
        }
        found.push(bytes[start..i].iter().collect());
    }
    found.push(String::new());
    found
}

fn number(word: &str) -> (i128, u128) {
    let (whole, part) = word.split_once('.').unwrap_or((word, ""));
    let (mut p, mut q) = (format!("{whole}{part}").parse::<i128>().unwrap(), 10u128.pow(part.len() as u32));
    for prime in [2, 5] {
        while q % prime == 0 && p % prime as i128 == 0 {
            p /= prime as i128;
            q /= prime;
        }
    }
    (p, q)
}

fn replaced(body: &Expr, arguments: &[Expr]) -> Expr {
    let go = |e: &Expr| Box::new(replaced(e, arguments));
    match body {
        Parameter(i) => arguments[*i].clone(),
        One(o, e) => One(*o, go(e)),
        Two(o, e, f) => Two(*o, go(e), go(f)),
        Pow(e, n) => Pow(go(e), *n),
        leaf => leaf.clone(),
    }
}

impl Reader {
    fn peek(&self) -> &str {
        &self.tokens[self.at]
    }

    fn next(&mut self) -> String {
        self.at += 1;
        self.tokens[self.at - 1].clone()
    }

    fn take(&mut self, words: &[&str]) -> Option<String> {
        if words.contains(&self.peek()) { Some(self.next()) } else { None }
    }

    fn value(&mut self) -> (i128, u128) {
        let minus = self.take(&["-", "+"]).as_deref() == Some("-");
        let word = self.next();
        let (p, q) = self.constants.get(&word).copied().unwrap_or_else(|| number(&word));
        (if minus { -p } else { p }, q)
    }

    fn bound(&mut self) -> Option<(i128, u128)> {
        let at = self.at;
        self.take(&["-", "+"]);
        if self.take(&["oo"]).is_some() {
            return None;
        }
        self.at = at;
        Some(self.value())
    }

    fn functions(&mut self) {
        while self.take(&["Function", "function"]).is_some() {
            let name = self.next();
            let mut scope = HashMap::new();
            while self.take(&["(", ","]).is_some() {
                scope.insert(self.next(), Parameter(scope.len()));
            }
            self.next();
            self.next();
            let outer = std::mem::replace(&mut self.scope, scope);
            let body = self.expr();
            self.scope = outer;
            self.take(&[";"]);
            self.next();
            self.take(&[";"]);
            self.functions.insert(name, body);
        }
    }

    fn expr(&mut self) -> Expr {
        let mut left = self.term();
        while let Some(sign) = self.take(&["+", "-"]) {
            left = Two(sign.chars().next().unwrap(), Box::new(left), Box::new(self.term()));
        }
        left
    }

    fn term(&mut self) -> Expr {
        let mut left = self.factor();
        while let Some(sign) = self.take(&["*", "/"]) {
            left = Two(sign.chars().next().unwrap(), Box::new(left), Box::new(self.factor()));
        }
        left
    }

    fn factor(&mut self) -> Expr {
        match self.take(&["+", "-"]).as_deref() {
            Some("-") => One('-', Box::new(self.factor())),
            Some(_) => self.factor(),
            None => {
                let base = self.primary();
                if self.take(&["^"]).is_some() { Pow(Box::new(base), self.next().parse().unwrap()) } else { base }
            }
        }
    }

    fn arguments(&mut self) -> Vec<Expr> {
        let mut found = vec![];
        while self.take(&["(", ","]).is_some() {
            found.push(self.expr());
        }
        self.next();
        found
    }

    fn primary(&mut self) -> Expr {
        if self.peek() == "(" {
            return self.arguments().remove(0);
        }
        let word = self.next();
        if word.as_bytes()[0].is_ascii_digit() {
            let (p, q) = number(&word);
            return Const(p, q);
        }
        if let Some(e) = self.scope.get(&word) {
            return e.clone();
        }
        if let Some(&(p, q)) = self.constants.get(&word) {
            return Const(p, q);
        }
        let mut arguments = self.arguments();
        match word.as_str() {
            "sqr" => Pow(Box::new(arguments.remove(0)), 2),
            "abs" => One('|', Box::new(arguments.remove(0))),
            "min" | "max" => {
                let right = arguments.remove(1);
                Two(if word == "min" { 'm' } else { 'M' }, Box::new(arguments.remove(0)), Box::new(right))
            }
            _ => replaced(&self.functions[&word], &arguments),
        }
    }
}

pub fn read(text: &str) -> System {
    let mut r = Reader { tokens: tokens(text), at: 0, constants: HashMap::new(), functions: HashMap::new(), scope: HashMap::new() };
    if r.take(&["Constants", "constants"]).is_some() {
        while !r.peek().to_lowercase().starts_with("variables") && !r.peek().to_lowercase().starts_with("function") {
            let name = r.next();
            r.next();
            let value = r.value();
            r.constants.insert(name, value);
            r.take(&[",", ";"]);
        }
    }
    r.functions();
    r.next();
    let mut system = System { names: vec![], domains: vec![], constraints: vec![] };
    while !r.peek().to_lowercase().starts_with("constraints") && !r.peek().to_lowercase().starts_with("function") {
        system.names.push(r.next());
        let mut domain = (None, None);
        if r.take(&["in"]).is_some() {
            r.next();
            domain.0 = r.bound();
            r.next();
            domain.1 = r.bound();
            r.next();
        }
        system.domains.push(domain);
        r.take(&[",", ";"]);
    }
    r.functions();
    r.next();
    for (i, name) in system.names.iter().enumerate() {
        r.scope.insert(name.clone(), Var(i));
    }
    while !matches!(r.peek(), "end" | "End") {
        let left = r.expr();
        let relation = r.next();
        let right = r.expr();
        system.constraints.push((relation, left, right));
        r.take(&[";"]);
    }
    system
}
