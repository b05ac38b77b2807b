//! Contractor programs: `hc4(i)`, `compose(..)`, `union(..)`, `qinter(q,..)`, `fix(n,..)` and `prop(n)`.

pub enum Program {
    Hc4(usize),
    Compose(Vec<Program>),
    /// The q-hull where a number is given, else the hull.
    Hull(Option<usize>, Vec<Program>),
    Fix(usize, Box<Program>),
    Prop(usize),
}

struct Reader<'a> {
    text: &'a str,
}

impl Reader<'_> {
    fn take(&mut self, mark: char) -> bool {
        let found = self.text.starts_with(mark);
        if found {
            self.text = &self.text[1..];
        }
        found
    }

    fn word(&mut self) -> &str {
        let end = self.text.find(|c: char| !c.is_ascii_alphanumeric()).unwrap_or(self.text.len());
        let (word, rest) = self.text.split_at(end);
        self.text = rest;
        word
    }

    fn number(&mut self) -> usize {
        self.word().parse().unwrap()
    }

    fn parts(&mut self) -> Vec<Program> {
        let mut found = vec![self.program()];
        while self.take(',') {
            found.push(self.program());
        }
        found
    }

    fn program(&mut self) -> Program {
        let name = self.word().to_string();
        self.take('(');
        let program = match name.as_str() {
            "hc4" => Program::Hc4(self.number()),
            "prop" => Program::Prop(self.number()),
            "compose" => Program::Compose(self.parts()),
            "union" => Program::Hull(None, self.parts()),
            "qinter" => {
                let q = self.number();
                self.take(',');
                Program::Hull(Some(q), self.parts())
            }
            _ => {
                let turns = self.number();
                self.take(',');
                Program::Fix(turns, Box::new(self.program()))
            }
        };
        self.take(')');
        program
    }
}

pub fn read(text: &str) -> Program {
    Reader { text }.program()
}
