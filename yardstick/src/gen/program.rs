//! Good programs, without procedures or with some: grammatical, with known names and right kinds; a few of them pass a size
//! or the room.

use super::random::Random;

/// Plain names, and names that a scanner might stumble over.
#[rustfmt::skip]
const NAMES: [&str; 32] = [
    "A", "B", "C0", "C1", "GO", "LAMP", "Loop", "IF", "READY", "coin-present", "coin-eject", "sum-5", "sum", "x", "y",
    "z9", "a_b", "a__", "endwhile", "skip-1", "endif-x", "int-3", "H", "L", "sixteen-bytes-ab", "abcdefghijklmnop",
    "n-1-2", "t0", "Z_-9", "trueish", "in", "integers",
];

/// Formals' names: no variable's, so that they clash with nothing.
const FORMALS: [&str; 8] = ["a", "b", "exp", "on-off", "f9", "to", "from", "kk"];

/// The words of a random program without procedures.
pub fn words(random: &mut Random) -> Vec<String> {
    written(random, false)
}

/// The words of a random program with procedures.
pub fn words_with_procedures(random: &mut Random) -> Vec<String> {
    written(random, true)
}

fn written(random: &mut Random, with_procedures: bool) -> Vec<String> {
    let mut writer = Writer {
        budget: random.of(&[1, 3, 6, 10, 15, 20, 30, 45, 60]),
        random,
        words: Vec::new(),
        free: NAMES.to_vec(),
        inputs: Vec::new(),
        booleans: Vec::new(),
        integers: Vec::new(),
        numbers: Vec::new(),
        procedures: Vec::new(),
        with_procedures,
        loops: 0,
        breakable: 0,
    };
    writer.program();
    writer.words
}

/// What a body does with a formal, so what an actual may be.
#[derive(Clone, Copy, PartialEq, Eq)]
enum Formal {
    /// Read as a boolean, or as an integer.
    Truth,
    Number,
    /// Raised, lowered, inverted and read: a name or a bit.
    Boolean,
    /// Assigned, indexed and read: an integer's name, of at least this width.
    Integer(usize),
    /// Never used.
    Dropped,
}

/// A procedure that may be called.
#[derive(Clone)]
struct Signature {
    name: &'static str,
    formals: Vec<Formal>,
    /// The activities that it takes at most.
    activities: usize,
    /// Whether it may be called only inside a loop, a switch or a parallel, since it may jump out of it.
    exits: bool,
    breaks: bool,
}

struct Writer<'a> {
    random: &'a mut Random,
    words: Vec<String>,
    /// Names not yet declared.
    free: Vec<&'static str>,
    inputs: Vec<&'static str>,
    /// Outputs and internals.
    booleans: Vec<&'static str>,
    /// Integers with their widths.
    integers: Vec<(&'static str, usize)>,
    /// Formals that are read as integers.
    numbers: Vec<&'static str>,
    procedures: Vec<Signature>,
    with_procedures: bool,
    /// Statements that may still be written before lists stop growing.
    budget: usize,
    /// Loops, and switches and parallels, that are open.
    loops: usize,
    breakable: usize,
}

impl Writer<'_> {
    fn put(&mut self, words: &str) {
        self.words.extend(words.split_ascii_whitespace().map(str::to_string));
    }

    fn program(&mut self) {
        let name = self.random.of(&NAMES);
        self.put(&format!("program {name} ;"));
        for _ in 0..self.random.of(&[0, 2, 3, 4, 4, 5, 6]) {
            self.declaration();
            if self.with_procedures && self.random.one_in(2) {
                self.procedure();
            }
        }
        // Most programs are one loop for ever, as real ones are.
        if self.random.one_in(3) {
            self.list(8, 0);
        } else {
            self.put("loop");
            self.loops += 1;
            self.list(8, 1);
            self.put("endloop");
        }
        self.put("endprog");
    }

    fn declaration(&mut self) {
        let class = self.random.of(&["input", "input", "output", "output", "internal", "integer", "integer"]);
        self.put(class);
        let count = self.random.of(&[1, 1, 1, 2, 2, 3]);
        for at in 0..count {
            if at > 0 {
                self.put(",");
            }
            self.item(class);
        }
        self.put(";");
    }

    fn free_name(&mut self) -> &'static str {
        let chosen = self.random.below(self.free.len());
        self.free.swap_remove(chosen)
    }

    fn item(&mut self, class: &str) {
        let name = self.free_name();
        self.put(name);
        if class == "integer" {
            let width = if self.random.one_in(4) { self.random.between(1, 16) } else { self.random.between(1, 3) };
            self.put(&format!("[ {width} ]"));
            if self.random.one_in(2) {
                let initial = self.random.of(&[0, 1, 2, 3, 7, 255, 65_535]);
                self.put(&format!("= {initial}"));
            }
            self.integers.push((name, width));
            return;
        }
        let ending = self.random.of(&["", "", "", ".H", ".L"]);
        self.put(ending);
        if class == "input" {
            self.inputs.push(name);
            return;
        }
        let initial = self.random.of(&["", "", "= true", "= false"]);
        self.put(initial);
        self.booleans.push(name);
    }
}

/// Statements with at most `activities` activities, inside `levels` open levels.
impl Writer<'_> {
    fn list(&mut self, activities: usize, levels: usize) {
        self.statement(activities, levels);
        // The outermost lists take what is left.
        while self.budget > 0 && !self.random.one_in(if levels < 2 { 20 } else { 3 }) {
            self.put(";");
            self.statement(activities, levels);
        }
        if self.random.one_in(6) {
            self.put(";");
        }
    }

    fn statement(&mut self, activities: usize, levels: usize) {
        self.budget = self.budget.saturating_sub(1);
        if !self.procedures.is_empty() && self.random.one_in(3) && self.call(activities) {
            return;
        }
        if self.budget == 0 || levels > 9 || !self.random.one_in(3) {
            return self.simple();
        }
        match self.random.below(12) {
            0..=3 => self.if_statement(activities, levels + 1),
            4 => self.loop_statement(activities, levels + 1),
            5 => self.while_statement(activities, levels + 1),
            6 | 7 => self.switch(activities, levels + 1),
            _ if activities > 1 => self.parallel(activities, levels + 1),
            _ => self.simple(),
        }
    }

    fn simple(&mut self) {
        match self.random.below(20) {
            0 => self.put("skip"),
            1 => {
                let clocks = self.random.of(&[0, 0, 1, 2, 2, 3, 4, 7, 30]);
                self.put(&format!("delay {clocks}"));
            }
            2 if self.loops > 1 || self.random.one_in(4) && self.loops > 0 => self.put("exit"),
            3 if self.breakable > 0 => self.put("break"),
            4..=7 => self.assignment(),
            _ => self.change(),
        }
    }

    fn change(&mut self) {
        let change = self.random.of(&["raise", "lower", "invert", "invert"]);
        if !self.booleans.is_empty() && !self.random.one_in(4) {
            let name = self.random.of(&self.booleans);
            self.put(&format!("{change} ( {name} )"));
        } else if let Some((name, bit)) = self.bit() {
            self.put(&format!("{change} ( {name} [ {bit} ] )"));
        } else {
            self.put("skip");
        }
    }

    fn bit(&mut self) -> Option<(&'static str, usize)> {
        if self.integers.is_empty() {
            return None;
        }
        let (name, width) = self.random.of(&self.integers);
        Some((name, self.random.below(width)))
    }

    fn assignment(&mut self) {
        if self.integers.is_empty() {
            return self.change();
        }
        let (name, _) = self.random.of(&self.integers);
        self.put(&format!("{name} :="));
        self.sum(3);
    }

    fn if_statement(&mut self, activities: usize, levels: usize) {
        self.put("if");
        self.condition(3);
        self.put("then");
        self.list(activities, levels);
        if self.random.one_in(2) {
            self.put("else");
            self.list(activities, levels);
        }
        self.put("endif");
    }

    fn loop_statement(&mut self, activities: usize, levels: usize) {
        self.put("loop");
        self.loop_body(activities, levels);
    }

    fn while_statement(&mut self, activities: usize, levels: usize) {
        self.put("while");
        self.condition(3);
        self.put("do loop");
        self.loop_body(activities, levels);
    }

    fn loop_body(&mut self, activities: usize, levels: usize) {
        self.loops += 1;
        self.list(activities, levels);
        if self.random.one_in(2) && self.words.last().is_some_and(|word| word != ";") {
            self.put("; if");
            self.condition(2);
            self.put("then exit endif");
        }
        self.loops -= 1;
        self.put("endloop");
    }

    fn switch(&mut self, activities: usize, levels: usize) {
        self.breakable += 1;
        self.put("switch");
        for _ in 0..self.random.between(1, 3) {
            self.put("case");
            self.condition(2);
            self.put(":");
            self.list(activities, levels);
            if self.random.one_in(2) && self.words.last().is_some_and(|word| word != ";") {
                self.put("; break ;");
            }
        }
        self.put("default :");
        self.list(activities, levels);
        self.put("endswitch");
        self.breakable -= 1;
    }

    fn parallel(&mut self, activities: usize, levels: usize) {
        self.breakable += 1;
        let branches = self.random.between(2, activities.min(3));
        self.put("parallel");
        for branch in 0..branches {
            if branch > 0 {
                self.put("||");
            }
            self.list(activities / branches, levels);
        }
        self.put("endparallel");
        self.breakable -= 1;
    }
}

/// Procedures and their calls.
impl Writer<'_> {
    fn procedure(&mut self) {
        if self.free.len() < 8 {
            return;
        }
        let signature = self.signature();
        let names = self.head(&signature);
        // The formals are known in the body alone.
        let known = (self.inputs.clone(), self.booleans.clone(), self.integers.clone());
        for (&name, &formal) in names.iter().zip(&signature.formals) {
            match formal {
                Formal::Truth => self.inputs.push(name),
                Formal::Number => self.numbers.push(name),
                Formal::Boolean => self.booleans.push(name),
                Formal::Integer(width) => self.integers.push((name, width)),
                Formal::Dropped => {}
            }
        }
        let budget = std::mem::replace(&mut self.budget, self.random.of(&[1, 1, 2, 3, 5]));
        (self.loops, self.breakable) = (usize::from(signature.exits), usize::from(signature.breaks));
        self.list(signature.activities, 5);
        (self.loops, self.breakable) = (0, 0);
        self.budget = budget;
        (self.inputs, self.booleans, self.integers) = known;
        self.numbers.clear();
        let end = self.random.of(&["endproc", "endproc ;"]);
        self.put(end);
        self.procedures.push(signature);
    }

    fn signature(&mut self) -> Signature {
        let count = self.random.of(&[0, 0, 1, 1, 1, 2, 2, 3]);
        let formals = (0..count).map(|_| {
            let width = self.random.between(1, 3);
            self.random.of(&[
                Formal::Truth,
                Formal::Truth,
                Formal::Number,
                Formal::Boolean,
                Formal::Integer(width),
                Formal::Dropped,
            ])
        });
        let formals = formals.collect();
        Signature {
            formals,
            name: self.free_name(),
            activities: self.random.of(&[1, 1, 2, 3]),
            exits: self.random.one_in(6),
            breaks: self.random.one_in(8),
        }
    }

    /// Writes a procedure's head, and says how its formals are called.
    fn head(&mut self, signature: &Signature) -> Vec<&'static str> {
        self.put(&format!("procedure {} (", signature.name));
        let first = self.random.below(FORMALS.len());
        let names: Vec<&str> = FORMALS.into_iter().cycle().skip(first).take(signature.formals.len()).collect();
        self.put(&names.join(" , "));
        self.put(")");
        names
    }

    /// A call of some procedure that may be called here, if the one that chance picks may.
    fn call(&mut self, activities: usize) -> bool {
        let chosen = self.random.below(self.procedures.len());
        let signature = self.procedures[chosen].clone();
        let jumps = signature.exits && self.loops == 0 || signature.breaks && self.breakable == 0;
        let width = self.integers.iter().map(|(_, width)| *width).max().unwrap_or(0);
        let fits = |formal: &Formal| match formal {
            Formal::Boolean => !self.booleans.is_empty(),
            Formal::Integer(least) => width >= *least,
            _ => true,
        };
        if jumps || signature.activities > activities || !signature.formals.iter().all(fits) {
            return false;
        }
        self.put(&format!("{} (", signature.name));
        for (at, formal) in signature.formals.into_iter().enumerate() {
            if at > 0 {
                self.put(",");
            }
            self.actual(formal);
        }
        self.put(")");
        true
    }

    fn actual(&mut self, formal: Formal) {
        match formal {
            Formal::Truth => self.condition(2),
            Formal::Number => self.sum(2),
            Formal::Boolean => match self.bit() {
                Some((name, bit)) if self.random.one_in(3) => self.put(&format!("{name} [ {bit} ]")),
                _ => {
                    let name = self.random.of(&self.booleans);
                    self.put(name);
                }
            },
            Formal::Integer(least) => {
                let wide: Vec<_> = self.integers.iter().filter(|(_, width)| *width >= least).copied().collect();
                let (name, _) = self.random.of(&wide);
                self.put(name);
            }
            // What is dropped is read for words and grammar only.
            Formal::Dropped => {
                let actual = self.random.of(&["1", "no-name", "! 5 + no-name [ 9 ]", "( 1 + true )", "int ( 3 )"]);
                self.put(actual);
            }
        }
    }
}

/// Expressions, written as the grammar binds them; `depth` is how many more operators may nest.
impl Writer<'_> {
    /// A boolean: every operator that gives one, the loosest first.
    fn condition(&mut self, depth: usize) {
        self.row(&["&"], depth, Self::disjunction);
    }

    fn disjunction(&mut self, depth: usize) {
        self.row(&["|"], depth, Self::comparison);
    }

    /// Integers compared, or booleans, or what binds more tightly.
    fn comparison(&mut self, depth: usize) {
        if depth > 0 && self.random.one_in(3) {
            self.sum(depth - 1);
            let operator = self.random.of(&["==", "!=", ">", "<"]);
            self.put(operator);
            self.sum(depth - 1);
        } else {
            self.negation(depth);
        }
        while depth > 0 && self.random.one_in(6) {
            let operator = self.random.of(&["==", "!="]);
            self.put(operator);
            self.negation(depth - 1);
        }
    }

    fn negation(&mut self, depth: usize) {
        while self.random.one_in(3) {
            self.put("!");
        }
        self.truth(depth);
    }

    fn truth(&mut self, depth: usize) {
        if depth > 0 && self.random.one_in(4) {
            self.put("(");
            self.condition(depth - 1);
            return self.put(")");
        }
        match self.random.below(12) {
            0 => {
                let constant = self.random.of(&["true", "false"]);
                self.put(constant);
            }
            1..=6 if !self.inputs.is_empty() => {
                let name = self.random.of(&self.inputs);
                self.put(name);
            }
            7..=9 if !self.booleans.is_empty() => {
                let name = self.random.of(&self.booleans);
                self.put(name);
            }
            _ => match self.bit() {
                Some((name, bit)) => self.put(&format!("{name} [ {bit} ]")),
                None => self.put("true"),
            },
        }
    }

    /// An integer: a sum or what binds more tightly.
    fn sum(&mut self, depth: usize) {
        self.row(&["+", "+", "-"], depth, Self::product);
    }

    fn product(&mut self, depth: usize) {
        self.row(&["*", "/", "%"], depth / 2, Self::number);
    }

    fn number(&mut self, depth: usize) {
        match self.random.below(8) {
            0 if depth > 0 => {
                self.put("(");
                self.sum(depth - 1);
                self.put(")");
            }
            1 | 2 => {
                self.put("int (");
                self.condition(depth.saturating_sub(1));
                self.put(")");
            }
            3..=5 if !self.integers.is_empty() => {
                let (name, _) = self.random.of(&self.integers);
                self.put(name);
            }
            _ if !self.numbers.is_empty() && self.random.one_in(2) => {
                let name = self.random.of(&self.numbers);
                self.put(name);
            }
            _ => {
                let number = self.random.of(&[0, 1, 1, 1, 2, 2, 3, 5, 10, 65_535]);
                self.put(&number.to_string());
            }
        }
    }

    /// Operands with operators of one binding between them.
    fn row(&mut self, operators: &[&str], depth: usize, operand: fn(&mut Self, usize)) {
        operand(self, depth);
        while depth > 0 && self.random.one_in(3) {
            let operator = self.random.of(operators);
            self.put(operator);
            operand(self, depth - 1);
        }
    }
}
