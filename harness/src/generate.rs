//! Books from a seed that pass the check, of many shapes.
use book::{Book, Entry, FUNCTIONS, Instr, LIMIT, Rule, Step, Table, WriteVal, arity};

use crate::rng::Rng;

/// How large the parts of a book are.
struct Size {
    tables: usize,
    rows: usize,
    counters: usize,
    rules: usize,
    instrs: usize,
    steps: usize,
    lanes: usize,
}

struct Maker<'a> {
    rng: &'a mut Rng,
    /// Words are drawn from so few that lanes share keys and lookups both hit and miss.
    domain: usize,
    /// Some words are large, or at the edge of a function's cases.
    wide: bool,
    /// Whether instructions that drop lanes come rarely, so that long rules keep some.
    gentle: bool,
    /// Key count and value count of each table.
    shapes: Vec<(usize, usize)>,
    counters: usize,
}

/// A book that passes the check (its run may still be refused).
pub fn good_book(rng: &mut Rng) -> Book {
    loop {
        let book = match rng.below(1000) {
            0 => full_log(rng),
            1 => whole_book(rng),
            _ => {
                let size = size(rng);
                random_book(rng, &size)
            }
        };
        if book.words().len() <= 16384 {
            return book;
        }
    }
}

fn size(rng: &mut Rng) -> Size {
    match rng.below(100) {
        // Wide batches.
        0..=3 => Size { tables: 4, rows: 40, counters: 3, rules: 2, instrs: 12, steps: 2, lanes: 256 },
        // Long rules.
        4..=7 => Size { tables: 3, rows: 10, counters: 3, rules: 2, instrs: 64, steps: 4, lanes: 12 },
        // Many of everything.
        8..=10 => Size { tables: 16, rows: 4, counters: 16, rules: 32, instrs: 4, steps: 64, lanes: 4 },
        // Many rows.
        11 => Size { tables: 2, rows: 1000, counters: 1, rules: 2, instrs: 6, steps: 4, lanes: 60 },
        12..=30 => Size { tables: 4, rows: 20, counters: 3, rules: 4, instrs: 12, steps: 8, lanes: 40 },
        _ => Size { tables: 3, rows: 6, counters: 2, rules: 3, instrs: 6, steps: 5, lanes: 6 },
    }
}

fn random_book(rng: &mut Rng, size: &Size) -> Book {
    let mut book = Book::default();
    let domain = rng.pick(&[2, 3, 3, 4, 6, 12]).max(size.rows / 3 * rng.below(2));
    let (wide, gentle) = (rng.percent(15), rng.percent(70));
    let mut maker = Maker { rng, domain, wide, gentle, shapes: Vec::new(), counters: 0 };
    for _ in 0..maker.up_to(size.tables) {
        let table = maker.table(size.rows);
        maker.shapes.push((table.keys as usize, table.vals as usize));
        book.tables.push(table);
    }
    maker.counters = maker.up_to(size.counters);
    book.counters = (0..maker.counters).map(|_| maker.counter()).collect();
    let rules = 1 + maker.up_to(size.rules - 1);
    book.rules = (0..rules).map(|_| maker.rule(size.instrs)).collect();
    for _ in 0..maker.up_to(size.steps) {
        let step = if !maker.shapes.is_empty() && maker.rng.percent(30) {
            maker.prediction()
        } else {
            maker.batch(&book.rules, size.lanes)
        };
        book.steps.push(step);
    }
    book
}

impl Maker<'_> {
    /// 0 to n, the ends more often than the rest.
    fn up_to(&mut self, n: usize) -> usize {
        match self.rng.below(8) {
            0 => n,
            1 => n.min(1),
            _ => self.rng.below(n + 1),
        }
    }

    fn word(&mut self) -> u32 {
        if self.wide && self.rng.percent(40) {
            let large = self.rng.below(LIMIT as usize + 1) as u32;
            let edges = [LIMIT, LIMIT - 1, LIMIT - 2, 1 << 31, 49, 50, 79, 80, 100, 101, large];
            return self.rng.pick(&edges);
        }
        self.rng.below(self.domain) as u32
    }

    fn words(&mut self, n: usize) -> Vec<u32> {
        (0..n).map(|_| self.word()).collect()
    }

    fn table(&mut self, most_rows: usize) -> Table {
        let keys = self.rng.pick(&[0, 1, 1, 1, 1, 2, 2, 2, 3, 4, 5, 8]);
        let vals = self.rng.pick(&[0, 1, 1, 1, 2, 2, 3, 5, 8]).max(usize::from(keys == 0));
        let mut rows: Vec<Vec<u32>> = Vec::new();
        let mut had = std::collections::HashSet::new();
        for _ in 0..self.up_to(most_rows) {
            let row = self.words(keys + vals);
            if had.insert(row[..keys].to_vec()) {
                rows.push(row);
            }
        }
        Table { keys: keys as u32, vals: vals as u32, merge: self.rng.below(4) as u32, rows }
    }

    fn counter(&mut self) -> u32 {
        match self.rng.below(10) {
            0 => LIMIT - self.rng.below(3) as u32,
            1 => LIMIT - self.rng.below(40) as u32,
            2 => self.word(),
            _ => self.rng.below(200) as u32,
        }
    }

    fn entry(&mut self, bound: &[bool], held_out: Option<u32>) -> Entry {
        if self.rng.percent(75) {
            let from = self.rng.below(32);
            let free = |n: &usize| bound[*n] && held_out != Some(*n as u32);
            if let Some(n) = (from..32).chain(0..from).find(free) {
                return Entry::Var(n as u32);
            }
        }
        Entry::Const(self.word())
    }

    fn entries(&mut self, n: usize, bound: &[bool], held_out: Option<u32>) -> Vec<Entry> {
        (0..n).map(|_| self.entry(bound, held_out)).collect()
    }

    fn write_vals(&mut self, keys: usize, vals: usize, bound: &[bool], dst: u32) -> Vec<WriteVal> {
        let one = |j: usize| match self.rng.below(10) {
            0..=3 if self.counters > 0 => WriteVal::Counter(self.rng.below(self.counters) as u32),
            4..=5 if keys + j > 0 => WriteVal::Current(self.rng.below(keys + j) as u32),
            _ => WriteVal::Entry(self.entry(bound, Some(dst))),
        };
        (0..vals).map(one).collect()
    }

    fn instr(&mut self, bound: &[bool], dst: u32) -> Option<Instr> {
        let opcode = self.rng.pick(&[1, 1, 1, 1, 2, 2, 3, 4, 4, 5, 6, 7, 8, 9, 9, 10, 11, 12, 13]);
        if self.gentle && matches!(opcode, 3 | 8 | 10 | 12) && self.rng.percent(60) {
            return None;
        }
        if opcode <= 7 && self.shapes.is_empty() || opcode == 13 && self.counters == 0 {
            return None;
        }
        let table = self.rng.below(self.shapes.len().max(1));
        let (keys, vals) = self.shapes.get(table).copied().unwrap_or((0, 1));
        let table = table as u32;
        let col = self.rng.below(keys + vals) as u32;
        let (func, second) = (self.rng.below(FUNCTIONS as usize) as u32, self.rng.below(FUNCTIONS as usize) as u32);
        Some(match opcode {
            1 => {
                let args = self.entries(keys, bound, Some(dst));
                let vals = self.write_vals(keys, vals, bound, dst);
                Instr::LookupOrInsertDefault { table, args, vals, col, dst }
            }
            2 => {
                let (args, default) = (self.entries(keys, bound, None), self.entry(bound, None));
                Instr::LookupWithDefault { table, args, col, dst, default }
            }
            3 => Instr::Lookup { table, args: self.entries(keys, bound, None), col, dst },
            4 => {
                let key = self.entries(keys, bound, None);
                let args = self.entries(arity(func), bound, Some(dst));
                Instr::LookupWithFallback { table, key, func, args, col, dst }
            }
            5 => Instr::Insert { table, vals: self.entries(keys + vals, bound, None) },
            6 => {
                let (l, r) = (self.entry(bound, None), self.entry(bound, None));
                Instr::InsertIfEq { table, l, r, vals: self.entries(keys + vals, bound, None) }
            }
            7 => Instr::Remove { table, args: self.entries(keys, bound, None) },
            8 => Instr::External { func, args: self.entries(arity(func), bound, None), dst },
            9 => {
                let args1 = self.entries(arity(func), bound, None);
                let args2 = self.entries(arity(second), bound, Some(dst));
                Instr::ExternalWithFallback { f1: func, args1, f2: second, args2, dst }
            }
            10 => Instr::AssertEq { l: self.entry(bound, None), r: self.entry(bound, None) },
            11 => Instr::AssertNe { l: self.entry(bound, None), r: self.entry(bound, None) },
            12 => {
                let most = self.rng.pick(&[3, 5, 8, 17]);
                let n = self.rng.below(most);
                let divider = if self.rng.percent(30) { self.rng.below(n + 1) } else { n / 2 };
                Instr::AssertAnyNe { divider: divider as u32, ops: self.entries(n, bound, None) }
            }
            _ => Instr::ReadCounter { counter: self.rng.below(self.counters) as u32, dst },
        })
    }

    fn rule(&mut self, most_instrs: usize) -> Rule {
        let v = self.rng.pick(&[0, 1, 1, 1, 2, 2, 2, 3, 3, 4, 6, 32]);
        let variables = self.rng.pick(&[4, 8, 8, 32]);
        let mut bound = [false; 32];
        bound[..v].fill(true);
        let mut code = Vec::new();
        for _ in 0..self.up_to(most_instrs) {
            let dst = self.rng.below(variables) as u32;
            let Some(mut instr) = self.instr(&bound, dst) else { continue };
            if let Some(dst) = instr.dst_mut() {
                bound[*dst as usize] = true;
            }
            code.push(instr);
        }
        Rule { v: v as u32, code }
    }

    fn batch(&mut self, rules: &[Rule], most_lanes: usize) -> Step {
        let rule = self.rng.below(rules.len());
        let v = rules[rule].v as usize;
        let lanes = if v == 0 { 0 } else { self.up_to(most_lanes) };
        let columns = (0..v).map(|_| self.words(lanes)).collect();
        Step::Batch { rule: rule as u32, lanes: lanes as u32, columns }
    }

    fn prediction(&mut self) -> Step {
        let table = self.rng.below(self.shapes.len());
        let (keys, vals) = self.shapes[table];
        let key = self.words(keys);
        let counted = self.counters > 0 && self.rng.percent(50);
        let val = |_| match counted {
            true => WriteVal::Counter(self.rng.below(self.counters) as u32),
            false => WriteVal::Entry(Entry::Const(self.word())),
        };
        Step::Prediction { table: table as u32, key, vals: (0..vals).map(val).collect() }
    }
}

/// Steps that stage exactly the 16384 words that may be lent as a log, or one record more.
fn full_log(rng: &mut Rng) -> Book {
    // Records of 4 or 8 words, so that they fill it evenly.
    let (keys, vals) = rng.pick(&[(1, 1), (2, 0), (2, 4), (1, 5)]);
    let records = 16384 / (2 + keys + vals) + rng.below(2);
    let args: Vec<Entry> = (0..keys).map(|n| Entry::Var(n as u32)).collect();
    let given: Vec<Entry> = (0..vals).map(|_| Entry::Const(7)).collect();
    let instr = if rng.percent(70) {
        let vals = (0..vals).map(|_| WriteVal::Counter(0)).collect();
        Instr::LookupOrInsertDefault { table: 0, args, vals, col: 0, dst: 31 }
    } else {
        Instr::Insert { table: 0, vals: [args, given].concat() }
    };
    let mut steps = Vec::new();
    let (mut next, salt) = (0, rng.next() as u32 % 1000);
    while next < records {
        let lanes = (records - next).min(256);
        // Keys that are all different, some apart and some side by side.
        let first: Vec<u32> = (next..next + lanes).map(|n| (n as u32).wrapping_mul(1 + salt * 64) % LIMIT).collect();
        let mut columns = vec![first];
        columns.resize(keys, vec![salt; lanes]);
        steps.push(Step::Batch { rule: 0, lanes: lanes as u32, columns });
        next += lanes;
    }
    Book {
        tables: vec![Table { keys: keys as u32, vals: vals as u32, merge: rng.below(4) as u32, rows: vec![] }],
        counters: vec![rng.below(100) as u32],
        rules: vec![Rule { v: keys as u32, code: vec![instr] }],
        steps,
    }
}

/// A book of all the words that a book may have, or of a few less.
fn whole_book(rng: &mut Rng) -> Book {
    let mut book = random_book(rng, &Size { tables: 3, rows: 6, counters: 2, rules: 3, instrs: 6, steps: 5, lanes: 6 });
    // A contents entry and four words go to the table itself.
    let left = 16384 - (book.words().len() + 7) - rng.below(3);
    let width = rng.pick(&[1, 1, 2, 3]);
    let row = |n: usize| [n as u32 * 5].into_iter().chain((1..width).map(|_| 1)).collect();
    book.tables.push(Table { keys: 1, vals: width as u32 - 1, merge: 1, rows: (0..left / width).map(row).collect() });
    book
}
