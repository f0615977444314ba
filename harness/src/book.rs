//! A rule book as data, its words, and what comes of running it: what the Rust, the plain model
//! and the generator have in common.

/// The mark of a word that nobody may read.
pub const STALE: u32 = u32::MAX;
/// A counter's next number never passes this.
pub const LIMIT: u32 = STALE - 1;

#[derive(Clone, Copy, Debug, PartialEq, Eq)]
pub enum Entry {
    Var(u32),
    Const(u32),
}

#[derive(Clone, Copy, Debug, PartialEq, Eq)]
pub enum WriteVal {
    Entry(Entry),
    Counter(u32),
    Current(u32),
}

impl WriteVal {
    pub fn counter_mut(&mut self) -> Option<&mut u32> {
        if let WriteVal::Counter(n) = self { Some(n) } else { None }
    }
    pub fn entry_mut(&mut self) -> Option<&mut Entry> {
        if let WriteVal::Entry(entry) = self { Some(entry) } else { None }
    }
}

/// The instructions, opcodes 1 to 13 in this order.
#[derive(Clone, Debug, PartialEq, Eq)]
pub enum Instr {
    LookupOrInsertDefault { table: u32, args: Vec<Entry>, vals: Vec<WriteVal>, col: u32, dst: u32 },
    LookupWithDefault { table: u32, args: Vec<Entry>, col: u32, dst: u32, default: Entry },
    Lookup { table: u32, args: Vec<Entry>, col: u32, dst: u32 },
    LookupWithFallback { table: u32, key: Vec<Entry>, func: u32, args: Vec<Entry>, col: u32, dst: u32 },
    Insert { table: u32, vals: Vec<Entry> },
    InsertIfEq { table: u32, l: Entry, r: Entry, vals: Vec<Entry> },
    Remove { table: u32, args: Vec<Entry> },
    External { func: u32, args: Vec<Entry>, dst: u32 },
    ExternalWithFallback { f1: u32, args1: Vec<Entry>, f2: u32, args2: Vec<Entry>, dst: u32 },
    AssertEq { l: Entry, r: Entry },
    AssertNe { l: Entry, r: Entry },
    AssertAnyNe { divider: u32, ops: Vec<Entry> },
    ReadCounter { counter: u32, dst: u32 },
}

#[derive(Clone, Debug, PartialEq, Eq)]
pub struct Table {
    pub keys: u32,
    pub vals: u32,
    pub merge: u32,
    pub rows: Vec<Vec<u32>>,
}

#[derive(Clone, Debug, PartialEq, Eq)]
pub struct Rule {
    pub v: u32,
    pub code: Vec<Instr>,
}

#[derive(Clone, Debug, PartialEq, Eq)]
pub enum Step {
    Batch { rule: u32, lanes: u32, columns: Vec<Vec<u32>> },
    Prediction { table: u32, key: Vec<u32>, vals: Vec<WriteVal> },
}

#[derive(Clone, Debug, Default, PartialEq, Eq)]
pub struct Book {
    pub tables: Vec<Table>,
    pub counters: Vec<u32>,
    pub rules: Vec<Rule>,
    pub steps: Vec<Step>,
}

pub const FUNCTIONS: u32 = 8;

/// How many arguments a function takes.
pub fn arity(func: u32) -> usize {
    if func == 6 { 1 } else { 2 }
}

/// The functions that stand in for `ExternalFunction`; `None` where there is no answer.
pub fn function(func: u32, args: &[u32]) -> Option<u32> {
    assert_eq!(args.len(), arity(func), "function {func} got {} arguments", args.len());
    let first = args[0];
    let second = *args.last().unwrap();
    match func {
        0 => first.checked_add(second).filter(|sum| *sum != STALE),
        1 => first.checked_sub(second),
        2 => (first < second).then_some(first),
        3 => (first <= second).then_some(first),
        4 => Some(first.min(second)),
        5 => Some(first.max(second)),
        6 => match first {
            0..=49 => Some(0),
            50..=79 => Some(1),
            80..=100 => Some(2),
            _ => None,
        },
        7 => Some(first.abs_diff(second)),
        _ => panic!("no function {func}"),
    }
}

// ---- a book's words

fn entry_words(entry: &Entry, out: &mut Vec<u32>) {
    match *entry {
        Entry::Var(n) => out.extend([0, n]),
        Entry::Const(n) => out.extend([1, n]),
    }
}

fn write_words(val: &WriteVal, out: &mut Vec<u32>) {
    match val {
        WriteVal::Entry(entry) => entry_words(entry, out),
        WriteVal::Counter(n) => out.extend([2, *n]),
        WriteVal::Current(n) => out.extend([3, *n]),
    }
}

fn list_words(list: &[Entry], out: &mut Vec<u32>) {
    out.push(list.len() as u32);
    list.iter().for_each(|entry| entry_words(entry, out));
}

fn write_list_words(list: &[WriteVal], out: &mut Vec<u32>) {
    out.push(list.len() as u32);
    list.iter().for_each(|val| write_words(val, out));
}

impl Instr {
    pub fn opcode(&self) -> u32 {
        match self {
            Instr::LookupOrInsertDefault { .. } => 1,
            Instr::LookupWithDefault { .. } => 2,
            Instr::Lookup { .. } => 3,
            Instr::LookupWithFallback { .. } => 4,
            Instr::Insert { .. } => 5,
            Instr::InsertIfEq { .. } => 6,
            Instr::Remove { .. } => 7,
            Instr::External { .. } => 8,
            Instr::ExternalWithFallback { .. } => 9,
            Instr::AssertEq { .. } => 10,
            Instr::AssertNe { .. } => 11,
            Instr::AssertAnyNe { .. } => 12,
            Instr::ReadCounter { .. } => 13,
        }
    }

    pub fn words(&self, out: &mut Vec<u32>) {
        out.push(self.opcode());
        match self {
            Instr::LookupOrInsertDefault { table, args, vals, col, dst } => {
                out.push(*table);
                list_words(args, out);
                write_list_words(vals, out);
                out.extend([*col, *dst]);
            }
            Instr::LookupWithDefault { table, args, col, dst, default } => {
                out.push(*table);
                list_words(args, out);
                out.extend([*col, *dst]);
                entry_words(default, out);
            }
            Instr::Lookup { table, args, col, dst } => {
                out.push(*table);
                list_words(args, out);
                out.extend([*col, *dst]);
            }
            Instr::LookupWithFallback { table, key, func, args, col, dst } => {
                out.push(*table);
                list_words(key, out);
                out.push(*func);
                list_words(args, out);
                out.extend([*col, *dst]);
            }
            Instr::Insert { table, vals: list } | Instr::Remove { table, args: list } => {
                out.push(*table);
                list_words(list, out);
            }
            Instr::InsertIfEq { table, l, r, vals } => {
                out.push(*table);
                entry_words(l, out);
                entry_words(r, out);
                list_words(vals, out);
            }
            Instr::External { func, args, dst } => {
                out.push(*func);
                list_words(args, out);
                out.push(*dst);
            }
            Instr::ExternalWithFallback { f1, args1, f2, args2, dst } => {
                out.push(*f1);
                list_words(args1, out);
                out.push(*f2);
                list_words(args2, out);
                out.push(*dst);
            }
            Instr::AssertEq { l, r } | Instr::AssertNe { l, r } => {
                entry_words(l, out);
                entry_words(r, out);
            }
            Instr::AssertAnyNe { divider, ops } => {
                out.push(*divider);
                list_words(ops, out);
            }
            Instr::ReadCounter { counter, dst } => out.extend([*counter, *dst]),
        }
    }

    // What a change of a book wants to reach, one accessor for each sort of number.

    pub fn table_mut(&mut self) -> Option<&mut u32> {
        match self {
            Instr::LookupOrInsertDefault { table, .. }
            | Instr::LookupWithDefault { table, .. }
            | Instr::Lookup { table, .. }
            | Instr::LookupWithFallback { table, .. }
            | Instr::Insert { table, .. }
            | Instr::InsertIfEq { table, .. }
            | Instr::Remove { table, .. } => Some(table),
            _ => None,
        }
    }

    pub fn col_mut(&mut self) -> Option<&mut u32> {
        match self {
            Instr::LookupOrInsertDefault { col, .. }
            | Instr::LookupWithDefault { col, .. }
            | Instr::Lookup { col, .. }
            | Instr::LookupWithFallback { col, .. } => Some(col),
            _ => None,
        }
    }

    pub fn dst_mut(&mut self) -> Option<&mut u32> {
        match self {
            Instr::LookupOrInsertDefault { dst, .. }
            | Instr::LookupWithDefault { dst, .. }
            | Instr::Lookup { dst, .. }
            | Instr::LookupWithFallback { dst, .. }
            | Instr::External { dst, .. }
            | Instr::ExternalWithFallback { dst, .. }
            | Instr::ReadCounter { dst, .. } => Some(dst),
            _ => None,
        }
    }

    pub fn functions_mut(&mut self) -> Vec<&mut u32> {
        match self {
            Instr::LookupWithFallback { func, .. } | Instr::External { func, .. } => vec![func],
            Instr::ExternalWithFallback { f1, f2, .. } => vec![f1, f2],
            _ => vec![],
        }
    }

    pub fn counters_mut(&mut self) -> Vec<&mut u32> {
        match self {
            Instr::ReadCounter { counter, .. } => vec![counter],
            Instr::LookupOrInsertDefault { vals, .. } => vals.iter_mut().filter_map(WriteVal::counter_mut).collect(),
            _ => vec![],
        }
    }

    pub fn lists_mut(&mut self) -> Vec<&mut Vec<Entry>> {
        match self {
            Instr::LookupOrInsertDefault { args, .. }
            | Instr::LookupWithDefault { args, .. }
            | Instr::Lookup { args, .. }
            | Instr::Remove { args, .. }
            | Instr::External { args, .. } => vec![args],
            Instr::Insert { vals, .. } | Instr::InsertIfEq { vals, .. } => vec![vals],
            Instr::LookupWithFallback { key, args, .. } => vec![key, args],
            Instr::ExternalWithFallback { args1, args2, .. } => vec![args1, args2],
            Instr::AssertAnyNe { ops, .. } => vec![ops],
            _ => vec![],
        }
    }

    /// Every entry, in lists, write values and on its own.
    pub fn entries_mut(&mut self) -> Vec<&mut Entry> {
        match self {
            Instr::AssertEq { l, r } | Instr::AssertNe { l, r } => vec![l, r],
            Instr::LookupWithDefault { args, default, .. } => args.iter_mut().chain(std::iter::once(default)).collect(),
            Instr::InsertIfEq { l, r, vals, .. } => [l, r].into_iter().chain(vals).collect(),
            Instr::LookupOrInsertDefault { args, vals, .. } => {
                args.iter_mut().chain(vals.iter_mut().filter_map(WriteVal::entry_mut)).collect()
            }
            _ => self.lists_mut().into_iter().flatten().collect(),
        }
    }
}

impl Book {
    fn bodies(&self) -> Vec<(u32, Vec<u32>)> {
        let mut bodies = Vec::new();
        for table in &self.tables {
            let mut body = vec![table.keys, table.vals, table.merge, table.rows.len() as u32];
            table.rows.iter().for_each(|row| body.extend(row));
            bodies.push((1, body));
        }
        for next in &self.counters {
            bodies.push((2, vec![*next]));
        }
        for rule in &self.rules {
            let mut body = vec![rule.v, rule.code.len() as u32];
            rule.code.iter().for_each(|instr| instr.words(&mut body));
            bodies.push((3, body));
        }
        for step in &self.steps {
            match step {
                Step::Batch { rule, lanes, columns } => {
                    let mut body = vec![*rule, *lanes, columns.len() as u32];
                    columns.iter().for_each(|column| body.extend(column));
                    bodies.push((4, body));
                }
                Step::Prediction { table, key, vals } => {
                    let mut body = vec![*table, key.len() as u32];
                    body.extend(key);
                    write_list_words(vals, &mut body);
                    bodies.push((5, body));
                }
            }
        }
        bodies
    }

    pub fn words(&self) -> Vec<u32> {
        with_contents(&self.bodies())
    }
}

/// Contents (kind, first word and length of each body), then the bodies.
pub fn with_contents(bodies: &[(u32, Vec<u32>)]) -> Vec<u32> {
    let mut words = vec![bodies.len() as u32];
    let mut at = 1 + 3 * bodies.len();
    for (kind, body) in bodies {
        words.extend([*kind, at as u32, body.len() as u32]);
        at += body.len();
    }
    bodies.iter().for_each(|(_, body)| words.extend(body));
    words
}

pub fn bytes_of(words: &[u32]) -> Vec<u8> {
    words.iter().flat_map(|word| word.to_le_bytes()).collect()
}

// ---- what comes of a run

#[derive(Clone, Debug, PartialEq, Eq)]
pub struct Record {
    pub removal: bool,
    pub table: u32,
    pub words: Vec<u32>,
}

impl Record {
    /// The words that it takes in a log: kind, table, then its own.
    pub fn room(&self) -> usize {
        2 + self.words.len()
    }
}

#[derive(Clone, Debug, PartialEq, Eq)]
pub enum Done {
    /// Every bound variable with its column, ascending; a flag for each lane.
    Batch {
        survivors: u32,
        columns: Vec<(u32, Vec<u32>)>,
        live: Vec<bool>,
    },
    Prediction {
        made: bool,
        row: Vec<u32>,
    },
}

/// All that can be seen of a run, whoever ran it. A predicted row is an insert here.
#[derive(Clone, Debug, Default, PartialEq, Eq)]
pub struct Seen {
    pub steps: Vec<Done>,
    pub log: Vec<Record>,
    pub changed: bool,
    pub tables: Vec<Vec<Vec<u32>>>,
    pub counters: Vec<u64>,
}
