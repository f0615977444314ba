//! From bytes to a book: refusals 1 to 6.
use book::{Book, Entry, FUNCTIONS, Instr, Rule, STALE, Step, Table, WriteVal};

use super::{Refusal, refuse};

/// A book that has been read, with the places that later refusals name.
pub struct Checked {
    pub book: Book,
    /// For each rule the book word at which each instruction starts.
    pub instr_places: Vec<Vec<usize>>,
    /// The position in the contents of the first step.
    pub first_step: usize,
}

pub fn words_of(bytes: &[u8]) -> Result<Vec<u32>, Refusal> {
    if bytes.is_empty() || bytes.len() > 65536 || bytes.len() % 4 != 0 {
        return refuse(1, 0);
    }
    Ok(bytes.chunks_exact(4).map(|four| u32::from_le_bytes(four.try_into().unwrap())).collect())
}

struct Body {
    kind: u32,
    start: usize,
    end: usize,
}

fn contents(words: &[u32]) -> Result<Vec<Body>, Refusal> {
    let count = words[0] as usize;
    if count < 1 || count > 128 || 1 + 3 * count > words.len() {
        return refuse(2, 0);
    }
    let (mut bodies, mut rank, mut of_rank) = (Vec::new(), 0, 0);
    let mut end = 1 + 3 * count as u64;
    for i in 0..count {
        let [kind, first, length] = words[1 + 3 * i..4 + 3 * i] else { unreachable!() };
        // Batches and predictions alternate freely, so they share a rank and its limit.
        let (its_rank, most) = match kind {
            1 => (1, 16),
            2 => (2, 16),
            3 => (3, 32),
            4 | 5 => (4, 64),
            _ => return refuse(2, i),
        };
        if its_rank < rank || u64::from(first) != end {
            return refuse(2, i);
        }
        of_rank = if its_rank == rank { of_rank + 1 } else { 1 };
        rank = its_rank;
        if of_rank > most {
            return refuse(2, i);
        }
        let start = end;
        end += u64::from(length);
        bodies.push(Body { kind, start: start as usize, end: end as usize });
    }
    if end != words.len() as u64 {
        return refuse(2, 0);
    }
    Ok(bodies)
}

/// Walks a body. What breaks its form ends the walk (refusal 3); the first missing number (6) and
/// the first stale mark (4) are noted on the way.
struct Reader<'a> {
    words: &'a [u32],
    at: usize,
    end: usize,
    tables: u32,
    counters: u32,
    rules: u32,
    missing: Option<usize>,
    stale: Option<usize>,
}

/// The form of a body is broken.
struct Broken;

impl Reader<'_> {
    fn word(&mut self) -> Result<u32, Broken> {
        if self.at == self.end {
            return Err(Broken);
        }
        self.at += 1;
        Ok(self.words[self.at - 1])
    }
    fn count(&mut self, most: u32) -> Result<u32, Broken> {
        self.word().and_then(|n| if n <= most { Ok(n) } else { Err(Broken) })
    }
    fn number_below(&mut self, bound: u32) -> Result<u32, Broken> {
        let n = self.word()?;
        if n >= bound {
            self.missing = self.missing.or(Some(self.at - 1));
        }
        Ok(n)
    }
    fn value(&mut self) -> Result<u32, Broken> {
        let n = self.word()?;
        if n == STALE {
            self.stale = self.stale.or(Some(self.at - 1));
        }
        Ok(n)
    }
    fn values(&mut self, n: usize) -> Result<Vec<u32>, Broken> {
        // Tested before any room is made for them.
        if n > self.end - self.at {
            return Err(Broken);
        }
        (0..n).map(|_| self.value()).collect()
    }
    fn table(&mut self) -> Result<u32, Broken> {
        self.number_below(self.tables)
    }
    fn func(&mut self) -> Result<u32, Broken> {
        self.number_below(FUNCTIONS)
    }
    fn var(&mut self) -> Result<u32, Broken> {
        self.number_below(32)
    }
    fn write_val(&mut self, tags: &[u32]) -> Result<WriteVal, Broken> {
        let tag = self.word()?;
        if !tags.contains(&tag) {
            return Err(Broken);
        }
        Ok(match tag {
            0 => WriteVal::Entry(Entry::Var(self.var()?)),
            1 => WriteVal::Entry(Entry::Const(self.value()?)),
            2 => WriteVal::Counter(self.number_below(self.counters)?),
            _ => WriteVal::Current(self.word()?),
        })
    }
    fn entry(&mut self) -> Result<Entry, Broken> {
        match self.write_val(&[0, 1])? {
            WriteVal::Entry(entry) => Ok(entry),
            _ => unreachable!(),
        }
    }
    fn list(&mut self) -> Result<Vec<Entry>, Broken> {
        let n = self.count(16)?;
        (0..n).map(|_| self.entry()).collect()
    }
    fn write_list(&mut self, tags: &[u32]) -> Result<Vec<WriteVal>, Broken> {
        let n = self.count(16)?;
        (0..n).map(|_| self.write_val(tags)).collect()
    }

    fn read_table(&mut self) -> Result<Table, Broken> {
        let (keys, vals) = (self.count(8)?, self.count(8)?);
        let merge = self.number_below(4)?;
        let rows = self.word()?;
        let width = keys + vals;
        if width == 0 || u64::from(rows) * u64::from(width) != (self.end - self.at) as u64 {
            return Err(Broken);
        }
        let rows = (0..rows).map(|_| self.values(width as usize)).collect::<Result<_, _>>()?;
        Ok(Table { keys, vals, merge, rows })
    }
    fn instr(&mut self) -> Result<Instr, Broken> {
        Ok(match self.word()? {
            1 => Instr::LookupOrInsertDefault {
                table: self.table()?,
                args: self.list()?,
                vals: self.write_list(&[0, 1, 2, 3])?,
                col: self.word()?,
                dst: self.var()?,
            },
            2 => Instr::LookupWithDefault {
                table: self.table()?,
                args: self.list()?,
                col: self.word()?,
                dst: self.var()?,
                default: self.entry()?,
            },
            3 => Instr::Lookup { table: self.table()?, args: self.list()?, col: self.word()?, dst: self.var()? },
            4 => Instr::LookupWithFallback {
                table: self.table()?,
                key: self.list()?,
                func: self.func()?,
                args: self.list()?,
                col: self.word()?,
                dst: self.var()?,
            },
            5 => Instr::Insert { table: self.table()?, vals: self.list()? },
            6 => Instr::InsertIfEq { table: self.table()?, l: self.entry()?, r: self.entry()?, vals: self.list()? },
            7 => Instr::Remove { table: self.table()?, args: self.list()? },
            8 => Instr::External { func: self.func()?, args: self.list()?, dst: self.var()? },
            9 => Instr::ExternalWithFallback {
                f1: self.func()?,
                args1: self.list()?,
                f2: self.func()?,
                args2: self.list()?,
                dst: self.var()?,
            },
            10 => Instr::AssertEq { l: self.entry()?, r: self.entry()? },
            11 => Instr::AssertNe { l: self.entry()?, r: self.entry()? },
            12 => Instr::AssertAnyNe { divider: self.word()?, ops: self.list()? },
            13 => Instr::ReadCounter { counter: self.number_below(self.counters)?, dst: self.var()? },
            _ => return Err(Broken),
        })
    }
    fn read_rule(&mut self) -> Result<(Rule, Vec<usize>), Broken> {
        let (v, n) = (self.count(32)?, self.count(64)?);
        let (mut code, mut places) = (Vec::new(), Vec::new());
        for _ in 0..n {
            places.push(self.at);
            code.push(self.instr()?);
        }
        Ok((Rule { v, code }, places))
    }
    fn read_batch(&mut self) -> Result<Step, Broken> {
        let rule = self.number_below(self.rules)?;
        let (lanes, v) = (self.count(256)?, self.count(32)?);
        let columns = (0..v).map(|_| self.values(lanes as usize)).collect::<Result<_, _>>()?;
        Ok(Step::Batch { rule, lanes, columns })
    }
    fn read_prediction(&mut self) -> Result<Step, Broken> {
        let table = self.table()?;
        let n = self.count(16)?;
        let key = self.values(n as usize)?;
        Ok(Step::Prediction { table, key, vals: self.write_list(&[1, 2])? })
    }
    /// One body, put where it belongs; its form is broken too where it does not end at its end.
    fn read_body(&mut self, kind: u32, into: &mut Checked) -> Result<(), Broken> {
        match kind {
            1 => into.book.tables.push(self.read_table()?),
            2 => into.book.counters.push(self.value()?),
            3 => {
                let (rule, places) = self.read_rule()?;
                into.book.rules.push(rule);
                into.instr_places.push(places);
            }
            4 => into.book.steps.push(self.read_batch()?),
            _ => into.book.steps.push(self.read_prediction()?),
        }
        if self.at == self.end { Ok(()) } else { Err(Broken) }
    }
}

/// The place of the first row whose key stands in an earlier row.
fn repeated(table: &Table, start: usize) -> Option<usize> {
    let width = (table.keys + table.vals) as usize;
    let mut keys = std::collections::HashSet::new();
    let at = table.rows.iter().position(|row| !keys.insert(&row[..table.keys as usize]))?;
    Some(start + 4 + at * width)
}

/// Contents, then body after body; each is judged for 3, 6, 4 and 5 before the next is looked at.
pub fn read(words: &[u32]) -> Result<Checked, Refusal> {
    read_as(words, false)
}

/// The same where only the form of the bodies counts: what can be written down as a book at all.
pub fn form(words: &[u32]) -> Option<Book> {
    read_as(words, true).ok().map(|checked| checked.book)
}

fn read_as(words: &[u32], form_only: bool) -> Result<Checked, Refusal> {
    let bodies = contents(words)?;
    let number_of = |kind: u32| bodies.iter().filter(|body| body.kind == kind).count() as u32;
    let (tables, counters, rules) = (number_of(1), number_of(2), number_of(3));
    let first_step = (tables + counters + rules) as usize;
    let mut into = Checked { book: Book::default(), instr_places: Vec::new(), first_step };
    for (i, &Body { kind, start, end }) in bodies.iter().enumerate() {
        let mut reader = Reader { words, at: start, end, tables, counters, rules, missing: None, stale: None };
        if reader.read_body(kind, &mut into).is_err() {
            return refuse(3, i);
        }
        if form_only {
            continue;
        }
        if let Some(word) = reader.missing {
            return refuse(6, word);
        }
        if let Some(word) = reader.stale {
            return refuse(4, word);
        }
        if kind == 1
            && let Some(row) = repeated(into.book.tables.last().unwrap(), start)
        {
            return refuse(5, row);
        }
    }
    Ok(into)
}
