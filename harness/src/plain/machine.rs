//! The plain machine: what the steps of a book do, and refusals 12 and 13.
use std::collections::HashMap;

use book::{Book, Entry, Instr, LIMIT, Rule, STALE, Step, WriteVal, function};

use super::{Checked, Refusal, refuse};

/// What happened in a run, to see that nothing goes untested: by opcode, function and merge rule.
#[derive(Clone, Default)]
pub struct Coverage {
    pub lanes: [u64; 14],
    pub hits: [u64; 5],
    pub misses: [u64; 5],
    pub answers: [u64; 8],
    pub nones: [u64; 8],
    pub merges: [u64; 4],
    pub removed: u64,
    pub predicted_again: u64,
    pub batches_ended_early: u64,
}

/// A run to its end.
pub struct Ran {
    pub answer: Vec<u32>,
    pub log_words: usize,
    pub row_words: usize,
    /// How many removals were staged, for each table.
    pub removals: Vec<usize>,
    pub coverage: Coverage,
}

/// The kinds of records in a log.
#[derive(Clone, Copy, PartialEq, Eq)]
pub enum Kind {
    Insert = 0,
    Removal = 1,
    Predicted = 2,
}

/// Why a run stops: the refusal's number.
type Cut = u32;

/// An execution state.
pub struct Machine<'a> {
    pub book: &'a Book,
    /// For each table its rows by key.
    committed: Vec<HashMap<&'a [u32], &'a [u32]>>,
    /// Rows by table and key.
    predicted: HashMap<(u32, Vec<u32>), Vec<u32>>,
    /// Kind, table and words of each record.
    pub log: Vec<(Kind, u32, Vec<u32>)>,
    pub log_words: usize,
    log_room: usize,
    pub counters: Vec<u32>,
    pub changed: bool,
    pub coverage: Coverage,
}

/// The lanes of a batch under way.
struct Batch {
    columns: Vec<Option<Vec<u32>>>,
    live: Vec<bool>,
}

impl Batch {
    fn value(&self, entry: &Entry, lane: usize) -> u32 {
        match entry {
            Entry::Const(n) => *n,
            Entry::Var(n) => self.columns[*n as usize].as_ref().expect("a bound variable")[lane],
        }
    }
    fn values(&self, entries: &[Entry], lane: usize) -> Vec<u32> {
        entries.iter().map(|entry| self.value(entry, lane)).collect()
    }
    fn live_lanes(&self) -> Vec<usize> {
        (0..self.live.len()).filter(|lane| self.live[*lane]).collect()
    }
    /// A column for dst: what each of these lanes gets, and stale elsewhere.
    fn bind(&mut self, dst: u32, got: impl IntoIterator<Item = (usize, u32)>) {
        let mut column = vec![STALE; self.live.len()];
        got.into_iter().for_each(|(lane, word)| column[lane] = word);
        self.columns[dst as usize] = Some(column);
    }
}

impl Machine<'_> {
    fn stage(&mut self, kind: Kind, table: u32, words: Vec<u32>) -> Result<(), Cut> {
        if self.log_words + 2 + words.len() > self.log_room {
            return Err(12);
        }
        self.log_words += 2 + words.len();
        self.log.push((kind, table, words));
        Ok(())
    }

    fn hand_out(&mut self, counter: u32) -> Result<u32, Cut> {
        let next = &mut self.counters[counter as usize];
        if *next == LIMIT {
            return Err(13);
        }
        *next += 1;
        Ok(*next - 1)
    }

    /// The row that all who miss this key read; built where there is none yet.
    fn predict(
        &mut self,
        table: u32,
        key: Vec<u32>,
        vals: &[WriteVal],
        value: impl Fn(&Entry) -> u32,
    ) -> Result<(Vec<u32>, bool), Cut> {
        let named = (table, key);
        if let Some(row) = self.predicted.get(&named) {
            self.coverage.predicted_again += 1;
            return Ok((row.clone(), false));
        }
        let mut row = named.1.clone();
        for val in vals {
            row.push(match val {
                WriteVal::Entry(entry) => value(entry),
                WriteVal::Counter(n) => self.hand_out(*n)?,
                WriteVal::Current(n) => row[*n as usize],
            });
        }
        self.stage(Kind::Predicted, table, row.clone())?;
        self.predicted.insert(named, row.clone());
        Ok((row, true))
    }

    fn call(&mut self, func: u32, args: &[u32]) -> Option<u32> {
        let answer = function(func, args);
        let counts = if answer.is_some() { &mut self.coverage.answers } else { &mut self.coverage.nones };
        counts[func as usize] += 1;
        answer
    }

    /// For each live lane the column of its committed row, where there is one.
    fn look_up(
        &mut self,
        batch: &Batch,
        opcode: u32,
        table: u32,
        key: &[Entry],
        col: u32,
    ) -> Vec<(usize, Option<u32>)> {
        let mut found = Vec::new();
        for lane in batch.live_lanes() {
            let row = self.committed[table as usize].get(&batch.values(key, lane)[..]);
            let counts = if row.is_some() { &mut self.coverage.hits } else { &mut self.coverage.misses };
            counts[opcode as usize] += 1;
            found.push((lane, row.map(|row| row[col as usize])));
        }
        found
    }

    fn keep(batch: &mut Batch, holds: impl Fn(&Batch, usize) -> bool) {
        for lane in batch.live_lanes() {
            batch.live[lane] = holds(batch, lane);
        }
    }

    /// Binds dst where there is an answer; where there is none the lane drops and keeps stale.
    fn bind_or_drop(batch: &mut Batch, dst: u32, got: Vec<(usize, Option<u32>)>) {
        for (lane, answer) in &got {
            batch.live[*lane] = answer.is_some();
        }
        batch.bind(dst, got.into_iter().filter_map(|(lane, answer)| Some((lane, answer?))));
    }

    fn run_instr(&mut self, instr: &Instr, batch: &mut Batch) -> Result<(), Cut> {
        match instr {
            Instr::LookupOrInsertDefault { table, args, vals, col, dst } => {
                let mut got = Vec::new();
                for (lane, found) in self.look_up(batch, 1, *table, args, *col) {
                    let word = match found {
                        Some(word) => word,
                        None => {
                            let key = batch.values(args, lane);
                            let (row, _) = self.predict(*table, key, vals, |e| batch.value(e, lane))?;
                            row[*col as usize]
                        }
                    };
                    got.push((lane, word));
                }
                batch.bind(*dst, got);
            }
            Instr::LookupWithDefault { table, args, col, dst, default } => {
                let found = self.look_up(batch, 2, *table, args, *col);
                let or_default =
                    |(lane, found): (usize, Option<u32>)| (lane, found.unwrap_or_else(|| batch.value(default, lane)));
                let got: Vec<_> = found.into_iter().map(or_default).collect();
                batch.bind(*dst, got);
            }
            Instr::Lookup { table, args, col, dst } => {
                let found = self.look_up(batch, 3, *table, args, *col);
                Self::bind_or_drop(batch, *dst, found);
            }
            Instr::LookupWithFallback { table, key, func, args, col, dst } => {
                let mut got = self.look_up(batch, 4, *table, key, *col);
                for (lane, answer) in got.iter_mut().filter(|(_, answer)| answer.is_none()) {
                    *answer = self.call(*func, &batch.values(args, *lane));
                }
                Self::bind_or_drop(batch, *dst, got);
            }
            Instr::Insert { table, vals } => {
                for lane in batch.live_lanes() {
                    self.stage(Kind::Insert, *table, batch.values(vals, lane))?;
                    self.changed = true;
                }
            }
            Instr::InsertIfEq { table, l, r, vals } => {
                for lane in batch.live_lanes() {
                    if batch.value(l, lane) == batch.value(r, lane) {
                        self.stage(Kind::Insert, *table, batch.values(vals, lane))?;
                        self.changed = true;
                    }
                }
            }
            Instr::Remove { table, args } => {
                for lane in batch.live_lanes() {
                    self.stage(Kind::Removal, *table, batch.values(args, lane))?;
                    self.changed = true;
                }
            }
            Instr::External { func, args, dst } => {
                let lanes = batch.live_lanes().into_iter();
                let got = lanes.map(|lane| (lane, self.call(*func, &batch.values(args, lane)))).collect();
                Self::bind_or_drop(batch, *dst, got);
            }
            Instr::ExternalWithFallback { f1, args1, f2, args2, dst } => {
                let mut got = Vec::new();
                for lane in batch.live_lanes() {
                    let first = self.call(*f1, &batch.values(args1, lane));
                    got.push((lane, first.or_else(|| self.call(*f2, &batch.values(args2, lane)))));
                }
                Self::bind_or_drop(batch, *dst, got);
            }
            Instr::AssertEq { l, r } => Self::keep(batch, |b, lane| b.value(l, lane) == b.value(r, lane)),
            Instr::AssertNe { l, r } => Self::keep(batch, |b, lane| b.value(l, lane) != b.value(r, lane)),
            Instr::AssertAnyNe { divider, ops } => Self::keep(batch, |b, lane| {
                let words = b.values(ops, lane);
                let (left, right) = words.split_at(*divider as usize);
                left.iter().zip(right).any(|(l, r)| l != r)
            }),
            Instr::ReadCounter { counter, dst } => {
                let next = self.counters[*counter as usize];
                batch.bind(*dst, (0..batch.live.len()).map(|lane| (lane, next)));
            }
        }
        Ok(())
    }

    fn run_batch(&mut self, rule: &Rule, lanes: u32, columns: &[Vec<u32>]) -> Result<Vec<u32>, Cut> {
        let lanes = if rule.v == 0 { 1 } else { lanes as usize };
        let mut bound: Vec<Option<Vec<u32>>> = columns.iter().cloned().map(Some).collect();
        bound.resize(32, None);
        let mut batch = Batch { columns: bound, live: vec![true; lanes] };
        for instr in &rule.code {
            let live = batch.live_lanes().len() as u64;
            if live == 0 {
                self.coverage.batches_ended_early += 1;
                break;
            }
            self.coverage.lanes[instr.opcode() as usize] += live;
            self.run_instr(instr, &mut batch)?;
        }
        let bound: Vec<_> = (0u32..).zip(&batch.columns).filter_map(|(n, c)| Some((n, c.as_ref()?))).collect();
        let mut body = vec![batch.live_lanes().len() as u32, lanes as u32, bound.len() as u32];
        for (n, column) in bound {
            body.push(n);
            body.extend(column);
        }
        body.extend(batch.live.iter().map(|live| u32::from(*live)));
        Ok(body)
    }

    fn run_prediction(&mut self, table: u32, key: &[u32], vals: &[WriteVal]) -> Result<Vec<u32>, Cut> {
        let committed = self.committed[table as usize].get(key).map(|row| row.to_vec());
        let (row, made) = match committed {
            Some(row) => (row, false),
            None => self.predict(table, key.to_vec(), vals, |entry| match entry {
                Entry::Const(n) => *n,
                Entry::Var(_) => unreachable!("a prediction reads no variable"),
            })?,
        };
        self.changed |= made;
        Ok([vec![u32::from(made)], row].concat())
    }
}

/// All steps from a fresh state, then the commit and the answer.
pub fn run(checked: &Checked, log_room: usize) -> Result<Ran, Refusal> {
    let book = &checked.book;
    let committed =
        book.tables.iter().map(|table| table.rows.iter().map(|row| (&row[..table.keys as usize], &row[..])).collect());
    let mut machine = Machine {
        book,
        committed: committed.collect(),
        predicted: HashMap::new(),
        log: Vec::new(),
        log_words: 0,
        log_room,
        counters: book.counters.clone(),
        changed: false,
        coverage: Coverage::default(),
    };
    let mut steps = Vec::new();
    for (i, step) in book.steps.iter().enumerate() {
        let (kind, body) = match step {
            Step::Batch { rule, lanes, columns } => {
                (6, machine.run_batch(&book.rules[*rule as usize], *lanes, columns))
            }
            Step::Prediction { table, key, vals } => (7, machine.run_prediction(*table, key, vals)),
        };
        match body {
            Ok(body) => steps.push((kind, body)),
            Err(number) => return refuse(number, checked.first_step + i),
        }
    }
    Ok(machine.end(steps))
}
