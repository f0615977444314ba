//! How long a call of the engine takes beside the Rust, on the same bytes, with the same memory lent
//! and cleared.
//!
//! Whole call: the engine reads, checks, runs, commits, writes the answer and clears what was lent.
//! The Rust's side reads the same bytes without a check, makes a database, runs `run_instrs` and
//! `predict_val`, merges, writes the same answer and clears the same buffers; much of its time is the
//! harness's own, which is written to be read. Steps: what a call takes more than one on the same
//! book without its steps, beside the Rust's time from the first step to the last; the engine's has
//! the commit and the answer of those steps in it, the Rust's has not.
use std::time::{Duration, Instant};

use book::{Book, Entry, Instr, Rule, Step, Table, WriteVal, bytes_of};
use core_relations::drive::{self, Fill};

use crate::answer;
use crate::engine::Engine;
use crate::memory::Memory;
use crate::plain::{self, Lent};

const ROUNDS: usize = 31;
const ROUND: Duration = Duration::from_millis(4);

pub fn time(engine: Engine) {
    let name = engine.name();
    println!("microseconds (median), {name} / Rust over {ROUNDS} rounds (median, quartiles)");
    let columns = format!("{:>11} {:>9} {:>7} {:>14}", name, "Rust", "ratio", "quartiles");
    println!("{:<32} {:<45}| steps", "", "whole call");
    println!("{:<32} {columns} | {columns}", "");
    for (title, book, answer_words) in books() {
        let lent = Lent { bindings: 8192, index: 8192, log: 16384, tables: 16384, answer: answer_words };
        measure(title, &book, &lent, engine);
    }
}

/// The mean time of a call, over calls that fill a round.
fn mean(mut call: impl FnMut()) -> f64 {
    let (started, mut calls) = (Instant::now(), 0);
    while calls == 0 || started.elapsed() < ROUND {
        call();
        calls += 1;
    }
    started.elapsed().as_secs_f64() * 1e6 / f64::from(calls)
}

fn measure(title: &str, book: &Book, lent: &Lent, engine: Engine) {
    let bytes = bytes_of(&book.words());
    let without_steps = bytes_of(&Book { steps: vec![], ..book.clone() }.words());
    let mut memory = Memory::default();
    memory.lend(lent, None);
    let words = engine.run(&bytes, memory.buffers()).unwrap_or_else(|refusal| panic!("{title}: {refusal:?}"));
    assert_eq!(words, rust_call(&bytes, &mut memory).0, "{title}: the answers have unlike lengths");
    let (mut whole, mut steps) = (Times::default(), Times::default());
    for _ in 0..ROUNDS {
        let mine = mean(|| _ = engine.run(&bytes, memory.buffers()));
        let mine_without = mean(|| _ = engine.run(&without_steps, memory.buffers()));
        let mut in_steps = Vec::new();
        let rust = mean(|| in_steps.push(rust_call(&bytes, &mut memory).1.as_secs_f64() * 1e6));
        whole.note(mine, rust);
        steps.note(mine - mine_without, quartile(&mut in_steps, 2));
    }
    println!("{title:<32} {} | {}", whole.told(), steps.told());
}

#[derive(Default)]
struct Times {
    mine: Vec<f64>,
    rust: Vec<f64>,
    ratios: Vec<f64>,
}

impl Times {
    fn note(&mut self, mine: f64, rust: f64) {
        self.mine.push(mine);
        self.rust.push(rust);
        self.ratios.push(mine / rust);
    }
    fn told(&mut self) -> String {
        let (mine, rust) = (quartile(&mut self.mine, 2), quartile(&mut self.rust, 2));
        let [low, median, high] = [1, 2, 3].map(|which| quartile(&mut self.ratios, which));
        format!("{mine:>11.1} {rust:>9.1} {median:>7.2} {low:>6.2} {high:>7.2}")
    }
}

fn quartile(times: &mut [f64], which: usize) -> f64 {
    times.sort_by(f64::total_cmp);
    times[(times.len() - 1) * which / 4]
}

/// The words of its answer, and the time of its steps alone.
fn rust_call(bytes: &[u8], memory: &mut Memory) -> (usize, Duration) {
    let words = plain::words_of(bytes).expect("whole words");
    let book = plain::form(&words).expect("a readable book");
    let ran = drive::run(&book, Fill::Columns);
    let answer = answer::composed(&ran.seen, &book);
    memory.clear();
    memory.buffers()[4][..answer.len()].copy_from_slice(&answer);
    (answer.len(), ran.in_steps)
}

// ---- the books

fn books() -> Vec<(&'static str, Book, usize)> {
    vec![
        ("3 pairs of car and call", pairs(3), 16384),
        ("200 pairs of car and call", pairs(200), 16384),
        ("256 lanes, 64 instructions", long_rule(), 16384),
        ("2000 rows, 256 lanes", many_rows(), 16384),
        ("a full log, 4096 predicted rows", full_log(), 40000),
    ]
}

fn var(n: u32) -> Entry {
    Entry::Var(n)
}

fn constant(n: u32) -> Entry {
    Entry::Const(n)
}

/// Assigns calls to cars: the car's load and its band, the distance to the call, an assignment made
/// once for each call, and a record for cars that are not full.
fn pairs(pairs: u32) -> Book {
    let cars = 8;
    let loads = (0..cars).map(|car| vec![car, 13 * car % 101, 3 * car]).collect();
    let code = vec![
        Instr::Lookup { table: 0, args: vec![var(0)], col: 1, dst: 2 },
        Instr::Lookup { table: 0, args: vec![var(0)], col: 2, dst: 3 },
        Instr::External { func: 6, args: vec![var(2)], dst: 4 },
        Instr::ExternalWithFallback { f1: 1, args1: vec![var(1), var(3)], f2: 7, args2: vec![var(1), var(3)], dst: 5 },
        Instr::LookupOrInsertDefault {
            table: 1,
            args: vec![var(1)],
            vals: vec![WriteVal::Counter(0), WriteVal::Entry(var(0))],
            col: 1,
            dst: 6,
        },
        Instr::AssertNe { l: var(4), r: constant(2) },
        Instr::Insert { table: 2, vals: vec![var(6), var(0), var(5)] },
    ];
    let columns = vec![(0..pairs).map(|n| n % cars).collect(), (0..pairs).map(|n| n / 3 % 40).collect()];
    let table = |keys, vals, merge, rows| Table { keys, vals, merge, rows };
    Book {
        tables: vec![table(1, 2, 1, loads), table(1, 2, 0, vec![]), table(2, 1, 2, vec![])],
        counters: vec![1000],
        rules: vec![Rule { v: 2, code }],
        steps: vec![Step::Batch { rule: 0, lanes: pairs, columns }],
    }
}

/// Every sort of instruction in turn, on as many lanes as there can be.
fn long_rule() -> Book {
    let turn = [
        Instr::LookupOrInsertDefault {
            table: 0,
            args: vec![var(0)],
            vals: vec![WriteVal::Entry(var(1))],
            col: 1,
            dst: 2,
        },
        Instr::LookupWithDefault { table: 0, args: vec![var(1)], col: 1, dst: 3, default: var(0) },
        Instr::Lookup { table: 1, args: vec![var(0)], col: 1, dst: 4 },
        Instr::LookupWithFallback { table: 0, key: vec![var(0)], func: 5, args: vec![var(0), var(1)], col: 1, dst: 5 },
        Instr::External { func: 0, args: vec![var(0), var(1)], dst: 6 },
        Instr::ExternalWithFallback { f1: 2, args1: vec![var(0), var(1)], f2: 4, args2: vec![var(0), var(1)], dst: 7 },
        Instr::AssertNe { l: var(0), r: constant(1000) },
        Instr::AssertAnyNe { divider: 2, ops: vec![var(0), constant(1), constant(1000), constant(1)] },
        Instr::ReadCounter { counter: 0, dst: 8 },
        Instr::InsertIfEq { table: 0, l: var(0), r: constant(7), vals: vec![var(0), var(1)] },
    ];
    let mut code: Vec<Instr> = turn.iter().cycle().take(62).cloned().collect();
    code.push(Instr::Insert { table: 0, vals: vec![var(0), var(2)] });
    code.push(Instr::Remove { table: 0, args: vec![var(1)] });
    let columns = vec![(0..256).map(|n| n % 100).collect(), (0..256).map(|n| n % 7).collect()];
    let rows = |n: u32| (0..n).map(|key| vec![key, key * 3]).collect();
    Book {
        tables: vec![
            Table { keys: 1, vals: 1, merge: 3, rows: rows(50) },
            Table { keys: 1, vals: 1, merge: 0, rows: rows(100) },
        ],
        counters: vec![5],
        rules: vec![Rule { v: 2, code }],
        steps: vec![Step::Batch { rule: 0, lanes: 256, columns }],
    }
}

/// Lookups in a large table, and changes to it.
fn many_rows() -> Book {
    let rows = (0..2000).map(|n| vec![n * 7919 % 10007, n]).collect();
    let code = vec![
        Instr::Lookup { table: 0, args: vec![var(0)], col: 1, dst: 1 },
        Instr::LookupWithDefault { table: 0, args: vec![var(1)], col: 1, dst: 2, default: constant(0) },
        Instr::LookupOrInsertDefault { table: 0, args: vec![var(1)], vals: vec![WriteVal::Counter(0)], col: 1, dst: 3 },
        Instr::Insert { table: 0, vals: vec![var(0), var(2)] },
        Instr::Remove { table: 0, args: vec![var(1)] },
    ];
    let keys = (0..256).map(|n| n * 7 * 7919 % 10007).collect();
    Book {
        tables: vec![Table { keys: 1, vals: 1, merge: 1, rows }],
        counters: vec![20000],
        rules: vec![Rule { v: 1, code }],
        steps: vec![Step::Batch { rule: 0, lanes: 256, columns: vec![keys] }],
    }
}

/// Records of 4 words that fill the 16384 words of a log.
fn full_log() -> Book {
    let code = vec![Instr::LookupOrInsertDefault {
        table: 0,
        args: vec![var(0)],
        vals: vec![WriteVal::Counter(0)],
        col: 1,
        dst: 1,
    }];
    let batch = |b: u32| Step::Batch { rule: 0, lanes: 256, columns: vec![(0..256).map(|n| 256 * b + n).collect()] };
    Book {
        tables: vec![Table { keys: 1, vals: 1, merge: 0, rows: vec![] }],
        counters: vec![0],
        rules: vec![Rule { v: 1, code }],
        steps: (0..16).map(batch).collect(),
    }
}
