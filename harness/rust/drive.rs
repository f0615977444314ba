//! Runs a book's steps by `ExecutionState::run_instrs` and `ExecutionState::predict_val`, and gives
//! what can be seen of it. The book must be one that passes the check.
use std::cell::{Cell, RefCell};
use std::panic::{AssertUnwindSafe, catch_unwind};
use std::time::{Duration, Instant};

use book::{Book, Done, Entry, FUNCTIONS, LIMIT, Record, Seen, Step, function};
use fixedbitset::LAST_COUNTED;

use crate::action::{Bindings, Instr};
use crate::free_join::execute::set_counter;
use crate::free_join::{Database, make_external_func};
use crate::numeric_id::{DenseIdMap, NumericId};
use crate::table::{Log, MergeFn, SortedWritesTable};
use crate::{
    ColumnId, CounterId, ExecutionState, ExternalFunctionId, MergeVal, QueryEntry, TableId, Value, Variable, WriteVal,
};

/// How a batch's lanes come into `Bindings`.
#[derive(Clone, Copy, Debug, PartialEq, Eq)]
pub enum Fill {
    /// A column at a time by `insert`.
    Columns,
    /// A lane at a time by `push`, but a batch without lanes by columns.
    Push,
    /// By `push` alone. Where there is no lane nothing is pushed, so there are no variables either,
    /// and the Rust runs such a batch once.
    PushAlone,
}

/// A run by the Rust. It knows no limits, so these are noted for each step.
#[derive(Default)]
pub struct Ran {
    pub seen: Seen,
    /// After each step: the words that all records so far would take in a log.
    pub log_words: Vec<usize>,
    /// After each step: whether some counter has passed its limit.
    pub spent: Vec<bool>,
    /// What stopped it, if it panicked; the steps before are in `seen`.
    pub panic: Option<String>,
    /// The time of all steps: filling the bindings, `run_instrs` or `predict_val`, taking the columns.
    pub in_steps: Duration,
}

fn entry(entry: &Entry) -> QueryEntry {
    match *entry {
        Entry::Var(n) => QueryEntry::Var(Variable::new(n)),
        Entry::Const(n) => QueryEntry::Const(Value::new(n)),
    }
}

fn entries(list: &[Entry]) -> Vec<QueryEntry> {
    list.iter().map(entry).collect()
}

fn write_val(val: &book::WriteVal) -> WriteVal {
    match val {
        book::WriteVal::Entry(e) => WriteVal::QueryEntry(entry(e)),
        book::WriteVal::Counter(n) => WriteVal::IncCounter(CounterId::new(*n)),
        book::WriteVal::Current(n) => WriteVal::CurrentVal(*n as usize),
    }
}

fn merge_val(val: &book::WriteVal) -> MergeVal {
    match val {
        book::WriteVal::Entry(Entry::Const(n)) => MergeVal::Constant(Value::new(*n)),
        book::WriteVal::Counter(n) => MergeVal::Counter(CounterId::new(*n)),
        _ => panic!("a prediction writes constants and counters"),
    }
}

fn instr(instr: &book::Instr) -> Instr {
    use book::Instr as From;
    match instr {
        From::LookupOrInsertDefault { table, args, vals, col, dst } => Instr::LookupOrInsertDefault {
            table: TableId::new(*table),
            args: entries(args),
            default: vals.iter().map(write_val).collect(),
            dst_col: ColumnId::new(*col),
            dst_var: Variable::new(*dst),
        },
        From::LookupWithDefault { table, args, col, dst, default } => Instr::LookupWithDefault {
            table: TableId::new(*table),
            args: entries(args),
            dst_col: ColumnId::new(*col),
            dst_var: Variable::new(*dst),
            default: entry(default),
        },
        From::Lookup { table, args, col, dst } => Instr::Lookup {
            table: TableId::new(*table),
            args: entries(args),
            dst_col: ColumnId::new(*col),
            dst_var: Variable::new(*dst),
        },
        From::LookupWithFallback { table, key, func, args, col, dst } => Instr::LookupWithFallback {
            table: TableId::new(*table),
            table_key: entries(key),
            func: ExternalFunctionId::new(*func),
            func_args: entries(args),
            dst_col: ColumnId::new(*col),
            dst_var: Variable::new(*dst),
        },
        From::Insert { table, vals } => Instr::Insert { table: TableId::new(*table), vals: entries(vals) },
        From::InsertIfEq { table, l, r, vals } => {
            Instr::InsertIfEq { table: TableId::new(*table), l: entry(l), r: entry(r), vals: entries(vals) }
        }
        From::Remove { table, args } => Instr::Remove { table: TableId::new(*table), args: entries(args) },
        From::External { func, args, dst } => {
            Instr::External { func: ExternalFunctionId::new(*func), args: entries(args), dst: Variable::new(*dst) }
        }
        From::ExternalWithFallback { f1, args1, f2, args2, dst } => Instr::ExternalWithFallback {
            f1: ExternalFunctionId::new(*f1),
            args1: entries(args1),
            f2: ExternalFunctionId::new(*f2),
            args2: entries(args2),
            dst: Variable::new(*dst),
        },
        From::AssertEq { l, r } => Instr::AssertEq(entry(l), entry(r)),
        From::AssertNe { l, r } => Instr::AssertNe(entry(l), entry(r)),
        From::AssertAnyNe { divider, ops } => Instr::AssertAnyNe { ops: entries(ops), divider: *divider as usize },
        From::ReadCounter { counter, dst } => {
            Instr::ReadCounter { counter: CounterId::new(*counter), dst: Variable::new(*dst) }
        }
    }
}

fn values(words: &[u32]) -> Vec<Value> {
    words.iter().map(|word| Value::new(*word)).collect()
}

fn words(values: &[Value]) -> Vec<u32> {
    values.iter().map(|value| value.rep()).collect()
}

/// By the rule's number: the old word, the new one, the smaller, the larger.
fn merge_rule(rule: u32, keys: usize) -> Box<MergeFn> {
    Box::new(move |_, old, new, out| {
        out.extend_from_slice(old);
        for (kept, new) in out.iter_mut().zip(new).skip(keys) {
            *kept = match rule {
                0 => *kept,
                1 => *new,
                2 => *new.min(kept),
                _ => *new.max(kept),
            };
        }
        true
    })
}

fn database(book: &Book, log: &Log) -> Database {
    let mut db = Database::new();
    for (id, table) in book.tables.iter().enumerate() {
        let (keys, width) = (table.keys as usize, (table.keys + table.vals) as usize);
        let merge = merge_rule(table.merge, keys);
        let mut stand_in = SortedWritesTable::with_log(id, keys, width, merge, log.clone());
        table.rows.iter().for_each(|row| stand_in.add(&values(row)));
        db.add_table(stand_in, [], []);
    }
    for next in &book.counters {
        let id = db.add_counter();
        set_counter(&db.counters, id, *next as usize);
    }
    for func in 0..FUNCTIONS {
        let call = move |_: &mut ExecutionState, args: &[Value]| {
            let mut two = [0; 2];
            two.iter_mut().zip(args).for_each(|(word, value)| *word = value.rep());
            function(func, &two[..args.len()]).map(Value::new)
        };
        db.add_external_function(Box::new(make_external_func(call)));
    }
    db
}

fn bindings(lanes: usize, columns: &[Vec<u32>], fill: Fill) -> Bindings {
    let mut bindings = Bindings::new(256);
    if fill == Fill::PushAlone || fill == Fill::Push && lanes > 0 {
        let vars: Vec<_> = (0..columns.len()).map(Variable::from_usize).collect();
        for lane in 0..lanes {
            let mut map = DenseIdMap::new();
            for (var, column) in vars.iter().zip(columns) {
                map.insert(*var, Value::new(column[lane]));
            }
            // SAFETY: every call has the same variables, and a value for each.
            unsafe { bindings.push(&map, &vars) };
        }
    } else {
        for (n, column) in columns.iter().enumerate() {
            bindings.insert(Variable::from_usize(n), &values(column));
        }
    }
    bindings
}

fn batch(state: &mut ExecutionState, code: &[Instr], lanes: u32, columns: &[Vec<u32>], fill: Fill) -> Done {
    let mut bindings = bindings(lanes as usize, columns, fill);
    LAST_COUNTED.with(|last| last.borrow_mut().take());
    let survivors = state.run_instrs(code, &mut bindings) as u32;
    let by_columns = if columns.is_empty() { 1 } else { lanes as usize };
    let counted = LAST_COUNTED.with(|last| last.borrow_mut().take());
    let live = match counted {
        Some(mask) => (0..mask.len()).map(|lane| mask.contains(lane)).collect(),
        // It returned early: no lane was live.
        None => vec![false; by_columns],
    };
    let columns = (0..32).filter_map(|n| Some((n, words(&bindings.take(Variable::new(n))?.vals)))).collect();
    Done::Batch { survivors, columns, live }
}

fn run_steps(book: &Book, fill: Fill, ran: &RefCell<Ran>) {
    let log = Log::default();
    let mut db = database(book, &log);
    let rules: Vec<Vec<Instr>> = book.rules.iter().map(|rule| rule.code.iter().map(instr).collect()).collect();
    let note_spent = |db: &Database| {
        let past = |n: usize| db.read_counter(CounterId::from_usize(n)) > LIMIT as usize;
        ran.borrow_mut().spent.push((0..book.counters.len()).any(past));
    };
    let all_steps = |state: &mut ExecutionState| {
        for step in &book.steps {
            let staged = log.lock().unwrap().records.len();
            IN_STEP.set(true);
            let done = catch_unwind(AssertUnwindSafe(|| match step {
                Step::Batch { rule, lanes, columns } => batch(state, &rules[*rule as usize], *lanes, columns, fill),
                Step::Prediction { table, key, vals } => {
                    let vals: Vec<MergeVal> = vals.iter().map(merge_val).collect();
                    let row = state.predict_val(TableId::new(*table), &values(key), vals.into_iter());
                    let made = log.lock().unwrap().records.len() > staged;
                    Done::Prediction { made, row: words(&row) }
                }
            }));
            IN_STEP.set(false);
            ran.borrow_mut().log_words.push(log.lock().unwrap().room());
            note_spent(&db);
            match done {
                Ok(done) => ran.borrow_mut().seen.steps.push(done),
                Err(_) => {
                    ran.borrow_mut().panic = Some(PANIC.take());
                    return;
                }
            }
        }
    };
    let started = Instant::now();
    let ((), changed) = db.with_execution_state_tracked(None, all_steps);
    let mut ran = ran.borrow_mut();
    ran.in_steps = started.elapsed();
    if ran.panic.is_some() {
        return;
    }
    ran.seen.changed = changed;
    let record =
        |(table, removal, row): (usize, bool, &[Value])| Record { removal, table: table as u32, words: words(row) };
    ran.seen.log = log.lock().unwrap().iter().map(record).collect();
    db.merge_all();
    for id in 0..book.tables.len() {
        let table = db.get_table(TableId::from_usize(id));
        let table = table.as_any().downcast_ref::<SortedWritesTable>().unwrap();
        ran.seen.tables.push(table.standing().map(words).collect());
    }
    for n in 0..book.counters.len() {
        ran.seen.counters.push(db.read_counter(CounterId::from_usize(n)) as u64);
    }
}

thread_local! {
    /// The text of a panic while a step runs; outside of steps a panic is printed as ever.
    static PANIC: RefCell<String> = const { RefCell::new(String::new()) };
    static IN_STEP: Cell<bool> = const { Cell::new(false) };
}

/// From now on a panic in a step is kept for `Ran::panic` and not printed.
pub fn keep_panics() {
    let printed = std::panic::take_hook();
    std::panic::set_hook(Box::new(move |info| {
        if IN_STEP.get() {
            PANIC.set(info.to_string());
        } else {
            printed(info);
        }
    }));
}

pub fn run(book: &Book, fill: Fill) -> Ran {
    let ran = RefCell::new(Ran::default());
    run_steps(book, fill, &ran);
    ran.into_inner()
}
