//! The check: each rule by the four conditions (8, 7, 10, 9), then the steps (11).
use book::{Entry, Instr, Step, Table, WriteVal, arity};

use super::{Checked, Refusal, refuse};

/// What an instruction reads and binds, as the four conditions see it.
struct Judged<'a> {
    lists_fit: bool,
    reads: Vec<&'a Entry>,
    /// Entries among which dst may not stand.
    held_out: Vec<&'a Entry>,
    dst: Option<u32>,
    column_fits: bool,
}

fn entries_of(vals: &[WriteVal]) -> impl Iterator<Item = &Entry> {
    vals.iter().filter_map(|val| if let WriteVal::Entry(entry) = val { Some(entry) } else { None })
}

fn judged<'a>(instr: &'a Instr, tables: &[Table]) -> Judged<'a> {
    let keys = |table: u32| tables[table as usize].keys as usize;
    let width = |table: u32| keys(table) + tables[table as usize].vals as usize;
    let below_width = |table: u32, col: u32| (col as usize) < width(table);
    let mut judged = Judged { lists_fit: true, reads: Vec::new(), held_out: Vec::new(), dst: None, column_fits: true };
    match instr {
        Instr::LookupOrInsertDefault { table, args, vals, col, dst } => {
            judged.lists_fit = args.len() == keys(*table) && args.len() + vals.len() == width(*table);
            judged.reads.extend(args.iter().chain(entries_of(vals)));
            judged.held_out.extend(args.iter().chain(entries_of(vals)));
            judged.dst = Some(*dst);
            // A current value names a key word or an earlier write value.
            let current_fits = vals.iter().enumerate().all(|(j, val)| match val {
                WriteVal::Current(n) => (*n as usize) < keys(*table) + j,
                _ => true,
            });
            judged.column_fits = below_width(*table, *col) && current_fits;
        }
        Instr::LookupWithDefault { table, args, col, dst, default } => {
            judged.lists_fit = args.len() == keys(*table);
            judged.reads.extend(args.iter().chain([default]));
            judged.dst = Some(*dst);
            judged.column_fits = below_width(*table, *col);
        }
        Instr::Lookup { table, args, col, dst } => {
            judged.lists_fit = args.len() == keys(*table);
            judged.reads.extend(args);
            judged.dst = Some(*dst);
            judged.column_fits = below_width(*table, *col);
        }
        Instr::LookupWithFallback { table, key, func, args, col, dst } => {
            judged.lists_fit = key.len() == keys(*table) && args.len() == arity(*func);
            judged.reads.extend(key.iter().chain(args));
            judged.held_out.extend(args);
            judged.dst = Some(*dst);
            judged.column_fits = below_width(*table, *col);
        }
        Instr::Insert { table, vals } => {
            judged.lists_fit = vals.len() == width(*table);
            judged.reads.extend(vals);
        }
        Instr::InsertIfEq { table, l, r, vals } => {
            judged.lists_fit = vals.len() == width(*table);
            judged.reads.extend([l, r].into_iter().chain(vals));
        }
        Instr::Remove { table, args } => {
            judged.lists_fit = args.len() == keys(*table);
            judged.reads.extend(args);
        }
        Instr::External { func, args, dst } => {
            judged.lists_fit = args.len() == arity(*func);
            judged.reads.extend(args);
            judged.dst = Some(*dst);
        }
        Instr::ExternalWithFallback { f1, args1, f2, args2, dst } => {
            judged.lists_fit = args1.len() == arity(*f1) && args2.len() == arity(*f2);
            judged.reads.extend(args1.iter().chain(args2));
            judged.held_out.extend(args2);
            judged.dst = Some(*dst);
        }
        Instr::AssertEq { l, r } | Instr::AssertNe { l, r } => judged.reads.extend([l, r]),
        Instr::AssertAnyNe { divider, ops } => {
            judged.lists_fit = *divider as usize <= ops.len();
            judged.reads.extend(ops);
        }
        Instr::ReadCounter { dst, .. } => judged.dst = Some(*dst),
    }
    judged
}

pub fn check(checked: &Checked) -> Result<(), Refusal> {
    for (rule, places) in checked.book.rules.iter().zip(&checked.instr_places) {
        let mut bound = [false; 32];
        bound[..rule.v as usize].fill(true);
        for (instr, &place) in rule.code.iter().zip(places) {
            let judged = judged(instr, &checked.book.tables);
            if !judged.lists_fit {
                return refuse(8, place);
            }
            let unbound = |entry: &&Entry| matches!(entry, Entry::Var(n) if !bound[*n as usize]);
            if judged.reads.iter().any(unbound) {
                return refuse(7, place);
            }
            let is_dst = |entry: &&Entry| judged.dst.is_some_and(|dst| **entry == Entry::Var(dst));
            if judged.held_out.iter().any(is_dst) {
                return refuse(10, place);
            }
            if !judged.column_fits {
                return refuse(9, place);
            }
            if let Some(dst) = judged.dst {
                bound[dst as usize] = true;
            }
        }
    }
    Ok(())
}

/// Refusal 11, step by step.
pub fn fit(checked: &Checked) -> Result<(), Refusal> {
    for (i, step) in checked.book.steps.iter().enumerate() {
        let fits = match step {
            Step::Batch { rule, lanes, columns } => {
                let v = checked.book.rules[*rule as usize].v as usize;
                columns.len() == v && (v > 0 || *lanes == 0)
            }
            Step::Prediction { table, key, vals } => {
                let table = &checked.book.tables[*table as usize];
                key.len() == table.keys as usize && vals.len() == table.vals as usize
            }
        };
        if !fits {
            return refuse(11, checked.first_step + i);
        }
    }
    Ok(())
}
