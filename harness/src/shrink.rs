//! Makes a case smaller while it still shows a disagreement.
use book::{Book, Entry, Step, WriteVal, bytes_of};

use crate::case::{Case, Room};
use crate::plain;

/// How many tries a case is worth.
const TRIES: usize = 20000;

/// The smallest case found of which `shows` still holds.
pub fn shrunk(case: &Case, mut shows: impl FnMut(&Case) -> bool) -> Case {
    let mut best = case.clone();
    let mut tries = 0;
    let mut smaller = |best: &mut Case, candidate: Case| {
        tries += 1;
        let better = tries <= TRIES && shows(&candidate);
        if better {
            *best = candidate;
        }
        better
    };
    for simpler in SIMPLER_LENDING {
        let mut candidate = best.clone();
        simpler(&mut candidate);
        smaller(&mut best, candidate);
    }
    loop {
        let mut any = false;
        // Each change is tried on what the one before it left; `at` counts the places to change.
        for change in [without_part as Change, without_some_rows, without_some_lanes, with_a_constant, with_less_words]
        {
            let mut at = 0;
            while let Some(book) = form(&best.bytes) {
                let Some(changed) = change(&book, at) else { break };
                let candidate = Case { bytes: bytes_of(&changed.words()), ..best.clone() };
                if changed != book && smaller(&mut best, candidate) {
                    any = true;
                } else {
                    at += 1;
                }
            }
        }
        if form(&best.bytes).is_none() {
            any |= shrink_words(&mut best, &mut smaller);
        }
        if !any {
            return best;
        }
    }
}

type Change = fn(&Book, usize) -> Option<Book>;

fn form(bytes: &[u8]) -> Option<Book> {
    plain::form(&plain::words_of(bytes).ok()?)
}

/// What `dispatch` lends, at a word's start and zero, as far as the disagreement stays.
const SIMPLER_LENDING: [fn(&mut Case); 6] = [
    |case| *case = Case::of_bytes(std::mem::take(&mut case.bytes)),
    |case| case.log = Room::Words(16384),
    |case| case.tables = Room::Words(16384),
    |case| case.answer = Room::Words(16384),
    |case| case.dirt = None,
    |case| case.shift = 0,
];

// ---- changes of a book; None where there are no more places to change

fn renumbered(number: &mut u32, gone: usize) {
    if *number as usize > gone {
        *number -= 1;
    }
}

/// Without its `at`th step, instruction, rule, table or counter. What nobody names can go; what is
/// named goes with an instruction or a step.
fn without_part(book: &Book, at: usize) -> Option<Book> {
    let mut book = book.clone();
    let mut at = at;
    let mut falls_in = |n: usize| {
        let inside = at < n;
        at = if inside { at } else { at - n };
        inside.then_some(at)
    };
    if let Some(i) = falls_in(book.steps.len()) {
        book.steps.remove(i);
    } else if let Some((rule, i)) = (0..book.rules.len()).find_map(|r| Some((r, falls_in(book.rules[r].code.len())?))) {
        book.rules[rule].code.remove(i);
    } else if let Some(i) = falls_in(book.rules.len()) {
        let named = |step: &Step| matches!(step, Step::Batch { rule, .. } if *rule as usize == i);
        if !book.steps.iter().any(named) {
            book.rules.remove(i);
            for step in &mut book.steps {
                if let Step::Batch { rule, .. } = step {
                    renumbered(rule, i);
                }
            }
        }
    } else if let Some(i) = falls_in(book.tables.len()) {
        let mut named = Vec::new();
        book.rules.iter_mut().flat_map(|rule| &mut rule.code).for_each(|instr| named.extend(instr.table_mut()));
        for step in &mut book.steps {
            if let Step::Prediction { table, .. } = step {
                named.push(table);
            }
        }
        if named.iter().all(|table| **table as usize != i) {
            named.into_iter().for_each(|table| renumbered(table, i));
            book.tables.remove(i);
        }
    } else if let Some(i) = falls_in(book.counters.len()) {
        let mut named = Vec::new();
        book.rules.iter_mut().flat_map(|rule| &mut rule.code).for_each(|instr| named.extend(instr.counters_mut()));
        for step in &mut book.steps {
            if let Step::Prediction { vals, .. } = step {
                named.extend(vals.iter_mut().filter_map(WriteVal::counter_mut));
            }
        }
        if named.iter().all(|counter| **counter as usize != i) {
            named.into_iter().for_each(|counter| renumbered(counter, i));
            book.counters.remove(i);
        }
    } else {
        return None;
    }
    Some(book)
}

/// The pieces to leave out of n things: halves, then quarters, down to single ones.
fn piece(n: usize, at: usize) -> Result<std::ops::Range<usize>, usize> {
    let mut at = at;
    let mut length = n.div_ceil(2);
    while n > 0 {
        let pieces = n.div_ceil(length);
        if at < pieces {
            return Ok(at * length..n.min((at + 1) * length));
        }
        at -= pieces;
        if length == 1 {
            break;
        }
        length = length.div_ceil(2);
    }
    Err(at)
}

fn without_some_rows(book: &Book, at: usize) -> Option<Book> {
    let mut book = book.clone();
    let mut at = at;
    for table in &mut book.tables {
        match piece(table.rows.len(), at) {
            Ok(some) => {
                table.rows.drain(some);
                return Some(book);
            }
            Err(left) => at = left,
        }
    }
    None
}

fn without_some_lanes(book: &Book, at: usize) -> Option<Book> {
    let mut book = book.clone();
    let mut at = at;
    for step in &mut book.steps {
        let Step::Batch { lanes, columns, .. } = step else { continue };
        if columns.is_empty() {
            continue;
        }
        match piece(*lanes as usize, at) {
            Ok(some) => {
                *lanes -= some.len() as u32;
                columns.iter_mut().for_each(|column| drop(column.drain(some.clone())));
                return Some(book);
            }
            Err(left) => at = left,
        }
    }
    None
}

/// With the constant 0 for its `at`th entry that is a variable.
fn with_a_constant(book: &Book, at: usize) -> Option<Book> {
    let mut book = book.clone();
    let entries = book.rules.iter_mut().flat_map(|rule| &mut rule.code).flat_map(|instr| instr.entries_mut());
    *entries.filter(|entry| matches!(entry, Entry::Var(_))).nth(at)? = Entry::Const(0);
    Some(book)
}

/// With the last starting variable of a rule gone; or with a row word, lane, key word, constant or
/// counter made 0, halved or one less.
fn with_less_words(book: &Book, at: usize) -> Option<Book> {
    let mut book = book.clone();
    let rules = book.rules.len();
    if at < rules {
        let rule = &mut book.rules[at];
        rule.v = rule.v.saturating_sub(1);
        let v = rule.v as usize;
        for step in &mut book.steps {
            if let Step::Batch { rule, columns, lanes } = step
                && *rule as usize == at
            {
                columns.truncate(v);
                *lanes = if v == 0 { 0 } else { *lanes };
            }
        }
        return Some(book);
    }
    let (which, how) = ((at - rules) / 3, (at - rules) % 3);
    let mut words: Vec<&mut u32> = book.tables.iter_mut().flat_map(|table| table.rows.iter_mut().flatten()).collect();
    words.extend(&mut book.counters);
    for instr in book.rules.iter_mut().flat_map(|rule| &mut rule.code) {
        for entry in instr.entries_mut() {
            if let Entry::Const(n) = entry {
                words.push(n);
            }
        }
    }
    for step in &mut book.steps {
        match step {
            Step::Batch { columns, .. } => words.extend(columns.iter_mut().flatten()),
            Step::Prediction { key, .. } => words.extend(key),
        }
    }
    let word = words.into_iter().nth(which)?;
    *word = [0, *word / 2, word.saturating_sub(1)][how];
    Some(book)
}

/// Where the bytes are no book at all: without pieces of them, and with zeros.
fn shrink_words(best: &mut Case, smaller: &mut impl FnMut(&mut Case, Case) -> bool) -> bool {
    let (mut any, mut at) = (false, 0);
    while let Ok(some) = piece(best.bytes.len(), at) {
        let mut bytes = best.bytes.clone();
        bytes.drain(some);
        let candidate = Case { bytes, ..best.clone() };
        if smaller(best, candidate) { any = true } else { at += 1 }
    }
    for at in 0..best.bytes.len() {
        let mut candidate = best.clone();
        if std::mem::take(&mut candidate.bytes[at]) != 0 {
            any |= smaller(best, candidate);
        }
    }
    any
}
