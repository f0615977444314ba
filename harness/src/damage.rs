//! Copies of good books with faults: in what the book says, in its words, or in its bytes.
use book::{Book, Entry, Instr, STALE, Step, WriteVal};

use crate::rng::Rng;

// ---- faults in what a book says, its form left whole

/// One fault of a sort that a later refusal is about. Which refusal comes is for others to say.
pub fn fault(rng: &mut Rng, book: &mut Book) {
    for _ in 0..20 {
        let done = match rng.below(16) {
            0..=9 => fault_in_rule(rng, book),
            10..=11 => fault_in_step(rng, book),
            12 => fault_in_table(rng, book),
            13 => any_mut(rng, &mut book.counters).map(|next| *next = STALE),
            14 => any_mut(rng, &mut book.rules).map(|rule| rule.v = rng.pick(&[rule.v.wrapping_add(1), 33, 0])),
            _ => stale_somewhere(rng, book),
        };
        if done.is_some() {
            return;
        }
    }
}

fn any_mut<'a, T>(rng: &mut Rng, from: &'a mut [T]) -> Option<&'a mut T> {
    if from.is_empty() {
        return None;
    }
    let at = rng.below(from.len());
    Some(&mut from[at])
}

fn any_of<'a, T>(rng: &mut Rng, mut from: Vec<&'a mut T>) -> Option<&'a mut T> {
    if from.is_empty() {
        return None;
    }
    let at = rng.below(from.len());
    Some(from.swap_remove(at))
}

fn too_large(rng: &mut Rng) -> u32 {
    let near = rng.below(40) as u32;
    rng.pick(&[near, near, 16, 17, 31, 32, 33, 256, 257, 1 << 31, STALE])
}

fn fault_in_rule(rng: &mut Rng, book: &mut Book) -> Option<()> {
    let rule = any_mut(rng, &mut book.rules)?;
    if rng.percent(3) {
        let instr = rule.code.first()?.clone();
        rule.code.resize(65, instr);
        return Some(());
    }
    let instr = any_mut(rng, &mut rule.code)?;
    match rng.below(14) {
        0 => *any_of(rng, instr.entries_mut())? = Entry::Var(rng.below(32) as u32),
        1 => *any_of(rng, instr.entries_mut())? = Entry::Var(too_large(rng)),
        2 => *instr.table_mut()? = too_large(rng),
        3 => *any_of(rng, instr.functions_mut())? = too_large(rng),
        4 => *any_of(rng, instr.counters_mut())? = too_large(rng),
        5 => *instr.dst_mut()? = too_large(rng),
        6..=7 => *instr.col_mut()? = too_large(rng),
        8..=10 => dst_held_out(rng, instr)?,
        _ => fault_in_list(rng, instr)?,
    }
    Some(())
}

/// Lets dst be one of the variables that it may not be.
fn dst_held_out(rng: &mut Rng, instr: &mut Instr) -> Option<()> {
    let among = match instr {
        Instr::LookupOrInsertDefault { .. } => instr.entries_mut(),
        Instr::LookupWithFallback { args, .. } => args.iter_mut().collect(),
        Instr::ExternalWithFallback { args2, .. } => args2.iter_mut().collect(),
        _ => return None,
    };
    let Entry::Var(n) = *any_of(rng, among)? else { return None };
    *instr.dst_mut()? = n;
    Some(())
}

fn lengthen_or_shorten<T: Clone>(rng: &mut Rng, list: &mut Vec<T>, item: T) -> Option<()> {
    match rng.below(6) {
        0..=2 => list.pop().map(|_| ()),
        3..=4 => Some(list.push(item)),
        _ => Some(list.resize(17, item)),
    }
}

fn fault_in_list(rng: &mut Rng, instr: &mut Instr) -> Option<()> {
    match instr {
        Instr::AssertAnyNe { divider, ops } if rng.percent(50) => {
            *divider = rng.pick(&[ops.len() as u32 + 1, 17, STALE]);
            Some(())
        }
        Instr::LookupOrInsertDefault { vals, .. } if rng.percent(60) => {
            if rng.percent(50) {
                return lengthen_or_shorten(rng, vals, WriteVal::Entry(Entry::Const(1)));
            }
            *any_mut(rng, vals)? = WriteVal::Current(too_large(rng));
            Some(())
        }
        _ => {
            let list = any_of(rng, instr.lists_mut())?;
            lengthen_or_shorten(rng, list, Entry::Const(1))
        }
    }
}

fn fault_in_step(rng: &mut Rng, book: &mut Book) -> Option<()> {
    match any_mut(rng, &mut book.steps)? {
        Step::Batch { rule, lanes, columns } => match rng.below(5) {
            0 => *rule = too_large(rng),
            1 => lengthen_or_shorten(rng, columns, vec![1; *lanes as usize])?,
            2 => {
                *lanes = 257;
                columns.iter_mut().for_each(|column| column.resize(257, 1));
            }
            3 => *lanes = rng.below(5) as u32,
            _ => columns.resize(33, vec![1; *lanes as usize]),
        },
        Step::Prediction { table, key, vals } => match rng.below(4) {
            0 => *table = too_large(rng),
            1 => lengthen_or_shorten(rng, key, 1)?,
            2 => lengthen_or_shorten(rng, vals, WriteVal::Entry(Entry::Const(1)))?,
            _ => *any_mut(rng, vals)? = WriteVal::Counter(too_large(rng)),
        },
    }
    Some(())
}

fn fault_in_table(rng: &mut Rng, book: &mut Book) -> Option<()> {
    let table = any_mut(rng, &mut book.tables)?;
    match rng.below(6) {
        0 => table.merge = rng.pick(&[4, 5, STALE]),
        1 => table.keys = rng.pick(&[table.keys.wrapping_add(1), 9, table.keys.wrapping_sub(1)]),
        2 => table.vals = rng.pick(&[table.vals.wrapping_add(1), 9, table.vals.wrapping_sub(1)]),
        _ => {
            // A key that stands already, with other values or the same.
            let mut row = any_mut(rng, &mut table.rows)?.clone();
            if rng.percent(50) {
                row.iter_mut().skip(table.keys as usize).for_each(|word| *word ^= 1);
            }
            let at = rng.below(table.rows.len() + 1);
            table.rows.insert(at, row);
        }
    }
    Some(())
}

fn stale_somewhere(rng: &mut Rng, book: &mut Book) -> Option<()> {
    match rng.below(4) {
        0 => {
            let table = any_mut(rng, &mut book.tables)?;
            let row = any_mut(rng, &mut table.rows)?;
            *any_mut(rng, row)? = STALE;
        }
        1 => {
            let rule = any_mut(rng, &mut book.rules)?;
            let instr = any_mut(rng, &mut rule.code)?;
            *any_of(rng, instr.entries_mut())? = Entry::Const(STALE);
        }
        2 => match any_mut(rng, &mut book.steps)? {
            Step::Batch { columns, .. } => {
                let column = any_mut(rng, columns)?;
                *any_mut(rng, column)? = STALE;
            }
            Step::Prediction { key, .. } => *any_mut(rng, key)? = STALE,
        },
        _ => match any_mut(rng, &mut book.steps)? {
            Step::Prediction { vals, .. } => *any_mut(rng, vals)? = WriteVal::Entry(Entry::Const(STALE)),
            _ => return None,
        },
    }
    Some(())
}

// ---- faults in the words and bytes

pub fn damage_words(rng: &mut Rng, words: &mut Vec<u32>) {
    if words.is_empty() {
        return;
    }
    let at = rng.below(words.len());
    // Contents are few words among many, and much hangs on them.
    let entries = words.len().min(1 + 3 * words[0].min(128) as usize);
    let at = if rng.percent(20) { rng.below(entries) } else { at };
    let other = rng.below(words.len());
    match rng.below(11) {
        0..=2 => {
            let small = rng.below(34) as u32;
            words[at] = rng.pick(&[0, 1, 2, 3, small, small, STALE, STALE - 1, 1 << 31, 256, 257]);
        }
        3 => words[at] ^= 1 << rng.below(32),
        4 => words[at] = words[at].wrapping_add(1),
        5 => words[at] = words[at].wrapping_sub(1),
        6 => words.swap(at, other),
        7 => {
            words.remove(at);
            if rng.percent(70) {
                move_bodies(words, at, -1);
            }
        }
        8 => {
            words.insert(at, rng.below(18) as u32);
            if rng.percent(70) {
                move_bodies(words, at, 1);
            }
        }
        9 => words.truncate(at),
        _ => words[at] = words[other],
    }
}

/// Mends contents after a word of a body was added or taken away.
fn move_bodies(words: &mut [u32], at: usize, by: i32) {
    let entries = words.first().map_or(0, |n| (*n).min(128) as usize);
    for i in 0..entries {
        let Some([_, first, length]) = words.get_mut(1 + 3 * i..4 + 3 * i) else { return };
        let (start, end) = (u64::from(*first), u64::from(*first) + u64::from(*length));
        if start > at as u64 {
            *first = first.wrapping_add_signed(by);
        } else if (at as u64) < end {
            *length = length.wrapping_add_signed(by);
        }
    }
}

pub fn damage_bytes(rng: &mut Rng, bytes: &mut Vec<u8>) {
    match rng.below(3) {
        0 => bytes.truncate(rng.below(bytes.len() + 1)),
        1 => bytes.resize(bytes.len() + 1 + rng.below(4), 0),
        _ => bytes.resize(65537 + rng.below(4), 0),
    }
}

/// Bytes that were never a book.
pub fn junk(rng: &mut Rng) -> Vec<u8> {
    let length = rng.pick(&[0, 1, 3, 4, 5, 8, 12, 16, 28, 40, 120]);
    let small = rng.percent(70);
    let word = |rng: &mut Rng| if small { rng.below(8) as u32 } else { rng.next() as u32 };
    let mut bytes: Vec<u8> = (0..length / 4 + 1).flat_map(|_| word(rng).to_le_bytes()).collect();
    bytes.truncate(length);
    if rng.percent(2) {
        bytes.resize(rng.pick(&[65532, 65536, 65540]), rng.next() as u8);
    }
    bytes
}
