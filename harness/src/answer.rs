//! An answer book's words read back, and composed from what was seen of a run.
use book::{Book, Done, Record, Seen, with_contents};

/// What an answer to this book says, or what is wrong with its form.
pub fn seen(answer: &[u32], book: &Book) -> Result<Seen, String> {
    let mut seen = Seen::default();
    let kinds = kinds(book);
    let word = |at: usize| answer.get(at).copied().ok_or(format!("the answer has no word {at}"));
    if word(0)? as usize != kinds.len() {
        return Err(format!("the answer has {} entries and not {}", word(0)?, kinds.len()));
    }
    let mut start = 1 + 3 * kinds.len();
    for (i, kind) in kinds.iter().enumerate() {
        let (its_kind, first, length) = (word(1 + 3 * i)?, word(2 + 3 * i)? as usize, word(3 + 3 * i)? as usize);
        if its_kind != *kind || first != start || length > answer.len().saturating_sub(start) {
            return Err(format!("entry {i} of the answer is {its_kind} {first} {length}"));
        }
        let body = &answer[start..start + length];
        body_seen(*kind, body, book, &mut seen).ok_or(format!("body {i} of the answer, kind {kind}: {body:?}"))?;
        start += length;
    }
    if start != answer.len() {
        return Err(format!("the answer has {} words and its bodies end at {start}", answer.len()));
    }
    Ok(seen)
}

fn kinds(book: &Book) -> Vec<u32> {
    let steps = book.steps.iter().map(|step| if matches!(step, book::Step::Batch { .. }) { 6 } else { 7 });
    let mut kinds = vec![1; book.tables.len()];
    kinds.extend(vec![2; book.counters.len()]);
    kinds.extend(steps);
    kinds.push(8);
    kinds
}

fn flag(word: u32) -> Option<bool> {
    [false, true].get(word as usize).copied()
}

fn body_seen(kind: u32, body: &[u32], book: &Book, seen: &mut Seen) -> Option<()> {
    match kind {
        1 => {
            let table = &book.tables[seen.tables.len()];
            let (head, rows) = body.split_at_checked(4)?;
            let width = (table.keys + table.vals) as usize;
            let rows: Vec<Vec<u32>> = rows.chunks(width).map(<[u32]>::to_vec).collect();
            let whole = (body.len() - 4) % width == 0;
            if !whole || head != [table.keys, table.vals, table.merge, rows.len() as u32] {
                return None;
            }
            seen.tables.push(rows);
        }
        2 => {
            let [next] = body else { return None };
            seen.counters.push(u64::from(*next));
        }
        6 => {
            let (&[survivors, lanes, bound], mut rest) = body.split_first_chunk::<3>()?;
            let (lanes, mut columns) = (lanes as usize, Vec::new());
            for _ in 0..bound {
                let (n, after) = rest.split_first()?;
                let (column, after) = after.split_at_checked(lanes)?;
                columns.push((*n, column.to_vec()));
                rest = after;
            }
            let live = rest.iter().map(|word| flag(*word)).collect::<Option<Vec<bool>>>()?;
            if live.len() != lanes {
                return None;
            }
            seen.steps.push(Done::Batch { survivors, columns, live });
        }
        7 => {
            let (made, row) = body.split_first()?;
            seen.steps.push(Done::Prediction { made: flag(*made)?, row: row.to_vec() });
        }
        _ => {
            let (changed, mut rest) = body.split_first()?;
            seen.changed = flag(*changed)?;
            while let Some((&[kind, number], after)) = rest.split_first_chunk::<2>() {
                let table = book.tables.get(number as usize)?;
                let length = match kind {
                    0 | 2 => table.keys + table.vals,
                    1 => table.keys,
                    _ => return None,
                };
                let (words, after) = after.split_at_checked(length as usize)?;
                seen.log.push(Record { removal: kind == 1, table: number, words: words.to_vec() });
                rest = after;
            }
            if !rest.is_empty() {
                return None;
            }
        }
    }
    Some(())
}

/// The answer book that says what was seen. A predicted row is written as an insert, kind 0: the
/// Rust does not tell them apart.
pub fn composed(seen: &Seen, book: &Book) -> Vec<u32> {
    let mut bodies = Vec::new();
    for (table, rows) in book.tables.iter().zip(&seen.tables) {
        let mut body = vec![table.keys, table.vals, table.merge, rows.len() as u32];
        rows.iter().for_each(|row| body.extend(row));
        bodies.push((1, body));
    }
    bodies.extend(seen.counters.iter().map(|next| (2, vec![*next as u32])));
    for done in &seen.steps {
        match done {
            Done::Batch { survivors, columns, live } => {
                let mut body = vec![*survivors, live.len() as u32, columns.len() as u32];
                for (n, column) in columns {
                    body.push(*n);
                    body.extend(column);
                }
                body.extend(live.iter().map(|live| u32::from(*live)));
                bodies.push((6, body));
            }
            Done::Prediction { made, row } => {
                let mut body = vec![u32::from(*made)];
                body.extend(row);
                bodies.push((7, body));
            }
        }
    }
    let mut log = vec![u32::from(seen.changed)];
    for record in &seen.log {
        log.extend([u32::from(record.removal), record.table]);
        log.extend(&record.words);
    }
    bodies.push((8, log));
    with_contents(&bodies)
}

/// The words of an answer with the rows of each table in ascending order, to compare answers whole.
pub fn arranged(answer: &[u32], book: &Book) -> Vec<u32> {
    let mut words = answer.to_vec();
    for (i, table) in book.tables.iter().enumerate() {
        let Some(&[1, first, length]) = answer.get(1 + 3 * i..4 + 3 * i) else { break };
        let (first, width) = (first as usize, (table.keys + table.vals) as usize);
        let Some(rows) = words.get_mut(first + 4..first.saturating_add(length as usize)) else { break };
        let mut sorted: Vec<Vec<u32>> = rows.chunks(width).map(<[u32]>::to_vec).collect();
        sorted.sort();
        rows.copy_from_slice(&sorted.concat());
    }
    words
}

/// The first thing that differs, each side under its name. A table's rows may come in any order.
pub fn difference(mine: &Seen, theirs: &Seen, names: [&str; 2]) -> Option<String> {
    let tell = |what: String, a: String, b: String| Some(format!("{what}: {} {a}, {} {b}", names[0], names[1]));
    for (i, (a, b)) in mine.steps.iter().zip(&theirs.steps).enumerate() {
        if a != b {
            return tell(format!("step {i}"), format!("{a:?}"), format!("{b:?}"));
        }
    }
    if mine.steps.len() != theirs.steps.len() {
        return tell("steps".into(), mine.steps.len().to_string(), theirs.steps.len().to_string());
    }
    for i in 0..mine.log.len().max(theirs.log.len()) {
        let (a, b) = (mine.log.get(i), theirs.log.get(i));
        if a != b {
            return tell(format!("staged record {i}"), format!("{a:?}"), format!("{b:?}"));
        }
    }
    if mine.changed != theirs.changed {
        return tell("changed".into(), mine.changed.to_string(), theirs.changed.to_string());
    }
    if mine.counters != theirs.counters {
        return tell("counters".into(), format!("{:?}", mine.counters), format!("{:?}", theirs.counters));
    }
    for (i, (a, b)) in mine.tables.iter().zip(&theirs.tables).enumerate() {
        let (mut a, mut b) = (a.clone(), b.clone());
        a.sort();
        b.sort();
        if a != b {
            return tell(format!("table {i}"), format!("{a:?}"), format!("{b:?}"));
        }
    }
    None
}
