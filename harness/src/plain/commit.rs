//! The commit, and the answer book.
use std::collections::{HashMap, HashSet};

use book::{Table, with_contents};

use super::machine::{Kind, Machine, Ran};

impl Machine<'_> {
    /// The rows of a table after the commit: those that the book had in its order, then new ones in
    /// the order of the log. (Any order would be right.)
    fn commit(&mut self, number: u32) -> Vec<Vec<u32>> {
        let table = &self.book.tables[number as usize];
        let keys = table.keys as usize;
        let mine = |kind: &Kind, of: &u32, removal: bool| *of == number && (*kind == Kind::Removal) == removal;
        let removals = self.log.iter().filter(|(kind, of, _)| mine(kind, of, true));
        let gone: HashSet<&[u32]> = removals.map(|(_, _, words)| &words[..]).collect();
        let mut rows: Vec<Vec<u32>> = table.rows.iter().filter(|row| !gone.contains(&row[..keys])).cloned().collect();
        self.coverage.removed += (table.rows.len() - rows.len()) as u64;
        let mut place: HashMap<Vec<u32>, usize> =
            rows.iter().enumerate().map(|(i, row)| (row[..keys].to_vec(), i)).collect();
        for (_, _, new) in self.log.iter().filter(|(kind, of, _)| mine(kind, of, false)) {
            let Some(&at) = place.get(&new[..keys]) else {
                place.insert(new[..keys].to_vec(), rows.len());
                rows.push(new.clone());
                continue;
            };
            self.coverage.merges[table.merge as usize] += 1;
            for (old, new) in rows[at].iter_mut().zip(new).skip(keys) {
                *old = match table.merge {
                    0 => *old,
                    1 => *new,
                    2 => (*old).min(*new),
                    _ => (*old).max(*new),
                };
            }
        }
        rows
    }

    /// All tables committed, and the answer; the bodies of the steps are there already.
    pub fn end(mut self, steps: Vec<(u32, Vec<u32>)>) -> Ran {
        let mut bodies = Vec::new();
        let mut row_words = 0;
        for number in 0..self.book.tables.len() {
            let rows = self.commit(number as u32);
            let Table { keys, vals, merge, .. } = self.book.tables[number];
            let mut body = vec![keys, vals, merge, rows.len() as u32];
            body.extend(rows.concat());
            row_words += body.len() - 4;
            bodies.push((1, body));
        }
        bodies.extend(self.counters.iter().map(|next| (2, vec![*next])));
        bodies.extend(steps);
        let mut log = vec![u32::from(self.changed)];
        for (kind, table, words) in &self.log {
            log.extend([*kind as u32, *table]);
            log.extend(words);
        }
        bodies.push((8, log));
        let removals = (0..self.book.tables.len())
            .map(|number| self.log.iter().filter(|(kind, of, _)| *kind == Kind::Removal && *of == number as u32).count())
            .collect();
        Ran { answer: with_contents(&bodies), log_words: self.log_words, row_words, removals, coverage: self.coverage }
    }
}
