//! What a run of many cases came to, and whether everything that should be tried was.
use book::{Book, Instr, LIMIT, Step, Table};

use crate::case::{Case, Room};
use crate::judge::Verdict;
use crate::plain::{Coverage, Ran, Refusal};

const INSTRS: [&str; 13] = [
    "LookupOrInsertDefault",
    "LookupWithDefault",
    "Lookup",
    "LookupWithFallback",
    "Insert",
    "InsertIfEq",
    "Remove",
    "External",
    "ExternalWithFallback",
    "AssertEq",
    "AssertNe",
    "AssertAnyNe",
    "ReadCounter",
];
const MERGES: [&str; 4] = ["keep", "replace", "least", "greatest"];
const SHAPES: [&str; 11] = [
    "0 lanes",
    "1 lane",
    "256 lanes",
    "v = 0",
    "a prediction before a batch",
    "a prediction after a batch",
    "a counter near its limit",
    "lookups in 32 rows or more",
    "lookups in a table after the rows of another",
    "removals enough for an index of their keys",
    "a log of 512 words",
];
const ROOMS: [&str; 3] = ["log", "tables", "answer"];

#[derive(Default)]
pub struct Tally {
    books: u64,
    accepted: u64,
    dirty: u64,
    pub disagreements: u64,
    refused: [u64; 17],
    coverage: Coverage,
    shapes: [u64; 11],
    exactly_full: [u64; 3],
    one_short: [u64; 3],
}

fn add<const N: usize>(to: &mut [u64; N], from: &[u64; N]) {
    to.iter_mut().zip(from).for_each(|(to, from)| *to += from);
}

/// Which of the shapes a book has, and its run. The last four are those for which the engine makes an index: of all
/// rows, of the keys that are removed from a table, of the rows that a log goes into.
fn shapes(book: &Book, ran: &Ran) -> [bool; 11] {
    let prediction = |step: &Step| matches!(step, Step::Prediction { .. });
    let bare = |step: &Step| matches!(step, Step::Batch { columns, .. } if columns.is_empty());
    let lanes = |n: u32| {
        let so_many = |step: &Step| matches!(step, Step::Batch { lanes, .. } if *lanes == n) && !bare(step);
        book.steps.iter().any(so_many)
    };
    let pair = |first: bool| book.steps.windows(2).any(|two| [&two[0], &two[1]].map(prediction) == [first, !first]);
    let near_limit = book.counters.iter().any(|next| *next >= LIMIT - 40);
    let rows = |tables: &[Table]| tables.iter().map(|table| table.rows.len()).sum::<usize>();
    let looked_up = |step: &Step| -> Vec<u32> {
        match step {
            Step::Batch { rule, .. } => book.rules[*rule as usize].code.iter().filter_map(looks_up).collect(),
            Step::Prediction { table, .. } => vec![*table],
        }
    };
    let tables: Vec<u32> = book.steps.iter().flat_map(looked_up).collect();
    let indexed = rows(&book.tables) >= 32 && !tables.is_empty();
    let later = indexed && tables.iter().any(|table| rows(&book.tables[..*table as usize]) > 0);
    let many = |(table, removals): (&Table, &usize)| *removals >= 16 && 4096 / removals <= table.rows.len();
    [
        lanes(0),
        lanes(1),
        lanes(256),
        book.steps.iter().any(bare),
        pair(true),
        pair(false),
        near_limit,
        indexed,
        later,
        book.tables.iter().zip(&ran.removals).any(many),
        ran.log_words >= 512,
    ]
}

/// The table in which an instruction looks a key up.
fn looks_up(instr: &Instr) -> Option<u32> {
    match instr {
        Instr::LookupOrInsertDefault { table, .. }
        | Instr::LookupWithDefault { table, .. }
        | Instr::Lookup { table, .. }
        | Instr::LookupWithFallback { table, .. } => Some(*table),
        _ => None,
    }
}

impl Tally {
    pub fn note(&mut self, case: &Case, verdict: &Verdict) {
        self.books += 1;
        self.dirty += u64::from(case.dirt.is_some());
        self.disagreements += u64::from(verdict.disagreement.is_some());
        let rooms = [case.log, case.tables, case.answer];
        match verdict.said {
            Ok(_) => self.accepted += 1,
            Err(Refusal { number, .. }) => {
                self.refused[(number as usize).min(16)] += 1;
                let short = |i: usize| u64::from(rooms[i] == Room::Need(-1) && number == [12, 15, 16][i]);
                add(&mut self.one_short, &[0, 1, 2].map(short));
            }
        }
        if let (Some(ran), Some(book)) = (&verdict.ran, &verdict.book) {
            self.note_coverage(&ran.coverage);
            add(&mut self.shapes, &shapes(book, ran).map(u64::from));
            let lent = [verdict.lent.log, verdict.lent.tables, verdict.lent.answer];
            let needed = [ran.log_words, ran.row_words, ran.answer.len()];
            add(&mut self.exactly_full, &[0, 1, 2].map(|i| u64::from(needed[i] > 0 && needed[i] == lent[i])));
        }
    }

    fn note_coverage(&mut self, from: &Coverage) {
        let to = &mut self.coverage;
        add(&mut to.lanes, &from.lanes);
        add(&mut to.hits, &from.hits);
        add(&mut to.misses, &from.misses);
        add(&mut to.answers, &from.answers);
        add(&mut to.nones, &from.nones);
        add(&mut to.merges, &from.merges);
        to.removed += from.removed;
        to.predicted_again += from.predicted_again;
        to.batches_ended_early += from.batches_ended_early;
    }

    /// Every count, in one order.
    fn counts(&mut self) -> Vec<&mut u64> {
        let c = &mut self.coverage;
        let single = [
            &mut self.books,
            &mut self.accepted,
            &mut self.dirty,
            &mut self.disagreements,
            &mut c.removed,
            &mut c.predicted_again,
            &mut c.batches_ended_early,
        ];
        let run = c.lanes.iter_mut().chain(&mut c.hits).chain(&mut c.misses).chain(&mut c.answers).chain(&mut c.nones);
        let rest = self.refused.iter_mut().chain(&mut self.shapes).chain(&mut self.exactly_full);
        single.into_iter().chain(run).chain(&mut c.merges).chain(rest).chain(&mut self.one_short).collect()
    }

    pub fn numbers(mut self) -> Vec<u64> {
        self.counts().into_iter().map(|n| *n).collect()
    }

    /// What another tally has in numbers.
    pub fn add(&mut self, numbers: &[u64]) {
        self.counts().into_iter().zip(numbers).for_each(|(to, from)| *to += from);
    }

    /// Everything that was counted, each with its name.
    fn lines(&self) -> Vec<(&'static str, Vec<(String, u64)>)> {
        let named = |name: &str, n: u64| (name.to_string(), n);
        let each = |names: &[&str], counts: &[u64]| names.iter().zip(counts).map(|(name, n)| named(name, *n)).collect();
        let c = &self.coverage;
        let lookups = (1..=4).flat_map(|opcode| {
            let name = INSTRS[opcode - 1];
            [(format!("{name} found"), c.hits[opcode]), (format!("{name} missed"), c.misses[opcode])]
        });
        let functions = (0..8).flat_map(|f| {
            // Least, greatest and distance always answer.
            let none = (!matches!(f, 4 | 5 | 7)).then(|| (format!("{f} none"), c.nones[f]));
            [(format!("{f} answered"), c.answers[f])].into_iter().chain(none)
        });
        let rows = ["rows removed", "predicted rows read again", "batches ended early"];
        vec![
            ("refused with", (1..17).map(|n| (n.to_string(), self.refused[n])).collect()),
            ("lanes through", each(&INSTRS, &c.lanes[1..])),
            ("lookups", lookups.collect()),
            ("functions", functions.collect()),
            ("merges", each(&MERGES, &c.merges)),
            ("rows and batches", each(&rows, &[c.removed, c.predicted_again, c.batches_ended_early])),
            ("accepted books with", each(&SHAPES, &self.shapes)),
            ("exactly full", each(&ROOMS, &self.exactly_full)),
            ("one word short", each(&ROOMS, &self.one_short)),
        ]
    }

    pub fn print(&self) {
        println!("books {}, accepted {}, dirty memory lent {}", self.books, self.accepted, self.dirty);
        let mut unseen = Vec::new();
        for (title, counts) in self.lines() {
            let told: Vec<String> = counts.iter().map(|(name, n)| format!("{name}: {n}")).collect();
            println!("{title}: {}", told.join(", "));
            unseen.extend(counts.into_iter().filter(|(_, n)| *n == 0).map(|(name, _)| format!("{title} {name}")));
        }
        println!("never seen: {}", if unseen.is_empty() { "nothing".into() } else { unseen.join("; ") });
        println!("disagreements {}", self.disagreements);
    }
}
