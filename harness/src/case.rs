//! One run to compare: a book's bytes, what is lent, and how.
use core_relations::drive::Fill;

use crate::plain::{self, Checked, Lent, Refusal};
use crate::rng::Rng;
use crate::{damage, generate};

/// How much is lent as log, tables or answer.
#[derive(Clone, Copy, Debug, PartialEq, Eq)]
pub enum Room {
    Words(usize),
    /// What the run needs and so many words more or less; some where it does not run.
    Need(isize),
}

#[derive(Clone, Debug)]
pub struct Case {
    pub bytes: Vec<u8>,
    pub bindings: usize,
    pub index: usize,
    pub log: Room,
    pub tables: Room,
    pub answer: Room,
    /// What the lent buffers are full of, if they are not zero.
    pub dirt: Option<u32>,
    /// How many bytes the book starts past a word's start in memory.
    pub shift: usize,
    pub fill: Fill,
}

impl Case {
    /// A book alone, with what `dispatch` lends.
    pub fn of_bytes(bytes: Vec<u8>) -> Case {
        let (log, tables, answer) = (Room::Words(16384), Room::Words(16384), Room::Words(16384));
        Case { bytes, bindings: 8192, index: 8192, log, tables, answer, dirt: None, shift: 0, fill: Fill::Columns }
    }

    /// The lengths lent, for a book that reads so.
    pub fn lent(&self, checked: &Result<Checked, Refusal>) -> Lent {
        let by_need = [self.log, self.tables, self.answer].iter().any(|room| matches!(room, Room::Need(_)));
        let ran = match checked {
            Ok(checked) if by_need => plain::run(checked, usize::MAX).ok(),
            _ => None,
        };
        let words = |room: Room, need: Option<usize>, most: usize| match (room, need) {
            (Room::Words(n), _) => n,
            (Room::Need(more), Some(need)) => need.saturating_add_signed(more).min(most),
            (Room::Need(_), None) => 500,
        };
        let ran = ran.as_ref();
        Lent {
            bindings: self.bindings,
            index: self.index,
            log: words(self.log, ran.map(|ran| ran.log_words), 16384),
            tables: words(self.tables, ran.map(|ran| ran.row_words), 16384),
            answer: words(self.answer, ran.map(|ran| ran.answer.len()), usize::MAX),
        }
    }
}

/// The case of this number in the run of this seed.
pub fn generated(seed: u64, index: u64) -> Case {
    let rng = &mut Rng::of_book(seed, index);
    let bytes = match rng.below(100) {
        0..=1 => damage::junk(rng),
        2..=17 => {
            let mut words = generate::good_book(rng).words();
            (0..1 + rng.below(3)).for_each(|_| damage::damage_words(rng, &mut words));
            let mut bytes = book::bytes_of(&words);
            if rng.percent(6) {
                damage::damage_bytes(rng, &mut bytes);
            }
            bytes
        }
        18..=44 => {
            let mut book = generate::good_book(rng);
            (0..rng.pick(&[1, 1, 1, 2, 3])).for_each(|_| damage::fault(rng, &mut book));
            book::bytes_of(&book.words())
        }
        _ => book::bytes_of(&generate::good_book(rng).words()),
    };
    let mut case = Case::of_bytes(bytes);
    (case.log, case.tables, case.answer) = (room(rng), room(rng), room(rng));
    if rng.percent(25) {
        let short = Room::Need(-1 - if rng.percent(30) { rng.below(40) as isize } else { 0 });
        match rng.below(3) {
            0 => case.log = short,
            1 => case.tables = short,
            _ => case.answer = short,
        }
    }
    if rng.percent(2) {
        wrong_length(rng, &mut case);
    }
    if rng.percent(50) {
        case.dirt = Some(rng.next() as u32);
    }
    case.shift = rng.below(4);
    case.fill = rng.pick(&[Fill::Columns, Fill::Push]);
    case
}

fn room(rng: &mut Rng) -> Room {
    match rng.below(10) {
        0 => Room::Words(16384),
        1 => Room::Words(rng.below(3000)),
        2..=5 => Room::Need(0),
        _ => Room::Need(rng.below(20) as isize),
    }
}

/// One length that refusal 14 is about, at or past its edge.
fn wrong_length(rng: &mut Rng, case: &mut Case) {
    match rng.below(4) {
        0 => case.bindings = rng.pick(&[0, 1, 8191, 8193, 16384]),
        1 => case.index = rng.pick(&[0, 1, 8191, 8193, 16384]),
        2 => case.log = Room::Words(rng.pick(&[16384, 16385, 20000])),
        _ => case.tables = Room::Words(rng.pick(&[16384, 16385, 20000])),
    }
}
