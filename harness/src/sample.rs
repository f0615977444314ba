//! A sample of books with the Rust's answers, to be replayed where there is no Rust.
//!
//! The file is words of 32 bits, low byte first: the number of books, then for each book
//!
//! - eight words: the words lent as bindings, index, log, tables and answer; the book's length in
//!   bytes; the number of the refusal, or 0; its place, or the word count of the answer;
//! - the book's bytes, and zero bytes up to a multiple of four;
//! - the words of the answer, if it is accepted.
//!
//! Answers are composed from the Rust's run. Two things it cannot show are the plain model's: whether
//! a staged row was a predicted one (kind 2 or 0), and refusals. The rows of a table stand in one of
//! the orders that document 01 allows: those that the book had, in its order, then new ones in the
//! order of the log.
use book::Step;
use core_relations::drive;

use crate::answer;
use crate::case;
use crate::engine::Engine;
use crate::judge::judge;
use crate::memory::Memory;
use crate::plain::{Lent, Refusal};
use crate::tally::Tally;

const ACCEPTED: usize = 230;
/// Of each refusal, so many.
const REFUSED: usize = 5;
/// So few words of a book and its answer, but for some with 256 lanes.
const SMALL: usize = 700;
const LARGE: usize = 8000;
const LARGE_ONES: usize = 4;

pub fn write(seed: u64, file: &str) {
    let (mut records, mut accepted, mut large, mut refused) = (Vec::new(), 0, 0, [0; 17]);
    let (mut memory, mut tally) = (Memory::default(), Tally::default());
    for index in 0..20000 {
        let case = case::generated(seed, index);
        let verdict = judge(&case, Engine::Plain, &mut memory);
        assert_eq!(verdict.disagreement, None, "book {index} of seed {seed}");
        let words = case.bytes.len() / 4 + verdict.said.unwrap_or(0);
        let wanted = match verdict.said {
            Err(refusal) => {
                let so_far = &mut refused[refusal.number as usize];
                let wanted = *so_far < REFUSED && words <= SMALL;
                *so_far += usize::from(wanted);
                wanted
            }
            Ok(_) => {
                let steps = &verdict.book.as_ref().expect("an accepted book").steps;
                let all_lanes = |step: &Step| matches!(step, Step::Batch { lanes: 256, .. });
                let is_large = words > SMALL;
                let wanted = if is_large {
                    words <= LARGE && large < LARGE_ONES && steps.iter().any(all_lanes)
                } else {
                    accepted < ACCEPTED && !steps.is_empty()
                };
                large += usize::from(wanted && is_large);
                accepted += usize::from(wanted && !is_large);
                wanted
            }
        };
        if !wanted {
            continue;
        }
        tally.note(&case, &verdict);
        let outcome = match verdict.said {
            Err(refusal) => Err(refusal),
            Ok(words) => {
                let book = verdict.book.as_ref().expect("an accepted book");
                let seen = drive::run(book, case.fill).seen;
                Ok(with_kinds(answer::composed(&seen, book), &memory.answer()[..words]))
            }
        };
        records.push(record(&verdict.lent, &case.bytes, &outcome));
    }
    let mut words = vec![records.len() as u32];
    records.iter().for_each(|record| words.extend(record));
    std::fs::write(file, book::bytes_of(&words)).unwrap_or_else(|error| panic!("{file}: {error}"));
    tally.print();
    println!("bytes {}", 4 * words.len());
}

/// The Rust's answer with kind 2 where the plain model has it; nothing else may differ.
fn with_kinds(mut rust: Vec<u32>, plain: &[u32]) -> Vec<u32> {
    assert_eq!(rust.len(), plain.len());
    for (mine, theirs) in rust.iter_mut().zip(plain) {
        if (*mine, *theirs) == (0, 2) {
            *mine = 2;
        }
    }
    assert_eq!(rust, plain);
    rust
}

fn record(lent: &Lent, bytes: &[u8], outcome: &Result<Vec<u32>, Refusal>) -> Vec<u32> {
    let lengths = [lent.bindings, lent.index, lent.log, lent.tables, lent.answer, bytes.len()];
    let mut words: Vec<u32> = lengths.iter().map(|length| *length as u32).collect();
    match outcome {
        Ok(answer) => words.extend([0, answer.len() as u32]),
        Err(refusal) => words.extend([refusal.number, refusal.place as u32]),
    }
    let mut whole = bytes.to_vec();
    whole.resize(bytes.len().next_multiple_of(4), 0);
    words.extend(whole.chunks_exact(4).map(|four| u32::from_le_bytes(four.try_into().unwrap())));
    words.extend(outcome.as_deref().unwrap_or(&[]));
    words
}

/// Runs every book of a sample and compares number, place and answer, word by word.
pub fn replay(engine: Engine, file: &str) {
    let bytes = std::fs::read(file).unwrap_or_else(|error| panic!("{file}: {error}"));
    let words = bytes.chunks_exact(4).map(|four| u32::from_le_bytes(four.try_into().unwrap()));
    let words: Vec<u32> = words.collect();
    let (mut at, mut wrong, mut memory) = (1, 0, Memory::default());
    for number in 0..words[0] {
        let head: Vec<usize> = words[at..at + 8].iter().map(|word| *word as usize).collect();
        let lent = Lent { bindings: head[0], index: head[1], log: head[2], tables: head[3], answer: head[4] };
        let (length, refusal, count) = (head[5], head[6], head[7]);
        let book = &bytes[4 * (at + 8)..4 * (at + 8) + length];
        at += 8 + length.div_ceil(4);
        let said = engine.run(book, memory.lend(&lent, None));
        let right = match said {
            Ok(said) => refusal == 0 && said == count && memory.answer()[..said] == words[at..at + said],
            Err(said) => said == Refusal { number: refusal as u32, place: count } && refusal != 0,
        };
        at += if refusal == 0 { count } else { 0 };
        if !right {
            println!("book {number} of the sample: {said:?}, expected {refusal} {count}");
            wrong += 1;
        }
    }
    assert_eq!(at, words.len(), "words after the last book");
    println!("{} books replayed, {wrong} wrong", words[0]);
    std::process::exit(i32::from(wrong > 0));
}
