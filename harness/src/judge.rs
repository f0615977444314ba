//! Runs one case on the engine, the plain model and the Rust, and says what they disagree about.
use book::Book;
use core_relations::drive;

use crate::answer;
use crate::case::Case;
use crate::engine::Engine;
use crate::memory::Memory;
use crate::plain::{self, Checked, Lent, Ran, Refusal};

pub struct Verdict {
    /// What the engine said: the answer's word count, or the refusal.
    pub said: Result<usize, Refusal>,
    pub disagreement: Option<String>,
    pub lent: Lent,
    /// The book, where it passes the check.
    pub book: Option<Book>,
    /// The plain model's run, where it accepts.
    pub ran: Option<Ran>,
}

pub fn judge(case: &Case, engine: Engine, memory: &mut Memory) -> Verdict {
    let checked = plain::checked(&case.bytes);
    let lent = case.lent(&checked);
    let (said, mut disagreement) = lend_and_run(case, &lent, engine, memory);
    let expected = plain::lent_right(&lent).and_then(|()| match &checked {
        Ok(checked) => plain::ended(&lent, checked),
        Err(refusal) => Err(*refusal),
    });
    let book = checked.as_ref().ok().map(|checked| &checked.book);
    if disagreement.is_none() && engine == Engine::Proved {
        let words = said.map(|words| &memory.answer()[..words]);
        let expected = expected.as_ref().map(|ran| &ran.answer[..]).map_err(|refusal| *refusal);
        disagreement = unlike_plain(words, expected, book);
    }
    if disagreement.is_none()
        && let Ok(checked) = &checked
        && said != Err(Refusal { number: 14, place: 0 })
    {
        let words = said.map(|words| &memory.answer()[..words]);
        disagreement = unlike_rust(words, checked, &lent, case.fill, engine.name());
    }
    let book = checked.ok().map(|checked| checked.book);
    Verdict { said, disagreement, lent, book, ran: expected.ok() }
}

/// The engine's word, and what is wrong with the memory that it leaves.
fn lend_and_run(
    case: &Case,
    lent: &Lent,
    engine: Engine,
    memory: &mut Memory,
) -> (Result<usize, Refusal>, Option<String>) {
    // The book starts where the case says, and not always at a word's start.
    let mut held = vec![0; 8 + case.bytes.len()];
    let start = (4 - held.as_ptr() as usize % 4) % 4 + case.shift;
    let place = start..start + case.bytes.len();
    held[place.clone()].copy_from_slice(&case.bytes);
    let said = engine.run(&held[place.clone()], memory.lend(lent, case.dirt));
    if let Ok(words) = said
        && words > lent.answer
    {
        return (Ok(0), Some(format!("the answer has {words} words, lent were {}", lent.answer)));
    }
    let written = (held[place] != case.bytes[..]).then(|| "the book was written".into());
    (said, written.or_else(|| memory.fault(said.unwrap_or(0))))
}

fn told(said: Result<&[u32], Refusal>) -> String {
    match said {
        Ok(words) => format!("accepted, {} words", words.len()),
        Err(Refusal { number, place }) => format!("refused {number} at {place}"),
    }
}

fn unlike_plain(
    said: Result<&[u32], Refusal>,
    expected: Result<&[u32], Refusal>,
    book: Option<&Book>,
) -> Option<String> {
    match (said, expected) {
        (Ok(mine), Ok(plain)) => {
            let book = book.expect("an accepted book");
            if mine == plain || answer::arranged(mine, book) == answer::arranged(plain, book) {
                return None;
            }
            let at = mine.iter().zip(plain).position(|(a, b)| a != b).unwrap_or(mine.len().min(plain.len()));
            Some(format!("answers differ from word {at}: engine {mine:?}, plain model {plain:?}"))
        }
        (Err(mine), Err(plain)) if mine == plain => None,
        _ => Some(format!("engine {}, plain model {}", told(said), told(expected))),
    }
}

/// Compares with the Rust's run, also where room or a counter cut the engine's short.
fn unlike_rust(
    said: Result<&[u32], Refusal>,
    checked: &Checked,
    lent: &Lent,
    fill: drive::Fill,
    name: &str,
) -> Option<String> {
    let book = &checked.book;
    let ran = drive::run(book, fill);
    let (number, place) = said.map_or_else(|refusal| (refusal.number, refusal.place), |_| (0, 0));
    // The first step in which the Rust stages more than the log holds, or passes a counter's limit.
    let cut = (0..ran.log_words.len()).find(|i| ran.spent[*i] || ran.log_words[*i] > lent.log);
    if let Some(i) = cut {
        let may_be = [(12, ran.log_words[i] > lent.log), (13, ran.spent[i])];
        let right = place == checked.first_step + i && may_be.iter().any(|(n, may)| *may && *n == number);
        let by_rust =
            format!("by the Rust's step {i} {} words staged, counter spent {}", ran.log_words[i], ran.spent[i]);
        return (!right).then(|| format!("{by_rust}; {name} {}", told(said)));
    }
    if let Some(panic) = ran.panic {
        return Some(format!("the Rust panics: {panic}"));
    }
    let row_words: usize = ran.seen.tables.iter().flatten().map(Vec::len).sum();
    let composed = answer::composed(&ran.seen, book);
    let by_rust = if row_words > lent.tables {
        Err(Refusal { number: 15, place: 0 })
    } else if composed.len() > lent.answer {
        Err(Refusal { number: 16, place: 0 })
    } else {
        Ok(&composed[..])
    };
    match (said, by_rust) {
        (Ok(words), Ok(_)) => match answer::seen(words, book) {
            Ok(seen) => answer::difference(&seen, &ran.seen, [name, "Rust"]),
            Err(wrong) => Some(wrong),
        },
        (Err(mine), Err(theirs)) if mine == theirs => None,
        _ => Some(format!("by the Rust's run {}; {name} {}", told(by_rust), told(said))),
    }
}
