//! Document 01 as a plain program: the whole outcome of any bytes, refusals with their places.
//! It favours being read beside the paper over being quick.
mod check;
mod commit;
mod machine;
mod read;

use check::{check, fit};
use read::read;

pub use machine::{Coverage, Ran, run};
pub use read::{Checked, form, words_of};

/// How many words are lent as each buffer.
#[derive(Clone, Copy, Debug, PartialEq, Eq)]
pub struct Lent {
    pub bindings: usize,
    pub index: usize,
    pub log: usize,
    pub tables: usize,
    pub answer: usize,
}

#[derive(Clone, Copy, Debug, PartialEq, Eq)]
pub struct Refusal {
    pub number: u32,
    pub place: usize,
}

fn refuse<T>(number: u32, place: usize) -> Result<T, Refusal> {
    Err(Refusal { number, place })
}

/// The outcome: the words of the answer book, or a refusal.
pub fn outcome(lent: &Lent, bytes: &[u8]) -> Result<Vec<u32>, Refusal> {
    lent_right(lent)?;
    Ok(ended(lent, &checked(bytes)?)?.answer)
}

/// Refusal 14.
pub fn lent_right(lent: &Lent) -> Result<(), Refusal> {
    if lent.bindings != 8192 || lent.index != 8192 || lent.log > 16384 || lent.tables > 16384 {
        return refuse(14, 0);
    }
    Ok(())
}

/// Refusals 1 to 11: a book that may run.
pub fn checked(bytes: &[u8]) -> Result<Checked, Refusal> {
    let words = words_of(bytes)?;
    let checked = read(&words)?;
    check(&checked)?;
    fit(&checked)?;
    Ok(checked)
}

/// Refusals 12, 13, 15 and 16: a book that passes the check, run to its end.
pub fn ended(lent: &Lent, checked: &Checked) -> Result<Ran, Refusal> {
    let ran = run(checked, lent.log)?;
    if ran.row_words > lent.tables {
        return refuse(15, 0);
    }
    if ran.answer.len() > lent.answer {
        return refuse(16, 0);
    }
    Ok(ran)
}
