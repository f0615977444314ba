//! What is compared with the Rust: the proved engine through its C entry point, or the plain model
//! in its place. The harness binds the entry point here and nowhere else.
use crate::plain::{self, Lent, Refusal};

#[derive(Clone, Copy, Debug, PartialEq, Eq)]
pub enum Engine {
    Proved,
    Plain,
}

impl Engine {
    pub fn name(self) -> &'static str {
        match self {
            Engine::Proved => "engine",
            Engine::Plain => "plain model",
        }
    }

    /// The number of words in the answer, or the refusal.
    pub fn run(self, book: &[u8], buffers: [&mut [u32]; 5]) -> Result<usize, Refusal> {
        match self {
            Engine::Proved => run_proved(book, buffers),
            Engine::Plain => run_plain(book, buffers),
        }
    }
}

#[cfg(engine)]
fn run_proved(book: &[u8], buffers: [&mut [u32]; 5]) -> Result<usize, Refusal> {
    // A slice goes over as its address and its length. The result has the refusal's number in its
    // high half (0: accepted), and its place or the answer's word count in its low half.
    unsafe extern "C" {
        fn dispatch_run(
            book: *const u8,
            book_len: usize,
            bindings: *mut u32,
            bindings_len: usize,
            index: *mut u32,
            index_len: usize,
            log: *mut u32,
            log_len: usize,
            tables: *mut u32,
            tables_len: usize,
            answer: *mut u32,
            answer_len: usize,
        ) -> u64;
    }
    let [bindings, index, log, tables, answer] = buffers;
    // SAFETY: every address is that of a slice of the length beside it.
    let result = unsafe {
        dispatch_run(
            book.as_ptr(),
            book.len(),
            bindings.as_mut_ptr(),
            bindings.len(),
            index.as_mut_ptr(),
            index.len(),
            log.as_mut_ptr(),
            log.len(),
            tables.as_mut_ptr(),
            tables.len(),
            answer.as_mut_ptr(),
            answer.len(),
        )
    };
    let (number, low) = ((result >> 32) as u32, result as u32 as usize);
    if number == 0 { Ok(low) } else { Err(Refusal { number, place: low }) }
}

#[cfg(not(engine))]
fn run_proved(_book: &[u8], _buffers: [&mut [u32]; 5]) -> Result<usize, Refusal> {
    panic!("this harness was built without the engine")
}

fn run_plain(book: &[u8], buffers: [&mut [u32]; 5]) -> Result<usize, Refusal> {
    let [bindings, index, log, tables, answer] = buffers;
    let lent = Lent {
        bindings: bindings.len(),
        index: index.len(),
        log: log.len(),
        tables: tables.len(),
        answer: answer.len(),
    };
    let outcome = plain::outcome(&lent, book);
    [bindings, index, log, tables, &mut *answer].into_iter().for_each(|buffer| buffer.fill(0));
    let words = outcome?;
    answer[..words.len()].copy_from_slice(&words);
    Ok(words.len())
}
