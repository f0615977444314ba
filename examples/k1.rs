//! K1 from Rust: the book is written, run, and its answer read; then the same with a fault in it.

/// The binding: what include/dispatch.h says, for Rust.
mod dispatch {
    // A slice goes over as its address and its length.
    #[link(name = "wirumbane", kind = "static")]
    unsafe extern "C" {
        fn dispatch_run(
            book: *const u8,
            book_len: usize,
            bindings: *mut u32,
            bindings_len: usize,
            index: *mut u32,
            index_len: usize,
            log: *mut u32,
            log_len: usize,
            tables: *mut u32,
            tables_len: usize,
            answer: *mut u32,
            answer_len: usize,
        ) -> u64;
    }

    pub const BINDINGS_WORDS: usize = 8192;
    pub const INDEX_WORDS: usize = 8192;
    pub const LOG_WORDS_MOST: usize = 16384;
    pub const TABLES_WORDS_MOST: usize = 16384;
    pub const ANSWER_WORDS_USUAL: usize = 16384;

    pub const KIND_COUNTER: u32 = 2;
    pub const KIND_BATCH_DONE: u32 = 6;
    pub const KIND_LOG: u32 = 8;

    pub const RECORD_REMOVE: u32 = 1;
    pub const RECORD_PREDICTED: u32 = 2;

    /// Why a book is refused, 1 to 16, and where.
    pub struct Refusal {
        pub number: u32,
        pub place: u32,
    }

    /// What is lent to a call. It serves any number of calls, one after the other.
    pub struct Memory {
        bindings: Vec<u32>,
        index: Vec<u32>,
        log: Vec<u32>,
        tables: Vec<u32>,
        answer: Vec<u32>,
    }

    impl Memory {
        pub fn new() -> Memory {
            Memory {
                bindings: vec![0; BINDINGS_WORDS],
                index: vec![0; INDEX_WORDS],
                log: vec![0; LOG_WORDS_MOST],
                tables: vec![0; TABLES_WORDS_MOST],
                answer: vec![0; ANSWER_WORDS_USUAL],
            }
        }

        /// The answer book of a book, or its refusal.
        pub fn run(&mut self, book: &[u8]) -> Result<&[u32], Refusal> {
            // SAFETY: every address is that of a slice of the length beside it, never null, and no
            // two slices overlap.
            let returned = unsafe {
                dispatch_run(
                    book.as_ptr(),
                    book.len(),
                    self.bindings.as_mut_ptr(),
                    self.bindings.len(),
                    self.index.as_mut_ptr(),
                    self.index.len(),
                    self.log.as_mut_ptr(),
                    self.log.len(),
                    self.tables.as_mut_ptr(),
                    self.tables.len(),
                    self.answer.as_mut_ptr(),
                    self.answer.len(),
                )
            };
            // The high half is the refusal's number, 0 where the book is accepted; the low half its
            // place, or how many words the answer has.
            let (number, low) = ((returned >> 32) as u32, returned as u32);
            if number == 0 { Ok(&self.answer[..low as usize]) } else { Err(Refusal { number, place: low }) }
        }
    }
}

use dispatch::{Memory, Refusal};

/// docs/BOOKS.md takes it apart word by word.
#[rustfmt::skip]
const K1: [u32; 39] = [
    4, 1, 13, 6, 2, 19, 1, 3, 20, 12, 4, 32, 7, // contents: four bodies
    1, 1, 0, 1, 3, 40,                          // table 0, with one row
    100,                                        // counter 0
    1, 1, 1, 0, 1, 0, 0, 1, 2, 0, 1, 1,         // rule 0, with one instruction
    0, 4, 1, 3, 5, 5, 8,                        // a batch of rule 0, with four lanes
];

/// A word is four bytes, lowest first.
fn bytes_of(words: &[u32]) -> Vec<u8> {
    words.iter().flat_map(|word| word.to_le_bytes()).collect()
}

/// The contents of an answer: a count, then kind, first word and length of each body.
fn body_of(answer: &[u32], entry: usize) -> (u32, &[u32]) {
    let kind = answer[1 + 3 * entry];
    let first = answer[2 + 3 * entry] as usize;
    let length = answer[3 + 3 * entry] as usize;
    (kind, &answer[first..first + length])
}

fn print_words(words: &[u32]) {
    for word in words {
        print!(" {word}");
    }
    println!();
}

/// The batch: survivors, lanes, variables; then each variable's number and its column.
fn print_batch(body: &[u32]) {
    let (survivors, lanes, variables) = (body[0], body[1] as usize, body[2]);
    println!("{survivors} of {lanes} lanes survive");
    let mut at = 3;
    for _ in 0..variables {
        print!("variable {}:", body[at]);
        print_words(&body[at + 1..at + 1 + lanes]);
        at += 1 + lanes;
    }
}

/// The log: the flag, then records of kind, table, and a row or, of a removal, a key.
fn print_predicted(answer: &[u32], body: &[u32]) {
    let mut at = 1;
    while at < body.len() {
        let (kind, table) = (body[at], body[at + 1]);
        // Tables come first in an answer, so that table t has entry t.
        let (_, shape) = body_of(answer, table as usize);
        let (keys, values) = (shape[0] as usize, shape[1] as usize);
        let words = if kind == dispatch::RECORD_REMOVE { keys } else { keys + values };
        if kind == dispatch::RECORD_PREDICTED {
            print!("predicted for table {table}:");
            print_words(&body[at + 2..at + 2 + words]);
        }
        at += 2 + words;
    }
}

fn print_answer(answer: &[u32]) {
    for entry in 0..answer[0] as usize {
        let (kind, body) = body_of(answer, entry);
        match kind {
            dispatch::KIND_COUNTER => println!("counter: next is {}", body[0]),
            dispatch::KIND_BATCH_DONE => print_batch(body),
            dispatch::KIND_LOG => print_predicted(answer, body),
            _ => {} // tables; K1 has no predictions
        }
    }
}

/// Whether the book was accepted.
fn run_and_print(memory: &mut Memory, name: &str, words: &[u32]) -> bool {
    match memory.run(&bytes_of(words)) {
        Ok(answer) => {
            println!("{name}: accepted, {} words of answer", answer.len());
            print_answer(answer);
            true
        }
        Err(Refusal { number, place }) => {
            println!("{name}: refused {number} at {place}");
            false
        }
    }
}

fn main() -> std::process::ExitCode {
    let mut memory = Memory::new();
    if !run_and_print(&mut memory, "K1", &K1) {
        return std::process::ExitCode::FAILURE;
    }

    // Word 26 is the variable that the lookup has for its key, 0. Variable 5 is bound by nothing:
    // the instruction, whose first word is 22, is refused with 7.
    let mut faulty = K1;
    faulty[26] = 5;
    if run_and_print(&mut memory, "K1 with variable 5", &faulty) {
        return std::process::ExitCode::FAILURE;
    }
    std::process::ExitCode::SUCCESS
}
