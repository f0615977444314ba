//! The memory lent for a run: five buffers, each with guard words before and after it, that must be
//! left as document 01 says.
use crate::plain::Lent;

const GUARD: usize = 8;
const GUARD_WORD: u32 = 0x5a5a_a5a5;
const NAMES: [&str; 5] = ["bindings", "index", "log", "tables", "answer"];

#[derive(Default)]
pub struct Memory {
    arenas: [Vec<u32>; 5],
}

fn all_zero(words: &[u32]) -> bool {
    words.iter().fold(0, |any, word| any | word) == 0
}

impl Memory {
    /// The buffers at these lengths, zero or full of what `dirt` gives.
    pub fn lend(&mut self, lent: &Lent, dirt: Option<u32>) -> [&mut [u32]; 5] {
        let lengths = [lent.bindings, lent.index, lent.log, lent.tables, lent.answer];
        for (arena, length) in self.arenas.iter_mut().zip(lengths) {
            arena.clear();
            arena.resize(GUARD, GUARD_WORD);
            arena.resize(GUARD + length, dirt.unwrap_or(0));
            if let Some(word) = dirt {
                (0..).zip(&mut arena[GUARD..]).for_each(|(i, at)| *at = word.wrapping_add(i) | 1);
            }
            arena.resize(length + 2 * GUARD, GUARD_WORD);
        }
        self.buffers()
    }

    pub fn buffers(&mut self) -> [&mut [u32]; 5] {
        self.arenas.each_mut().map(|arena| {
            let end = arena.len() - GUARD;
            &mut arena[GUARD..end]
        })
    }

    pub fn answer(&self) -> &[u32] {
        let arena = &self.arenas[4];
        &arena[GUARD..arena.len() - GUARD]
    }

    /// What is wrong with the memory after a run that left so many words of an answer.
    pub fn fault(&mut self, answer_words: usize) -> Option<String> {
        for (arena, name) in self.arenas.iter().zip(NAMES) {
            let (before, after) = (&arena[..GUARD], &arena[arena.len() - GUARD..]);
            if before.iter().chain(after).any(|word| *word != GUARD_WORD) {
                return Some(format!("a word outside {name} was written"));
            }
        }
        for (i, (buffer, name)) in self.buffers().into_iter().zip(NAMES).enumerate() {
            let from = if i == 4 { answer_words.min(buffer.len()) } else { 0 };
            if !all_zero(&buffer[from..]) {
                let at = from + buffer[from..].iter().position(|word| *word != 0).unwrap();
                return Some(format!("word {at} of {name} was left {}", buffer[at]));
            }
        }
        None
    }

    pub fn clear(&mut self) {
        self.buffers().into_iter().for_each(|buffer| buffer.fill(0));
    }
}
