//! Differential runs of the engine against the Rust. See README.md.
mod answer;
mod case;
mod damage;
mod engine;
mod generate;
mod judge;
mod memory;
mod plain;
mod rng;
mod sample;
mod shrink;
mod tally;
mod time;

use std::process::{Child, Command, Stdio};

use case::Case;
use core_relations::drive::{self, Fill};
use engine::Engine;
use judge::{Verdict, judge};
use memory::Memory;
use plain::Refusal;
use tally::Tally;

/// Jobs take their books so many at a time, in turn.
const PORTION: u64 = 250;
/// After so many books a line says how far the run is.
const TOLD: u64 = 100_000;

struct Options {
    engine: Engine,
    seed: u64,
    first: u64,
    books: u64,
    jobs: u64,
    /// Which of the jobs this process is, if it is one of several.
    part: Option<u64>,
    /// So many disagreements are shrunk and shown.
    shown: usize,
    task: Task,
}

enum Task {
    Compare,
    Time,
    /// Write a sample to this file.
    Sample(String),
    /// Run a sample from this file.
    Replay(String),
    /// A file of books as text.
    Show(String),
}

fn options() -> Options {
    let engine = if cfg!(engine) { Engine::Proved } else { Engine::Plain };
    let mut options =
        Options { engine, seed: 1, first: 0, books: 10000, jobs: 1, part: None, shown: 10, task: Task::Compare };
    let mut args = std::env::args().skip(1);
    while let Some(arg) = args.next() {
        let mut value = || args.next().unwrap_or_else(|| usage(&format!("{arg} wants a value")));
        let number = |text: String| text.parse().unwrap_or_else(|_| usage(&format!("{text} is no number")));
        match arg.as_str() {
            "--against" => {
                options.engine = match value().as_str() {
                    "engine" => Engine::Proved,
                    "plain" => Engine::Plain,
                    other => usage(&format!("{other} is neither engine nor plain")),
                }
            }
            "--seed" => options.seed = number(value()),
            "--first" => options.first = number(value()),
            "--books" => options.books = number(value()),
            "--jobs" => options.jobs = number(value()).max(1),
            "--part" => options.part = Some(number(value())),
            "--shown" => options.shown = number(value()) as usize,
            "--time" => options.task = Task::Time,
            "--sample" => options.task = Task::Sample(value()),
            "--replay" => options.task = Task::Replay(value()),
            "--show" => options.task = Task::Show(value()),
            _ => usage(&format!("{arg} is unknown")),
        }
    }
    options
}

fn usage(why: &str) -> ! {
    eprintln!("harness: {why}; see harness/README.md");
    std::process::exit(2);
}

fn main() {
    drive::keep_panics();
    let options = options();
    match &options.task {
        Task::Compare => compare(&options),
        Task::Time => time::time(options.engine),
        Task::Sample(file) => sample::write(options.seed, file),
        Task::Replay(file) => sample::replay(options.engine, file),
        Task::Show(file) => show(options.engine, file),
    }
}

// ---- many books

/// What a job came to: its counts, and the numbers of books that show a disagreement.
struct Came {
    counts: Vec<u64>,
    found: Vec<u64>,
}

fn run(options: &Options, part: u64) -> Came {
    let (mut tally, mut found, mut memory) = (Tally::default(), Vec::new(), Memory::default());
    let end = options.first + options.books;
    let mut from = options.first + part * PORTION;
    while from < end {
        if from > options.first && (from - options.first) % TOLD < PORTION {
            eprintln!("{} books, {} disagreements in this job", from - options.first, tally.disagreements);
        }
        for index in from..end.min(from + PORTION) {
            let case = case::generated(options.seed, index);
            let verdict = judge(&case, options.engine, &mut memory);
            tally.note(&case, &verdict);
            if verdict.disagreement.is_some() && found.len() < options.shown {
                found.push(index);
            }
        }
        from += options.jobs * PORTION;
    }
    Came { counts: tally.numbers(), found }
}

/// Each job is a process of its own, with one thread as this one has. It writes two lines of numbers: its counts, and
/// the books that it found.
fn side_by_side(options: &Options) -> Vec<Came> {
    let this = std::env::current_exe().expect("this program");
    let start = |part: u64| {
        let mut job = Command::new(&this);
        job.args(std::env::args().skip(1)).args(["--part", &part.to_string()]).stdout(Stdio::piped());
        job.spawn().expect("a job")
    };
    let end = |job: Child| {
        let ended = job.wait_with_output().expect("the end of a job");
        assert!(ended.status.success(), "a job failed");
        let text = String::from_utf8(ended.stdout).expect("numbers");
        let numbers = |line: &str| line.split_whitespace().map(|n| n.parse().expect("a number")).collect();
        let mut lines = text.lines().map(numbers);
        Came { counts: lines.next().expect("counts"), found: lines.next().expect("books") }
    };
    let jobs: Vec<_> = (0..options.jobs).map(start).collect();
    jobs.into_iter().map(end).collect()
}

fn compare(options: &Options) {
    if let Some(part) = options.part {
        let came = run(options, part);
        for numbers in [came.counts, came.found] {
            println!("{}", numbers.iter().map(u64::to_string).collect::<Vec<_>>().join(" "));
        }
        return;
    }
    let parts = if options.jobs > 1 { side_by_side(options) } else { vec![run(options, 0)] };
    let (mut tally, mut found) = (Tally::default(), Vec::new());
    for came in parts {
        tally.add(&came.counts);
        found.extend(came.found);
    }
    println!("seed {}, from book {}, {} against the Rust", options.seed, options.first, options.engine.name());
    tally.print();
    found.sort();
    for index in found.into_iter().take(options.shown) {
        let mut memory = Memory::default();
        let mut shows = |case: &Case| judge(case, options.engine, &mut memory).disagreement.is_some();
        let small = shrink::shrunk(&case::generated(options.seed, index), &mut shows);
        println!("\nbook {index} (--seed {} --first {index} --books 1), shrunk:", options.seed);
        tell(&small, &judge(&small, options.engine, &mut memory), options.engine);
    }
    std::process::exit(i32::from(tally.disagreements > 0));
}

// ---- single books

fn tell(case: &Case, verdict: &Verdict, engine: Engine) {
    let lent = verdict.lent;
    println!(
        "lent bindings {} index {} log {} tables {} answer {}, memory {}, book at {} past a word, filled by {:?}",
        lent.bindings,
        lent.index,
        lent.log,
        lent.tables,
        lent.answer,
        if case.dirt.is_some() { "dirty" } else { "zero" },
        case.shift,
        case.fill,
    );
    match plain::words_of(&case.bytes) {
        Ok(words) => println!("book {}", words.iter().map(u32::to_string).collect::<Vec<_>>().join(" ")),
        Err(_) => println!("bytes {:?}", case.bytes),
    }
    match verdict.said {
        Ok(words) => println!("{}: accepted, {words} words", engine.name()),
        Err(Refusal { number, place }) => println!("{}: refused {number} at {place}", engine.name()),
    }
    println!("{}", verdict.disagreement.as_deref().unwrap_or("all agree"));
}

/// Books as text, one a line: words in base ten, what else stands between them is skipped, and so is
/// a line that begins with #.
fn books_of(text: &str) -> Vec<Vec<u32>> {
    let word = |w: &str| w.parse().unwrap_or_else(|_| usage(&format!("{w} is no word")));
    let words = |line: &str| {
        let parts = line.split(|c: char| !c.is_ascii_digit()).filter(|part| !part.is_empty());
        parts.map(word).collect::<Vec<u32>>()
    };
    text.lines().filter(|line| !line.starts_with('#')).map(words).filter(|book| !book.is_empty()).collect()
}

fn show(engine: Engine, file: &str) {
    let text = std::fs::read_to_string(file).unwrap_or_else(|error| usage(&format!("{file}: {error}")));
    let mut memory = Memory::default();
    let mut disagreements = 0;
    for words in books_of(&text) {
        let case = Case::of_bytes(book::bytes_of(&words));
        let verdict = judge(&case, engine, &mut memory);
        tell(&case, &verdict, engine);
        if let Ok(count) = verdict.said {
            println!("answer {:?}", &memory.answer()[..count]);
        }
        // The Rust has no check, so it may be shown on books that are refused for other reasons than
        // a missing number or a key that repeats.
        if let Some(book) = plain::form(&words)
            && verdict.said.map_or_else(|refusal| ![5, 6].contains(&refusal.number), |_| true)
        {
            show_rust(&book);
        }
        println!();
        disagreements += i32::from(verdict.disagreement.is_some());
    }
    std::process::exit(disagreements.min(1));
}

fn show_rust(book: &book::Book) {
    let by_columns = drive::run(book, Fill::Columns);
    let by_push = drive::run(book, Fill::PushAlone);
    let told = |ran: &drive::Ran| match &ran.panic {
        Some(panic) => format!("panics after {} steps: {}", ran.seen.steps.len(), panic.replace('\n', " ")),
        None => format!("{:?}", ran.seen),
    };
    println!("Rust {}", told(&by_columns));
    if by_push.seen != by_columns.seen {
        println!("Rust, filled by push alone {}", told(&by_push));
    }
}
