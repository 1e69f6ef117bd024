//! One thread adds messages, one packs closed segments, and others search at the same time. Each answer is checked as it comes.
//! Arguments: how many messages, how many readers. Tells what was done a second on standard error.

use earlybird::shared::{open, Converter, Reader, Writer};
use earlybird::Refusal;
use std::env;
use std::sync::atomic::{AtomicBool, AtomicU64, Ordering::SeqCst};
use std::thread;
use std::time::{Duration, Instant};

const WANTED: u32 = 10;

/// What is asked, and which messages match.
const QUERIES: [(&str, fn(u64) -> bool); 5] = [
    ("third", |n| n % 3 == 0),
    ("all", |_| true),
    ("w7", |n| n % 1000 == 7),
    ("all -third", |n| n % 3 != 0),
    ("w7 OR w9", |n| n % 1000 == 7 || n % 1000 == 9),
];

/// How far the writer is.
#[derive(Default)]
struct Progress {
    added: AtomicU64,
    over: AtomicBool,
}

/// Message n has the id n. Each has "all", each third has "third", and each has one of a thousand other words.
fn text_of(n: u64) -> String {
    format!("all w{} {} message", n % 1000, if n % 3 == 0 { "third" } else { "other" })
}

fn add_all(mut writer: Writer, messages: u64, progress: &Progress) -> Result<(), Refusal> {
    for n in 1..=messages {
        writer.add(n, &text_of(n))?;
        progress.added.store(n, SeqCst);
    }
    Ok(())
}

fn pack_all(mut converter: Converter, progress: &Progress) -> Result<u32, Refusal> {
    let mut packed = 0;
    while !progress.over.load(SeqCst) {
        let before = packed;
        packed = converter.convert()?;
        if packed == before {
            thread::sleep(Duration::from_millis(1));
        }
    }
    Ok(packed)
}

/// Asks, and checks that the ids are those of the newest messages that match.
fn ask_once(reader: &mut Reader, at: u64, progress: &Progress) -> Result<u64, Refusal> {
    let (query, matches) = QUERIES[(at % 5) as usize];
    let (added, known) = (progress.added.load(SeqCst), reader.seen());
    let answer = reader.search(WANTED, query)?;
    assert!(answer.seen >= added && answer.seen >= known, "what was added or seen before is seen");
    let newest: Vec<u64> = (1..=answer.seen).rev().filter(|n| matches(*n)).take(WANTED as usize).collect();
    assert_eq!(answer.ids, newest, "{query}, over {}", answer.seen);
    Ok(answer.seen)
}

fn search_all(mut reader: Reader, messages: u64, progress: &Progress) -> Result<u64, Refusal> {
    let mut searches = 0;
    while !progress.over.load(SeqCst) {
        ask_once(&mut reader, searches, progress)?;
        searches += 1;
    }
    assert_eq!(ask_once(&mut reader, searches, progress)?, messages);
    Ok(searches)
}

fn main() -> Result<(), Refusal> {
    let mut numbers = env::args().skip(1).map(|word| word.parse().expect("a number"));
    let (messages, readers) = (numbers.next().unwrap_or(200_000), numbers.next().unwrap_or(3));
    let (mut writer, converter) = open(12, 32768, 8192)?;
    let first = writer.reader()?;
    let progress = Progress::default();
    let begun = Instant::now();
    let (searches, packed) = thread::scope(|scope| {
        let searching: Vec<_> = (0..readers)
            .map(|_| {
                let (reader, progress) = (first.clone(), &progress);
                scope.spawn(move || search_all(reader, messages, progress))
            })
            .collect();
        let packing = scope.spawn(|| pack_all(converter, &progress));
        let added = scope.spawn(|| add_all(writer, messages, &progress)).join().expect("the writer's thread");
        progress.over.store(true, SeqCst);
        added?;
        let mut searches = 0;
        for thread in searching {
            searches += thread.join().expect("a reader's thread")?;
        }
        Ok((searches, packing.join().expect("the converter's thread")?))
    })?;
    let seconds = begun.elapsed().as_secs_f64();
    eprintln!(
        "Rust, readers {readers}: {:.0} adds a second beside {:.0} checked searches a second, {packed} segments packed",
        messages as f64 / seconds,
        searches as f64 / seconds
    );
    println!("right");
    Ok(())
}
