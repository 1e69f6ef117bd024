//! A feed: one thread adds messages over several generations, while others search. Each answer is checked as it comes.
//! Arguments: how many messages, how many followers. Tells what was done a second on standard error.

use earlybird::stream::{open, Follower, Leader};
use earlybird::Refusal;
use std::env;
use std::sync::atomic::{AtomicBool, AtomicU64, Ordering::SeqCst};
use std::thread;
use std::time::Instant;

const WANTED: u32 = 10;
const SEGMENTS: u32 = 2;
const DOCS: u32 = 2048;
const KEEP: u32 = 3;

/// So many messages, since each segment has room for their words.
const GENERATION: u64 = (SEGMENTS * DOCS) as u64;

/// What is asked, and which messages match.
const QUERIES: [(&str, fn(u64) -> bool); 5] = [
    ("third", |n| n % 3 == 0),
    ("all", |_| true),
    ("w7", |n| n % 1000 == 7),
    ("all -third", |n| n % 3 != 0),
    ("w7 OR w9", |n| n % 1000 == 7 || n % 1000 == 9),
];

/// How far the leader is.
#[derive(Default)]
struct Progress {
    begun: AtomicU64,
    told: AtomicU64,
    over: AtomicBool,
}

/// Message n has the id n. Each has "all", each third has "third", and each has one of a thousand other words.
fn text_of(n: u64) -> String {
    format!("all w{} {} message", n % 1000, if n % 3 == 0 { "third" } else { "other" })
}

/// The number of a message's generation, from 0.
fn generation_of(n: u64) -> u64 {
    n.saturating_sub(1) / GENERATION
}

fn add_all(mut leader: Leader, messages: u64, progress: &Progress) -> Result<u32, Refusal> {
    let (mut converter, mut packed) = (None, 0);
    for n in 1..=messages {
        progress.begun.store(n, SeqCst);
        leader.add(n, &text_of(n))?;
        while !leader.tell() {}
        progress.told.store(n, SeqCst);
        if n % GENERATION == 1 {
            converter = leader.converter()?;
        } else if n % GENERATION == u64::from(DOCS) + 1 {
            packed += converter.as_mut().map_or(Ok(0), |it| it.convert())?;
        }
    }
    Ok(packed)
}

/// Asks, and checks that the ids are those of the newest messages that match, of the generations that are kept.
fn ask_once(follower: &mut Follower, at: u64, progress: &Progress) -> Result<u64, Refusal> {
    let (query, matches) = QUERIES[(at % 5) as usize];
    let (told, known) = (progress.told.load(SeqCst), follower.seen());
    let answer = follower.search(WANTED, query)?;
    let generations = generation_of(answer.seen) + 1;
    assert!(answer.seen >= known, "what was seen before is seen");
    assert_eq!(follower.held(), generations.min(u64::from(KEEP)), "as many generations as the feed keeps, or all");
    let first = (generations - follower.held()) * GENERATION + 1;
    let newest: Vec<u64> = (first..=answer.seen).rev().filter(|n| matches(*n)).take(WANTED as usize).collect();
    assert_eq!(answer.ids, newest, "{query}, over {}", answer.seen);
    if answer.seen >= told {
        return Ok(answer.seen);
    }
    // a letter that tells of a generation was just replacing the one before it, which wasn't taken yet
    assert!(generation_of(progress.begun.load(SeqCst)) > generation_of(told), "what was told before is seen");
    ask_once(follower, at, progress)
}

fn search_all(mut follower: Follower, messages: u64, progress: &Progress) -> Result<u64, Refusal> {
    let mut searches = 0;
    while !progress.over.load(SeqCst) {
        ask_once(&mut follower, searches, progress)?;
        searches += 1;
    }
    assert_eq!(ask_once(&mut follower, searches, progress)?, messages);
    Ok(searches)
}

fn main() -> Result<(), Refusal> {
    let mut numbers = env::args().skip(1).map(|word| word.parse().expect("a number"));
    let (messages, number) = (numbers.next().unwrap_or(50_000), numbers.next().unwrap_or(2));
    let mut leader = open(SEGMENTS, DOCS, 2048, KEEP)?;
    let followers = (0..number).map(|_| leader.follower()).collect::<Result<Vec<_>, _>>()?;
    let progress = Progress::default();
    let begun = Instant::now();
    let (searches, packed) = thread::scope(|scope| {
        let progress = &progress;
        let searching: Vec<_> = followers.into_iter().map(|it| scope.spawn(move || search_all(it, messages, progress))).collect();
        let added = scope.spawn(|| add_all(leader, messages, progress)).join().expect("the leader's thread");
        progress.over.store(true, SeqCst);
        let packed = added?;
        let mut searches = 0;
        for thread in searching {
            searches += thread.join().expect("a follower's thread")?;
        }
        Ok((searches, packed))
    })?;
    let seconds = begun.elapsed().as_secs_f64();
    eprintln!(
        "Rust, followers {number}: {:.0} adds a second over {} generations beside {:.0} checked searches a second, {packed} segments packed",
        messages as f64 / seconds,
        generation_of(messages) + 1,
        searches as f64 / seconds
    );
    println!("right");
    Ok(())
}
