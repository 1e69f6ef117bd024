//! An index of messages as one writes it in plain Rust: a map from words to lists of postings, on one thread, in memory that grows.
//!
//! It reads the lines that `earlybird run` reads, and prints the same answers and summary, so that both can be timed over one input.
//! Of queries it knows words, `OR` between two words, a quoted phrase and a quoted window with its reach; it refuses nothing with a
//! reason, and takes and passes over the words of its command line.
use std::collections::HashMap;
use std::fs::File;
use std::io::{self, BufRead, BufReader, BufWriter, Write};
use std::os::fd::AsFd;
use unicode_segmentation::UnicodeSegmentation;

/// Where a word stands: the document's number, and the word's place in it.
#[derive(Clone, Copy)]
struct Posting {
    document: u32,
    place: u32,
}

#[derive(Default)]
struct Index {
    ids: Vec<u64>,
    lists: HashMap<String, Vec<Posting>>,
}

/// The documents of a list before `bound`, newest first, each once.
struct Documents<'a> {
    list: &'a [Posting],
}

impl<'a> Documents<'a> {
    /// The newest document of those that are left, at most `most`.
    fn at_most(&mut self, most: u32) -> Option<u32> {
        let end = self.list.len();
        // most leaps are short: look near the end first, twice as far each time
        let mut step = 1;
        while step < end && self.list[end - step].document > most {
            step *= 2;
        }
        let from = end.saturating_sub(step);
        let left = from + self.list[from..].partition_point(|posting| posting.document <= most);
        self.list = &self.list[..left];
        self.list.last().map(|posting| posting.document)
    }

    /// The places of the word in this document, which `at_most` gave, in rising order.
    fn places(&self, document: u32) -> &'a [Posting] {
        let end = self.list.len();
        let mut from = end;
        while from > 0 && self.list[from - 1].document == document {
            from -= 1;
        }
        &self.list[from..end]
    }
}

/// Whether the words stand in this order, each right behind the one before, or all within the reach.
fn stand(lists: &[Documents], document: u32, reach: Option<u32>) -> bool {
    lists[0].places(document).iter().any(|first| {
        let mut last = first.place;
        lists[1..].iter().all(|list| {
            let next = list.places(document).iter().find(|posting| match reach {
                None => posting.place == last + 1,
                Some(_) => posting.place > last,
            });
            next.is_some_and(|posting| {
                last = posting.place;
                reach.map_or(true, |reach| last - first.place <= reach)
            })
        })
    })
}

enum Query {
    Each(Vec<String>),
    Either(Vec<String>),
    InOrder(Vec<String>, Option<u32>),
}

fn words(text: &str) -> Vec<String> {
    text.unicode_words().map(str::to_lowercase).collect()
}

fn read(text: &str) -> Query {
    if let Some(quoted) = text.strip_prefix('"') {
        let (quoted, reach) = quoted.rsplit_once('"').unwrap_or((quoted, ""));
        return Query::InOrder(words(quoted), reach.strip_prefix('~').and_then(|digits| digits.parse().ok()));
    }
    if text.contains(" OR ") {
        return Query::Either(words(&text.replace(" OR ", " ")));
    }
    Query::Each(words(text))
}

impl Index {
    fn add(&mut self, id: u64, text: &str) {
        let document = self.ids.len() as u32;
        self.ids.push(id);
        for (place, word) in text.unicode_words().enumerate() {
            let posting = Posting { document, place: place as u32 };
            self.lists.entry(word.to_lowercase()).or_default().push(posting);
        }
    }

    fn lists<'a>(&'a self, words: &[String]) -> Vec<Documents<'a>> {
        words.iter().map(|word| Documents { list: self.lists.get(word).map_or(&[], Vec::as_slice) }).collect()
    }

    /// The ids of the newest `k` documents that match, newest first.
    fn answer(&self, query: &Query, k: usize) -> Vec<u64> {
        let mut found = Vec::with_capacity(k);
        let (words, reach) = match query {
            Query::Each(words) | Query::Either(words) => (words, None),
            Query::InOrder(words, reach) => (words, *reach),
        };
        let mut lists = self.lists(words);
        let mut most = u32::MAX;
        while found.len() < k {
            let document = match query {
                Query::Either(_) => lists.iter_mut().filter_map(|list| list.at_most(most)).max(),
                _ => next_of_all(&mut lists, most),
            };
            let Some(document) = document else { break };
            if !matches!(query, Query::InOrder(..)) || stand(&lists, document, reach) {
                found.push(self.ids[document as usize]);
            }
            let Some(below) = document.checked_sub(1) else { break };
            most = below;
        }
        found
    }
}

/// The newest document, at most `most`, that is in each of the lists.
fn next_of_all(lists: &mut [Documents], most: u32) -> Option<u32> {
    let mut most = most;
    'look: loop {
        for list in lists.iter_mut() {
            let document = list.at_most(most)?;
            if document < most {
                most = document;
                if list.list.is_empty() {
                    return None;
                }
            }
        }
        for list in lists.iter_mut() {
            if list.at_most(most)? != most {
                continue 'look;
            }
        }
        return Some(most);
    }
}

fn main() -> io::Result<()> {
    let mut input = BufReader::new(io::stdin().lock());
    let mut out = BufWriter::new(File::from(io::stdout().as_fd().try_clone_to_owned()?));
    let mut index = Index::default();
    let (mut number, mut queries, mut refused) = (0u64, 0u64, 0u64);
    let mut line = String::new();
    while input.read_line(&mut line)? > 0 {
        number += 1;
        let text = line.strip_suffix('\n').unwrap_or(&line);
        if text.starts_with('{') {
            let value: Option<serde_json::Value> = serde_json::from_str(text).ok();
            match value.as_ref().and_then(|value| Some((value.get("id")?.as_u64()?, value.get("text")?.as_str()?))) {
                Some((id, text)) => index.add(id, text),
                None => {
                    refused += 1;
                    writeln!(out, "{number} refused")?;
                }
            }
        } else if let Some((k, query)) = text.strip_prefix('?').and_then(|rest| rest.split_once(' ')) {
            queries += 1;
            write!(out, "{number} seen {}:", index.ids.len())?;
            for id in index.answer(&read(query), k.parse().unwrap_or(1)) {
                write!(out, " {id}")?;
            }
            writeln!(out)?;
            // an answer is out before the next line is read where none waits
            if input.buffer().is_empty() {
                out.flush()?;
            }
        } else if !text.is_empty() {
            refused += 1;
            writeln!(out, "{number} refused")?;
        }
        line.clear();
    }
    writeln!(out, "end: documents {}, queries {queries}, refused {refused}", index.ids.len())?;
    out.flush()
}
