//! Fields, a watch, a count and an image: what this prints is tour.txt, as the programs of the same name in the other languages do.

use earlybird::{ImageError, Index, Reading, Saving, Watches};

const LINES: [&[u8]; 3] = [
    br#"{"id":100,"text":"com.acme.billing failed","level":"error"}"#,
    br#"{"id":130,"text":"payment went through","level":"info"}"#,
    br#"{"id":160,"text":"billing failed again","level":"error"}"#,
];

/// The numbers with a blank in front of each.
fn row(numbers: impl IntoIterator<Item = u64>) -> String {
    numbers.into_iter().map(|number| format!(" {number}")).collect()
}

fn main() -> Result<(), ImageError> {
    let how = Reading::new().fields(["level"]).pieces();
    // the image keeps the messages that the index accepts
    let mut index = Saving::new(Index::with_reading(1, 1000, 1024, how.clone())?, Vec::new())?;
    let mut watches = Watches::with_reading(how.clone())?;

    // each message tells which watches it matches
    watches.set(7, "level:error billing")?;
    for (at, line) in LINES.iter().enumerate() {
        let matching = watches.tell_line(line)?;
        index.add_line(line)?;
        for number in matching {
            println!("message {at} matches watch {number}");
        }
    }

    // a word by one of its pieces, and a field
    println!("found:{}", row(index.search(10, "acme OR level:info")?));

    // how many there are, and when: the ids are times
    let count = index.histogram("level:error", 100, 60, 2)?;
    println!("errors: {}, by the minute:{}", count.total, row(count.buckets));

    // the image makes another index
    let (_, image) = index.finish()?;
    let again = Index::load(&image[..], how)?;
    println!("from the image:{}", row(again.search(10, "failed")?));
    Ok(())
}
