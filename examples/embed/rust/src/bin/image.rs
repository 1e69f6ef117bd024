//! Writes an image of messages as it adds them, and loads one again:
//!
//!     image save FILE SEGMENTS DOCS TERMS < messages
//!     image load FILE < queries
//!
//! FILE is what `earlybird save` writes, and `load` prints what `earlybird load` prints, with the same statuses. The image is written beside
//! FILE and then renamed, so that who reads it never finds half of one.

use earlybird::{ImageError, Index, Reading, Saving};
use std::env;
use std::error::Error;
use std::fs::{self, File};
use std::io::{self, BufRead, BufWriter};
use std::process::ExitCode;

/// The lines of the input without their ends.
fn lines() -> impl Iterator<Item = io::Result<Vec<u8>>> {
    io::stdin().lock().split(b'\n').map(|line| {
        let mut line = line?;
        if line.len() <= 65_536 && line.ends_with(b"\r") {
            line.pop();
        }
        Ok(line)
    })
}

fn save(path: &str, setting: [u32; 3]) -> Result<u8, Box<dyn Error>> {
    let [segments, docs, terms] = setting;
    let beside = format!("{path}.new");
    let mut saving = Saving::new(Index::new(segments, docs, terms)?, BufWriter::new(File::create(&beside)?))?;
    let mut refused = 0;
    for line in lines() {
        let line = line?;
        if line.is_empty() {
            continue;
        }
        match saving.add_line(&line) {
            Ok(()) => {}
            Err(ImageError::Refused(_)) => refused = 1,
            Err(why) => return Err(why.into()),
        }
    }
    let (_, file) = saving.finish()?;
    file.get_ref().sync_all()?;
    fs::rename(&beside, path)?;
    Ok(refused)
}

fn load(path: &str) -> Result<u8, Box<dyn Error>> {
    let index = match Index::load(File::open(path)?, Reading::new()) {
        Ok(index) => index,
        Err(why @ ImageError::BadImage { .. }) => {
            eprintln!("image: {why}");
            return Ok(7);
        }
        Err(why) => return Err(why.into()),
    };
    let (mut queries, mut refused) = (0, 0);
    for (number, line) in (1..).zip(lines()) {
        let line = line?;
        if line.is_empty() {
            continue;
        }
        match index.search_line(&line) {
            Ok(answer) => {
                queries += 1;
                let ids: String = answer.ids.iter().map(|id| format!(" {id}")).collect();
                println!("{number} seen {}:{ids}", answer.seen);
            }
            Err(refusal) => {
                refused += 1;
                println!("{number} refused: {refusal}");
            }
        }
    }
    println!("end: documents {}, queries {queries}, refused {refused}", index.documents());
    Ok(u8::from(refused > 0))
}

fn main() -> Result<ExitCode, Box<dyn Error>> {
    let words: Vec<String> = env::args().skip(1).collect();
    let words: Vec<&str> = words.iter().map(String::as_str).collect();
    let status = match words[..] {
        ["save", path, segments, docs, terms] => save(path, [segments.parse()?, docs.parse()?, terms.parse()?])?,
        ["load", path] => load(path)?,
        _ => return Err("image save FILE SEGMENTS DOCS TERMS, or image load FILE".into()),
    };
    Ok(ExitCode::from(status))
}
