//! Reads messages and queries as `earlybird run` does, one a line, and prints the same.

use earlybird::{Index, Refusal};
use std::env;
use std::error::Error;
use std::io::{self, BufRead, BufWriter, Write};
use std::process::ExitCode;

/// A line of the input without its end, or none where it has ended.
fn next_line<'a>(input: &mut impl BufRead, line: &'a mut Vec<u8>) -> io::Result<Option<&'a [u8]>> {
    line.clear();
    if input.read_until(b'\n', line)? == 0 {
        return Ok(None);
    }
    let text = line.strip_suffix(b"\n").unwrap_or(line);
    let text = if text.len() <= 65_536 { text.strip_suffix(b"\r").unwrap_or(text) } else { text };
    Ok(Some(text))
}

/// What a line comes to: the text that it prints, if any.
fn process(index: &mut Index, line: &[u8]) -> Result<Option<String>, Refusal> {
    if line.is_empty() {
        return Ok(None);
    }
    if line[0] != b'?' {
        return index.add_line(line).map(|()| None);
    }
    let answer = index.search_line(line)?;
    let ids: String = answer.ids.iter().map(|id| format!(" {id}")).collect();
    Ok(Some(format!("seen {}:{ids}", answer.seen)))
}

fn main() -> Result<ExitCode, Box<dyn Error>> {
    let mut setting = [12, 4096, 8192];
    for (number, word) in setting.iter_mut().zip(env::args().skip(1)) {
        *number = word.parse()?;
    }
    let mut index = Index::new(setting[0], setting[1], setting[2])?;
    let (mut input, mut output) = (io::stdin().lock(), BufWriter::new(io::stdout().lock()));
    let (mut number, mut queries, mut refused, mut line) = (0u64, 0u64, 0u64, Vec::new());
    while let Some(text) = next_line(&mut input, &mut line)? {
        number += 1;
        match process(&mut index, text) {
            Ok(None) => {}
            Ok(Some(answer)) => {
                queries += 1;
                writeln!(output, "{number} {answer}")?;
            }
            Err(refusal) => {
                refused += 1;
                writeln!(output, "{number} refused: {refusal}")?;
            }
        }
    }
    writeln!(output, "end: documents {}, queries {queries}, refused {refused}", index.documents())?;
    output.flush()?;
    Ok(ExitCode::from(u8::from(refused > 0)))
}
