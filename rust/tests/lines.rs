//! The types beside the program `earlybird run`, over the same lines. EARLYBIRD names the program, else it is this checkout's; where
//! there is none, nothing is compared.

use earlybird::Index;
use std::io::Write;
use std::path::{Path, PathBuf};
use std::process::{Command, Stdio};
use std::{env, fs, io, thread};

/// The checkout that this crate stands in.
fn checkout() -> PathBuf {
    Path::new(env!("CARGO_MANIFEST_DIR")).join("..")
}

fn program() -> Option<PathBuf> {
    let beside = || Some(checkout().join("earlybird")).filter(|path| path.exists());
    env::var_os("EARLYBIRD").map(PathBuf::from).or_else(beside)
}

/// What `earlybird run` prints of these lines in an index of this setting.
fn wanted(program: &Path, text: &[u8], setting: [u32; 3]) -> io::Result<String> {
    let [segments, docs, terms] = setting.map(|number| number.to_string());
    let words = ["run", "--segments", &segments, "--docs", &docs, "--terms", &terms];
    let mut child = Command::new(program).args(words).stdin(Stdio::piped()).stdout(Stdio::piped()).spawn()?;
    let (mut input, text) = (child.stdin.take().expect("it has an input"), text.to_vec());
    let writer = thread::spawn(move || input.write_all(&text));
    let output = child.wait_with_output()?;
    writer.join().expect("the writer ends")?;
    Ok(String::from_utf8(output.stdout).expect("a text"))
}

/// The same, said by an index.
fn printed(index: &mut Index, text: &[u8]) -> String {
    let (mut out, mut queries, mut refused) = (String::new(), 0, 0);
    let lines = text.split(|&byte| byte == b'\n').enumerate().filter(|(_, line)| !line.is_empty());
    for (at, line) in lines {
        let told = if line[0] == b'?' { index.search_line(line).map(Some) } else { index.add_line(line).map(|()| None) };
        match told {
            Ok(None) => {}
            Ok(Some(answer)) => {
                queries += 1;
                let ids: String = answer.ids.iter().map(|id| format!(" {id}")).collect();
                out += &format!("{} seen {}:{ids}\n", at + 1, answer.seen);
            }
            Err(why) => {
                refused += 1;
                out += &format!("{} refused: {why}\n", at + 1);
            }
        }
    }
    out + &format!("end: documents {}, queries {queries}, refused {refused}\n", index.documents())
}

fn compare(text: &[u8], setting: [u32; 3]) {
    let Some(program) = program() else { return };
    let mut index = Index::new(setting[0], setting[1], setting[2]).expect("a setting");
    assert_eq!(wanted(&program, text, setting).expect("the program runs"), printed(&mut index, text));
}

#[test]
fn the_first_lines() {
    let Ok(text) = fs::read(checkout().join("examples/first.jsonl")) else { return };
    compare(&text, [12, 4096, 8192]);
    compare(&text, [1, 2, 1024]);
}

#[test]
fn many_lines() {
    let mut text = String::new();
    for at in 0..3000u32 {
        text += &format!("{{\"id\":{},\"text\":\"w{} w{} w{}\"}}\n", at * 7 % 1000, at % 2, at % 3, at % 5);
        text += &format!("?{} w{} OR \"w{} w{}\" -w{}\n", at % 50, at % 7, at % 2, at % 3, at % 11);
    }
    compare(text.as_bytes(), [4, 500, 1024]);
}
