//! Works a line by `signalbox serve`: serve SIGNALBOX PLAN JOURNAL
//!
//! It asks for the calls of a journal, one after another, and prints the journal that comes of them; docs/EMBEDDING.md
//! has the requests and the answers. A program of more than a page takes a reader of JSON (`serde_json`) in the place
//! of `text_at`.

use std::env;
use std::fs;
use std::io::{self, BufRead, BufReader, Write};
use std::process::{Command, Stdio};

/// What stands at a key of an object in one line, without its quotes.
fn text_at<'a>(object: &'a str, key: &str) -> Option<&'a str> {
    let (_, behind) = object.split_once(&format!("\"{key}\":"))?;
    match behind.strip_prefix('"') {
        Some(text) => Some(text.split_once('"')?.0),
        None => behind.split([',', '}']).next(),
    }
}

/// The box, the moment and the call of an entry of a journal.
fn call_of(line: &str) -> Option<(&str, &str, &str)> {
    let (front, _) = line.split_once(" -> ")?;
    let mut words = front.splitn(4, ' ').skip(1);
    Some((words.next()?, words.next()?, words.next()?))
}

fn main() -> io::Result<()> {
    let words: Vec<String> = env::args().collect();
    let mut process = Command::new(&words[1])
        .args(["serve", &words[2]])
        .stdin(Stdio::piped())
        .stdout(Stdio::piped())
        .spawn()?;
    let mut requests = process.stdin.take().expect("a pipe");
    let mut answers = BufReader::new(process.stdout.take().expect("a pipe"));
    println!("journal 1");
    for (box_name, at, call) in fs::read_to_string(&words[3])?.lines().filter_map(call_of) {
        writeln!(requests, r#"{{"box":"{box_name}","at":"{at}","call":"{call}"}}"#)?;
        let mut answer = String::new();
        answers.read_line(&mut answer)?;
        let told = |key| text_at(&answer, key).unwrap_or("?");
        println!("{} {} {} {} -> {}", told("n"), told("box"), told("at"), told("call"), told("reply"));
    }
    println!("end");
    drop(requests);
    process.wait()?;
    Ok(())
}
