//! Gives the same requests to the Rust original and to the port, and compares their answers line by line. Where the Rust has
//! no such part, or more is asked than it alone can answer, the port is held to the judge's own answers.

mod compare;
mod kinds;
mod message;
mod random;
mod request;
mod route;
mod table;
mod text;
mod tree;

use std::fs::File;
use std::io::{BufRead, BufReader, BufWriter, Write};
use std::process::ExitCode;

use kinds::{Kind, KINDS};

/// Exit status 0: as it should be, or yes. 1: differences that are not listed, or no. 2: bad usage, or a program failed.
fn main() -> ExitCode {
    let words: Vec<String> = std::env::args().skip(1).collect();
    let words: Vec<&str> = words.iter().map(String::as_str).collect();
    match run(&words) {
        Ok(true) => ExitCode::SUCCESS,
        Ok(false) => ExitCode::from(1),
        Err(message) => {
            eprintln!("judge: {message}");
            ExitCode::from(2)
        }
    }
}

fn run(words: &[&str]) -> Result<bool, String> {
    match words {
        ["--questions", file] => questions(file),
        [kind, n, seed, "--emit"] => {
            let (kind, n, seed) = asked(kind, n, seed)?;
            emit((kind.cases)(n, seed).map(String::into_bytes))
        }
        [kind, "--needs-rust"] => Ok(known(kind)?.right.needs_rust()),
        [kind, "--record", requests, answers] => record(known(kind)?, requests, answers),
        [kind, n, seed, "--rust", rust, "--port", port @ ..] if !port.is_empty() => {
            let (kind, n, seed) = asked(kind, n, seed)?;
            compare::compare(kind, n, seed, rust, port)
        }
        _ => Err(usage()),
    }
}

fn usage() -> String {
    let names: Vec<&str> = KINDS.iter().map(|kind| kind.name).collect();
    format!(
        "usage:\n  \
         judge KIND N SEED --rust PROGRAM --port PROGRAM [ARG..]   compare N cases\n  \
         judge KIND N SEED --emit                                  print their request lines\n  \
         judge KIND --record REQUESTS ANSWERS                      print the answers to record, given the Rust's\n  \
         judge KIND --needs-rust                                   whether the Rust is asked\n  \
         judge --questions FILE                                    print the request lines of a file of questions\n\
         KIND is one of: {}; N is at least 1",
        names.join(" ")
    )
}

fn known(kind: &str) -> Result<&'static Kind, String> {
    KINDS.iter().find(|k| k.name == kind).ok_or_else(usage)
}

fn asked(kind: &str, n: &str, seed: &str) -> Result<(&'static Kind, usize, u64), String> {
    let n = n.parse().ok().filter(|n| *n > 0).ok_or_else(usage)?;
    Ok((known(kind)?, n, seed.parse().map_err(|_| usage())?))
}

/// Prints the questions of a file; empty lines and lines that begin with `#` are left out. A line `= TABLE` says what the
/// field `=` behind a letter stands for from there on.
fn questions(file: &str) -> Result<bool, String> {
    let text = std::fs::read_to_string(file).map_err(|e| format!("{file}: {e}"))?;
    let (mut requests, mut table) = (vec![], "=");
    for (i, line) in text.lines().enumerate() {
        if line.is_empty() || line.starts_with('#') {
            continue;
        }
        if let Some(named) = line.strip_prefix("= ") {
            table = named;
            continue;
        }
        let line = match line.split_once(" = ") {
            Some((letter, rest)) if letter.len() == 1 => format!("{letter} {table} {rest}"),
            _ => line.to_string(),
        };
        let request = request::read(&line);
        requests.push(request.ok_or_else(|| format!("{file}:{}: not a question", i + 1))?);
    }
    emit(requests.into_iter())
}

/// Prints the right answer to each line of a file of requests: the judge's, or the listed one, else the Rust's. The Rust's
/// answers stand in a file too. Where the two do not agree there is nothing to print.
fn record(kind: &Kind, requests: &str, answers: &str) -> Result<bool, String> {
    let (requests, answers) = (lines(requests)?, lines(answers)?);
    if requests.len() != answers.len() {
        return Err("there must be one answer for each request".to_string());
    }
    let mut right = vec![];
    for (request, rust) in requests.iter().zip(&answers) {
        let request = String::from_utf8_lossy(request);
        let said = kind.right.said(&request, rust);
        let answer = said.right();
        let answer =
            answer.ok_or_else(|| format!("two answers to {}", request::clear(&request)))?;
        right.push(answer.to_vec());
    }
    emit(right.into_iter())
}

fn lines(file: &str) -> Result<Vec<Vec<u8>>, String> {
    let said = |e| format!("{file}: {e}");
    let file = BufReader::new(File::open(file).map_err(said)?);
    file.split(b'\n').collect::<Result<_, _>>().map_err(said)
}

fn emit(lines: impl Iterator<Item = Vec<u8>>) -> Result<bool, String> {
    let mut out = BufWriter::new(std::io::stdout().lock());
    for mut line in lines {
        line.push(b'\n');
        out.write_all(&line).map_err(|e| e.to_string())?;
    }
    out.flush().map_err(|e| e.to_string())?;
    Ok(true)
}
