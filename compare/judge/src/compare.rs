//! Runs the programs on the same cases and compares each answer as it comes.

use std::io::{BufRead, BufReader, BufWriter, Write};
use std::process::{Child, ChildStdin, ChildStdout, Command, Stdio};
use std::thread;

use crate::kinds::{Kind, Said};
use crate::request::clear;

/// So many differences that are not listed are shown.
const SHOWN: usize = 10;

/// So many characters of a line are shown.
const WIDTH: usize = 2_000;

/// Whether the port gives the right answer in every case. The Rust is started only where it is needed.
pub fn compare(
    kind: &Kind,
    n: usize,
    seed: u64,
    rust: &str,
    port: &[&str],
) -> Result<bool, String> {
    let mut for_rust = (kind.cases)(n, seed);
    let mut for_port = (kind.cases)(n, seed);
    let mut asked = (kind.cases)(n, seed);
    let mut tally = Tally {
        kind,
        n,
        done: 0,
        differ: 0,
        listed: 0,
        entries: vec![],
    };
    let share = kind.restart.unwrap_or(n);
    for _ in (0..n).step_by(share) {
        let for_rust = for_rust.by_ref().take(share);
        let for_port = for_port.by_ref().take(share);
        // Each program is fed by a thread of its own, so that neither can keep the other waiting.
        thread::scope(|scope| {
            let mut port = Side::start("the port", port)?;
            let to_port = port.questions();
            scope.spawn(move || feed(to_port, for_port));
            let mut rust = match kind.right.needs_rust() {
                true => Some(Side::start("the Rust original", &[rust])?),
                false => None,
            };
            if let Some(rust) = &mut rust {
                let to_rust = rust.questions();
                scope.spawn(move || feed(to_rust, for_rust));
            }
            for request in asked.by_ref().take(share) {
                let case = tally.done + 1;
                let answer = match &mut rust {
                    Some(rust) => rust.answer(case)?,
                    None => b"",
                };
                let said = kind.right.said(&request, answer);
                tally.count(&request, &said, port.answer(case)?);
            }
            if let Some(rust) = &mut rust {
                rust.finish()?;
            }
            port.finish()
        })?;
    }
    if tally.done < n {
        return Err(format!("{} has only {} cases", kind.name, tally.done));
    }
    for (entry, count) in &tally.entries {
        println!("{count} as listed: {entry}");
    }
    println!(
        "{}: {n} cases, {} differ, {} as listed",
        kind.name, tally.differ, tally.listed
    );
    Ok(tally.differ == tally.listed)
}

/// Gives the requests to a program. That it stopped reading is noticed where its answers are read.
fn feed(questions: ChildStdin, requests: impl Iterator<Item = String>) {
    let mut questions = BufWriter::with_capacity(1 << 16, questions);
    for request in requests {
        if writeln!(questions, "{request}").is_err() {
            return;
        }
    }
}

/// A program, running.
struct Side {
    who: &'static str,
    child: Child,
    answers: BufReader<ChildStdout>,
    line: Vec<u8>,
}

impl Side {
    fn start(who: &'static str, words: &[&str]) -> Result<Self, String> {
        let mut child = Command::new(words[0])
            .args(&words[1..])
            .stdin(Stdio::piped())
            .stdout(Stdio::piped())
            .spawn()
            .map_err(|e| format!("cannot start {who}, {}: {e}", words[0]))?;
        let answers = BufReader::with_capacity(1 << 16, child.stdout.take().expect("a pipe"));
        Ok(Side {
            who,
            child,
            answers,
            line: vec![],
        })
    }

    fn questions(&mut self) -> ChildStdin {
        self.child.stdin.take().expect("a pipe")
    }

    /// The next line that it wrote, without its newline.
    fn answer(&mut self, case: usize) -> Result<&[u8], String> {
        self.read()?;
        match self.line.pop() {
            Some(b'\n') => Ok(&self.line),
            _ => {
                let status = self.wait()?;
                Err(format!(
                    "{} gave no whole answer to case {case}: it ended with {status}",
                    self.who
                ))
            }
        }
    }

    /// It must end well after its last answer.
    fn finish(&mut self) -> Result<(), String> {
        self.read()?;
        if !self.line.is_empty() {
            return Err(format!(
                "{} wrote more lines than it was asked for",
                self.who
            ));
        }
        match self.wait()? {
            status if status.success() => Ok(()),
            status => Err(format!(
                "{} answered every line, but ended with {status}",
                self.who
            )),
        }
    }

    fn read(&mut self) -> Result<(), String> {
        self.line.clear();
        self.answers
            .read_until(b'\n', &mut self.line)
            .map_err(|e| format!("cannot read from {}: {e}", self.who))?;
        Ok(())
    }

    fn wait(&mut self) -> Result<std::process::ExitStatus, String> {
        self.child
            .wait()
            .map_err(|e| format!("cannot wait for {}: {e}", self.who))
    }
}

/// A program that is still running when the comparison is given up is ended.
impl Drop for Side {
    fn drop(&mut self) {
        let _ = self.child.kill();
        let _ = self.child.wait();
    }
}

struct Tally<'a> {
    kind: &'a Kind,
    n: usize,
    done: usize,
    differ: usize,
    listed: usize,
    /// The listed entries that were met, and how often each.
    entries: Vec<(&'static str, usize)>,
}

impl Tally<'_> {
    /// What the port says is held to what the Rust and the judge say, or to what is listed.
    fn count(&mut self, request: &str, said: &Said, port: &[u8]) {
        self.done += 1;
        let right = said.right() == Some(port);
        if !right || said.rust.is_some_and(|rust| rust != port) {
            self.differ += 1;
            match &said.listed {
                Some((entry, _)) if right => {
                    self.listed += 1;
                    match self.entries.iter_mut().find(|(met, _)| met == entry) {
                        Some((_, count)) => *count += 1,
                        None => {
                            self.entries.push((*entry, 1));
                            self.show(&format!("differs as listed: {entry}"), request, said, port);
                        }
                    }
                }
                _ if self.differ - self.listed > SHOWN => {}
                Some((entry, answer)) => {
                    self.show(&format!("is not as listed: {entry}"), request, said, port);
                    println!("  listed   {}", cut(answer));
                }
                None => self.show("differs", request, said, port),
            }
        }
        if self.done % (self.n / 20).max(1) == 0 {
            eprintln!(
                "{}: {} of {}, {} differ",
                self.kind.name, self.done, self.n, self.differ
            );
        }
    }

    fn show(&self, how: &str, request: &str, said: &Said, port: &[u8]) {
        println!("case {} {how}", self.done);
        println!("  input    {}", cut(&clear(request)));
        println!("  request  {}", cut(request));
        if let Some(rust) = said.rust {
            println!("  rust     {}", cut(&rust.escape_ascii().to_string()));
        }
        if let Some(judge) = &said.judge {
            println!("  judge    {}", cut(judge));
        }
        println!("  port     {}", cut(&port.escape_ascii().to_string()));
    }
}

fn cut(line: &str) -> String {
    match line.char_indices().nth(WIDTH) {
        Some((end, _)) => format!("{}.. ({} bytes in all)", &line[..end], line.len()),
        None => line.to_string(),
    }
}
