//! Headers alone: `A words/names start text`, answered by what the text is as one header from the branch of that number,
//! `command N event|query branch B` or `refused X`.

use std::ops::RangeInclusive;
use std::sync::Arc;

use super::tables::{damage, greatest};
use super::{mixed, Cases, Judged, Right};
use crate::random::Random;
use crate::request::{clear_table, hex, number, table, table_field, unhex};
use crate::table::Table;
use crate::text::{self, begun, changed, random_text, recased, spelled, ALL, LONGEST};
use crate::tree::{accepted, all_trees, one_of_each, COMMANDCHECK};

pub const RIGHT: Right = Right::Both {
    judge: answer,
    port_only,
};

/// The Rust original keeps every table that it was given.
pub const RESTART: Option<usize> = Some(100_000);

fn answer(request: &str) -> Judged {
    let entry = None;
    let answer = match asked(request).map(|(table, start, text)| table.resolve(start, &text)) {
        None => "request?".to_string(),
        Some(Err(number)) => format!("refused {number}"),
        Some(Ok(found)) => {
            let form = if found.query { "query" } else { "event" };
            format!("command {} {form} branch {}", found.command, found.kept)
        }
    };
    Judged { answer, entry }
}

fn asked(request: &str) -> Option<(Table, u64, Vec<u8>)> {
    let fields: Vec<&str> = request.split_ascii_whitespace().collect();
    let ["A", nodes, start, text] = fields[..] else {
        return None;
    };
    Some((table(nodes)?, number(start)?, unhex(text.as_bytes())?))
}

/// The Rust has no check of the table, the start and the length. Their refusals have the numbers above 0.
fn port_only(answer: &str) -> bool {
    let refused = answer.strip_prefix("refused ");
    refused.is_some_and(|number| !number.starts_with('-'))
}

struct Case {
    /// As the request has it.
    table: Arc<str>,
    start: usize,
    text: Vec<u8>,
}

pub fn cases(n: usize, seed: u64) -> Cases {
    let line = |case: Case| format!("A {} {} {}", case.table, case.start, hex(&case.text));
    mixed(n, seed, short, random, made, line)
}

/// What a header of the program commandcheck can have in it.
const PIECES: [&[u8]; 24] = [
    b"*IDN",
    b"ROUT",
    b"SENSe",
    b"abor",
    b"CLOS",
    b"VOLTAGE1",
    b"DC",
    b"AC2",
    b"X",
    b"ABCDEFGHIJKLM",
    b":",
    b"?",
    b"*",
    b";",
    b" ",
    b"\n",
    b",",
    b"\"",
    b"#",
    b"(",
    b")",
    b"1",
    b"_",
    b"\xc8",
];

/// The words of that program, but for the star.
const WORDS: [&[u8]; 9] = [
    b"rout", b"SENSE", b"Abort", b"CLOS", b"OPEN1", b"VOLT", b"curr", b"DC1", b"AC2",
];

/// Texts that are asked from every node, and from beyond.
const AT_ALL: [&[u8]; 6] = [b"ABOR", b":CURR?", b"*IDN", b"CLOS", b"", b"$"];

/// A small table with a star, defaults in defaults and names with numbers: `*A`, `B`, and default `A1` with `A2` and default
/// `C` with `AB` and default `D`.
const SMALL: &str = r#"{b 0 0 1 3},{l 2 0 1},{l 1 2 2},{bd 2 3 4 2},{l 2 5 3},{bd 1 7 6 2},{l 2 8 4},{ld 1 10 5}/"*ABA1A2CABD""#;

/// Good headers of the program commandcheck, each from a branch.
const SAMPLES: [(usize, &[u8]); 6] = [
    (0, b"VOLT"),
    (2, b":VOLT:AC2?"),
    (2, b"CLOS1\n"),
    (3, b"ROUT:OPEN"),
    (7, b"*IDN?"),
    (7, b"DC"),
];

/// First the shortest texts over the pieces; then every accepted tree of at most 4 nodes; then the rest.
fn short() -> impl Iterator<Item = Case> + Send {
    let checked = clear_table(COMMANDCHECK);
    let commandcheck = |starts: &[usize], texts: Make| each(&checked, starts, texts);
    let branches = [0, 2, 3, 7];
    let nodes: Vec<_> = (0..14).collect();
    let samples = SAMPLES.into_iter().flat_map(move |(start, sample)| {
        let texts = move || -> Texts { Box::new(changed(sample)) };
        each(&clear_table(COMMANDCHECK), &[start], texts)
    });
    let small: Make = || Box::new(begun(b"", b"AB2:?* \n", 4));
    commandcheck(&branches, || joined(&PIECES, 0..=2))
        .chain(commandcheck(&nodes, || joined(&AT_ALL, 1..=1)))
        .chain((1..=4).flat_map(all_headers))
        .chain(samples)
        .chain(commandcheck(&branches, || headers(&WORDS, 3)))
        .chain(each(&clear_table(SMALL), &[0, 3, 5], small))
        .chain(commandcheck(&branches, || joined(&PIECES, 3..=3)))
}

pub type Texts = Box<dyn Iterator<Item = Vec<u8>> + Send>;

pub type Make = fn() -> Texts;

/// Each text from each of the starts.
fn each(
    table: &Table,
    starts: &[usize],
    texts: impl Fn() -> Texts + Send,
) -> impl Iterator<Item = Case> + Send {
    let table: Arc<str> = table_field(table).into();
    starts.to_vec().into_iter().flat_map(move |start| {
        let table = table.clone();
        texts().map(move |text| Case {
            table: table.clone(),
            start,
            text,
        })
    })
}

/// All texts of so many pieces.
pub fn joined(pieces: &'static [&'static [u8]], lengths: RangeInclusive<usize>) -> Texts {
    let lists = lengths.flat_map(|length| one_of_each(vec![pieces.to_vec(); length]));
    Box::new(lists.map(|pieces| pieces.concat()))
}

/// All headers of at most that many of the words, with and without a leading `:`.
fn headers(words: &'static [&'static [u8]], most: usize) -> Texts {
    let lists = (0..=most).flat_map(|length| one_of_each(vec![words.to_vec(); length]));
    Box::new(lists.flat_map(|words| {
        let header = words.join(&b':');
        [[b":", &header[..]].concat(), header]
    }))
}

/// Every accepted tree of that many nodes, from every branch, with every header of as many words as the tree is deep, or
/// fewer. Names of the same pattern are taken once: `A` comes first, and `B` before `C`.
fn all_headers(size: usize) -> impl Iterator<Item = Case> + Send {
    let accepted = all_trees(size).filter(|table| table.fault().is_none() && is_first(table));
    accepted.flat_map(|mut table| {
        let mut depths = vec![0; table.nodes.len()];
        for i in 0..table.nodes.len() {
            let node = &mut table.nodes[i];
            if node.branch {
                let below = depths[i] + 1;
                depths[node.children()].fill(below);
            } else {
                node.first_child = i;
            }
        }
        let deepest = depths.into_iter().max().unwrap_or_default();
        let texts = move || headers(&[b"A", b"B", b"C"], deepest);
        each(&table, &branches(&table), texts)
    })
}

fn is_first(table: &Table) -> bool {
    let mut next = 0;
    table.nodes.iter().skip(1).all(|node| {
        let known = node.name_start <= next;
        next = next.max(node.name_start + 1);
        known
    })
}

pub fn branches(table: &Table) -> Vec<usize> {
    let all = 0..table.nodes.len();
    all.filter(|i| table.nodes[*i].branch).collect()
}

/// One case in so many has a text of the greatest length.
pub const LONGEST_ONE_IN: usize = 1_024;

/// One case in so many has a table of the greatest size.
const GREATEST_ONE_IN: usize = 8_192;

/// A good header for an accepted table, but for a few.
fn random(random: &mut Random, i: usize) -> Case {
    let mut table = any_table(random, i);
    let (mut start, mut text) = routed(random, &table);
    match random.below(32) {
        0 | 1 => text = any_text(random),
        2 | 3 => text = any_words(random, &table),
        _ => {}
    }
    let mut rare = 24;
    if i % LONGEST_ONE_IN == 512 {
        text = longest(random, text);
        rare = 3;
    }
    spoiled(random, rare, &mut table, &mut start);
    Case {
        table: table_field(&table).into(),
        start,
        text,
    }
}

/// Now and then damages the table, or starts at any node or at what is none.
pub fn spoiled(random: &mut Random, rare: usize, table: &mut Table, start: &mut usize) {
    if random.one_in(rare) {
        damage(random, table);
    }
    if random.one_in(rare) {
        *start = any_start(random, table.nodes.len());
    }
}

/// A node, or what is none in a table of that size.
fn any_start(random: &mut Random, size: usize) -> usize {
    let other = random.below(size + 1);
    random.pick(&[other, other, other, size, size + 1, 4_096, 65_536, 1 << 32])
}

/// A good header with a fault or two. Two in five have none.
fn made(random: &mut Random, i: usize) -> Case {
    let table = any_table(random, i);
    let (mut start, mut text) = routed(random, &table);
    for _ in 0..random.pick(&[0, 0, 1, 1, 2]) {
        text = faulty(random, text);
    }
    if i % LONGEST_ONE_IN == 512 {
        text = longest(random, text);
    }
    if random.one_in(12) {
        start = random.pick(&branches(&table));
    }
    Case {
        table: table_field(&table).into(),
        start,
        text,
    }
}

pub fn any_table(random: &mut Random, i: usize) -> Table {
    if i % GREATEST_ONE_IN == 0 {
        let size = random.pick(&[4_096, 4_096, 4_096, 4_097]);
        return greatest(random, size);
    }
    let most = if random.one_in(16) { 60 } else { 14 };
    let size = 2 + random.below(most);
    accepted(random, size)
}

/// A branch, and a header that resolves from there: the way to a leaf, on which default nodes may be left out.
fn routed(random: &mut Random, table: &Table) -> (usize, Vec<u8>) {
    let nodes = &table.nodes;
    let branches = branches(table);
    let any_branch = random.pick(&branches);
    let leaves: Vec<_> = (0..nodes.len()).filter(|i| !nodes[*i].branch).collect();
    if leaves.is_empty() {
        return (any_branch, any_text(random));
    }
    let mut parents = vec![0; nodes.len()];
    for branch in &branches {
        parents[nodes[*branch].children()].fill(*branch);
    }
    let leaf = random.pick(&leaves);
    let name = |node: usize| table.name(node).unwrap_or_default();
    let star = name(leaf).starts_with(b"*");
    let colon = !star && random.one_in(4);
    let mut path = vec![leaf];
    let mut start = parents[leaf];
    let stops_one_in = random.pick(&[2, 3, 4, 100_000]);
    while start != 0 && (colon || !random.one_in(stops_one_in)) {
        path.insert(0, start);
        start = parents[start];
    }
    // Where all could be left out, one is said, but for a lone `:`.
    let must_say = path.iter().all(|i| nodes[*i].default) && !(colon && random.one_in(2));
    let one = random.pick(&path);
    path.retain(|i| !nodes[*i].default || (must_say && *i == one) || random.one_in(2));
    let words: Vec<_> = path.iter().map(|i| spelled(random, name(*i))).collect();
    let mut text = [if colon { &b":"[..] } else { b"" }, &words.join(&b':')].concat();
    // A lone `:` has nothing behind it.
    if !words.is_empty() && random.one_in(3) {
        text.push(b'?');
    }
    if !words.is_empty() && random.one_in(16) {
        text.push(b'\n');
    }
    (if star || colon { any_branch } else { start }, text)
}

/// Bytes of every kind that a header tells apart.
pub const BYTES: &[u8] = b"Ab1_*:?; \n,\"#(\x00\xc8";

const POOLS: [&[u8]; 5] = [BYTES, &ALL, b"AB12:", b"A:?\n ", b"*(1) ,;\""];

pub fn any_text(random: &mut Random) -> Vec<u8> {
    let pool = random.pick(&POOLS);
    let length = random.below(10);
    random_text(random, pool, length)
}

/// One to three names of the table, which need be no route.
fn any_words(random: &mut Random, table: &Table) -> Vec<u8> {
    let words: Vec<_> = (0..1 + random.below(3))
        .map(|_| {
            let node = random.below(table.nodes.len());
            spelled(random, table.name(node).unwrap_or_default())
        })
        .collect();
    words.join(&b':')
}

/// The header with one fault, or what looks like one.
pub fn faulty(random: &mut Random, mut text: Vec<u8>) -> Vec<u8> {
    let place = random.below(text.len() + 1);
    let colons = (0..text.len()).filter(|i| text[*i] == b':');
    let colons: Vec<_> = colons.collect();
    let colon = colons.get(random.below(colons.len().max(1)));
    match (random.below(14), colon) {
        (0, Some(colon)) => drop(text.remove(*colon)),
        (1, Some(colon)) => text.insert(*colon, b':'),
        (2, Some(colon)) => text[*colon] = random.pick(b"*?; _"),
        (3, _) => text.push(b':'),
        (4, _) if text.starts_with(b":") => drop(text.remove(0)),
        (4, _) => text.insert(0, b':'),
        (5, _) => text.insert(place, b'?'),
        (6, _) => text.insert(place, random.pick(b" \t\n\x0c\r\x0b")),
        (7, _) => lengthen(random, &mut text),
        (8, _) => text.extend(random.pick(&BEHIND)),
        (9, _) => text = [&text[..place], random.pick(&BEHIND)].concat(),
        (10, _) if text.len() >= 2 => {
            let other = random.below(text.len());
            text.swap(place % (other + 1), other);
        }
        _ => text = text::damaged(random, BYTES, text),
    }
    text
}

/// What can stand behind a header, or in its stead.
const BEHIND: [&[u8]; 24] = [
    b" ",
    b"\n",
    b"\n\n",
    b" \n",
    b";",
    b"; \n",
    b";A",
    b" ;",
    b"? ",
    b"?\n",
    b"?;",
    b" 1",
    b" 1,,",
    b" (@1)",
    b"(@1)",
    b"(@1) ;",
    b"(@1)x",
    b"(@1",
    b"(\"",
    b"*A",
    b"*ABCDEFGHIJKL",
    b":ABCDEFGHIJKLM",
    b"#11a",
    b"'a'",
];

/// Makes a word one of 11 to 14 bytes.
fn lengthen(random: &mut Random, text: &mut Vec<u8>) {
    let words: Vec<&[u8]> = text.split(|b| *b == b':').collect();
    let one = random.below(words.len());
    let wanted = random.pick(&[11, 12, 12, 13, 13, 14]);
    let missing = wanted - words[one].len().min(wanted);
    let place = words[..=one].iter().map(|word| word.len() + 1).sum::<usize>() - 1;
    let letters = random_text(random, b"ABCZ", missing);
    let letters = recased(random, letters);
    text.splice(place..place, letters);
}

/// The text repeated, or followed by one byte, up to a length around the limit.
fn longest(random: &mut Random, text: Vec<u8>) -> Vec<u8> {
    let length = random.pick(&[LONGEST - 1, LONGEST, LONGEST, LONGEST + 1, LONGEST + 1, LONGEST + 2]);
    let more = match random.below(4) {
        0 => b" ".to_vec(),
        1 => b"\n".to_vec(),
        2 => [b":", &text[..]].concat(),
        _ => random_text(random, BYTES, 1),
    };
    let mut long = text;
    while long.len() < length {
        long.extend(&more);
    }
    long.truncate(length);
    long
}
