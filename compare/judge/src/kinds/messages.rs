//! Messages: `S words/names start text` and `W words/names start slots text`, answered by the units of the text from the branch
//! of that number, `unit N event|query items I branch B`, up to `end N` or `refused X N`.

use std::sync::Arc;

use super::alone::{
    any_table, any_text, branches, faulty, joined, spoiled, Make, Texts, BYTES, LONGEST_ONE_IN,
};
use super::tokens::{data, endless_block, white};
use super::{mixed, Cases, Judged, Right};
use crate::random::Random;
use crate::request::{clear_table, hex, number, table, table_field, unhex};
use crate::table::Table;
use crate::text::{begun, changed, damaged, spelled, LONGEST};
use crate::tree::{one_of_each, COMMANDCHECK};

pub const RIGHT: Right = Right::Both {
    judge: answer,
    port_only,
};

/// The Rust original keeps every table that it was given.
pub const RESTART: Option<usize> = Some(100_000);

/// So many slots there are at most, and for `S`.
const SLOTS: usize = 32_768;

fn answer(request: &str) -> Judged {
    let Some((table, start, slots, text)) = asked(request) else {
        return Judged {
            answer: "request?".to_string(),
            entry: None,
        };
    };
    let (units, refusal) = table.units(start, slots, &text);
    let mut parts = vec![];
    for unit in &units {
        let found = &unit.found;
        let form = if found.query { "query" } else { "event" };
        parts.push(format!(
            "unit {} {form} items {} branch {}",
            found.command, unit.items, found.kept
        ));
    }
    parts.push(match &refusal {
        None => format!("end {}", units.len()),
        Some(refusal) => format!("refused {} {}", refusal.number, units.len()),
    });
    Judged {
        answer: parts.join(" | "),
        entry: refusal.and_then(|refusal| refusal.entry),
    }
}

fn asked(request: &str) -> Option<(Table, u64, usize, Vec<u8>)> {
    let fields: Vec<&str> = request.split_ascii_whitespace().collect();
    let (nodes, start, slots, text) = match fields[..] {
        ["S", nodes, start, text] => (nodes, start, SLOTS, text),
        ["W", nodes, start, slots, text] => {
            let slots = usize::try_from(number(slots)?).ok()?;
            (nodes, start, slots, text)
        }
        _ => return None,
    };
    let text = unhex(text.as_bytes())?;
    (slots <= SLOTS).then_some((table(nodes)?, number(start)?, slots, text))
}

/// The Rust has no check of the table, the start and the length. Their refusals have the numbers above 0, but for 8.
fn port_only(answer: &str) -> bool {
    let refused = answer.strip_prefix("refused ");
    refused.is_some_and(|number| !number.starts_with(['-', '8']))
}

struct Case {
    /// As the request has it.
    table: Arc<str>,
    start: usize,
    /// None for `S`.
    slots: Option<usize>,
    text: Vec<u8>,
}

pub fn cases(n: usize, seed: u64) -> Cases {
    let line = |case: Case| {
        let (table, start, text) = (case.table, case.start, hex(&case.text));
        match case.slots {
            None => format!("S {table} {start} {text}"),
            Some(slots) => format!("W {table} {start} {slots} {text}"),
        }
    };
    mixed(n, seed, short, random, made, line)
}

/// What a message of the program commandcheck can have in it.
const PIECES: [&[u8]; 20] = [
    b"ABOR",
    b"rout:clos",
    b"VOLT",
    b"AC2",
    b"*IDN?",
    b";",
    b":",
    b"?",
    b" ",
    b"\n",
    b",",
    b"1",
    b"(1)",
    b"'a'",
    b"\"",
    b"#HG",
    b"#11,",
    b"#0",
    b"$",
    b"\xc8",
];

/// Units of that program; that one is good depends on the branch kept.
const UNITS: [&[u8]; 14] = [
    b"ABOR",
    b"ROUT:CLOS (@1!2)",
    b"OPEN 1,2",
    b"VOLT?",
    b"VOLT:DC 1V",
    b"AC2 a,\"b;\"",
    b":CURR",
    b"*IDN?",
    b"*idn 1 , 2",
    b":VOLT:AC2 #12;;",
    b"SENS",
    b"",
    b"ABOR ,",
    b"ABOR #H,",
];

/// Good messages of that program, each from a branch.
const SAMPLES: [(usize, &[u8]); 7] = [
    (0, b"ABOR;*IDN?"),
    (0, b"ROUT:CLOS (@1);OPEN 1 ,2;"),
    (2, b"OPEN;:VOLT:DC;AC2\n"),
    (2, b"*IDN? 1;CLOS\n;OPEN"),
    (0, b"ABOR 'a;',#HF,1.5E2V"),
    (0, b"abor #12;, ,x;abor"),
    (7, b"DC? ;AC2 #0;\n"),
];

/// Texts that are asked from every node, and from beyond.
const AT_ALL: [&[u8]; 5] = [b"CLOS;OPEN", b":CURR?;VOLT", b"*IDN;AC2", b"", b"$"];

/// First few pieces from the root; then few slots; then the rest.
fn short() -> impl Iterator<Item = Case> + Send {
    let all: &[_] = &[None];
    let few: &[_] = &[Some(0), Some(1), Some(2), Some(3), None];
    let samples = SAMPLES.into_iter().flat_map(|(start, sample)| {
        let texts = move || -> Texts { Box::new(changed(sample)) };
        each(&[start], &[None, Some(1)], texts)
    });
    let nodes: Vec<_> = (0..14).collect();
    let separators: Make = || Box::new(begun(b"ABOR", b"; \n:?,1", 5));
    each(&[0], all, || joined(&PIECES, 0..=2))
        .chain(each(&nodes, few, || joined(&AT_ALL, 1..=1)))
        .chain(each(&[0, 2], few, || units(1..=2)))
        .chain(samples)
        .chain(each(&[0], all, separators))
        .chain(each(&[0], few, || units(3..=3)))
        .chain(each(&[2, 7], all, || joined(&PIECES, 1..=3)))
        .chain(each(&[0], all, || joined(&PIECES, 3..=4)))
}

/// Each text with each number of slots from each of the starts, in the table of commandcheck.
fn each(
    starts: &[usize],
    slots: &[Option<usize>],
    texts: impl Fn() -> Texts + Send,
) -> impl Iterator<Item = Case> + Send {
    let table: Arc<str> = table_field(&clear_table(COMMANDCHECK)).into();
    let ways = starts
        .iter()
        .flat_map(|start| slots.iter().map(|slots| (*start, *slots)));
    let ways: Vec<_> = ways.collect();
    ways.into_iter().flat_map(move |(start, slots)| {
        let table = table.clone();
        texts().map(move |text| Case {
            table: table.clone(),
            start,
            slots,
            text,
        })
    })
}

/// All messages of so many of the units.
fn units(lengths: std::ops::RangeInclusive<usize>) -> Texts {
    let lists = lengths.flat_map(|length| one_of_each(vec![UNITS.to_vec(); length]));
    Box::new(lists.map(|units| units.join(&b';')))
}

/// One case in so many has as many units as there can be.
const FULLEST_ONE_IN: usize = 8_192;

/// A good message for an accepted table, but for a few.
fn random(random: &mut Random, i: usize) -> Case {
    if i % FULLEST_ONE_IN == 4_096 {
        return fullest(random);
    }
    let mut table = any_table(random, i);
    let mut start = random.pick(&branches(&table));
    let most = random.pick(&[1, 2, 3, 5, 9]);
    let mut text = message(random, &table, start, most);
    if random.one_in(32) {
        text = any_text(random);
    }
    let mut rare = 24;
    if i % LONGEST_ONE_IN == 512 {
        text = longest(random, &table, start, text);
        rare = 4;
    }
    spoiled(random, rare, &mut table, &mut start);
    Case {
        table: table_field(&table).into(),
        start,
        slots: slots(random, &text),
        text,
    }
}

/// A good message with a fault or two. One in three has none.
fn made(random: &mut Random, i: usize) -> Case {
    let table = any_table(random, i);
    let start = random.pick(&branches(&table));
    let most = random.pick(&[1, 2, 3, 5]);
    let mut text = message(random, &table, start, most);
    for _ in 0..random.below(3) {
        text = match random.below(3) {
            0 => faulty(random, text),
            1 => damaged(random, BYTES, text),
            _ => torn(random, text),
        };
    }
    if i % LONGEST_ONE_IN == 512 {
        text = longest(random, &table, start, text);
    }
    Case {
        table: table_field(&table).into(),
        start,
        slots: slots(random, &text),
        text,
    }
}

/// All slots, or about as many as there are units, or any other number.
fn slots(random: &mut Random, text: &[u8]) -> Option<usize> {
    let units = 1 + text.iter().filter(|b| **b == b';').count();
    match random.below(8) {
        0..=3 => None,
        4 => Some(random.below(4)),
        5 | 6 => Some((units + 1 - random.below(3).min(units)).min(SLOTS)),
        _ => {
            let any = random.below(SLOTS);
            Some(random.pick(&[SLOTS, SLOTS - 1, any]))
        }
    }
}

/// From one to that many units, each from the branch that the one before keeps.
fn message(random: &mut Random, table: &Table, start: usize, most: usize) -> Vec<u8> {
    let leads = leads(table);
    let (mut text, mut kept) = (vec![], start);
    let mut joint = b' ';
    for _ in 0..1 + random.below(most) {
        if !text.is_empty() {
            text.push(b';');
            text.extend(white(random));
        }
        let header = header(random, table, &leads, &mut kept);
        let lone = header == b":";
        text.extend(header);
        // Behind a lone `:` comes nothing.
        if lone {
            return text;
        }
        if random.one_in(3) {
            text.push(b'?');
        }
        joint = b' ';
        match random.below(6) {
            0 | 1 => {
                text.push(random.pick(b"\t\x0c\r "));
                text.extend(white(random));
                text.extend(data(random));
                if random.one_in(24) {
                    text.push(b',');
                    text.extend(random.pick(&ODD));
                }
                joint = b',';
            }
            2 => text.push(random.pick(b"\t\x0c\r ")),
            _ => {}
        }
    }
    match random.below(12) {
        0 | 1 => text.push(b'\n'),
        2 | 3 => text.push(b';'),
        4 => {
            text.push(joint);
            text.extend(endless_block(random));
        }
        5 => text.extend([b";", &white(random)[..]].concat()),
        _ => {}
    }
    text
}

/// Data that look like numbers or blocks and are none, and some that are.
const ODD: [&[u8]; 16] = [
    b"#", b"#H", b"#HG", b"#B2", b"#Q8 ", b"#H+0", b"#h-1", b"#B+2", b"#Q+7,1", b"#2+0", b"#2+1a",
    b"#2-0", b"#30+0", b"#1", b"#0", b"#H0F",
];

/// Of each node whether it is a leaf without a star, or has one below it.
fn leads(table: &Table) -> Vec<bool> {
    let nodes = &table.nodes;
    let mut leads = vec![false; nodes.len()];
    for i in (0..nodes.len()).rev() {
        leads[i] = match nodes[i].branch {
            true => nodes[i].children().any(|child| leads[child]),
            false => !table.name(i).unwrap_or_default().starts_with(b"*"),
        };
    }
    leads
}

/// A header that resolves from the branch, where there is one; the branch is then that which is kept.
fn header(random: &mut Random, table: &Table, leads: &[bool], kept: &mut usize) -> Vec<u8> {
    let nodes = &table.nodes;
    let name = |node: usize| table.name(node).unwrap_or_default();
    let stars = nodes[0].children().filter(|i| name(*i).starts_with(b"*"));
    let stars: Vec<_> = stars.collect();
    if !stars.is_empty() && (!leads[0] || random.one_in(5)) {
        let star = random.pick(&stars);
        return spelled(random, name(star));
    }
    let colon = !leads[*kept] || random.one_in(4);
    let mut node = if colon { 0 } else { *kept };
    let mut words = vec![];
    while nodes[node].branch {
        let children: Vec<_> = nodes[node].children().filter(|i| leads[*i]).collect();
        if children.is_empty() {
            return any_text(random);
        }
        let default = children.iter().find(|i| nodes[**i].default);
        let next = match default {
            Some(default) if random.one_in(3) => *default,
            _ => random.pick(&children),
        };
        // The last one is said where none was said before, but for a lone `:`.
        let last = words.is_empty() && !nodes[next].branch;
        let must_say = !nodes[next].default || (last && !(colon && random.one_in(4)));
        if must_say || random.one_in(2) {
            words.push(spelled(random, name(next)));
            *kept = node;
        }
        node = next;
    }
    if words.is_empty() {
        *kept = 0;
    }
    [if colon { &b":"[..] } else { b"" }, &words.join(&b':')].concat()
}

/// The message with something else where two parts of it meet.
fn torn(random: &mut Random, mut text: Vec<u8>) -> Vec<u8> {
    let joints = (0..text.len()).filter(|i| b";,: ?\n".contains(&text[*i]));
    let joints: Vec<_> = joints.collect();
    if joints.is_empty() {
        text.push(random.pick(b";,: ?\n"));
        return text;
    }
    let joint = random.pick(&joints);
    let other = random.pick::<&[u8]>(&[
        b"", b";", b";;", b"; ;", b",", b",,", b", ,", b":", b" ", b" :", b";:", b"?", b"? ",
        b"?;", b"\n", b"\n;", b" \n", b";\n", b"*A", b" *A", b"$", b"\x0b",
    ]);
    text.splice(joint..=joint, other.iter().copied());
    text
}

/// A message of a length around the limit: the text repeated, a good one of many units, or one with much data.
fn longest(random: &mut Random, table: &Table, start: usize, text: Vec<u8>) -> Vec<u8> {
    let length = LONGEST - 2 + random.below(5);
    let leads = leads(table);
    let mut kept = start;
    let mut long = match random.below(8) {
        0 => text,
        1 => {
            let more = [b";", &text[..]].concat();
            [&text[..], &more.repeat(length / more.len() + 1)].concat()
        }
        2 => {
            let first = header(random, table, &leads, &mut kept);
            [&first[..], b" 1", &b",1".repeat(length / 2)].concat()
        }
        3 => {
            let mut text = header(random, table, &leads, &mut kept);
            text.extend(b" '");
            text.resize(length - 1, random.pick(b"a;,\n"));
            [&text[..], b"'"].concat()
        }
        _ => {
            let mut text = header(random, table, &leads, &mut kept);
            loop {
                let next = header(random, table, &leads, &mut kept);
                if text.len() + 1 + next.len() > length {
                    break text;
                }
                text.push(b';');
                text.extend(next);
            }
        }
    };
    long.resize(length, random.pick(b"   \n;"));
    long
}

/// As many units as a text can have, and about as many slots.
fn fullest(random: &mut Random) -> Case {
    let mut text = b"A;".repeat(SLOTS);
    let length = LONGEST - random.below(3);
    text.truncate(length);
    let few = SLOTS - random.below(3);
    Case {
        table: table_field(&clear_table(r#"{b 0 0 1 1},{l 1 0 65535}/"A""#)).into(),
        start: 0,
        slots: random.pick(&[None, Some(few)]),
        text,
    }
}
