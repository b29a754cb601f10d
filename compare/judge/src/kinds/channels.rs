//! Channels: `C text`, answered by the specs, ranges and path names of the text as a channel list. Of a spec it says the
//! start, length and dimension, the items, and the coordinates: `i`, `ii` and `iii` signed, `u`, `uu` and `uuu` unsigned.

use super::{mixed, Cases, Listed, Right};
use crate::random::Random;
use crate::request::{parts, request};
use crate::text::{
    comma_list, faulty, random_list, random_text, short_lists, string, value, zeros, ALL, LONGEST,
};

pub const RIGHT: Right = Right::Rust(expected);

pub const RESTART: Option<usize> = None;

/// The items and coordinates are read anew from each spec that the Rust names; all else is as it says. The heading is that
/// of the first field that differs. Where one differs in another way than is listed, nothing is, and the run shows it.
fn expected(request: &str, rust: &str) -> Option<Listed> {
    let (letter, texts) = parts(request)?;
    let ("C", [text]) = (letter, &texts[..]) else {
        return None;
    };
    let (mut name, mut spec): (&str, &[u8]) = ("", b"");
    let (mut heading, mut words) = (None, vec![]);
    for word in rust.split(' ') {
        if ["spec", "range", "to"].contains(&name) {
            spec = named(text, word)?;
        }
        let said = field(spec, name).unwrap_or_else(|| word.to_string());
        if said != word {
            heading = heading.or(Some(listed(word, &said)?));
        }
        words.push(said);
        name = word;
    }
    Some((heading?, words.join(" ")))
}

/// The bytes that `(start,length,dimension)` names.
fn named<'a>(text: &'a [u8], place: &str) -> Option<&'a [u8]> {
    let mut numbers = place.trim_matches(['(', ')']).split(',').map(str::parse);
    let (start, length): (usize, usize) = (numbers.next()?.ok()?, numbers.next()?.ok()?);
    text.get(start..start + length)
}

/// What the port says in the field of that name. None of a word that is no such name.
fn field(spec: &[u8], name: &str) -> Option<String> {
    let parts: Vec<&[u8]> = spec.split(|b| *b == b'!').collect();
    let read: Result<Vec<i64>, i32> = match name {
        "items" => return Some(format!("[{}]", items(spec).join(","))),
        "i" | "u" if parts.len() != 1 => Err(-171),
        "i" | "u" => first(spec).map(|(value, _)| vec![value]).ok_or(-170),
        "ii" | "uu" | "iii" | "uuu" if parts.len() != name.len() => Err(-170),
        "ii" | "uu" | "iii" | "uuu" => {
            let values: Option<_> = parts.into_iter().map(integer).collect();
            values.ok_or(-170)
        }
        _ => return None,
    };
    let read = match read {
        Ok(values) if name.starts_with('u') && values.iter().any(|v| *v < 0) => Err(-224),
        read => read,
    };
    Some(match read {
        Err(number) => format!("!{number}"),
        Ok(values) if values.len() == 1 => values[0].to_string(),
        Ok(values) => {
            let values: Vec<_> = values.iter().map(i64::to_string).collect();
            format!("({})", values.join(","))
        }
    })
}

/// The items up to the end, or to a refusal and it. Before each a `!` is passed over.
fn items(mut spec: &[u8]) -> Vec<String> {
    let mut items = vec![];
    while !spec.is_empty() {
        let Some((value, rest)) = first(spec.strip_prefix(b"!").unwrap_or(spec)) else {
            items.push("!-170".to_string());
            break;
        };
        items.push(value.to_string());
        spec = rest;
    }
    items
}

/// The integer that the text begins with, and the rest of the text.
fn first(text: &[u8]) -> Option<(i64, &[u8])> {
    let sign = usize::from(matches!(text, [b'+' | b'-', ..]));
    let digits = text[sign..].iter().take_while(|b| b.is_ascii_digit());
    let (number, rest) = text.split_at(sign + digits.count());
    Some((integer(number)?, rest))
}

/// The integer of 64 bits that the whole text is: a sign or none, and digits.
fn integer(text: &[u8]) -> Option<i64> {
    std::str::from_utf8(text).ok()?.parse().ok()
}

/// The heading for a field. Behind the bytes that the two have in common, the Rust says `panic`, 0 or coordinates where the
/// port refuses, or the coordinates differ. A negative is not looked for among coordinates that are not written.
fn listed(rust: &str, port: &str) -> Option<&'static str> {
    const NOT_WRITTEN: &str = "Coordinates that are not written";
    let both = rust.bytes().zip(port.bytes());
    let same = both.take_while(|(one, other)| one == other).count();
    match (rust.as_bytes().get(same)?, port.as_bytes().get(same)?) {
        (b'p', b'!') => Some("No digit behind a bang"),
        (b'0', b'!') => Some("A sign without digits"),
        (b'(', b'!') => Some(NOT_WRITTEN),
        _ if (rust, port) == ("!-224", "!-170") => Some(NOT_WRITTEN),
        _ if rust.starts_with('(') => Some("The second coordinate"),
        _ => None,
    }
}

pub fn cases(n: usize, seed: u64) -> Cases {
    let line = |text: Vec<u8>| request("C", &[&text]);
    mixed(n, seed, short, random, spelled, line)
}

/// Bytes of every kind that a channel list tells apart.
const BYTES: &[u8] = b"19+-!:,'\"a ;";

/// How a text begins, and of which bytes so many follow at most.
const BEGINNINGS: [(&[u8], &[u8], usize); 7] = [
    (b"@", BYTES, 5),
    (b"", b"@1!,'\x80", 3),
    (b"@", b"1+-!", 8),
    (b"@", b"1!:,", 7),
    (b"@1!1:", b"1-!:,", 5),
    (b"@'", b"'\"a ,;\x80", 5),
    (b"@\"", b"'\"a ,;\x80", 5),
];

/// Lists that are good up to their end or nearly so, one at least for each rule.
const SAMPLES: [&[u8]; 14] = [
    b"@1",
    b"@-12!+3",
    b"@1!2:3!4",
    b"@1!2:!3",
    b"@1!2!3,4",
    b"@1:2,3:4",
    b"@1,'a'",
    b"@'a''\"b',1",
    b"@\"a\"\"'b\";",
    b"@'a' ,1",
    b"@1!2!3!4!5",
    b"@1+2!3",
    b"@9223372036854775807",
    b"@-9223372036854775808!1",
];

fn short() -> impl Iterator<Item = Vec<u8>> + Send {
    short_lists(&BEGINNINGS, &SAMPLES)
}

const STARTS: [&[u8]; 15] = [
    b"",
    b"@",
    b"@1",
    b"@-",
    b"@1!",
    b"@1,",
    b"@1:",
    b"@1!1:",
    b"@'",
    b"@\"",
    b"@'a'",
    b"@\"a\"",
    b"@922337203685477580",
    b"@-922337203685477580",
    b"@1!+922337203685477580",
];

const POOLS: [&[u8]; 12] = [
    BYTES, &ALL, b"0", b"9", b"0789", b"09!-+", b"1!", b"1+", b"1,", b"1!:,", b"'\"a ,", b"@1,",
];

fn random(random: &mut Random, i: usize) -> Vec<u8> {
    random_list(random, i, &[17, 18, 19, 20, 21, 22], &STARTS, &POOLS)
}

/// A channel list as the grammar has it. One in three is so, but for what the parts below do seldom; the others have a
/// fault or two.
fn spelled(random: &mut Random, i: usize) -> Vec<u8> {
    let text = comma_list(random, element);
    let text = faulty(random, i, BYTES, b',', text);
    let start = match random.below(32) {
        0 => random.pick::<&[u8]>(&[b"", b" @", b"@@", b"A"]),
        _ => b"@",
    };
    let mut text = [start, &text].concat();
    text.truncate(LONGEST);
    text
}

fn element(random: &mut Random) -> Vec<u8> {
    match random.below(4) {
        0 => path_name(random),
        _ => channel(random),
    }
}

/// White space behind it is seldom.
fn path_name(random: &mut Random) -> Vec<u8> {
    let length = random.pick(&[0, 0, 0, 0, 0, 0, 0, 1, 2]);
    [string(random), random_text(random, b"\t\n ", length)].concat()
}

/// A spec or a range. The ends of one range in eight may have two dimensions.
fn channel(random: &mut Random) -> Vec<u8> {
    const DIMENSIONS: &[usize] = &[1, 1, 2, 2, 2, 3, 3, 3, 4, 5];
    let dimension = random.pick(DIMENSIONS);
    let mut text = spec(random, dimension);
    if random.one_in(3) {
        let other = match random.below(8) {
            0 => random.pick(DIMENSIONS),
            _ => dimension,
        };
        text.push(b':');
        text.extend(spec(random, other));
    }
    text
}

fn spec(random: &mut Random, dimension: usize) -> Vec<u8> {
    let coordinates: Vec<_> = (0..dimension).map(|_| coordinate(random)).collect();
    coordinates.join(&b'!')
}

/// An integer up to beyond 64 bits, perhaps with a sign and zeros before it. Seldom it has no digit.
fn coordinate(random: &mut Random) -> Vec<u8> {
    let sign = random.pick(&["", "", "+", "-"]);
    if random.one_in(32) {
        return sign.into();
    }
    let zeros = match random.below(8) {
        0 => zeros(random),
        _ => String::new(),
    };
    let power = match random.below(8) {
        0 | 1 => 63,
        2 => random.below(70),
        _ => random.below(4),
    };
    format!("{sign}{zeros}{}", value(random, power)).into()
}
