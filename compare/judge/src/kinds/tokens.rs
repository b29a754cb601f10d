//! Tokens: `T text` and `D text`, answered by the tokens of the text as a message and as data alone.

use super::{mixed, Cases, Listed, Right};
use crate::random::Random;
use crate::request::{parts, request};
use crate::text::{
    begun, changed, faulty, list, number, random_behind, random_length, random_text, recased,
    string, texts, value, zeros, Make, ALL,
};

pub const RIGHT: Right = Right::Rust(expected);

pub const RESTART: Option<usize> = None;

/// Where data have no digit behind `#H` or a sign in the length of a block, the port refuses them. The Rust says something
/// else there or reads on; up to there the answers are the same.
fn expected(request: &str, rust: &str) -> Option<Listed> {
    let (letter, texts) = parts(request)?;
    let (mut in_data, text) = match (letter, &texts[..]) {
        ("T", [text]) => (false, text),
        ("D", [text]) => (true, text),
        _ => return None,
    };
    let (mut place, mut said) = (0, 0);
    // A token says `@`, the place behind it, and `d` where data may follow. The last part, an end or a refusal, does not.
    for part in rust.split(" | ") {
        if let (true, Some((heading, number))) = (in_data, refused(&text[place..])) {
            return Some((heading, format!("{}refused {number}", &rust[..said])));
        }
        let (behind, flags) = part.split_once('@')?.1.split_once(' ')?;
        place = behind.parse().ok()?;
        in_data = flags == "d";
        said += part.len() + " | ".len();
    }
    None
}

/// The heading and the number where these data must be refused for what stands in the place of a digit.
fn refused(data: &[u8]) -> Option<(&'static str, i32)> {
    const NO_DIGIT: &str = "Radix digits that are none";
    const SIGN: &str = "A sign in radix digits or block lengths";
    let [b'#', form, rest @ ..] = data else {
        return None;
    };
    let radix = match form {
        b'H' | b'h' => 16,
        b'Q' | b'q' => 8,
        b'B' | b'b' => 2,
        b'1'..=b'9' => {
            let length = rest.get(..usize::from(form - b'0'))?;
            let signed = length.iter().any(|b| b"+-".contains(b));
            return signed.then_some((SIGN, -161));
        }
        _ => return None,
    };
    match rest.first()? {
        b'+' | b'-' => Some((SIGN, -121)),
        digit if (*digit as char).is_digit(radix) => None,
        _ => Some((NO_DIGIT, -121)),
    }
}

pub fn cases(n: usize, seed: u64) -> Cases {
    let line = |(letter, text): Case| request(letter, &[&text]);
    mixed(n, seed, short_texts, random_case, spelled_case, line)
}

type Case = (&'static str, Vec<u8>);

/// Bytes of every kind that the token step or a form of data tells apart.
const BYTES: &[u8] = b"EHb012+-./_#\"'()*:?;,\n \x0b\x80";

const WHITE: &[u8] = b"\t\n\x0c\r ";

/// How a text begins, and of which bytes so many follow at most.
const BEGINNINGS: [(&str, &[u8], &[u8], usize); 7] = [
    ("T", b"", b"A:?; *\n", 6),
    ("D", b"", b"1.E+ /,", 6),
    ("D", b"#", b"HQb0128+ ,\n", 5),
    ("D", b"\"", b"\"'a, \n\x80", 5),
    ("D", b"'", b"\"'a, \n\x80", 5),
    ("D", b"(", b"()1;\" ,\x80", 5),
    ("D", b"A", b"A1_ ,;/", 5),
];

/// Texts that are good, one at least for each rule.
const SAMPLES: [(&str, &[u8]); 24] = [
    ("T", b"A"),
    ("T", b"*A"),
    ("T", b":A:B_1"),
    ("T", b"*A?;B"),
    ("T", b"A? 1"),
    ("T", b"A (1)\n"),
    ("T", b"A ; :B\n"),
    ("D", b"A"),
    ("D", b"a_1 ,B"),
    ("D", b"1"),
    ("D", b"+1.2E-3"),
    ("D", b".5e1 V/s"),
    ("D", b"1A-.2 ;"),
    ("D", b"#H9aF"),
    ("D", b"#q07 ,1"),
    ("D", b"#B10;"),
    ("D", b"#12\xffa ,1"),
    ("D", b"#202ab"),
    ("D", b"#0a\n"),
    ("D", b"'a''\"b' ,1"),
    ("D", b"\"a\"\"b\";"),
    ("D", b"(@1!2) ,1"),
    ("D", b"1 , 2"),
    ("D", b"1\n;A\n"),
];

/// All short texts, all that begin as a form of data does, and the samples with every byte put at every place.
fn short_texts() -> impl Iterator<Item = Case> + Send {
    let all = (0..=4)
        .flat_map(|length| texts(BYTES, length))
        .flat_map(|text| [("T", text.clone()), ("D", text)]);
    let begun = BEGINNINGS
        .into_iter()
        .flat_map(|(letter, start, bytes, most)| {
            begun(start, bytes, most).map(move |text| (letter, text))
        });
    let changed = SAMPLES
        .into_iter()
        .flat_map(|(letter, sample)| changed(sample).map(move |text| (letter, text)));
    all.chain(begun).chain(changed)
}

const STARTS: [(&str, &[u8]); 20] = [
    ("T", b""),
    ("T", b"A"),
    ("T", b"*A"),
    ("T", b":A"),
    ("T", b"A?"),
    ("T", b"A "),
    ("T", b"A 1,"),
    ("D", b""),
    ("D", b"A"),
    ("D", b"1"),
    ("D", b"1E"),
    ("D", b"1 V"),
    ("D", b"\""),
    ("D", b"'"),
    ("D", b"("),
    ("D", b"#"),
    ("D", b"#h"),
    ("D", b"#Q"),
    ("D", b"#b"),
    ("D", b"#0"),
];

const POOLS: [&[u8]; 9] = [
    BYTES,
    &ALL,
    WHITE,
    b"ABab01_*:?; \n",
    b"019.+-Ee /V,;",
    b"#HhQqBb0123789AFafGg+ ,",
    b"01",
    b"\"'a ,;\n",
    b"(@1!2:3,-+ )",
];

/// A text of a length around every limit over few bytes, behind the start of a form.
fn random_case(random: &mut Random, i: usize) -> Case {
    let length = random_length(random, i, &[10, 11, 12, 13, 16, 17, 21, 22, 23]);
    let (letter, start) = random.pick(&STARTS);
    (letter, random_behind(random, start, &POOLS, length))
}

/// A message or data as the grammar has them. One text in three is so, but for what the parts below do seldom; the others
/// have a fault or two.
fn spelled_case(random: &mut Random, i: usize) -> Case {
    let (letter, mut text, joint) = match random.below(2) {
        0 => ("T", message(random), b';'),
        _ => ("D", data(random), b','),
    };
    match random.below(8) {
        0 => text.push(b'\n'),
        1 => text.push(b';'),
        2 if letter == "D" => text.extend([b";", &message(random)[..]].concat()),
        3 => {
            text.push(random.pick(b", "));
            text.extend(endless_block(random));
        }
        _ => {}
    }
    (letter, faulty(random, i, BYTES, joint, text))
}

fn message(random: &mut Random) -> Vec<u8> {
    list(random, 3, unit, |random| {
        [b";", &white(random)[..]].concat()
    })
}

fn unit(random: &mut Random) -> Vec<u8> {
    let mut text = header(random);
    if random.one_in(2) {
        text.push(random.pick(b"\t\x0c\r "));
        text.extend(white(random));
        text.extend(data(random));
    }
    text
}

fn header(random: &mut Random) -> Vec<u8> {
    let start: &[u8] = random.pick::<&[u8]>(&[b"*", b":", b"", b""]);
    let most = if start == b"*" { 1 } else { 3 };
    let mut text = [start, &list(random, most, word, |_| b":".to_vec())].concat();
    if random.one_in(3) {
        text.push(b'?');
    }
    text
}

pub fn data(random: &mut Random) -> Vec<u8> {
    list(random, 4, item, |random| {
        [&white(random), &b","[..], &white(random)].concat()
    })
}

fn item(random: &mut Random) -> Vec<u8> {
    random.pick::<Make>(&[word, number, suffixed, radix, block, string, expression])(random)
}

/// Seldom a byte that is no white space is among it.
pub fn white(random: &mut Random) -> Vec<u8> {
    let length = random.pick(&[0, 0, 0, 1, 1, 3]);
    let mut text = random_text(random, WHITE, length);
    if random.one_in(128) {
        text.push(random.pick(b"\x00\x0b"));
    }
    text
}

/// A mnemonic or character data.
fn word(random: &mut Random) -> Vec<u8> {
    behind(random, b"AZaz", b"AZaz09_")
}

/// One byte of the first pool and then bytes of the second, perhaps as many as are allowed or one more.
fn behind(random: &mut Random, first: &[u8], then: &[u8]) -> Vec<u8> {
    let length = match random.below(8) {
        0 => random.pick(&[11, 12, 12, 13]),
        _ => 1 + random.below(4),
    };
    [
        random_text(random, first, 1),
        random_text(random, then, length - 1),
    ]
    .concat()
}

fn suffixed(random: &mut Random) -> Vec<u8> {
    [
        number(random),
        white(random),
        behind(random, b"VvZz/", b"AZaz09-/."),
    ]
    .concat()
}

/// A value up to beyond 2^64, next to a power of two or anywhere, perhaps with zeros before it.
fn radix(random: &mut Random) -> Vec<u8> {
    let power = random.below(70);
    let (value, zeros) = (value(random, power), zeros(random));
    let text = match random.below(3) {
        0 => format!("#H{zeros}{value:x}"),
        1 => format!("#Q{zeros}{value:o}"),
        _ => format!("#B{zeros}{value:b}"),
    };
    recased(random, text.into_bytes())
}

/// One length in eight is wrong by one.
fn block(random: &mut Random) -> Vec<u8> {
    let length = match random.below(2_048) {
        0 => 60_000,
        _ => random.pick(&[0, 1, 2, 9, 10, 11, 99, 100]),
    };
    let payload = random_text(random, &ALL, length);
    let said = match random.below(16) {
        0 => length + 1,
        1 => length.saturating_sub(1),
        _ => length,
    };
    let digits = said.to_string().len().max(1 + random.below(9));
    let head = format!("#{digits}{said:0digits$}");
    [head.as_bytes(), &payload].concat()
}

/// A block up to the end of the text, where one newline in eight is missing.
pub fn endless_block(random: &mut Random) -> Vec<u8> {
    let length = random.below(5);
    let mut text = [b"#0", &random_text(random, BYTES, length)[..]].concat();
    if !random.one_in(8) {
        text.push(b'\n');
    }
    text
}

fn expression(random: &mut Random) -> Vec<u8> {
    let length = random.below(8);
    [
        b"(",
        &random_text(random, b"@1!2:3,-+ #\nA\x7f", length)[..],
        b")",
    ]
    .concat()
}
