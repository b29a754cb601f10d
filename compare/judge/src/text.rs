//! Texts that cases are made of: all short ones, random ones, damaged ones, and parts that more than one grammar has.

use std::ops::RangeInclusive;

use crate::random::Random;

/// Every byte value, in order.
pub const ALL: [u8; 256] = {
    let mut all = [0; 256];
    let mut i = 0;
    while i < 256 {
        all[i] = i as u8;
        i += 1;
    }
    all
};

/// The length of the longest text of a request.
pub const LONGEST: usize = 65_535;

/// One random text in so many has the greatest length.
pub const LONGEST_ONE_IN: usize = 8_192;

/// Letters and digits at the ends of their classes, and the bytes just outside.
pub const BORDERS: &[u8] = b"@AZ[`az{/09:";

/// All texts of that length over the alphabet.
pub fn texts(alphabet: &'static [u8], length: usize) -> impl Iterator<Item = Vec<u8>> + Send {
    let count = alphabet.len().pow(length as u32);
    (0..count).map(move |mut i| {
        let mut text = vec![];
        for _ in 0..length {
            text.push(alphabet[i % alphabet.len()]);
            i /= alphabet.len();
        }
        text
    })
}

/// All texts that begin so, with at most that many bytes of the alphabet behind.
pub fn begun(
    start: &'static [u8],
    alphabet: &'static [u8],
    most: usize,
) -> impl Iterator<Item = Vec<u8>> + Send {
    (0..=most)
        .flat_map(move |length| texts(alphabet, length))
        .map(move |rest| [start, &rest].concat())
}

/// The sample with every byte put at every place, between two bytes and in the stead of one.
pub fn changed(sample: &'static [u8]) -> impl Iterator<Item = Vec<u8>> + Send {
    let places = (0..=sample.len()).flat_map(|i| [(i, i), (i, i + 1)]);
    places.flat_map(move |(start, end)| {
        let rest = sample.get(end..).unwrap_or_default();
        ALL.map(|byte| [&sample[..start], &[byte], rest].concat())
    })
}

/// All texts that begin so, as [begun] has them, and the samples, [changed].
pub fn short_lists(
    beginnings: &'static [(&[u8], &[u8], usize)],
    samples: &'static [&[u8]],
) -> impl Iterator<Item = Vec<u8>> + Send {
    let begun = beginnings
        .iter()
        .flat_map(|(start, bytes, most)| begun(start, bytes, *most));
    begun.chain(samples.iter().flat_map(|sample| changed(sample)))
}

/// All pairs of texts over the alphabet of which the longer one has a length in the range, shortest first.
pub fn pairs(
    alphabet: &'static [u8],
    longer: RangeInclusive<usize>,
) -> impl Iterator<Item = (Vec<u8>, Vec<u8>)> + Send {
    let lengths = longer.flat_map(|n| {
        (0..n)
            .map(move |m| (m, n))
            .chain((0..=n).map(move |m| (n, m)))
    });
    lengths.flat_map(move |(a, b)| {
        texts(alphabet, a)
            .flat_map(move |first| texts(alphabet, b).map(move |second| (first.clone(), second)))
    })
}

/// A random text of that length over the pool.
pub fn random_text(random: &mut Random, pool: &[u8], length: usize) -> Vec<u8> {
    (0..length).map(|_| random.pick(pool)).collect()
}

/// The length of the i-th random text: a small one, one next to a limit, or seldom a great one.
pub fn random_length(random: &mut Random, i: usize, limits: &[usize]) -> usize {
    match i % LONGEST_ONE_IN {
        0 => LONGEST,
        _ if random.one_in(16) => random.pick(&[63, 64, 65, 255, 256, 257]),
        _ if random.one_in(4) => random.pick(limits),
        _ => random.below(10),
    }
}

/// The start with a random text of that length over one of the pools behind it.
pub fn random_behind(random: &mut Random, start: &[u8], pools: &[&[u8]], length: usize) -> Vec<u8> {
    let pool = random.pick(pools);
    let mut text = [start, &random_text(random, pool, length)].concat();
    text.truncate(LONGEST);
    text
}

/// The i-th random text, behind one of the starts.
pub fn random_list(
    random: &mut Random,
    i: usize,
    limits: &[usize],
    starts: &[&[u8]],
    pools: &[&[u8]],
) -> Vec<u8> {
    let length = random_length(random, i, limits);
    let start = random.pick(starts);
    random_behind(random, start, pools, length)
}

/// The text with each letter in either case.
pub fn recased(random: &mut Random, mut text: Vec<u8>) -> Vec<u8> {
    for b in &mut text {
        if b.is_ascii_alphabetic() && random.one_in(2) {
            *b ^= 0x20;
        }
    }
    text
}

/// The text before its digit tail, and the tail.
pub fn split_tail(text: &[u8]) -> (&[u8], &[u8]) {
    let stem = text
        .iter()
        .rposition(|b| !b.is_ascii_digit())
        .map_or(0, |last| last + 1);
    text.split_at(stem)
}

/// The text with one fault: a byte replaced, inserted, deleted or doubled, its case bit flipped, the digit tail changed,
/// or the end cut off. One place in four is the last byte; one new byte in three is from the pool.
pub fn damaged(random: &mut Random, pool: &[u8], mut text: Vec<u8>) -> Vec<u8> {
    let place = match random.below(4) {
        0 => text.len().saturating_sub(1),
        _ => random.below(text.len() + 1),
    };
    let byte = match random.below(3) {
        0 => random.pick(BORDERS),
        1 => random.pick(pool),
        _ => random.pick(&ALL),
    };
    let fault = random.below(7);
    match text.get(place).copied() {
        Some(_) if fault == 0 => text[place] = byte,
        Some(_) if fault == 1 => drop(text.remove(place)),
        Some(here) if fault == 2 => text.insert(place, here),
        Some(here) if fault == 3 => text[place] = here ^ 0x20,
        Some(_) if fault == 4 => text.truncate(place),
        _ if fault == 5 => {
            text.truncate(split_tail(&text).0.len());
            text.extend(
                random.pick::<&[u8]>(&[b"", b"0", b"1", b"2", b"01", b"10", b"11", b"12", b"001"]),
            );
        }
        _ => text.insert(place, byte),
    }
    text
}

/// The i-th text with at most two faults. One in so many is repeated, the joint between, up to the greatest length.
pub fn faulty(random: &mut Random, i: usize, pool: &[u8], joint: u8, mut text: Vec<u8>) -> Vec<u8> {
    for _ in 0..random.below(3) {
        text = damaged(random, pool, text);
    }
    if i % LONGEST_ONE_IN == 0 {
        text.push(joint);
        text = text.repeat(LONGEST / text.len() + 1);
    }
    text.truncate(LONGEST);
    text
}

pub type Make = fn(&mut Random) -> Vec<u8>;

/// From one to that many parts, with something between them.
pub fn list(random: &mut Random, most: usize, part: Make, between: Make) -> Vec<u8> {
    let mut text = part(random);
    for _ in 0..random.below(most) {
        text.extend(between(random));
        text.extend(part(random));
    }
    text
}

/// From one to four parts with commas between. Seldom a comma is missing, doubled, first or last, or has a space.
pub fn comma_list(random: &mut Random, part: Make) -> Vec<u8> {
    let mut text = list(random, 4, part, |random| match random.below(6) {
        0 => random.pick::<&[u8]>(&[b"", b",,", b" ,", b", "]).to_vec(),
        _ => b",".to_vec(),
    });
    match random.below(16) {
        0 => text.insert(0, b','),
        1 | 2 => text.push(b','),
        _ => {}
    }
    text
}

/// A table name of that length, at least 1: perhaps a star, one or more capitals, small letters, digits that do not begin
/// with 0.
pub fn table_name(random: &mut Random, length: usize) -> Vec<u8> {
    let star: &[u8] = if length > 1 && random.one_in(6) {
        b"*"
    } else {
        b""
    };
    let mut tail = random.pick::<&[u8]>(&[b"", b"", b"", b"1", b"1", b"2", b"10", b"11", b"21"]);
    if star.len() + tail.len() >= length {
        tail = b"";
    }
    let letters = length - star.len() - tail.len();
    let capitals = 1 + random.below(letters);
    let mut name = star.to_vec();
    for i in 0..letters {
        let pool = if i < capitals { b"ABCZ" } else { b"abcz" };
        name.push(random.pick(pool));
    }
    name.extend(tail);
    name
}

/// A word for a table name: the short or the long form in any case, with the number, or with a 1 added or dropped.
pub fn spelled(random: &mut Random, name: &[u8]) -> Vec<u8> {
    let (stem, tail) = split_tail(name);
    let mut word = stem.to_vec();
    if random.one_in(2) {
        word.retain(|b| !b.is_ascii_lowercase());
    }
    word = recased(random, word);
    match tail {
        b"" if random.one_in(2) => word.push(b'1'),
        b"1" if random.one_in(2) => {}
        _ => word.extend(tail),
    }
    word
}

/// A decimal number without a suffix.
pub fn number(random: &mut Random) -> Vec<u8> {
    let mut text = random.pick::<&[u8]>(&[b"", b"", b"+", b"-"]).to_vec();
    text.extend(random.pick::<&[u8]>(&[b"0", b"1", b"19", b"007", b"1.", b"0.5", b".5", b".05"]));
    if random.one_in(3) {
        text.extend(random.pick::<&[u8]>(&[b"E", b"e", b"E+", b"e-"]));
        text.extend(random.pick::<&[u8]>(&[b"0", b"5", b"09", b"400"]));
    }
    text
}

/// A value next to that power of two, or anywhere below the next one.
pub fn value(random: &mut Random, power: usize) -> u128 {
    match random.below(2) {
        0 => (1 << power) + random.below(3) as u128 - 1,
        _ => (u128::from(random.next()) << 64 | u128::from(random.next())) >> (127 - power),
    }
}

/// Zeros before a value: mostly none, seldom thousands.
pub fn zeros(random: &mut Random) -> String {
    let zeros = match random.below(64) {
        0 => random.pick(&[255, 256, 4_000]),
        1..=8 => random.pick(&[1, 2, 30]),
        _ => 0,
    };
    "0".repeat(zeros)
}

/// A text in quotes. Seldom a byte from 128 up is among it, or its closing quote is missing.
pub fn string(random: &mut Random) -> Vec<u8> {
    let (quote, other) = random.pick(&[(b'"', b'\''), (b'\'', b'"')]);
    let mut text = vec![quote];
    for _ in 0..random.below(6) {
        match random.below(8) {
            0 => text.extend([quote, quote]),
            1 => text.push(other),
            2 if random.one_in(8) => text.push(random.pick(b"\x80\xff")),
            _ => text.push(random.pick(b"aZ0 ,;:#()\n\x00\x7f")),
        }
    }
    if !random.one_in(32) {
        text.push(quote);
    }
    text
}
