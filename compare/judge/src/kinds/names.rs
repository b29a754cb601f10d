//! Names: `M name word`, answered by what mnemonic_match and mnemonic_compare say of the word for the name.

use super::{mixed, Cases, Right};
use crate::random::Random;
use crate::request::request;
use crate::text::{
    self, pairs, random_text, recased, spelled, table_name, ALL, BORDERS, LONGEST, LONGEST_ONE_IN,
};

/// Names have no listed difference.
pub const RIGHT: Right = Right::Rust(|_, _| None);

pub const RESTART: Option<usize> = None;

pub fn cases(n: usize, seed: u64) -> Cases {
    let line = |(name, word): Pair| request("M", &[&name, &word]);
    mixed(n, seed, short_pairs, random_pair, spelled_pair, line)
}

type Pair = (Vec<u8>, Vec<u8>);

fn short_pairs() -> impl Iterator<Item = Pair> + Send {
    pairs(b"Aa1", 0..=4)
        .chain(pairs(b"Ab01*_", 0..=3))
        .chain(pairs(b"Aa1", 5..=5))
}

const POOLS: [&[u8]; 6] = [
    b"Aa1",
    b"ABYZabyz0189*_",
    b"019",
    BORDERS,
    ALL.split_at(128).1,
    &ALL,
];

/// A pair of lengths around every limit. Most words are made from the name, so that the two agree for a while.
fn random_pair(random: &mut Random, i: usize) -> Pair {
    let mut length = || match i % LONGEST_ONE_IN {
        0 => LONGEST,
        _ if random.one_in(8) => random.pick(&[255, 256, 257]),
        _ => random.pick(&[0, 1, 2, 3, 10, 11, 12, 13]),
    };
    let (name_length, word_length) = (length(), length());
    let pool = random.pick(&POOLS);
    let name = match random.below(3) {
        0 if name_length > 0 => table_name(random, name_length),
        _ => random_text(random, pool, name_length),
    };
    let mut word = match random.below(5) {
        0 => random_text(random, pool, word_length),
        1 => recased(random, name.clone()),
        2 => {
            let end = random.below(name.len() + 1);
            recased(random, name[..end].to_vec())
        }
        3 => spelled(random, &name),
        _ => damaged(random, name.clone()),
    };
    word.truncate(LONGEST);
    (name, word)
}

/// A name as a table has them with a word that spells it. One pair in four is good, the others have a fault or two.
fn spelled_pair(random: &mut Random, _i: usize) -> Pair {
    let length = 1 + random.below(12);
    let mut name = table_name(random, length);
    let mut word = spelled(random, &name);
    match random.below(4) {
        0 => {}
        1 => word = damaged(random, word),
        2 => name = damaged(random, name),
        _ => {
            name = damaged(random, name);
            word = damaged(random, word);
        }
    }
    (name, word)
}

fn damaged(random: &mut Random, text: Vec<u8>) -> Vec<u8> {
    text::damaged(random, b"ABCabc0123*_", text)
}
