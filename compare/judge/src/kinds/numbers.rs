//! Numbers: `N text`, answered by the numbers and ranges of the text as a numeric list.

use super::{mixed, Cases, Right};
use crate::random::Random;
use crate::request::request;
use crate::text::{comma_list, faulty, list, number, random_list, short_lists, ALL};

/// Numeric lists have no listed difference.
pub const RIGHT: Right = Right::Rust(|_, _| None);

pub const RESTART: Option<usize> = None;

pub fn cases(n: usize, seed: u64) -> Cases {
    let line = |text: Vec<u8>| request("N", &[&text]);
    mixed(n, seed, short, random, spelled, line)
}

/// Bytes of every kind that a numeric list tells apart.
const BYTES: &[u8] = b"1.E+-:, A";

/// How a text begins, and of which bytes so many follow at most.
const BEGINNINGS: [(&[u8], &[u8], usize); 5] = [
    (b"", BYTES, 5),
    (b"", b"1.E+-:,", 6),
    (b"1", b"1.e+-:,", 6),
    (b"1:", b"1.E+-:, ", 5),
    (b"1,", b"1.E+-:, ", 5),
];

/// Lists that are good, one at least for each rule.
const SAMPLES: [&[u8]; 15] = [
    b"1",
    b"+1.2E-3",
    b"1.",
    b"007,1",
    b"1,2,3",
    b"1,.5",
    b"1,+2",
    b"1-2",
    b"1-2-3:4",
    b"1:2",
    b"1:.5",
    b"1.:2.",
    b"-1.5:+2.5E1",
    b"1,2:3,4",
    b"1e5,2E+6",
];

fn short() -> impl Iterator<Item = Vec<u8>> + Send {
    short_lists(&BEGINNINGS, &SAMPLES)
}

const STARTS: [&[u8]; 14] = [
    b"", b"1", b"+", b"-", b".", b"1.", b"1E", b"1e-", b"1:", b"1:-", b"1,", b"1,.", b"1-", b"1:2,",
];

const POOLS: [&[u8]; 10] = [
    BYTES,
    &ALL,
    b"0",
    b"019.+-Ee:,",
    b"1.",
    b"1-",
    b"1,",
    b"1:,",
    b"09E-,",
    b"1, \n\t;",
];

fn random(random: &mut Random, i: usize) -> Vec<u8> {
    random_list(random, i, &[10, 11, 12, 13, 19, 20, 21], &STARTS, &POOLS)
}

/// A numeric list as the grammar has it. One in three is so, but for stray commas; the others have a fault or two.
fn spelled(random: &mut Random, i: usize) -> Vec<u8> {
    let text = comma_list(random, element);
    faulty(random, i, BYTES, b',', text)
}

/// A number or a range.
fn element(random: &mut Random) -> Vec<u8> {
    list(random, 2, number, |_| b":".to_vec())
}
