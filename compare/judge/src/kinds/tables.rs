//! Tables: `F words/names`, answered by the check of the node table, `accepted` or `fault N`. The Rust has no such check.

use super::{mixed, Cases, Right};
use crate::random::Random;
use crate::request::{clear_table, table, table_field};
use crate::table::{spellings, Node, Table};
use crate::text::{self, begun, random_text, split_tail, ALL};
use crate::tree::{accepted, all_trees, lay_out, one_of_each, put, tree, COMMANDCHECK};

pub const RIGHT: Right = Right::Judge(answer);

pub const RESTART: Option<usize> = None;

fn answer(request: &str) -> String {
    let fields: Vec<&str> = request.split_ascii_whitespace().collect();
    let table = match fields[..] {
        ["F", field] => table(field),
        _ => None,
    };
    match table.map(|table| table.fault()) {
        None => "request?".to_string(),
        Some(None) => "accepted".to_string(),
        Some(Some(fault)) => format!("fault {fault}"),
    }
}

pub fn cases(n: usize, seed: u64) -> Cases {
    let line = |table: Table| format!("F {}", table_field(&table));
    mixed(n, seed, short, random, made, line)
}

/// Small tables first: over all values, all trees, the samples changed, and all names at all places.
fn short() -> impl Iterator<Item = Table> + Send {
    const BIT: &[usize] = &[0, 1];
    const ONE: Values = [BIT, BIT, BIT, BIT, &[0, 1, 2], BIT, BIT];
    const ROOT: Values = [&[1], &[0], &[0], &[0], &[0, 1, 2], &[0, 1, 2], &[0]];
    const SECOND: Values = [
        BIT,
        BIT,
        &[0, 1, 2],
        BIT,
        &[0, 1, 2, 3],
        &[0, 1, 65_535],
        BIT,
    ];
    const THIRD: Values = [BIT, BIT, &[1], BIT, &[0, 1, 2, 3], &[0, 1, 2], &[0]];
    few(1, ONE, ONE, b"A")
        .chain((1..=3).flat_map(all_trees))
        .chain(SAMPLES.into_iter().flat_map(changed))
        .chain(few(2, ROOT, SECOND, b"*A"))
        .chain(few(3, ROOT, THIRD, b"AB"))
        .chain(all_names())
        .chain(all_pairs())
        .chain((4..=5).flat_map(all_trees))
}

/// For each field the values that it has.
type Values = [&'static [usize]; 7];

/// All tables of that many nodes over these values, the root's and those of the others.
fn few(
    size: usize,
    root: Values,
    other: Values,
    names: &'static [u8],
) -> impl Iterator<Item = Table> + Send {
    let all_nodes = |values: Values| {
        let all_fields = one_of_each(values.map(|list| list.to_vec()).to_vec());
        let nodes = all_fields.map(|fields| Node::of_fields(fields.try_into().unwrap()));
        nodes.collect::<Vec<_>>()
    };
    let mut lists = vec![all_nodes(other); size];
    lists[0] = all_nodes(root);
    one_of_each(lists).map(|nodes| Table::new(nodes, names))
}

/// Accepted tables, one at least for each rule.
const SAMPLES: [&str; 7] = [
    r#"{b 0 0 1}/-"#,
    r#"{b 0 0 1 3},{l 4 0 7},{bd 5 4 4 1},{b 1 9 5},{ld 3 10}/"*IDNSENSeADC1""#,
    r#"{b 0 0 1 1},{l 12 0 65535}/"ABCDEfghijk9""#,
    r#"{b 0 0 1 1},{l 12 2 1}/"ab*BCDEFGHIJKL""#,
    r#"{b 0 0 1 4},{b 1 0 5},{b 1 1 5 1},{b 1 2 6},{b 1 3 6},{b 1 0 6}/"ABCD""#,
    r#"{b 0 0 1 2},{bd 1 0 3 2},{l 1 1},{bd 1 2 5 1},{l 2 3},{ld 1 5}/"ABCD2E""#,
    COMMANDCHECK,
];

/// The sample with each bit of its words flipped, each field set to values around its own and at its limits, each byte of
/// its names replaced, some nodes or names left out, or one node too many.
fn changed(sample: &str) -> Vec<Table> {
    let sample = clear_table(sample);
    let mut tables = vec![];
    let mut add = |change: &dyn Fn(&mut Table)| {
        let mut table = sample.clone();
        change(&mut table);
        tables.push(table);
    };
    for (i, node) in sample.nodes.iter().enumerate() {
        for bit in 0..64 {
            add(&|table| table.nodes[i] = Node::of_word(node.word() ^ 1 << bit));
        }
        for field in 0..7 {
            let own = node.fields()[field];
            for value in [0, 1, 2, own.wrapping_sub(1), own + 1, usize::MAX] {
                add(&|table| table.nodes[i] = with_field(node, field, value));
            }
        }
        add(&|table| table.nodes.truncate(i));
        add(&|table| table.nodes.push(*node));
    }
    for i in 0..sample.names.len() {
        for byte in ALL {
            add(&|table| table.names[i] = byte);
        }
        add(&|table| table.names.truncate(i));
    }
    tables
}

fn with_field(node: &Node, field: usize, value: usize) -> Node {
    let mut fields = node.fields();
    fields[field] = value;
    Node::of_fields(fields)
}

/// The places that a name can have: a leaf under the root, a default one, a branch, a leaf in a branch, and one in a default
/// branch.
const PLACES: [&str; 5] = [
    r#"{b 0 0 1 1},{l}/-"#,
    r#"{b 0 0 1 1},{ld}/-"#,
    r#"{b 0 0 1 1},{b 0 0 2}/-"#,
    r#"{b 0 0 1 1},{b 1 0 2 1},{l}/"X""#,
    r#"{b 0 0 1 1},{bd 1 0 2 1},{l}/"X""#,
];

/// All short names, good and bad, and such of all lengths around the limit, at each place.
fn all_names() -> impl Iterator<Item = Table> + Send {
    let names = begun(b"", b"AZaz019*@[`{/:_ \x80", 3)
        .chain(begun(b"A", b"Aa10*", 4))
        .chain(begun(b"ABCDEFGHIJ", b"Aa10*", 5))
        .chain(begun(b"Abcdefghij", b"a10", 5))
        .chain(begun(b"*BCDEFGHIJ", b"Aa1", 5));
    names.flat_map(|name| PLACES.map(|place| filled(place, &[&name])))
}

/// The table of that form, where the nodes without names have got these.
fn filled(form: &str, names: &[&[u8]]) -> Table {
    let mut table = clear_table(form);
    let without = table.nodes.iter_mut().skip(1);
    let without = without.filter(|node| node.name_length == 0);
    for (node, name) in without.zip(names) {
        node.name_length = name.len();
        node.name_start = table.names.len();
        table.names.extend(*name);
    }
    table
}

/// The places that two names can have: near ones first, in the last four such as are not near.
const TWO_PLACES: [&str; 11] = [
    r#"{b 0 0 1 2},{l},{l}/-"#,
    r#"{b 0 0 1 2},{ld},{b 0 0 3}/-"#,
    r#"{b 0 0 1 3},{l},{l 1 0},{bd 0 0 4}/"X""#,
    r#"{b 0 0 1 1},{bd 0 0 2 1},{l}/-"#,
    r#"{b 0 0 1 2},{bd 1 0 3 1},{l},{l}/"X""#,
    r#"{b 0 0 1 2},{l},{bd 1 0 3 1},{bd 1 1 4 1},{ld}/"XY""#,
    r#"{b 0 0 1 1},{b 1 0 2 1},{bd 1 1 3 2},{l},{bd 1 2 5 1},{l}/"XYZ""#,
    r#"{b 0 0 1 1},{b 0 0 2 1},{l}/-"#,
    r#"{b 0 0 1 2},{b 1 0 3 1},{l},{l}/"X""#,
    r#"{b 0 0 1 2},{l},{bd 1 0 3 1},{b 1 1 4 1},{ld}/"XY""#,
    r#"{b 0 0 1 2},{b 1 0 3 1},{bd 1 1 4 1},{l},{l}/"XY""#,
];

/// All pairs of short good names, at each two places.
fn all_pairs() -> impl Iterator<Item = Table> + Send {
    let pools: [(&[u8], usize); 2] = [(b"ABab12", 3), (b"Aa1*", 4)];
    pools.into_iter().flat_map(|(pool, most)| {
        let good = begun(b"", pool, most).filter(|name| !spellings(name).is_empty());
        let good: Vec<Vec<u8>> = good.collect();
        let indices = (0..good.len()).collect();
        one_of_each(vec![indices; 2]).flat_map(move |pair: Vec<usize>| {
            let (one, other) = (&good[pair[0]], &good[pair[1]]);
            TWO_PLACES.map(|places| filled(places, &[one, other]))
        })
    })
}

/// One case in so many has a table or a text of the greatest size.
const GREATEST_ONE_IN: usize = 20_000;

const CAPITALS: &[u8] = b"ABCDEFGHIJKLMNOPQRSTUVWXYZ";

/// A tree that has any parts of a random text as names, and any defaults. One in four has a fault in a field.
fn random(random: &mut Random, i: usize) -> Table {
    match i % GREATEST_ONE_IN {
        0 => return far_names(random),
        10_000 => return too_many(random),
        _ => {}
    }
    let size = random.below(8);
    let width = random.pick(&[(0, 3), (1, 1), (2, 5)]);
    let mut nodes = tree(random, size.max(1), width);
    nodes.truncate(size);
    let pool = random.pick(&[CAPITALS, CAPITALS, b"ABC", b"AAABab12", b"Aa1*", &ALL]);
    let length = 1 + random.below(20);
    let names = random_text(random, pool, length);
    for node in nodes.iter_mut().skip(1) {
        node.name_length = match random.below(32) {
            0 => random.pick(&[0, 12, 13, 14, 15]),
            _ => 1 + random.below(3),
        };
        let last = names.len().saturating_sub(node.name_length);
        node.name_start = match random.below(16) {
            0 => last + random.below(2),
            _ => random.below(last + 1),
        };
        node.default ^= random.one_in(8);
    }
    let mut table = Table { nodes, names };
    if random.one_in(4) {
        change_field(random, &mut table);
    }
    table
}

/// Names at the end of what 16 bits can reach, around the end of the text.
fn far_names(random: &mut Random) -> Table {
    let mut table = clear_table("{b 0 0 1 2},{l},{l}/-");
    let length = 65_535 + random.below(16);
    table.names = random_text(random, CAPITALS, length);
    for node in &mut table.nodes[1..] {
        node.name_length = 1 + random.below(12);
        node.name_start = 65_535 - random.below(4);
    }
    table
}

/// A root that would be good alone, and more nodes behind it than are allowed, or even than 16 bits can count.
fn too_many(random: &mut Random) -> Table {
    let mut table = clear_table("{b 0 0 1}/-");
    let size = random.pick(&[4_097, 8_192, 65_535, 65_536, 65_537, 69_632]);
    table.nodes.resize(size, Node::default());
    table
}

/// An accepted table. One in three is left so, the others have a fault or two.
fn made(random: &mut Random, i: usize) -> Table {
    let mut table = match i % GREATEST_ONE_IN {
        1 => return greatest(random, 4_096),
        2 => return greatest(random, 4_097),
        5_000 => return greatest_with_one_name_twice(random),
        10_000 => greatest(random, 4_096),
        15_000 => greatest(random, 4_097),
        _ => {
            let most = if random.one_in(16) { 60 } else { 10 };
            let size = 1 + random.below(most);
            accepted(random, size)
        }
    };
    for _ in 0..random.below(3) {
        damage(random, &mut table);
    }
    table
}

/// A wide tree, a deep one or one between, with names of six letters; that two of them are the same is unlikely.
pub fn greatest(random: &mut Random, size: usize) -> Table {
    let wide = (size - 1, size - 1);
    let width = random.pick(&[wide, (64, 64), (0, 9), (1, 3), (1, 1), (1, 1)]);
    let mut nodes = tree(random, size, width);
    for (i, node) in nodes.iter_mut().enumerate().skip(1) {
        node.name_length = 6;
        node.name_start = i - 1;
    }
    let names = random_text(random, CAPITALS, size + 4);
    Table { nodes, names }
}

fn greatest_with_one_name_twice(random: &mut Random) -> Table {
    let mut table = greatest(random, 4_096);
    let other = 1 + random.below(4_094);
    give_name(&mut table, 4_095, other);
    table
}

/// The one node has the name of the other.
fn give_name(table: &mut Table, one: usize, other: usize) {
    table.nodes[one].name_length = table.nodes[other].name_length;
    table.nodes[one].name_start = table.nodes[other].name_start;
}

/// One fault, or what looks like one.
pub fn damage(random: &mut Random, table: &mut Table) {
    let size = table.nodes.len();
    if size == 0 {
        return;
    }
    let (one, other) = (random.below(size), random.below(size));
    match random.below(18) {
        0 => table.nodes.clear(),
        1 => table.nodes.truncate(size - 1),
        2 => table.nodes.push(table.nodes[one]),
        3 => table.nodes.swap(one, other),
        4 => move_child(random, table),
        5 => change_field(random, table),
        6 => table.nodes[one] = Node::of_word(table.nodes[one].word() ^ 1 << random.below(64)),
        7 => drop(table.names.pop()),
        8 => table.names = text::damaged(random, b"ABab012*", table.names.clone()),
        9 | 10 => table.nodes[one].default = true,
        11 | 12 => give_name(table, one, other),
        _ => {
            let name = table.name(other).unwrap_or_default();
            let name = respelled(random, name);
            if (1..=15).contains(&name.len()) {
                table.nodes[one].name_length = name.len();
                table.nodes[one].name_start = put(random, &mut table.names, &name);
            }
        }
    }
}

/// Sets a field of a node to a value next to its own, to another node's or to a limit.
fn change_field(random: &mut Random, table: &mut Table) {
    let size = table.nodes.len();
    if size == 0 {
        return;
    }
    let (one, other) = (random.below(size), random.below(size));
    let field = random.below(7);
    let own = table.nodes[one].fields()[field];
    let value = match random.below(4) {
        0 => own + 1,
        1 => own.wrapping_sub(1),
        2 => table.nodes[other].fields()[field],
        _ => random.pick(&[0, 1, 2, usize::MAX]),
    };
    table.nodes[one] = with_field(&table.nodes[one], field, value);
}

/// One branch has a child less, another one more. The blocks follow each other again.
fn move_child(random: &mut Random, table: &mut Table) {
    let branches = (0..table.nodes.len()).filter(|i| table.nodes[*i].branch);
    let branches: Vec<_> = branches.collect();
    if branches.is_empty() {
        return;
    }
    let from = &mut table.nodes[random.pick(&branches)].child_count;
    *from = from.saturating_sub(1);
    let to = &mut table.nodes[random.pick(&branches)].child_count;
    *to = (*to + 1).min(65_535);
    lay_out(&mut table.nodes);
}

/// A name that shares a spelling with this one, or nearly so.
fn respelled(random: &mut Random, name: &[u8]) -> Vec<u8> {
    let (stem, tail) = split_tail(name);
    let mut word = stem.to_vec();
    let small = word.iter().position(u8::is_ascii_lowercase);
    let capital = word.iter().rposition(u8::is_ascii_uppercase);
    match (random.below(7), small, capital) {
        (0, _, _) => word.retain(|b| !b.is_ascii_lowercase()),
        (1, _, _) => word.make_ascii_uppercase(),
        (2, _, _) => word.push(random.pick(b"abc")),
        (3, _, _) => word.insert(0, b'*'),
        (4, Some(place), _) | (5, _, Some(place)) => word[place] ^= 0x20,
        _ => {}
    }
    word.extend(random.pick(&[tail, tail, b"", b"1", b"2", b"01", b"11"]));
    word
}
