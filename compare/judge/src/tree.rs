//! Trees: all small ones, and random ones with good names, for tables that are accepted.

use std::collections::HashSet;

use crate::random::Random;
use crate::table::{spellings, Node, Table};
use crate::text::{random_text, table_name, ALL};

/// The table of the program commandcheck.
pub const COMMANDCHECK: &str = r#"{b 0 0 1 4},{l 4 0 1},{b 5 4 5 2},{bd 5 9 7 2},{l 5 14 2},{l 5 19 3},{l 4 24 4},{b 7 28 9 2},{l 7 35 5},{ld 2 42 6},{l 3 44 7}/"*IDNROUTeSENSeABORtCLOSeOPENVOLTageCURRentDCAC2""#;

/// All ways to take one of each list.
pub fn one_of_each<T: Copy + Send>(lists: Vec<Vec<T>>) -> impl Iterator<Item = Vec<T>> + Send {
    let count: usize = lists.iter().map(Vec::len).product();
    (0..count).map(move |mut i| {
        let mut taken = vec![];
        for list in &lists {
            taken.push(list[i % list.len()]);
            i /= list.len();
        }
        taken
    })
}

/// All trees of that many nodes, each of which is default or not and has one of three names.
pub fn all_trees(size: usize) -> impl Iterator<Item = Table> + Send {
    let choices = [false, true].map(|default| [0, 1, 2].map(|name| (default, name)));
    all_layouts(size).flat_map(move |nodes| {
        one_of_each(vec![choices.concat(); size - 1]).map(move |choices| {
            let mut nodes = nodes.clone();
            for (node, (default, name)) in nodes.iter_mut().skip(1).zip(choices) {
                node.default = default;
                node.name_length = 1;
                node.name_start = name;
            }
            Table::new(nodes, b"ABC")
        })
    })
}

/// All trees of that many nodes, without names.
fn all_layouts(size: usize) -> impl Iterator<Item = Vec<Node>> + Send {
    let leaf = Node::default();
    let branch = |child_count| Node {
        branch: true,
        child_count,
        ..leaf
    };
    let mut kinds = vec![leaf];
    kinds.extend((0..size).map(branch));
    one_of_each(vec![kinds; size]).filter_map(|mut nodes| {
        lay_out(&mut nodes);
        let table = Table::new(nodes, b"");
        // What is no tree has a smaller fault than that of the names.
        let tree = table.fault().unwrap_or(4) == 4;
        tree.then_some(table.nodes)
    })
}

/// Sets the first children so that the blocks follow each other.
pub fn lay_out(nodes: &mut [Node]) {
    let mut place = 1;
    for node in nodes.iter_mut().filter(|node| node.branch) {
        node.first_child = place.min(65_535);
        place += node.child_count;
    }
}

/// The least and the greatest number of children that a branch has.
pub type Width = (usize, usize);

/// An accepted table of that many nodes, at least 1.
pub fn accepted(random: &mut Random, size: usize) -> Table {
    let width = random.pick(&[(0, 3), (0, 3), (1, 2), (1, 1), (2, 5), (9, 9)]);
    let nodes = tree(random, size, width);
    named(random, nodes)
}

/// A tree of exactly that many nodes, at least 1, without names. A branch has fewer children where the nodes run out. In one
/// tree of two the branch that is to go on is the default child.
pub fn tree(random: &mut Random, size: usize, (least, most): Width) -> Vec<Node> {
    let chain = random.one_in(2);
    let mut nodes = vec![Node {
        branch: true,
        ..Node::default()
    }];
    let mut i = 0;
    while i < nodes.len() {
        if nodes[i].branch {
            // The last branch goes on as long as there are nodes left.
            let last = !nodes[i + 1..].iter().any(|node| node.branch);
            let room = size - nodes.len();
            let wanted = least.max(last.into()) + random.below(most - least + 1);
            let count = wanted.min(room);
            nodes[i].first_child = nodes.len();
            nodes[i].child_count = count;
            let heir = random.below(count.max(1));
            let default = if chain {
                heir
            } else {
                random.below(2 * count + 1)
            };
            for child in 0..count {
                let goes_on = last && count < room && child == heir;
                nodes.push(Node {
                    branch: goes_on || random.one_in(3),
                    default: child == default,
                    ..Node::default()
                });
            }
        } else {
            nodes[i].first_child = random.pick(&[0, 1, i + 1, 65_535]);
        }
        i += 1;
    }
    nodes
}

/// The tree with names, such that no near nodes share a spelling.
fn named(random: &mut Random, mut nodes: Vec<Node>) -> Table {
    let length = random.pick(&[0, 0, 0, 1, 7]);
    let mut names = random_text(random, &ALL, length);
    // For each branch the one, itself or higher up, whose near nodes all of its children are; and the words taken there.
    let mut tops = vec![0; nodes.len()];
    let mut taken = HashSet::new();
    for branch in 0..nodes.len() {
        if !nodes[branch].branch {
            continue;
        }
        let top = tops[branch];
        for child in nodes[branch].children() {
            let node = &mut nodes[child];
            tops[child] = if node.default { top } else { child };
            let may_have_star = branch == 0 && !node.branch && !node.default;
            let name = loop {
                let name = name(random, may_have_star);
                let words = spellings(&name).into_iter().map(|word| (top, word));
                if words.clone().all(|word| !taken.contains(&word)) {
                    taken.extend(words);
                    break name;
                }
            };
            node.name_length = name.len();
            node.name_start = put(random, &mut names, &name);
        }
    }
    let length = random.pick(&[0, 0, 0, 1]);
    names.extend(random_text(random, &ALL, length));
    Table { nodes, names }
}

const COMMON: [&[u8]; 16] = [
    b"A",
    b"AB",
    b"ABC",
    b"ABc",
    b"Abc",
    b"A1",
    b"A2",
    b"A10",
    b"A12",
    b"B",
    b"Bc",
    b"AB2",
    b"DC",
    b"AC2",
    b"VOLTage",
    b"VOLTage2",
];

/// A good name, a common one or any.
fn name(random: &mut Random, may_have_star: bool) -> Vec<u8> {
    let length = 1 + random.below(12);
    let mut name = match random.below(2) {
        0 => random.pick(&COMMON).to_vec(),
        _ => table_name(random, length),
    };
    name.retain(|b| *b != b'*');
    if may_have_star && name.len() < 12 && random.one_in(4) {
        name.insert(0, b'*');
    }
    name
}

/// Where the name, which is not empty, stands in the text. It is added where it is not there yet, and at times where it is;
/// the end of the text may be its beginning.
pub fn put(random: &mut Random, names: &mut Vec<u8>, name: &[u8]) -> usize {
    let found = names.windows(name.len()).position(|part| part == name);
    if let (Some(start), false) = (found, random.one_in(4)) {
        return start;
    }
    let mut both = name.len() - 1;
    while !names.ends_with(&name[..both]) {
        both -= 1;
    }
    let start = names.len() - both;
    names.extend(&name[both..]);
    start
}
