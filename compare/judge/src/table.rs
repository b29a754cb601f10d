//! The node table and a plain check of it, one function a fault.

use std::ops::Range;

/// The widths of a word's fields, most significant first.
const WIDTHS: [u32; 7] = [1, 1, 4, 16, 16, 16, 10];

/// The fields of a word, in their order.
#[derive(Clone, Copy, Default)]
pub struct Node {
    pub branch: bool,
    pub default: bool,
    pub name_length: usize,
    pub name_start: usize,
    /// Of a leaf it is the command number.
    pub first_child: usize,
    pub child_count: usize,
    pub spare: usize,
}

impl Node {
    pub fn of_word(word: u64) -> Self {
        let mut end = 64;
        Node::of_fields(WIDTHS.map(|width| {
            end -= width;
            (word >> end) as usize
        }))
    }

    pub fn word(&self) -> u64 {
        let fields = WIDTHS.iter().zip(self.fields());
        fields.fold(0, |word, (width, field)| word << width | field as u64)
    }

    /// Each field takes as many bits of its number as it has, the low ones.
    pub fn of_fields(fields: [usize; 7]) -> Self {
        let low = |i: usize| fields[i] & ((1 << WIDTHS[i]) - 1);
        Node {
            branch: low(0) == 1,
            default: low(1) == 1,
            name_length: low(2),
            name_start: low(3),
            first_child: low(4),
            child_count: low(5),
            spare: low(6),
        }
    }

    pub fn fields(&self) -> [usize; 7] {
        [
            self.branch.into(),
            self.default.into(),
            self.name_length,
            self.name_start,
            self.first_child,
            self.child_count,
            self.spare,
        ]
    }

    /// The indices of a branch's children.
    pub fn children(&self) -> Range<usize> {
        self.first_child..self.first_child + self.child_count
    }
}

#[derive(Clone)]
pub struct Table {
    pub nodes: Vec<Node>,
    pub names: Vec<u8>,
}

impl Table {
    pub fn new(nodes: Vec<Node>, names: &[u8]) -> Self {
        let names = names.to_vec();
        Table { nodes, names }
    }

    /// The smallest fault, or None of an accepted table. A fault is looked for only where there is no smaller one.
    pub fn fault(&self) -> Option<usize> {
        let faults = [
            Table::wrong_size,
            Table::wrong_fields,
            Table::wrong_blocks,
            Table::wrong_names,
            Table::two_defaults,
            Table::shared_spelling,
        ];
        let smallest = faults.iter().position(|fault| fault(self))?;
        Some(smallest + 1)
    }

    /// Fault 1: no node, or above 4,096.
    fn wrong_size(&self) -> bool {
        self.nodes.is_empty() || self.nodes.len() > 4_096
    }

    /// Fault 2: spare bits set; root no branch, default, or with name fields not 0; leaf with children.
    fn wrong_fields(&self) -> bool {
        let root = &self.nodes[0];
        self.nodes.iter().any(|node| node.spare != 0)
            || !root.branch
            || root.default
            || root.name_length != 0
            || root.name_start != 0
            || self.nodes.iter().any(|n| !n.branch && n.child_count != 0)
    }

    /// Fault 3: in index order, branches' child blocks do not follow each other from 1 to the end exactly, or a block starts
    /// at or before its branch.
    fn wrong_blocks(&self) -> bool {
        let mut place = 1;
        for i in self.branches() {
            let block = self.nodes[i].children();
            if block.start != place || block.start <= i {
                return true;
            }
            place = block.end;
        }
        place != self.nodes.len()
    }

    /// Fault 4: name (root excepted) outside the text, not 1 to 12 bytes, or not capitals (one at least), small letters,
    /// digits not starting with 0. One `*` may precede the capitals only for a non-default leaf under the root.
    fn wrong_names(&self) -> bool {
        (1..self.nodes.len()).any(|i| {
            let node = &self.nodes[i];
            let under_root = self.nodes[0].children().contains(&i);
            let may_have_star = !node.default && !node.branch && under_root;
            let Some(name) = self.name(i) else {
                return true;
            };
            let Some([star, ..]) = name_parts(name) else {
                return true;
            };
            !(1..=12).contains(&name.len()) || (!star.is_empty() && !may_have_star)
        })
    }

    /// Fault 5: two default children in a branch.
    fn two_defaults(&self) -> bool {
        self.branches().any(|i| {
            let children = self.nodes[i].children();
            children.filter(|c| self.nodes[*c].default).count() >= 2
        })
    }

    /// Fault 6: two near nodes of a branch share a spelling. All near nodes of a default branch are near nodes of the branch
    /// that it is a child of, so that it needs no look of its own.
    fn shared_spelling(&self) -> bool {
        let mut branches = self.branches().filter(|i| !self.nodes[*i].default);
        branches.any(|i| {
            let near = self.near_nodes(i).into_iter();
            let names = near.filter_map(|node| self.name(node));
            let mut words: Vec<_> = names.flat_map(spellings).collect();
            words.sort();
            words.windows(2).any(|pair| pair[0] == pair[1])
        })
    }

    /// The children of a branch and the near nodes of its default branch.
    fn near_nodes(&self, branch: usize) -> Vec<usize> {
        let mut near: Vec<_> = self.nodes[branch].children().collect();
        for child in self.nodes[branch].children() {
            if self.nodes[child].branch && self.nodes[child].default {
                near.extend(self.near_nodes(child));
            }
        }
        near
    }

    fn branches(&self) -> impl Iterator<Item = usize> + '_ {
        (0..self.nodes.len()).filter(|i| self.nodes[*i].branch)
    }

    /// None where it is outside the text.
    pub fn name(&self, node: usize) -> Option<&[u8]> {
        let (start, length) = (self.nodes[node].name_start, self.nodes[node].name_length);
        self.names.get(start..start + length)
    }
}

/// A star or nothing, capitals, small letters, digits. None of a text that is not these.
fn name_parts(name: &[u8]) -> Option<[&[u8]; 4]> {
    let (star, rest) = name.split_at(usize::from(name.starts_with(b"*")));
    let (capitals, rest) = run(rest, u8::is_ascii_uppercase);
    let (small, rest) = run(rest, u8::is_ascii_lowercase);
    let (digits, rest) = run(rest, u8::is_ascii_digit);
    let good = !capitals.is_empty() && !digits.starts_with(b"0") && rest.is_empty();
    good.then_some([star, capitals, small, digits])
}

/// The bytes of that class at the start, and the rest.
fn run(text: &[u8], class: fn(&u8) -> bool) -> (&[u8], &[u8]) {
    text.split_at(text.iter().take_while(|b| class(b)).count())
}

/// The words that spell a name, in small letters, since the case does not matter. Each is the star, the capitals or all
/// letters, and the digits; no digits and 1 stand for each other. A text that is no name has none.
pub fn spellings(name: &[u8]) -> Vec<Vec<u8>> {
    let Some([star, capitals, small, digits]) = name_parts(name) else {
        return vec![];
    };
    let tails: &[&[u8]] = match digits {
        b"" | b"1" => &[b"", b"1"],
        _ => &[digits],
    };
    let mut words = vec![];
    for tail in tails {
        words.push([star, capitals, tail].concat().to_ascii_lowercase());
        if !small.is_empty() {
            words.push([star, capitals, small, tail].concat().to_ascii_lowercase());
        }
    }
    words
}
