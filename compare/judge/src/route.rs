//! One header, alone or as the first part of a unit, read plainly: all routes of a well-formed header, and the first refusal in
//! any other.

use crate::table::{spellings, Table};
use crate::text::LONGEST;

/// What a header resolves to.
#[derive(Debug, PartialEq)]
pub struct Found {
    pub command: usize,
    pub query: bool,
    /// The branch that is kept.
    pub kept: usize,
}

const START_IS_NO_BRANCH: i32 = 7;
const TOO_LONG: i32 = 9;
pub const INVALID_CHARACTER: i32 = -101;
pub const SYNTAX_ERROR: i32 = -102;
pub const INVALID_SEPARATOR: i32 = -103;
const HEADER_ERROR: i32 = -110;
const HEADER_SEPARATOR_ERROR: i32 = -111;
pub const MNEMONIC_TOO_LONG: i32 = -112;
const UNDEFINED_HEADER: i32 = -113;
pub const SUFFIX_NOT_ALLOWED: i32 = -138;
const INVALID_EXPRESSION: i32 = -171;

/// So many bytes a mnemonic has at most, a star counted.
pub const LONGEST_MNEMONIC: usize = 12;

const ROOT: usize = 0;

impl Table {
    /// What the text is as one header from that branch, or the number of its refusal: first the faults of the table, then
    /// the start, then the length, then the text.
    pub fn resolve(&self, start: u64, text: &[u8]) -> Result<Found, i32> {
        let start = self.admitted(start, text)?;
        let walked = self.alone(start, text);
        if let Some(routed) = self.routed(start, text) {
            assert_eq!(routed, walked, "{}", text.escape_ascii());
            return routed;
        }
        walked
    }

    /// The branch to start from, where nothing is refused before the text is read.
    pub fn admitted(&self, start: u64, text: &[u8]) -> Result<usize, i32> {
        if let Some(fault) = self.fault() {
            return Err(fault as i32);
        }
        let mut branches = (0..self.nodes.len()).filter(|i| self.nodes[*i].branch);
        let Some(start) = branches.find(|branch| *branch as u64 == start) else {
            return Err(START_IS_NO_BRANCH);
        };
        if text.len() > LONGEST {
            return Err(TOO_LONG);
        }
        Ok(start)
    }

    /// What the text is as a well-formed header from that branch. None where it is none.
    pub fn routed(&self, start: usize, text: &[u8]) -> Option<Result<Found, i32>> {
        Header::well_formed(text).map(|header| self.by_routes(start, &header))
    }
}

/// A well-formed header.
struct Header<'a> {
    colon: bool,
    star: bool,
    words: Vec<&'a [u8]>,
    query: bool,
}

impl<'a> Header<'a> {
    /// An optional `:` and mnemonics joined by single `:`, or a star and one mnemonic; then an optional `?`. None of a text
    /// that is not such, or has a mnemonic that is too long.
    fn well_formed(text: &'a [u8]) -> Option<Self> {
        let without = text.strip_suffix(b"?");
        let query = without.is_some();
        let text = without.unwrap_or(text);
        let (colon, star, words) = match text {
            [b'*', mnemonic @ ..] => {
                is_mnemonic(mnemonic).then_some(())?;
                (false, true, vec![text])
            }
            _ => {
                let behind = text.strip_prefix(b":");
                let words = behind.unwrap_or(text).split(|b| *b == b':');
                let words: Vec<_> = words.collect();
                words.iter().all(|word| is_mnemonic(word)).then_some(())?;
                (behind.is_some(), false, words)
            }
        };
        let fit = words.iter().all(|word| word.len() <= LONGEST_MNEMONIC);
        fit.then_some(Header {
            colon,
            star,
            words,
            query,
        })
    }
}

/// A letter and then letters, digits or `_`.
fn is_mnemonic(word: &[u8]) -> bool {
    word.first().is_some_and(u8::is_ascii_alphabetic) && word.iter().all(goes_on)
}

pub fn goes_on(b: &u8) -> bool {
    b.is_ascii_alphanumeric() || *b == b'_'
}

/// All routes of a well-formed header.
impl Table {
    /// On an accepted table there is one route, or none.
    fn by_routes(&self, start: usize, header: &Header) -> Result<Found, i32> {
        let from_root = header.colon || header.star;
        let from = if from_root { ROOT } else { start };
        let routes = self.routes(from, &header.words, from);
        assert!(routes.len() <= 1, "two routes: {:?}", header.words);
        let (leaf, holder) = routes.first().ok_or(UNDEFINED_HEADER)?;
        Ok(Found {
            command: self.nodes[*leaf].first_child,
            query: header.query,
            kept: if header.star { start } else { *holder },
        })
    }

    /// Each route from a branch, by the leaf that it ends at and the branch that holds the last spoken node. So far that is
    /// `holder`. The next word spells a child, or the default child is entered unsaid.
    fn routes(&self, branch: usize, words: &[&[u8]], holder: usize) -> Vec<(usize, usize)> {
        let mut routes = vec![];
        for child in self.nodes[branch].children() {
            if let [word, rest @ ..] = words {
                if self.spells(word, child) {
                    routes.extend(self.routes_through(child, rest, branch));
                }
            }
            if self.nodes[child].default {
                routes.extend(self.routes_through(child, words, holder));
            }
        }
        routes
    }

    /// A route ends at a leaf, with no word left.
    fn routes_through(&self, node: usize, words: &[&[u8]], holder: usize) -> Vec<(usize, usize)> {
        if self.nodes[node].branch {
            self.routes(node, words, holder)
        } else if words.is_empty() {
            vec![(node, holder)]
        } else {
            vec![]
        }
    }

    fn spells(&self, word: &[u8], node: usize) -> bool {
        let spellings = self.name(node).map(spellings).unwrap_or_default();
        spellings.contains(&word.to_ascii_lowercase())
    }
}

/// Any header, token by token.
impl Table {
    /// The text as one header: behind it stands nothing.
    fn alone(&self, start: usize, text: &[u8]) -> Result<Found, i32> {
        let mut tokens = Tokens::new(text);
        let first = tokens.next()?;
        match self.header(start, &mut tokens, first)? {
            (found, Token::End) => Ok(found),
            _ => Err(SYNTAX_ERROR),
        }
    }

    /// The first refusal met in a header, or what it resolves to and the token that ends it.
    pub fn header<'a>(
        &self,
        start: usize,
        tokens: &mut Tokens<'a>,
        first: Token<'a>,
    ) -> Result<(Found, Token<'a>), i32> {
        // The node that was spoken last, or the branch to begin at; and the branch that holds it, or that one.
        let (mut node, mut kept) = (start, start);
        let mut star = false;
        let mut token = first;
        match token {
            Token::Colon => {
                (node, kept) = (ROOT, ROOT);
                token = tokens.next()?;
            }
            Token::Mnemonic([b'*', ..]) => {
                node = ROOT;
                star = true;
            }
            Token::Mnemonic(_) => {}
            _ => return Err(SYNTAX_ERROR),
        }
        loop {
            if let Token::Colon = token {
                if !self.nodes[node].branch {
                    return Err(UNDEFINED_HEADER);
                }
                token = tokens.next()?;
                if let Token::End = token {
                    return Err(HEADER_ERROR);
                }
            }
            match token {
                Token::Mnemonic(word) => {
                    (node, kept) = self.spoken(node, word).ok_or(UNDEFINED_HEADER)?;
                    token = tokens.next()?;
                }
                Token::Colon | Token::Expression => return Err(SYNTAX_ERROR),
                Token::End | Token::Query | Token::HeaderSeparator | Token::UnitSeparator => break,
            }
        }
        let leaf = self.unsaid(node).ok_or(UNDEFINED_HEADER)?;
        let query = matches!(token, Token::Query);
        if query {
            token = tokens.next()?;
        }
        let found = Found {
            command: self.nodes[leaf].first_child,
            query,
            kept: if star { start } else { kept },
        };
        Ok((found, token))
    }

    /// The node that the word spells and the branch that holds it: a child of the node, or of a default branch that is
    /// entered unsaid.
    fn spoken(&self, node: usize, word: &[u8]) -> Option<(usize, usize)> {
        let mut branch = Some(node);
        while let Some(holder) = branch {
            let mut children = self.nodes[holder].children();
            if let Some(child) = children.find(|child| self.spells(word, *child)) {
                return Some((child, holder));
            }
            branch = self.default_child(holder);
        }
        None
    }

    /// The leaf that is reached with no word left.
    fn unsaid(&self, mut node: usize) -> Option<usize> {
        while self.nodes[node].branch {
            node = self.default_child(node)?;
        }
        Some(node)
    }

    fn default_child(&self, branch: usize) -> Option<usize> {
        let mut children = self.nodes[branch].children();
        children.find(|child| self.nodes[*child].default)
    }
}

/// What the token step gives in a header.
pub enum Token<'a> {
    Mnemonic(&'a [u8]),
    Colon,
    Query,
    Expression,
    HeaderSeparator,
    UnitSeparator,
    End,
}

/// The tokens of headers. Behind an expression nothing is read.
pub struct Tokens<'a> {
    text: &'a [u8],
    pub place: usize,
    /// From a star on, up to the end of the unit.
    pub in_common: bool,
}

impl<'a> Tokens<'a> {
    pub fn new(text: &'a [u8]) -> Self {
        Tokens {
            text,
            place: 0,
            in_common: false,
        }
    }

    pub fn next(&mut self) -> Result<Token<'a>, i32> {
        let rest = &self.text[self.place..];
        let next = rest.get(1);
        let Some(first) = rest.first() else {
            return Ok(Token::End);
        };
        let (token, length) = match first {
            b'\n' if next.is_none() => (Token::End, 1),
            b'\n' => return Err(SYNTAX_ERROR),
            b'*' | b'A'..=b'Z' | b'a'..=b'z' => {
                let length = 1 + rest[1..].iter().take_while(|b| goes_on(b)).count();
                if length > LONGEST_MNEMONIC {
                    return Err(MNEMONIC_TOO_LONG);
                }
                self.in_common |= *first == b'*';
                (Token::Mnemonic(&rest[..length]), length)
            }
            b':' if next.is_some_and(|b| !b.is_ascii_alphabetic()) || self.in_common => {
                return Err(INVALID_SEPARATOR)
            }
            b':' => (Token::Colon, 1),
            b'?' if next.is_some_and(|b| !is_white(b) && *b != b';') => return Err(SYNTAX_ERROR),
            b'?' => (Token::Query, 1),
            b';' => (Token::UnitSeparator, 1 + white(&rest[1..])),
            b',' => return Err(HEADER_SEPARATOR_ERROR),
            b'0'..=b'9' | b'+' | b'-' | b'.' | b'#' | b'"' | b'\'' => return Err(HEADER_ERROR),
            b'(' => (Token::Expression, expression(rest)?),
            128.. => return Err(INVALID_CHARACTER),
            b if is_white(b) => (Token::HeaderSeparator, white(rest)),
            _ => return Err(SYNTAX_ERROR),
        };
        self.place += length;
        Ok(token)
    }
}

pub fn is_white(b: &u8) -> bool {
    [9, 10, 12, 13, 32].contains(b)
}

/// How many bytes of white space the text begins with.
pub fn white(text: &[u8]) -> usize {
    text.iter().take_while(|b| is_white(b)).count()
}

/// The length of the expression that the text begins with, and of the white space behind it.
pub fn expression(text: &[u8]) -> Result<usize, i32> {
    let behind = &text[1..];
    let end = behind
        .iter()
        .position(|b| b"\"';()".contains(b) || !b.is_ascii())
        .filter(|end| behind[*end] == b')')
        .ok_or(INVALID_EXPRESSION)?;
    followed(text, 1 + end + 1, SUFFIX_NOT_ALLOWED)
}

/// Behind a form of data of that length come white space, then the end, `,` or `;`; anything else is the number. The length
/// with the white space.
pub fn followed(text: &[u8], length: usize, number: i32) -> Result<usize, i32> {
    let length = length + white(&text[length..]);
    match text.get(length) {
        None | Some(b',' | b';') => Ok(length),
        Some(_) => Err(number),
    }
}
