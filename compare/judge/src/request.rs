//! Request lines, and the readable form of them that the question files are written in and differences are shown in:
//! `"TRIG"` stands for the hex of the text between the quotes, `\xNN` for a byte, `\n` for a newline, `\"` and `\\` for
//! these bytes, and a backslash at the end of the line for nothing (so that an empty line can be asked, and a space before
//! it be seen). `{bd 5 9 7 2}` stands for the word of a node: `b` a branch or `l` a leaf, `d` for default, then the other
//! fields in their order, without the zeros at the end.

use crate::table::{Node, Table};

/// The request with this letter and these texts.
pub fn request(letter: &str, texts: &[&[u8]]) -> String {
    let mut line = letter.to_string();
    for text in texts {
        line.push(' ');
        line.push_str(&hex(text));
    }
    line
}

/// The field of a request that stands for a text.
pub fn hex(text: &[u8]) -> String {
    if text.is_empty() {
        return "-".to_string();
    }
    let digit = |n: u8| char::from_digit(n.into(), 16).unwrap();
    text.iter()
        .flat_map(|b| [digit(b >> 4), digit(b & 15)])
        .collect()
}

/// The text that a field stands for.
pub fn unhex(field: &[u8]) -> Option<Vec<u8>> {
    let digit = |b: u8| (b as char).to_digit(16);
    match field {
        b"" => None,
        b"-" => Some(vec![]),
        _ => field
            .chunks(2)
            .map(|pair| Some((digit(pair[0])? * 16 + digit(*pair.get(1)?)?) as u8))
            .collect(),
    }
}

/// The number that a field stands for: decimal digits alone.
pub fn number(field: &str) -> Option<u64> {
    let digits = field.bytes().all(|b| b.is_ascii_digit());
    field.parse().ok().filter(|_| digits)
}

/// The letter of a request and its texts. None of a line that has a field which is no hex.
pub fn parts(request: &str) -> Option<(&str, Vec<Vec<u8>>)> {
    let mut fields = request.split_ascii_whitespace();
    let letter = fields.next()?;
    let texts: Option<_> = fields.map(|field| unhex(field.as_bytes())).collect();
    Some((letter, texts?))
}

/// The field of a request that stands for a table: the words, a slash and the names.
pub fn table_field(table: &Table) -> String {
    let word = |node: &Node| node.word().to_string();
    format!("{}/{}", joined(&table.nodes, word), hex(&table.names))
}

fn joined(nodes: &[Node], write: fn(&Node) -> String) -> String {
    match nodes {
        [] => "-".to_string(),
        _ => nodes.iter().map(write).collect::<Vec<_>>().join(","),
    }
}

/// The table that a field stands for.
pub fn table(field: &str) -> Option<Table> {
    let (words, names) = field.split_once('/')?;
    let node = |word: &str| number(word).map(Node::of_word);
    Some(Table {
        nodes: match words {
            "-" => vec![],
            _ => words.split(',').map(node).collect::<Option<_>>()?,
        },
        names: unhex(names.as_bytes())?,
    })
}

/// The table that a readable form stands for.
pub fn clear_table(form: &str) -> Table {
    let field = read(form).and_then(|field| String::from_utf8(field).ok());
    table(&field.unwrap()).unwrap()
}

/// A request in its readable form; every field behind the letter is hex or a table, but for numbers between a table and the
/// last field.
pub fn clear(request: &str) -> String {
    let fields: Vec<&str> = request.split(' ').collect();
    let mut line = fields[0].to_string();
    let mut behind_table = false;
    for (i, field) in fields.iter().enumerate().skip(1) {
        line.push(' ');
        let is_number = behind_table && i + 1 < fields.len();
        match (unhex(field.as_bytes()), table(field)) {
            (Some(text), _) if !is_number => line.push_str(&quoted(&text)),
            (None, Some(Table { nodes, names })) => {
                behind_table = true;
                line.push_str(&format!("{}/{}", joined(&nodes, braced), quoted(&names)))
            }
            _ => line.push_str(field),
        }
    }
    line
}

fn braced(node: &Node) -> String {
    let [branch, default, numbers @ ..] = node.fields();
    let mut line = ["{l", "{b"][branch].to_string();
    line.push_str(["", "d"][default]);
    let zeros = numbers.iter().rev().take_while(|n| **n == 0).count();
    for number in &numbers[..numbers.len() - zeros] {
        line.push_str(&format!(" {number}"));
    }
    line.push('}');
    line
}

/// The node that the text between the braces stands for.
fn unbraced(text: &str) -> Option<Node> {
    let mut parts = text.split(' ');
    let (branch, default) = match parts.next()? {
        "l" => (0, 0),
        "ld" => (0, 1),
        "b" => (1, 0),
        "bd" => (1, 1),
        _ => return None,
    };
    let mut fields = [branch, default, 0, 0, 0, 0, 0];
    for (i, number) in parts.enumerate() {
        *fields.get_mut(2 + i)? = number.parse().ok()?;
    }
    let node = Node::of_fields(fields);
    (node.fields() == fields).then_some(node)
}

fn quoted(text: &[u8]) -> String {
    let mut line = '"'.to_string();
    for b in text {
        match b {
            b'\n' => line.push_str("\\n"),
            b'"' | b'\\' => line.extend(['\\', *b as char]),
            b' '..=b'~' => line.push(*b as char),
            _ => line.push_str(&format!("\\x{b:02x}")),
        }
    }
    line.push('"');
    line
}

/// The request that a line in the readable form stands for.
pub fn read(line: &str) -> Option<Vec<u8>> {
    let mut request = vec![];
    let mut open: Option<Vec<u8>> = None;
    let mut rest = line.as_bytes();
    while let [first, behind @ ..] = rest {
        rest = behind;
        let byte = match first {
            b'"' => {
                match open.take() {
                    Some(text) => request.extend(hex(&text).bytes()),
                    None => open = Some(vec![]),
                }
                continue;
            }
            b'{' if open.is_none() => {
                let end = rest.iter().position(|b| *b == b'}')?;
                let node = unbraced(std::str::from_utf8(&rest[..end]).ok()?)?;
                request.extend(node.word().to_string().bytes());
                rest = &rest[end + 1..];
                continue;
            }
            b'\\' if rest.is_empty() => break,
            b'\\' => {
                let (byte, behind) = match rest {
                    [b'x', high, low, behind @ ..] => (unhex(&[*high, *low])?[0], behind),
                    [b'n', behind @ ..] => (b'\n', behind),
                    [byte @ (b'"' | b'\\'), behind @ ..] => (*byte, behind),
                    _ => return None,
                };
                rest = behind;
                byte
            }
            byte => *byte,
        };
        open.as_mut().unwrap_or(&mut request).push(byte);
    }
    open.is_none().then_some(request)
}
