//! A message read plainly: its units one after the other, each a header and its items.

use crate::route::{
    expression, followed, goes_on, is_white, white, Found, Token, Tokens, INVALID_CHARACTER,
    INVALID_SEPARATOR, LONGEST_MNEMONIC, MNEMONIC_TOO_LONG, SUFFIX_NOT_ALLOWED, SYNTAX_ERROR,
};
use crate::table::Table;

/// A unit that was read well.
pub struct Unit {
    pub found: Found,
    pub items: usize,
}

/// What refuses a message.
pub struct Refusal {
    pub number: i32,
    /// The heading of the entry in docs/DIFFERENCES.md, where the Rust may say something else.
    pub entry: Option<&'static str>,
}

impl From<i32> for Refusal {
    fn from(number: i32) -> Self {
        let entry = None;
        Refusal { number, entry }
    }
}

pub const RADIX_DIGITS: &str = "Radix digits that are none";
pub const SIGN: &str = "A sign in radix digits or block lengths";

const NO_SLOT_LEFT: i32 = 8;
const NUMERIC_DATA_ERROR: i32 = -120;
const INVALID_CHARACTER_IN_NUMBER: i32 = -121;
const INVALID_SUFFIX: i32 = -131;
const SUFFIX_TOO_LONG: i32 = -134;
const INVALID_CHARACTER_DATA: i32 = -141;
const CHARACTER_DATA_TOO_LONG: i32 = -144;
const INVALID_STRING_DATA: i32 = -151;
const BLOCK_DATA_ERROR: i32 = -160;
const INVALID_BLOCK_DATA: i32 = -161;
const DATA_OUT_OF_RANGE: i32 = -222;

/// So many bytes a word of data or a suffix has at most.
const LONGEST_WORD: usize = 12;

impl Table {
    /// The units of the message from that branch that find a slot, and what refuses the next one.
    pub fn units(&self, start: u64, slots: usize, text: &[u8]) -> (Vec<Unit>, Option<Refusal>) {
        let mut units = vec![];
        let refusal = self.read(start, slots, text, &mut units).err();
        (units, refusal)
    }

    fn read(
        &self,
        start: u64,
        slots: usize,
        text: &[u8],
        units: &mut Vec<Unit>,
    ) -> Result<(), Refusal> {
        let mut kept = self.admitted(start, text)?;
        let mut tokens = Tokens::new(text);
        loop {
            let begin = tokens.place;
            let first = tokens.next()?;
            if let Token::End = first {
                return Ok(());
            }
            let header = self.header(kept, &mut tokens, first);
            self.check_routes(kept, &text[begin..], &header);
            let (found, stop) = header?;
            let items = match stop {
                Token::HeaderSeparator => items(text, &mut tokens.place)?,
                _ => 0,
            };
            tokens.in_common = false;
            if units.len() == slots {
                return Err(NO_SLOT_LEFT.into());
            }
            kept = found.kept;
            units.push(Unit { found, items });
        }
    }

    /// Where the unit begins with a well-formed header, its routes say the same.
    fn check_routes(&self, start: usize, unit: &[u8], header: &Result<(Found, Token), i32>) {
        let end = unit.iter().position(|b| is_white(b) || *b == b';');
        let (text, behind) = unit.split_at(end.unwrap_or(unit.len()));
        // A newline that is not the last byte is refused before the route is.
        if behind.starts_with(b"\n") && behind.len() > 1 {
            return;
        }
        if let Some(routed) = self.routed(start, text) {
            let walked = header.as_ref().map(|(found, _)| found).map_err(|e| *e);
            assert_eq!(
                routed.as_ref().map_err(|e| *e),
                walked,
                "{}",
                unit.escape_ascii()
            );
        }
    }
}

/// How many items stand there: none, or some with single commas between. The place is then that behind the `;`, or the end.
fn items(text: &[u8], place: &mut usize) -> Result<usize, Refusal> {
    let mut next = || -> Result<Data, Refusal> {
        let (data, length) = data(&text[*place..])?;
        *place += length;
        Ok(data)
    };
    let mut items = 0;
    let mut token = next()?;
    if let Data::End = token {
        return Ok(0);
    }
    loop {
        let Data::Item = token else {
            return Err(SYNTAX_ERROR.into());
        };
        items += 1;
        match next()? {
            Data::End => return Ok(items),
            Data::Comma => token = next()?,
            _ => return Err(SYNTAX_ERROR.into()),
        }
    }
}

/// What the token step gives among items.
enum Data {
    Item,
    Comma,
    /// `;`, or the end of the text.
    End,
    Other,
}

/// The token that the text begins with, and its length.
fn data(text: &[u8]) -> Result<(Data, usize), Refusal> {
    let Some(first) = text.first() else {
        return Ok((Data::End, 0));
    };
    let length = match first {
        b'\n' if text.len() == 1 => return Ok((Data::End, 1)),
        b'\n' => return Err(SYNTAX_ERROR.into()),
        b if is_white(b) => return Ok((Data::Other, white(text))),
        b';' => return Ok((Data::End, 1 + white(&text[1..]))),
        b',' => {
            let length = 1 + white(&text[1..]);
            return match text.get(length) {
                Some(b',' | b';') => Err(SYNTAX_ERROR.into()),
                _ => Ok((Data::Comma, length)),
            };
        }
        b'*' => {
            let length = 1 + run(&text[1..], goes_on);
            return match length {
                0..=LONGEST_MNEMONIC => Ok((Data::Other, length)),
                _ => Err(MNEMONIC_TOO_LONG.into()),
            };
        }
        b':' => return Err(INVALID_SEPARATOR.into()),
        b'A'..=b'Z' | b'a'..=b'z' => characters(text)?,
        b'0'..=b'9' | b'+' | b'-' | b'.' => number(text)?,
        b'#' => hash(text)?,
        b'"' | b'\'' => string(text, *first)?,
        b'(' => expression(text)?,
        128.. => return Err(INVALID_CHARACTER.into()),
        _ => return Err(SYNTAX_ERROR.into()),
    };
    Ok((Data::Item, length))
}

/// How many bytes of that class the text begins with.
fn run(text: &[u8], class: fn(&u8) -> bool) -> usize {
    text.iter().take_while(|b| class(b)).count()
}

fn characters(text: &[u8]) -> Result<usize, i32> {
    match run(text, goes_on) {
        length @ 0..=LONGEST_WORD => followed(text, length, INVALID_CHARACTER_DATA),
        _ => Err(CHARACTER_DATA_TOO_LONG),
    }
}

fn number(text: &[u8]) -> Result<usize, i32> {
    let digits = |from: usize| run(&text[from..], u8::is_ascii_digit);
    let is = |at: usize, bytes: &[u8]| text.get(at).is_some_and(|b| bytes.contains(b));
    let mut at = usize::from(is(0, b"+-"));
    let mut mantissa = digits(at);
    at += mantissa;
    if is(at, b".") {
        at += 1;
        mantissa += digits(at);
        at += digits(at);
    }
    if mantissa == 0 {
        return Err(NUMERIC_DATA_ERROR);
    }
    if is(at, b"Ee") {
        at += 1;
        at += usize::from(is(at, b"+-"));
        if digits(at) == 0 {
            return Err(NUMERIC_DATA_ERROR);
        }
        at += digits(at);
    }
    let suffix = at + white(&text[at..]);
    if text
        .get(suffix)
        .is_some_and(|b| b.is_ascii_alphabetic() || *b == b'/')
    {
        let in_suffix = |b: &u8| b.is_ascii_alphanumeric() || b"-/.".contains(b);
        let length = run(&text[suffix..], in_suffix);
        if length > LONGEST_WORD {
            return Err(SUFFIX_TOO_LONG);
        }
        at = suffix + length;
    }
    followed(text, at, INVALID_SUFFIX)
}

/// What a `#` begins.
fn hash(text: &[u8]) -> Result<usize, Refusal> {
    let behind = text.get(2..).unwrap_or_default();
    let radix = match text.get(1) {
        None => return Err(BLOCK_DATA_ERROR.into()),
        Some(b'0') => {
            return match behind.ends_with(b"\n") {
                true => Ok(text.len()),
                false => Err(INVALID_BLOCK_DATA.into()),
            }
        }
        Some(n @ b'1'..=b'9') => return block(text, usize::from(n - b'0')),
        Some(b'H' | b'h') => 16,
        Some(b'Q' | b'q') => 8,
        Some(b'B' | b'b') => 2,
        Some(_) => return Err(NUMERIC_DATA_ERROR.into()),
    };
    let digits = behind.iter().map_while(|b| (*b as char).to_digit(radix));
    let length = digits.clone().count();
    if length == 0 {
        let entry = match behind.first() {
            None => return Err(NUMERIC_DATA_ERROR.into()),
            Some(b'+' | b'-') => Some(SIGN),
            Some(_) => Some(RADIX_DIGITS),
        };
        let number = INVALID_CHARACTER_IN_NUMBER;
        return Err(Refusal { number, entry });
    }
    let mut value = 0u128;
    for digit in digits {
        value = value * u128::from(radix) + u128::from(digit);
        if value > u64::MAX.into() {
            return Err(DATA_OUT_OF_RANGE.into());
        }
    }
    Ok(followed(text, 2 + length, SUFFIX_NOT_ALLOWED)?)
}

/// A block whose length has so many digits.
fn block(text: &[u8], count: usize) -> Result<usize, Refusal> {
    let digits = text.get(2..2 + count).ok_or(INVALID_BLOCK_DATA)?;
    if !digits.iter().all(u8::is_ascii_digit) {
        let signed = digits.iter().any(|b| b"+-".contains(b));
        return Err(Refusal {
            number: INVALID_BLOCK_DATA,
            entry: signed.then_some(SIGN),
        });
    }
    let length = digits.iter().fold(0, |n, b| n * 10 + usize::from(b - b'0'));
    let end = 2 + count + length;
    if text.len() < end {
        return Err(INVALID_BLOCK_DATA.into());
    }
    Ok(followed(text, end, SUFFIX_NOT_ALLOWED)?)
}

/// A text between quotes, in which a doubled quote stands for one.
fn string(text: &[u8], quote: u8) -> Result<usize, i32> {
    let mut at = 1;
    loop {
        match text.get(at) {
            None => return Err(INVALID_STRING_DATA),
            Some(128..) => return Err(INVALID_CHARACTER),
            Some(b) if *b == quote => {
                at += 1;
                if text.get(at) != Some(&quote) {
                    return followed(text, at, SUFFIX_NOT_ALLOWED);
                }
            }
            Some(_) => {}
        }
        at += 1;
    }
}
