//! bench count|stack DIR: the Rust original on the rows of DIR/plan. ../../c/bench.c is the other side, row for row, and says what is
//! printed. The answers of the two must be the same.
use std::hint::black_box;

use scpi::error::{Error, ErrorCode, Result};
use scpi::observed::NullFmt;
use scpi::parser::expression::{channel_list, numeric_list};
use scpi::parser::parameters::Parameters;
use scpi::parser::response::ResponseUnit;
use scpi::parser::tokenizer::{util, Token, Tokenizer};
use scpi::tree::{command::Command, Node};
use scpi::{Context, Device};

const SLOTS: usize = 32768;
const STACK: usize = 8 << 20;
const PAINT: u8 = 0xA5;

/// The device of the handlers: the words of the units, as this library writes them, and the sum of the relays.
struct Dev {
    slots: Box<[u64; SLOTS]>,
    units: usize,
    count: u64,
    sum: u64,
}

impl Device for Dev {
    fn handle_error(&mut self, _: Error) {}
}

impl Dev {
    fn note(&mut self, command: u16, query: bool, items: u64) -> Result<()> {
        let slot = self.slots.get_mut(self.units).ok_or(ErrorCode::OutOfMemory)?;
        *slot = (command as u64) << 48 | (query as u64) << 47 | items << 15;
        self.units += 1;
        Ok(())
    }
}

/// Reads no item, for headers alone.
struct Header(u16);

/// Reads all items.
struct Items(u16);

/// Reads all items, and the coordinates of those that are channel lists.
struct Relays(u16);

fn all_items(p: &mut Parameters) -> Result<u64> {
    let mut items = 0;
    while p.next_optional_token()?.is_some() {
        items += 1;
    }
    Ok(items)
}

fn all_relays(d: &mut Dev, p: &mut Parameters) -> Result<u64> {
    let mut items = 0;
    while let Some(token) = p.next_optional_token()? {
        items += 1;
        if let Token::ExpressionProgramData(s) = token {
            channels::<false>(s, &mut d.count, &mut d.sum)?;
        }
    }
    Ok(items)
}

impl Command<Dev> for Header {
    fn event(&self, d: &mut Dev, _: &mut Context, _: Parameters) -> Result<()> {
        d.note(self.0, false, 0)
    }
    fn query(&self, d: &mut Dev, _: &mut Context, _: Parameters, _: ResponseUnit) -> Result<()> {
        d.note(self.0, true, 0)
    }
}

impl Command<Dev> for Items {
    fn event(&self, d: &mut Dev, _: &mut Context, mut p: Parameters) -> Result<()> {
        let items = all_items(&mut p)?;
        d.note(self.0, false, items)
    }
    fn query(&self, d: &mut Dev, _: &mut Context, mut p: Parameters, _: ResponseUnit) -> Result<()> {
        let items = all_items(&mut p)?;
        d.note(self.0, true, items)
    }
}

impl Command<Dev> for Relays {
    fn event(&self, d: &mut Dev, _: &mut Context, mut p: Parameters) -> Result<()> {
        let items = all_relays(d, &mut p)?;
        d.note(self.0, false, items)
    }
    fn query(&self, d: &mut Dev, _: &mut Context, mut p: Parameters, _: ResponseUnit) -> Result<()> {
        let items = all_relays(d, &mut p)?;
        d.note(self.0, true, items)
    }
}

struct Row {
    run: fn(&mut Row),
    tree: Option<Node<'static, Dev>>,
    name: &'static [u8],
    text: &'static [u8],
    device: Dev,
    code: i16,
}

impl Row {
    fn empty() -> Row {
        let device = Dev { slots: vec![0; SLOTS].into_boxed_slice().try_into().unwrap(), units: 0, count: 0, sum: 0 };
        Row { run: nothing, tree: None, name: b"", text: b"", device, code: 0 }
    }
}

fn nothing(_: &mut Row) {}

// ---- The rows: each calls the original as a card does.

/// The handlers that the tree was made with say what is read.
fn run(r: &mut Row) {
    r.device.units = 0;
    r.device.count = 0;
    r.device.sum = 0;
    r.code = match r.tree.as_ref().unwrap().run(r.text, &mut r.device, &mut Context::new(), &mut NullFmt) {
        Ok(()) => 0,
        Err(e) => e.get_code(),
    };
}

fn place(text: &[u8], part: &[u8]) -> (u64, u64) {
    let start = part.as_ptr() as u64 - text.as_ptr() as u64;
    (start, start + part.len() as u64)
}

fn tokens(r: &mut Row, tokenizer: Tokenizer) {
    let (mut count, mut sum) = (0, 0u64);
    let view = |kind, s| {
        let (start, stop) = place(r.text, s);
        kind + start + 2 * stop
    };
    r.code = 0;
    for token in tokenizer {
        let token = match token {
            Ok(token) => token,
            Err(e) => {
                r.code = e.get_code();
                break;
            }
        };
        count += 1;
        sum = sum.wrapping_add(match token {
            Token::HeaderMnemonicSeparator => 1,
            Token::HeaderQuerySuffix => 2,
            Token::ProgramMessageUnitSeparator => 3,
            Token::ProgramHeaderSeparator => 4,
            Token::ProgramDataSeparator => 5,
            Token::ProgramMnemonic(s) => view(6, s),
            Token::CharacterProgramData(s) => view(7, s),
            Token::DecimalNumericProgramData(s) => view(8, s),
            Token::DecimalNumericSuffixProgramData(s, u) => view(9, s) + 4 * view(0, u),
            Token::NonDecimalNumericProgramData(n) => n.wrapping_add(10),
            Token::StringProgramData(s) => view(11, s),
            Token::ArbitraryBlockData(s) => view(12, s),
            Token::ExpressionProgramData(s) => view(13, s),
        });
    }
    r.device.count = count;
    r.device.sum = sum;
}

fn message(r: &mut Row) {
    tokens(r, Tokenizer::new(r.text));
}

fn data(r: &mut Row) {
    tokens(r, Tokenizer::new_params(r.text));
}

/// The coordinates of a spec, and their sum. The original's pairs and triples say the first coordinate two and three times
/// (docs/DIFFERENCES.md, The second coordinate), so that its iterator is taken, which reads each.
fn coordinates<const SIGNED: bool>(s: channel_list::ChannelSpec) -> Result<u64> {
    let take = |n: isize| if !SIGNED && n < 0 { Err(Error::from(ErrorCode::IllegalParameterValue)) } else { Ok(n as u64) };
    if s.dimension() == 1 {
        return take(isize::try_from(s)?);
    }
    let mut items = s.into_iter();
    let mut next = || items.next().unwrap_or(Err(ErrorCode::ExpressionError)).map_err(Error::from).and_then(take);
    Ok(match s.dimension() {
        2 => next()?.wrapping_add(next()?.wrapping_mul(2)),
        3 => next()?.wrapping_add(next()?.wrapping_mul(2)).wrapping_add(next()?.wrapping_mul(4)),
        _ => return Err(ErrorCode::ExpressionError.into()),
    })
}

fn channels<const SIGNED: bool>(text: &[u8], count: &mut u64, sum: &mut u64) -> Result<()> {
    for item in channel_list::ChannelList::new(text).ok_or(ErrorCode::InvalidExpression)? {
        *count += 1;
        *sum = sum.wrapping_add(match item? {
            channel_list::Token::ChannelSpec(s) => 1 + coordinates::<SIGNED>(s)?,
            channel_list::Token::ChannelRange(a, b) => 2 + coordinates::<SIGNED>(a)? + coordinates::<SIGNED>(b)?,
            _ => 3,
        });
    }
    Ok(())
}

fn list<const SIGNED: bool>(r: &mut Row) {
    r.device.count = 0;
    r.device.sum = 0;
    r.code = match channels::<SIGNED>(r.text, &mut r.device.count, &mut r.device.sum) {
        Ok(()) => 0,
        Err(e) => e.get_code(),
    };
}

fn numeric(r: &mut Row) {
    let (mut count, mut sum) = (0, 0);
    let view = |t| match t {
        Token::DecimalNumericProgramData(s) => {
            let (start, stop) = place(r.text, s);
            start + 2 * stop
        }
        _ => 0,
    };
    r.code = 0;
    for item in numeric_list::NumericList::new(r.text) {
        count += 1;
        sum += match item {
            Ok(numeric_list::Token::Numeric(a)) => 1 + view(a),
            Ok(numeric_list::Token::NumericRange(a, b)) => 2 + view(a) + 4 * view(b),
            Err(e) => {
                r.code = e.get_code();
                break;
            }
        };
    }
    r.device.count = count;
    r.device.sum = sum;
}

fn matches(r: &mut Row) {
    r.device.count = util::mnemonic_match(r.name, r.text) as u64;
}

// ---- Reading the plan

fn load(dir: &str, name: &str) -> &'static [u8] {
    let path = format!("{dir}/{name}");
    match std::fs::read(&path) {
        Ok(bytes) => bytes.leak(),
        Err(e) => {
            eprintln!("{path}: {e}");
            std::process::exit(2)
        }
    }
}

type Handler = fn(u16) -> &'static dyn Command<Dev>;

fn build(nodes: &[u64], names: &'static [u8], handler: Handler) -> Node<'static, Dev> {
    // From the last node on, so that the children of a branch are there before it.
    let mut made: Vec<Option<Node<'static, Dev>>> = nodes.iter().map(|_| None).collect();
    for (i, word) in nodes.iter().enumerate().rev() {
        let (start, length) = ((word >> 42 & 0xFFFF) as usize, (word >> 58 & 15) as usize);
        let (first, count) = ((word >> 26 & 0xFFFF) as usize, (word >> 10 & 0xFFFF) as usize);
        let name = &names[start..start + length];
        let default = word >> 62 & 1 == 1;
        let node = if word >> 63 == 1 {
            let sub: Vec<_> = (first..first + count).map(|c| made[c].take().unwrap()).collect();
            Node::Branch { name, default, sub: sub.leak() }
        } else {
            Node::Leaf { name, default, handler: handler(first as u16) }
        };
        made[i] = Some(node);
    }
    made[0].take().unwrap()
}

fn read_row(dir: &str, field: &[&'static str]) -> Row {
    let mut r = Row::empty();
    let mut handler: Handler = |n| Box::leak(Box::new(Items(n)));
    r.run = match field[2] {
        "walk" => run,
        "resolve" => {
            handler = |n| Box::leak(Box::new(Header(n)));
            run
        }
        "relays" => {
            handler = |n| Box::leak(Box::new(Relays(n)));
            run
        }
        "message" => message,
        "tokens" => data,
        "signed" => list::<true>,
        "unsigned" => list::<false>,
        "numeric" => numeric,
        "match" => {
            r.name = field[3].as_bytes();
            r.text = field[4].as_bytes();
            r.run = matches;
            return r;
        }
        kind => {
            eprintln!("plan: {kind}");
            std::process::exit(2)
        }
    };
    r.text = load(dir, field[4]);
    if field[3] != "-" {
        let words = load(dir, &format!("{}.nodes", field[3]));
        let nodes: Vec<u64> = words.chunks(8).map(|b| u64::from_le_bytes(b.try_into().unwrap())).collect();
        r.tree = Some(build(&nodes, load(dir, &format!("{}.names", field[3])), handler));
    }
    r
}

// ---- Marks and the painted stack

/// What is counted is what is executed from one entry of this function to the next.
#[no_mangle]
#[inline(never)]
pub extern "C" fn bench_mark() {
    black_box(std::process::id());
}

fn count(r: &mut Row) {
    let run = black_box(r.run);
    run(r);
    bench_mark();
    run(r);
    bench_mark();
}

core::arch::global_asm!(
    ".globl bench_on",
    "bench_on: push rbp",
    "mov rbp, rsp",
    "mov rsp, rdi",
    "mov rdi, rdx",
    "call rsi",
    "mov rsp, rbp",
    "pop rbp",
    "ret"
);

extern "C" {
    fn bench_on(top: *mut u8, run: extern "C" fn(*mut Row), r: *mut Row);
}

extern "C" fn enter(r: *mut Row) {
    unsafe { ((*r).run)(&mut *r) }
}

fn stack(r: &mut Row, area: &mut [u128]) -> usize {
    area.fill(u128::from_ne_bytes([PAINT; 16]));
    let bytes = unsafe {
        let range = area.as_mut_ptr_range();
        bench_on(range.end as *mut u8, enter, r);
        core::slice::from_raw_parts(range.start as *const u8, STACK)
    };
    STACK - bytes.iter().position(|b| *b != PAINT).unwrap_or(STACK)
}

fn main() {
    let arguments: Vec<String> = std::env::args().collect();
    if arguments.len() != 3 {
        eprintln!("usage: bench count|stack DIR");
        std::process::exit(2)
    }
    let (mode, dir) = (&arguments[1], &arguments[2]);
    let plan = std::str::from_utf8(load(dir, "plan")).unwrap();
    let mut area = vec![0u128; STACK / 16];
    if mode == "count" {
        count(&mut Row::empty());
    }
    for line in plan.lines() {
        let field: Vec<&'static str> = line.split('\t').collect();
        let mut r = read_row(dir, &field);
        if mode == "stack" {
            println!("{}: {}\t{}", field[0], field[1], stack(&mut r, &mut area));
            continue;
        }
        count(&mut r);
        let d = &r.device;
        let mut sum = d.sum;
        for (i, word) in d.slots[..d.units].iter().enumerate() {
            sum = sum.wrapping_add((i as u64 + 1) * (3 * (word >> 48) + 2 * (word >> 15 & 0xFFFF) + (word >> 47 & 1)));
        }
        println!("{}: {}\t{} {} {} {}", field[0], field[1], r.code, d.units, d.count, sum);
    }
}
