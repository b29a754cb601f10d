//! The original as a card would link it: the functions that this library exports to C, each with the original's own types, so that nothing
//! is added to take them apart. The original has no check of a table.
#![no_std]

use scpi::error::{Error, ErrorCode, Result};
use scpi::observed::NullFmt;
use scpi::parser::expression::channel_list::{self, ChannelList, ChannelSpec};
use scpi::parser::expression::numeric_list::{self, NumericList};
use scpi::parser::parameters::Parameters;
use scpi::parser::response::ResponseUnit;
use scpi::parser::tokenizer::{util, Token, Tokenizer};
use scpi::tree::{command::Command, Node};
use scpi::{Context, Device};

#[panic_handler]
fn panic(_: &core::panic::PanicInfo) -> ! {
    loop {}
}

pub struct Dev<'a> {
    slots: &'a mut [u64],
    units: usize,
}

impl Device for Dev<'_> {
    fn handle_error(&mut self, _: Error) {}
}

impl Dev<'_> {
    fn note(&mut self, command: u16, query: bool, items: u64) -> Result<()> {
        let slot = self.slots.get_mut(self.units).ok_or(ErrorCode::OutOfMemory)?;
        *slot = (command as u64) << 48 | (query as u64) << 47 | items << 15;
        self.units += 1;
        Ok(())
    }
}

/// The handler of every leaf: it reads all items and notes its command.
pub struct Items(u16);

fn all_items(p: &mut Parameters) -> Result<u64> {
    let mut items = 0;
    while p.next_optional_token()?.is_some() {
        items += 1;
    }
    Ok(items)
}

impl Command<Dev<'_>> for Items {
    fn event(&self, d: &mut Dev, _: &mut Context, mut p: Parameters) -> Result<()> {
        let items = all_items(&mut p)?;
        d.note(self.0, false, items)
    }
    fn query(&self, d: &mut Dev, _: &mut Context, mut p: Parameters, _: ResponseUnit) -> Result<()> {
        let items = all_items(&mut p)?;
        d.note(self.0, true, items)
    }
}

fn code<T>(r: Result<T>, to: &mut T) -> i16 {
    match r {
        Ok(v) => {
            *to = v;
            0
        }
        Err(e) => e.get_code(),
    }
}

#[no_mangle]
pub extern "C" fn size_leaf(leaf: &mut core::mem::MaybeUninit<Node<'static, Dev<'static>>>, handler: &'static Items) {
    leaf.write(Node::Leaf { name: b"", default: false, handler });
}

#[no_mangle]
pub extern "C" fn size_mnemonic_match(name: &&[u8], word: &&[u8]) -> bool {
    util::mnemonic_match(name, word)
}

#[no_mangle]
pub extern "C" fn size_walk(root: &Node<'static, Dev<'static>>, text: &&[u8], dev: &mut Dev<'static>) -> i16 {
    code(root.run(text, dev, &mut Context::new(), &mut NullFmt), &mut ())
}

#[no_mangle]
pub extern "C" fn size_token(tokens: &mut Tokenizer<'static>, to: &mut Option<Token<'static>>) -> i16 {
    code(tokens.next().transpose().map_err(Error::from), to)
}

#[no_mangle]
pub extern "C" fn size_channel_list(text: &&'static [u8], to: &mut Option<ChannelList<'static>>) {
    *to = ChannelList::new(text);
}

#[no_mangle]
pub extern "C" fn size_channel(list: &mut ChannelList<'static>, to: &mut Option<channel_list::Token<'static>>) -> i16 {
    code(list.next().transpose().map_err(Error::from), to)
}

#[no_mangle]
pub extern "C" fn size_numeric(list: &mut NumericList<'static>, to: &mut Option<numeric_list::Token<'static>>) -> i16 {
    code(list.next().transpose(), to)
}

#[no_mangle]
pub extern "C" fn size_coordinates(spec: &ChannelSpec<'static>, to: &mut [isize; 3]) -> i16 {
    match spec.dimension() {
        1 => code(isize::try_from(*spec), &mut to[0]),
        2 => code(<(isize, isize)>::try_from(*spec).map(|(a, b)| [a, b, 0]), to),
        _ => code(<(isize, isize, isize)>::try_from(*spec).map(|(a, b, c)| [a, b, c]), to),
    }
}

#[no_mangle]
pub extern "C" fn size_unsigned_coordinates(spec: &ChannelSpec<'static>, to: &mut [usize; 3]) -> i16 {
    match spec.dimension() {
        1 => code(usize::try_from(*spec), &mut to[0]),
        2 => code(<(usize, usize)>::try_from(*spec).map(|(a, b)| [a, b, 0]), to),
        _ => code(<(usize, usize, usize)>::try_from(*spec).map(|(a, b, c)| [a, b, c]), to),
    }
}
