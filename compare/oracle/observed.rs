//! Addition: `Node::run_tokens` of tree/mod.rs, copied line by line, with two
//! changes: the branch to begin in is an argument, and `seen` is told the branch kept
//! after every unit. The driver runs the unchanged `Node::run` beside it when the
//! start is the root, and compares.
use core::iter::Peekable;

use crate::error::{Error, ErrorCode, Result};
use crate::parser::response::{Formatter, ResponseUnit};
use crate::parser::tokenizer::{Token, Tokenizer};
use crate::tree::Node;
use crate::{Context, Device};

/// A formatter that drops everything.
pub struct NullFmt;
impl Formatter for NullFmt {
    fn push_str(&mut self, _s: &[u8]) -> Result<()> { Ok(()) }
    fn push_byte(&mut self, _b: u8) -> Result<()> { Ok(()) }
    fn as_slice(&self) -> &[u8] { &[] }
    fn clear(&mut self) {}
    fn len(&self) -> usize { 0 }
    fn message_start(&mut self) -> Result<()> { Ok(()) }
    fn message_end(&mut self) -> Result<()> { Ok(()) }
    fn response_unit(&mut self) -> Result<ResponseUnit> { Ok(ResponseUnit::oracle_new(self)) }
}

pub fn run_tokens_observed<'a, D, FMT>(
    this: &'a Node<'a, D>,
    start: &'a Node<'a, D>,
    device: &mut D,
    context: &mut Context,
    tokens: &mut Peekable<Tokenizer>,
    response: &mut FMT,
    seen: &mut dyn FnMut(&mut D, &Node<'a, D>),
) -> Result<()>
where
    FMT: Formatter,
    D: Device,
{
    let mut leaf = start;
    //Start response message
    response.message_start()?;
    loop {
        // Execute header
        match tokens.peek() {
            // :header..
            Some(Ok(Token::HeaderMnemonicSeparator)) => {
                leaf = this;
                // Consume seperator
                tokens.next();
                this.exec(&mut leaf, device, context, tokens, response)?;
            }
            // header.. | *header
            Some(Ok(Token::ProgramMnemonic(s))) => {
                if s.starts_with(b"*") {
                    let mut _x = this;
                    this.exec(&mut _x, device, context, tokens, response)?;
                } else {
                    leaf.exec(&mut leaf, device, context, tokens, response)?;
                }
            }
            // Empty input
            None => break Ok(()),
            //
            Some(Err(err)) => break Err(Error::new(*err)),
            // idk?
            Some(_) => break Err(ErrorCode::SyntaxError.into()),
        }
        seen(device, leaf);
        // Should've consumed up to unit seperator

        // What's next?
        match tokens.next() {
            // EOM
            None => {
                if !response.is_empty() {
                    response.message_end()?;
                }
                break Ok(());
            }
            // New unit
            Some(Ok(Token::ProgramMessageUnitSeparator)) => {
                continue;
            }
            // More tokens...
            Some(Ok(tok)) => {
                if tok.is_data() || tok == Token::ProgramDataSeparator {
                    break Err(ErrorCode::ParameterNotAllowed.into());
                } else {
                    break Err(ErrorCode::SyntaxError.into());
                }
            }
            // Error
            Some(Err(err)) => break Err(Error::new(err)),
        }
    }
}
