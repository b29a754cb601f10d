//! Stand-in for scpi_derive: derive(ScpiError) with the helper attribute `error`, giving
//! get_code and get_message, which is all that error.rs asks of it.
use proc_macro::{Delimiter, TokenStream, TokenTree};

#[proc_macro_derive(ScpiError, attributes(error))]
pub fn scpi_error(input: TokenStream) -> TokenStream {
    let mut body = None;
    let mut name = None;
    let mut it = input.into_iter();
    while let Some(t) = it.next() {
        match t {
            TokenTree::Ident(i) if i.to_string() == "enum" => {
                name = it.next().map(|t| t.to_string());
            }
            TokenTree::Group(g) if g.delimiter() == Delimiter::Brace => body = Some(g.stream()),
            _ => {}
        }
    }
    let name = name.unwrap();
    let mut codes = String::new();
    let mut msgs = String::new();
    let mut attr: Option<TokenStream> = None;
    let mut it = body.unwrap().into_iter().peekable();
    while let Some(t) = it.next() {
        match t {
            TokenTree::Punct(p) if p.as_char() == '#' => {
                if let Some(TokenTree::Group(g)) = it.next() {
                    let mut inner = g.stream().into_iter();
                    if let Some(TokenTree::Ident(i)) = inner.next() {
                        if i.to_string() == "error" {
                            if let Some(TokenTree::Group(a)) = inner.next() {
                                attr = Some(a.stream());
                            }
                        }
                    }
                }
            }
            TokenTree::Ident(v) => {
                let a = attr.take().expect("variant without #[error(..)]");
                let toks: Vec<TokenTree> = a.into_iter().collect();
                if toks.len() == 1 {
                    codes += &format!("{name}::{v}(c, _) => *c,");
                    msgs += &format!("{name}::{v}(_, m) => m,");
                } else {
                    let mut parts = vec![String::new()];
                    for t in &toks {
                        match t {
                            TokenTree::Punct(p) if p.as_char() == ',' => parts.push(String::new()),
                            t => parts.last_mut().unwrap().push_str(&t.to_string()),
                        }
                    }
                    let mut c = None;
                    let mut m = None;
                    for p in parts.iter().filter(|p| !p.is_empty()) {
                        let (k, val) = p.split_once('=').unwrap();
                        match k.trim() {
                            "code" => c = Some(val.to_string()),
                            "message" => m = Some(val.to_string()),
                            k => panic!("unknown key {k}"),
                        }
                    }
                    codes += &format!("{name}::{v} => {},", c.unwrap());
                    msgs += &format!("{name}::{v} => {},", m.unwrap());
                }
                // skip fields and comma
                while let Some(t) = it.peek() {
                    match t {
                        TokenTree::Punct(p) if p.as_char() == ',' => { it.next(); break; }
                        _ => { it.next(); }
                    }
                }
            }
            _ => {}
        }
    }
    format!(
        "impl {name} {{ pub fn get_code(&self) -> i16 {{ match self {{ {codes} }} }} \
         pub fn get_message(&self) -> &'static [u8] {{ match self {{ {msgs} }} }} }}"
    )
    .parse()
    .unwrap()
}
