//! The kinds of case. A kind is a file in `kinds/` and its name in the list at the end of this one.

use crate::random::Random;

pub type Cases = Box<dyn Iterator<Item = String> + Send>;

/// The heading of an entry in docs/DIFFERENCES.md, and the answer that the port must give by it.
pub type Listed = (&'static str, String);

/// Who says the right answer.
pub enum Right {
    /// The Rust, except where a difference is listed: what is listed for this request, which the Rust answers so. None where
    /// the port must answer the same.
    Rust(fn(request: &str, rust: &str) -> Option<Listed>),
    /// The judge, where the Rust has no such part.
    Judge(fn(request: &str) -> String),
    /// Both, and they must agree, except where a difference is listed: the judge answers each request, the Rust all but those
    /// whose answer comes of a part that it does not have.
    Both {
        judge: fn(request: &str) -> Judged,
        port_only: fn(answer: &str) -> bool,
    },
}

/// What the judge answers, and the heading of the entry by which the Rust may say something else in the stead of the last part
/// of the answer.
pub struct Judged {
    pub answer: String,
    pub entry: Option<&'static str>,
}

impl Judged {
    /// What is listed where the Rust answers so: up to the last part it must say the same.
    fn listed(&self, rust: &[u8]) -> Option<Listed> {
        let last = self.answer.rfind(" | ").map_or(0, |place| place + 3);
        let same = rust.starts_with(&self.answer.as_bytes()[..last]);
        self.entry
            .filter(|_| same)
            .map(|entry| (entry, self.answer.clone()))
    }
}

/// What is said of a request beside the port's answer.
pub struct Said<'a> {
    pub rust: Option<&'a [u8]>,
    pub judge: Option<String>,
    pub listed: Option<Listed>,
}

impl Right {
    pub fn needs_rust(&self) -> bool {
        !matches!(self, Right::Judge(_))
    }

    /// The Rust's answer counts only where it is needed.
    pub fn said<'a>(&self, request: &str, rust: &'a [u8]) -> Said<'a> {
        let (judge, listed) = match self {
            Right::Rust(expected) => (None, expected(request, &String::from_utf8_lossy(rust))),
            Right::Judge(judge) => (Some(judge(request)), None),
            Right::Both { judge, .. } => {
                let judged = judge(request);
                let listed = judged.listed(rust);
                (Some(judged.answer), listed)
            }
        };
        let counts = match (self, &judge) {
            (Right::Both { port_only, .. }, Some(answer)) => !port_only(answer),
            _ => self.needs_rust(),
        };
        Said {
            rust: counts.then_some(rust),
            judge,
            listed,
        }
    }
}

impl Said<'_> {
    /// The right answer. None where there are two.
    pub fn right(&self) -> Option<&[u8]> {
        match (&self.listed, &self.judge, self.rust) {
            (Some((_, answer)), _, _) => Some(answer.as_bytes()),
            (None, Some(judge), Some(rust)) if judge.as_bytes() != rust => None,
            (None, Some(judge), _) => Some(judge.as_bytes()),
            (None, None, rust) => rust,
        }
    }
}

pub struct Kind {
    pub name: &'static str,
    /// N request lines, the same ones for the same seed.
    pub cases: fn(n: usize, seed: u64) -> Cases,
    pub right: Right,
    /// After so many cases both programs are started anew.
    pub restart: Option<usize>,
}

/// The request lines of N cases. At most half are short ones, all there are, in order. The rest is halved: first random
/// ones, then ones that are good or damaged.
fn mixed<Case: 'static, Short: Iterator<Item = Case> + Send + 'static>(
    n: usize,
    seed: u64,
    short: fn() -> Short,
    random: Maker<Case>,
    made: Maker<Case>,
    line: fn(Case) -> String,
) -> Cases {
    let shorts = short().take(n / 2).count();
    let randoms = (n - shorts) / 2;
    let rest = n - shorts - randoms;
    let cases = short()
        .take(shorts)
        .chain(endless(seed, 1, random).take(randoms))
        .chain(endless(seed, 2, made).take(rest));
    Box::new(cases.map(line))
}

/// The i-th case, made of random numbers.
type Maker<Case> = fn(random: &mut Random, i: usize) -> Case;

/// Cases without end. Each part has random numbers of its own.
fn endless<Case>(seed: u64, part: u64, make: Maker<Case>) -> impl Iterator<Item = Case> + Send {
    let mut random = Random::new(seed, part);
    (1..).map(move |i| make(&mut random, i))
}

macro_rules! kinds {
    ($($kind:ident)*) => {
        $(mod $kind;)*
        pub const KINDS: &[Kind] = &[$(Kind {
            name: stringify!($kind),
            cases: $kind::cases,
            right: $kind::RIGHT,
            restart: $kind::RESTART,
        }),*];
    };
}

kinds! {
    names
    tokens
    channels
    numbers
    tables
    alone
    messages
}
