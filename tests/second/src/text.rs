//! The terminal text: lines out of bytes, calls out of lines, answers as text.

use crate::figuring::Figures;
use crate::postings::{Answer, Application, Call, Cover, Filing, Results, Retirement, Trade};
use crate::standards::{Row, COLUMNS};
use std::fmt;

/// Bytes a line may have before its line feed.
pub const LINE_LIMIT: usize = 160;
const DIGITS_LIMIT: usize = 12;

/// The call a line spells, if it is exactly one of the forms.
pub fn parse(line: &[u8]) -> Option<Call> {
    whole(line, Reader::call)
}

/// The year and the row of a line of a table, if it is exactly of that form,
/// such as `(std 2014 0 600 600 567 502 475)`.
pub fn parse_row(line: &[u8]) -> Option<(u64, Row)> {
    whole(line, Reader::row)
}

/// What is read of a line that has at most its bytes and nothing more.
fn whole<'a, T>(line: &'a [u8], read: fn(&mut Reader<'a>) -> Option<T>) -> Option<T> {
    if line.len() > LINE_LIMIT {
        return None;
    }
    let mut reader = Reader { rest: line };
    let found = read(&mut reader)?;
    reader.rest.is_empty().then_some(found)
}

/// What is still to be read of a line.
struct Reader<'a> {
    rest: &'a [u8],
}

impl Reader<'_> {
    fn call(&mut self) -> Option<Call> {
        let call = if self.take(b"(file").is_some() {
            Call::File(self.filing()?)
        } else if self.take(b"(small").is_some() {
            Call::Small(self.filing()?)
        } else if self.take(b"(amend").is_some() {
            Call::Amend(self.filing()?)
        } else if self.take(b"(close").is_some() {
            Call::Close {
                year: self.field(b"year")?,
            }
        } else if self.take(b"(trade").is_some() {
            Call::Trade(self.trade()?)
        } else if self.take(b"(apply").is_some() {
            Call::Apply(self.application()?)
        } else if self.take(b"(retire").is_some() {
            Call::Retire(self.retirement()?)
        } else if self.take(b"(cover").is_some() {
            Call::Cover(self.cover()?)
        } else {
            return None;
        };
        self.take(b")")?;
        Some(call)
    }

    fn row(&mut self) -> Option<(u64, Row)> {
        self.take(b"(std")?;
        let year = self.next_number()?;
        let mut row = [0; COLUMNS];
        for entry in &mut row {
            *entry = self.next_number()?;
        }
        self.take(b")")?;
        Some((year, row))
    }

    fn next_number(&mut self) -> Option<u64> {
        self.take(b" ")?;
        self.number()
    }

    // Struct fields are read in the order they are written here.

    fn filing(&mut self) -> Option<Filing> {
        Some(Filing {
            maker: self.field(b"maker")?,
            set: self.field(b"set")?,
            year: self.field(b"year")?,
            usage: self.field(b"use")?,
            edition: self.field(b"edition")?,
            family: self.field(b"family")?,
            figures: Figures {
                fcl: self.field(b"fcl")?,
                cf: self.field(b"cf")?,
                volume: self.field(b"volume")?,
                life: self.field(b"life")?,
            },
        })
    }

    fn trade(&mut self) -> Option<Trade> {
        Some(Trade {
            from: self.field(b"from")?,
            to: self.field(b"to")?,
            set: self.field(b"set")?,
            vintage: self.field(b"vintage")?,
            mg: self.field(b"mg")?,
        })
    }

    fn application(&mut self) -> Option<Application> {
        Some(Application {
            maker: self.field(b"maker")?,
            set: self.field(b"set")?,
            vintage: self.field(b"vintage")?,
            year: self.field(b"year")?,
            mg: self.field(b"mg")?,
        })
    }

    fn retirement(&mut self) -> Option<Retirement> {
        Some(Retirement {
            maker: self.field(b"maker")?,
            set: self.field(b"set")?,
            vintage: self.field(b"vintage")?,
            mg: self.field(b"mg")?,
        })
    }

    fn cover(&mut self) -> Option<Cover> {
        Some(Cover {
            maker: self.field(b"maker")?,
            set: self.field(b"set")?,
        })
    }

    /// A space and a bracketed field, such as ` (year 2014)`.
    fn field(&mut self, name: &[u8]) -> Option<u64> {
        self.take(b" (")?;
        self.take(name)?;
        let number = self.next_number()?;
        self.take(b")")?;
        Some(number)
    }

    fn number(&mut self) -> Option<u64> {
        let length = self.rest.iter().take_while(|b| b.is_ascii_digit()).count();
        let (digits, rest) = self.rest.split_at(length);
        let leading_zero = length > 1 && digits.first() == Some(&b'0');
        if !(1..=DIGITS_LIMIT).contains(&length) || leading_zero {
            return None;
        }
        self.rest = rest;
        let add = |number, digit: &u8| number * 10 + u64::from(digit - b'0');
        Some(digits.iter().fold(0, add))
    }

    fn take(&mut self, text: &[u8]) -> Option<()> {
        self.rest = self.rest.strip_prefix(text)?;
        Some(())
    }
}

/// Cuts bytes that come in pieces into lines. Of an unfinished line it holds
/// at most one byte more than a line may have, enough to tell it is too long.
#[derive(Default)]
pub struct Lines {
    held: Vec<u8>,
}

impl Lines {
    /// Hands every line that ends in this piece to `each`, without its line
    /// feed; a line begun in an earlier piece may come shortened, too long
    /// still.
    pub fn feed<E>(
        &mut self,
        mut piece: &[u8],
        mut each: impl FnMut(&[u8]) -> Result<(), E>,
    ) -> Result<(), E> {
        while let Some(end) = piece.iter().position(|&byte| byte == b'\n') {
            if self.held.is_empty() {
                each(&piece[..end])?;
            } else {
                self.hold(&piece[..end]);
                each(&self.held)?;
                self.held.clear();
            }
            piece = &piece[end + 1..];
        }
        self.hold(piece);
        Ok(())
    }

    /// The last line, if it lacks its line feed; an empty end is no line.
    pub fn last(&mut self) -> Option<Vec<u8>> {
        let line = std::mem::take(&mut self.held);
        (!line.is_empty()).then_some(line)
    }

    fn hold(&mut self, bytes: &[u8]) {
        let room = (LINE_LIMIT + 1).saturating_sub(self.held.len());
        self.held.extend(bytes.iter().take(room));
    }
}

/// An answer as the terminal writes it.
pub struct Answered(pub Answer);

impl fmt::Display for Answered {
    fn fmt(&self, f: &mut fmt::Formatter<'_>) -> fmt::Result {
        match self.0 {
            Ok(Results::Filed { part, families }) => write!(f, "(ok {part} {families})"),
            Ok(Results::Closed { short }) => write!(f, "(ok {short})"),
            Ok(Results::Left(mg) | Results::Moved(mg)) => write!(f, "(ok {mg})"),
            Err(refusal) => write!(f, "(no {})", refusal.number()),
        }
    }
}

impl Call {
    /// The form's name and its fields in order.
    pub fn form(&self) -> (&'static str, Vec<(&'static str, u64)>) {
        match self {
            Call::File(c) => ("file", filing_fields(c)),
            Call::Small(c) => ("small", filing_fields(c)),
            Call::Amend(c) => ("amend", filing_fields(c)),
            Call::Close { year } => ("close", vec![("year", *year)]),
            Call::Trade(c) => (
                "trade",
                vec![
                    ("from", c.from),
                    ("to", c.to),
                    ("set", c.set),
                    ("vintage", c.vintage),
                    ("mg", c.mg),
                ],
            ),
            Call::Apply(c) => (
                "apply",
                vec![
                    ("maker", c.maker),
                    ("set", c.set),
                    ("vintage", c.vintage),
                    ("year", c.year),
                    ("mg", c.mg),
                ],
            ),
            Call::Retire(c) => (
                "retire",
                vec![
                    ("maker", c.maker),
                    ("set", c.set),
                    ("vintage", c.vintage),
                    ("mg", c.mg),
                ],
            ),
            Call::Cover(c) => ("cover", vec![("maker", c.maker), ("set", c.set)]),
        }
    }
}

/// Those of a filing by either entry, and of an amendment.
fn filing_fields(c: &Filing) -> Vec<(&'static str, u64)> {
    vec![
        ("maker", c.maker),
        ("set", c.set),
        ("year", c.year),
        ("use", c.usage),
        ("edition", c.edition),
        ("family", c.family),
        ("fcl", c.figures.fcl),
        ("cf", c.figures.cf),
        ("volume", c.figures.volume),
        ("life", c.figures.life),
    ]
}

impl fmt::Display for Call {
    fn fmt(&self, f: &mut fmt::Formatter<'_>) -> fmt::Result {
        let (name, fields) = self.form();
        write!(f, "({name}")?;
        for (field, number) in fields {
            write!(f, " ({field} {number})")?;
        }
        write!(f, ")")
    }
}
