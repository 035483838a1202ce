//! The text format of the trace programs: lines, fields, numbers, the digest.

use std::io::{self, BufRead, BufWriter, Write};

/// A line above this many bytes is no call.
const LONGEST: usize = 256;

/// One line of a trace, without its LF.
pub enum Line<'a> {
    /// A comment or an empty line: no answer.
    Nothing,
    /// No call of any table.
    Bad,
    /// The word and the fields after it.
    Fields(Vec<&'a str>),
}

/// Takes a line apart. Which words and how many fields there are is the reader's affair.
pub fn split(line: &[u8]) -> Line<'_> {
    if line.len() > LONGEST {
        return Line::Bad;
    }
    if line.is_empty() || line[0] == b'#' {
        return Line::Nothing;
    }
    match std::str::from_utf8(line) {
        Ok(text) => Line::Fields(text.split(' ').collect()),
        Err(_) => Line::Bad,
    }
}

/// A decimal number up to 2^64 - 1, leading zeros allowed.
pub fn number(field: &str) -> Option<u64> {
    if field.is_empty() || !field.bytes().all(|b| b.is_ascii_digit()) {
        return None;
    }
    field.bytes().try_fold(0u64, |n, b| n.checked_mul(10)?.checked_add(u64::from(b - b'0')))
}

/// A generation: up to 2^32 - 1.
pub fn generation(field: &str) -> Option<u32> {
    u32::try_from(number(field)?).ok()
}

/// `-` for none, or a number.
pub fn or_none(field: &str) -> Option<Option<u64>> {
    if field == "-" {
        return Some(None);
    }
    number(field).map(Some)
}

/// The answer to a refused call.
pub fn refused(number: u32) -> String {
    format!("refused {number}")
}

/// The answer to a call that gives nothing but success.
pub fn ok() -> String {
    "ok".to_string()
}

/// The slots of a list after its word.
pub fn listed(word: &str, slots: &[usize]) -> String {
    slots.iter().fold(word.to_string(), |line, slot| format!("{line} {slot}"))
}

/// FNV-1a over 64-bit words.
pub fn digest(numbers: impl IntoIterator<Item = u64>) -> u64 {
    numbers.into_iter().fold(14695981039346656037, |h, x| (h ^ x).wrapping_mul(1099511628211))
}

/// A number of a dump line.
#[derive(Clone, Copy)]
pub enum Field {
    Is(u64),
    None,
    End,
    /// An entry's deadline: two numbers in a digest.
    Deadline(Option<u64>),
}

impl Field {
    pub fn link(link: Option<usize>) -> Self {
        link.map_or(Self::None, |slot| Self::Is(slot as u64))
    }

    fn text(self) -> String {
        match self {
            Self::Is(n) | Self::Deadline(Some(n)) => n.to_string(),
            Self::None | Self::Deadline(None) => "-".to_string(),
            Self::End => "end".to_string(),
        }
    }
}

/// Takes the lines of a dump one by one.
pub trait Dump {
    fn line(&mut self, word: &str, fields: &[Field]);
}

/// The lines as text.
#[derive(Default)]
pub struct Text(Vec<String>);

impl Dump for Text {
    fn line(&mut self, word: &str, fields: &[Field]) {
        self.0.push(fields.iter().fold(word.to_string(), |line, field| line + " " + &field.text()));
    }
}

impl Text {
    pub fn answer(self) -> String {
        self.0.join("\n")
    }
}

/// The digest of the same numbers.
pub struct Digest(u64);

impl Default for Digest {
    fn default() -> Self {
        Self(digest([]))
    }
}

impl Digest {
    fn add(&mut self, number: u64) {
        self.0 = (self.0 ^ number).wrapping_mul(1099511628211);
    }

    pub fn answer(self) -> String {
        format!("digest {}", self.0)
    }
}

impl Dump for Digest {
    fn line(&mut self, _: &str, fields: &[Field]) {
        for field in fields {
            match *field {
                Field::Is(n) => self.add(n),
                Field::None => self.add(u64::MAX),
                Field::End => self.add(u64::MAX - 1),
                Field::Deadline(deadline) => {
                    self.add(u64::from(deadline.is_some()));
                    self.add(deadline.unwrap_or(0));
                }
            }
        }
    }
}

/// A reader of one module's calls.
pub trait Module {
    /// The answer, several lines for a dump, or nothing where the line is no call of the module's table.
    fn call(&mut self, fields: &[&str]) -> Option<String>;
}

/// Reads every line of the input and writes its answer.
pub fn answer_all(module: &mut dyn Module, mut input: impl BufRead, output: impl Write) -> io::Result<()> {
    let mut output = BufWriter::with_capacity(1 << 16, output);
    let mut line = Vec::new();
    loop {
        line.clear();
        if input.read_until(b'\n', &mut line)? == 0 {
            return output.flush();
        }
        if line.last() == Some(&b'\n') {
            line.pop();
        }
        let answer = match split(&line) {
            Line::Nothing => continue,
            Line::Bad => None,
            Line::Fields(fields) => module.call(&fields),
        };
        output.write_all(answer.as_deref().unwrap_or("bad line").as_bytes())?;
        output.write_all(b"\n")?;
    }
}
