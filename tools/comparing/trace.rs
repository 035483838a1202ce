//! A trace under construction: call lines, with a few per cent of odd lines among them.

use crate::lines::{split, Line, Module};
use crate::random::Random;

/// Adds a call to a trace and gives the model's answer; the fields may draw on the trace's random numbers.
macro_rules! answer {
    ($trace:expr, $($line:tt)*) => {{
        let line = format!($($line)*);
        $trace.call(&line)
    }};
}

/// Adds a call to a trace.
macro_rules! call {
    ($trace:expr, $($line:tt)*) => {{
        answer!($trace, $($line)*);
    }};
}

pub struct Trace {
    pub bytes: Vec<u8>,
    pub lines: u64,
    pub random: Random,
    /// Follows the trace, so that calls can name handles and slots that are there.
    model: Option<Box<dyn Module>>,
}

impl Trace {
    pub fn new(seed: u64, model: Option<Box<dyn Module>>) -> Self {
        Self { bytes: Vec::new(), lines: 0, random: Random::new(seed), model }
    }

    /// The model's answer to a line that is not part of the trace.
    pub fn ask(&mut self, line: &str) -> String {
        self.answer(line.as_bytes())
    }

    fn answer(&mut self, line: &[u8]) -> String {
        match (&mut self.model, split(line)) {
            (Some(model), Line::Fields(fields)) => model.call(&fields).unwrap_or_default(),
            _ => String::new(),
        }
    }

    /// Adds a call, now and then with an odd line before it. Gives the model's answer.
    pub fn call(&mut self, line: &str) -> String {
        let line = line.as_bytes();
        if self.random.once_in(40) {
            let odd = self.odd(line);
            self.put(&odd);
        }
        if self.random.once_in(200) {
            let padded = self.padded(line, 256);
            self.put(&padded)
        } else {
            self.put(line)
        }
    }

    /// Ends the trace, half of the time without the last LF.
    pub fn end(&mut self) {
        if self.random.once_in(4) {
            let odd = self.odd(b"record");
            self.put(&odd);
        }
        if self.random.once_in(2) {
            self.bytes.pop();
        }
    }

    fn put(&mut self, line: &[u8]) -> String {
        self.bytes.extend_from_slice(line);
        self.bytes.push(b'\n');
        self.lines += 1;
        self.answer(line)
    }

    /// The line with leading zeros in its last number, filled up to `length` bytes.
    fn padded(&mut self, line: &[u8], length: usize) -> Vec<u8> {
        let last = line.iter().rposition(|b| *b == b' ').map_or(0, |at| at + 1);
        if last == 0 || line[last..].iter().any(|b| !b.is_ascii_digit()) {
            return line.to_vec();
        }
        let length = if self.random.once_in(2) { length } else { line.len() + self.random.below(30) as usize };
        let zeros = vec![b'0'; length.saturating_sub(line.len())];
        [&line[..last], &zeros, &line[last..]].concat()
    }

    /// A line that is near a call but mostly none.
    fn odd(&mut self, line: &[u8]) -> Vec<u8> {
        let text = String::from_utf8_lossy(line).into_owned();
        let (word, rest) = text.split_once(' ').unwrap_or((&text, ""));
        let cut = text.rsplit_once(' ').map_or("", |(before, _)| before);
        match self.random.below(30) {
            0 => Vec::new(),
            1 => b" ".to_vec(),
            2 => format!("{text} ").into_bytes(),
            3 => format!(" {text}").into_bytes(),
            4 => text.replacen(' ', "  ", 1).into_bytes(),
            5 => text.replacen(' ', "\t", 1).into_bytes(),
            6 => format!("{text}\r").into_bytes(),
            7 => format!("{text} 1").into_bytes(),
            8 => cut.as_bytes().to_vec(),
            9 => format!("{cut} +1").into_bytes(),
            10 => format!("{cut} -1").into_bytes(),
            11 => format!("{cut} -").into_bytes(),
            12 => format!("{cut} 18446744073709551615").into_bytes(),
            13 => format!("{cut} 18446744073709551616").into_bytes(),
            14 => format!("{cut} {}", "9".repeat(self.random.range(20, 60) as usize)).into_bytes(),
            15 => format!("{cut} 1x").into_bytes(),
            16 => format!("{cut} x").into_bytes(),
            17 => format!("{} {rest}", word.to_uppercase()).into_bytes(),
            18 => format!("{word}s {rest}").into_bytes(),
            19 => format!("{} {rest}", &word[..word.len() - 1]).into_bytes(),
            20 => self.padded(line, 257),
            21 => format!("#{}", "c".repeat(self.random.pick(&[0, 1, 30, 254, 255, 256, 300]))).into_bytes(),
            22 => "7".repeat(self.random.pick(&[1, 255, 256, 257, 258, 1000, 4095, 4096, 4097, 9000])).into_bytes(),
            23 => [line, b"\0"].concat(),
            24 => [line, b"\xff\xc3"].concat(),
            25 => format!("{cut} 1.0").into_bytes(),
            26 => format!("{cut} 0x1").into_bytes(),
            27 => b"\r".to_vec(),
            28 => format!("{word}-{rest}").into_bytes(),
            _ => format!("{text} end").into_bytes(),
        }
    }
}
