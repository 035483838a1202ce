//! Which answer lines belong to which trace line.

/// The answers of one program, taken in turn.
pub struct Answers<'a> {
    rest: &'a [u8],
    pub ended: bool,
}

impl<'a> Answers<'a> {
    pub fn new(bytes: &'a [u8]) -> Self {
        Self { rest: bytes, ended: false }
    }

    fn peek(&self) -> Option<&'a [u8]> {
        if self.rest.is_empty() {
            return None;
        }
        self.rest.split(|b| *b == b'\n').next()
    }

    fn take(&mut self, length: usize) -> &'a [u8] {
        let end = (length + 1).min(self.rest.len());
        let taken = &self.rest[..length];
        self.rest = &self.rest[end..];
        taken
    }

    fn run(&self, at: usize, start: &[u8], most: usize) -> usize {
        let mut length = at;
        for line in self.rest[at..].split(|b| *b == b'\n').take(most) {
            if !line.starts_with(start) {
                break;
            }
            length += line.len() + 1;
        }
        length.min(self.rest.len())
    }

    /// The answer to one call: a line, or the lines of a dump.
    pub fn next(&mut self, dump: bool) -> &'a [u8] {
        let Some(first) = self.peek() else {
            self.ended = true;
            return b"";
        };
        let mut length = first.len();
        if dump && first.starts_with(b"deque ") {
            length = self.run(0, b"deque ", usize::MAX);
            length = self.run(length, b"node ", usize::MAX);
            length = self.run(length, b"free ", 1) - 1;
        }
        if dump && first.starts_with(b"clock ") {
            length = self.run(0, b"clock ", 1);
            length = self.run(length, b"bucket ", 165);
            length = self.run(length, b"node ", usize::MAX);
            length = self.run(length, b"entry ", usize::MAX) - 1;
        }
        self.take(length)
    }

    pub fn left(&self) -> bool {
        !self.rest.is_empty()
    }
}
