//! The words of one line.

/// Why a line cannot be read.
#[derive(Clone, Debug, PartialEq, Eq)]
pub struct Unreadable(pub String);

impl Unreadable {
    pub fn new(reason: &str) -> Unreadable {
        Unreadable(reason.to_string())
    }
}

pub type Readable<T> = Result<T, Unreadable>;

fn is_blank(byte: &u8) -> bool {
    matches!(byte, b' ' | b'\t' | b'\r')
}

/// The words of a line before its comment, taken one by one.
pub struct Words<'a> {
    rest: std::iter::Peekable<Box<dyn Iterator<Item = &'a [u8]> + 'a>>,
}

impl<'a> Words<'a> {
    pub fn of(line: &'a [u8]) -> Words<'a> {
        let spoken = line.split(|byte| *byte == b'#').next().unwrap_or(line);
        let words = spoken.split(is_blank).filter(|word| !word.is_empty());
        let boxed: Box<dyn Iterator<Item = &'a [u8]> + 'a> = Box::new(words);
        Words { rest: boxed.peekable() }
    }

    pub fn are_over(&mut self) -> bool {
        self.rest.peek().is_none()
    }

    pub fn word(&mut self) -> Readable<&'a [u8]> {
        self.rest.next().ok_or_else(|| Unreadable::new("a word is missing"))
    }

    pub fn number(&mut self) -> Readable<u64> {
        let word = self.word()?;
        number(word).ok_or_else(|| not(word, "a number"))
    }

    /// A server, an object or a length: what no memory can count is as good as
    /// the greatest, since it is beyond every bound.
    pub fn index(&mut self) -> Readable<usize> {
        Ok(usize::try_from(self.number()?).unwrap_or(usize::MAX))
    }

    pub fn indices(&mut self) -> Readable<Vec<usize>> {
        let mut indices = Vec::new();
        while !self.are_over() {
            indices.push(self.index()?);
        }
        Ok(indices)
    }

    /// All that is left of the line, as bytes.
    pub fn cells(&mut self) -> Readable<Vec<u8>> {
        let mut cells = Vec::new();
        while !self.are_over() {
            let word = self.word()?;
            let cell = number(word).and_then(|n| u8::try_from(n).ok());
            cells.push(cell.ok_or_else(|| not(word, "a byte"))?);
        }
        Ok(cells)
    }

    pub fn hex(&mut self) -> Readable<Vec<u8>> {
        let word = self.word()?;
        super::hex::bytes(word).ok_or_else(|| not(word, "bytes in hexadecimal"))
    }

    /// A number behind that word, if the word comes next.
    pub fn option(&mut self, name: &str) -> Readable<Option<u64>> {
        if self.rest.next_if(|word| *word == name.as_bytes()).is_none() {
            return Ok(None);
        }
        self.number().map(Some)
    }

    pub fn end(&mut self) -> Readable<()> {
        match self.rest.next() {
            None => Ok(()),
            Some(word) => Err(not(word, "expected here")),
        }
    }
}

pub fn not(word: &[u8], what: &str) -> Unreadable {
    let shown = word.escape_ascii();
    Unreadable(format!("{shown} is not {what}"))
}

fn number(word: &[u8]) -> Option<u64> {
    word.iter().try_fold(0u64, |number, byte| {
        let digit = char::from(*byte).to_digit(10)?;
        number.checked_mul(10)?.checked_add(u64::from(digit))
    })
}
