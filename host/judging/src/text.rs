//! Records and entries, of test files or of logs, as lines that can be put wrong.

/// A kind of line, by what it tells.
pub trait Kind: Copy + PartialEq + 'static {
    /// Gives the characters that stand before the value of such a line.
    fn beginning(self) -> &'static [u8];
}

/// The lines of a record or an entry, each with its line feed.
#[derive(Clone)]
pub struct Text<K: Kind> {
    kinds: &'static [K],
    lines: Vec<Vec<u8>>,
}

impl<K: Kind> Text<K> {
    /// Gives the lines of bytes in which one of each kind stands.
    pub fn split(kinds: &'static [K], bytes: &[u8]) -> Text<K> {
        let lines = bytes.split_inclusive(|byte| *byte == b'\n');
        let lines: Vec<Vec<u8>> = lines.map(<[u8]>::to_vec).collect();
        assert_eq!(lines.len(), kinds.len(), "a line of each kind");
        Text { kinds, lines }
    }

    /// Gives the kinds of its lines, in their order.
    pub fn kinds(&self) -> &'static [K] {
        self.kinds
    }

    /// Gives the number of a line, counted from 1.
    pub fn number(&self, line: K) -> usize {
        number_among(self.kinds, line)
    }

    /// Gives one of the lines.
    pub fn line(&self, line: K) -> &[u8] {
        &self.lines[self.number(line) - 1]
    }

    /// Gives the value of a line, without label and line feed.
    pub fn value(&self, line: K) -> &[u8] {
        let whole = self.line(line);
        &whole[label(line).len()..whole.len() - 1]
    }

    /// Gives the lines with any bytes in place of one of them.
    pub fn with_line(&self, line: K, bytes: Vec<u8>) -> Text<K> {
        let place = self.number(line) - 1;
        let mut lines = self.clone();
        lines.lines[place] = bytes;
        lines
    }

    /// Gives the lines with another value in one of them.
    pub fn with_value(&self, line: K, value: impl AsRef<[u8]>) -> Text<K> {
        self.with_line(line, [label(line), value.as_ref(), b"\n"].concat())
    }

    /// Gives the lines with this character at one place of a value.
    pub fn with_character(&self, line: K, place: usize, character: u8) -> Text<K> {
        let mut value = self.value(line).to_vec();
        value[place] = character;
        self.with_value(line, value)
    }

    /// Gives the lines with another digit at one place of a value.
    pub fn with_other_digit(&self, line: K, place: usize) -> Text<K> {
        let digit = self.value(line)[place];
        self.with_character(line, place, if digit == b'0' { b'1' } else { b'0' })
    }

    /// Gives the lines with two of them in each other's place.
    pub fn swapped(&self, one: K, other: K) -> Text<K> {
        let places = [one, other].map(|line| self.number(line) - 1);
        let mut lines = self.clone();
        lines.lines.swap(places[0], places[1]);
        lines
    }

    /// Gives the lines before one of them, one after another.
    pub fn before(&self, line: K) -> Vec<u8> {
        self.lines[..self.number(line) - 1].concat()
    }

    /// Gives all lines, one after another.
    pub fn bytes(&self) -> Vec<u8> {
        self.lines.concat()
    }
}

impl<K: Kind> From<Text<K>> for Vec<u8> {
    fn from(text: Text<K>) -> Vec<u8> {
        text.bytes()
    }
}

/// Gives the number that a line has among these, counted from 1.
pub fn number_among<K: Kind>(kinds: &[K], line: K) -> usize {
    let place = kinds.iter().position(|own| *own == line);
    place.expect("there is such a line") + 1
}

/// Gives a line's name with what stands between it and the value.
pub fn label(line: impl Kind) -> &'static [u8] {
    line.beginning()
}

/// Gives the column, counted from 1, at which a place of a line's value stands.
pub fn column(line: impl Kind, place: usize) -> usize {
    label(line).len() + place + 1
}
