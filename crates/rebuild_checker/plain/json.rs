//! JSON, read value by value from bytes that are lent: a text without escapes is a part of them.
//!
//! What is no JSON ends the reading (`NoValue`). A value of another type than is asked for is passed over and read as nothing, so
//! that the rest is still seen to be JSON.

use std::convert::TryInto;

/// The bytes are no JSON.
#[derive(Debug)]
pub struct NoValue;

/// What was read; nothing where the value is of another type, or says what it may not.
pub type Read<T> = Result<Option<T>, NoValue>;

/// How deep lists and objects may nest.
const DEEPEST: usize = 127;

pub struct Json<'a> {
    bytes: &'a [u8],
    at: usize,
    depth: usize,
}

impl<'a> Json<'a> {
    pub fn new(bytes: &'a [u8]) -> Result<Json<'a>, NoValue> {
        std::str::from_utf8(bytes).map_err(|_| NoValue)?;
        Ok(Json { bytes, at: 0, depth: 0 })
    }

    /// Nothing but spaces follows.
    pub fn end(&mut self) -> Result<(), NoValue> {
        require(self.peek().is_none())
    }

    /// A number written with digits alone, below 2^64.
    pub fn number(&mut self) -> Read<u64> {
        match self.peek() {
            Some(b'-' | b'0'..=b'9') => self.numeral(),
            _ => self.pass_over(),
        }
    }

    /// What the reading makes of a text.
    pub fn text<T>(&mut self, read: impl FnOnce(&'a [u8]) -> Option<T>) -> Read<T> {
        match self.peek() {
            Some(b'"') => Ok(read(self.string()?)),
            _ => self.pass_over(),
        }
    }

    /// The items of a list, if each is read.
    pub fn list<T>(&mut self, mut item: impl FnMut(&mut Self) -> Read<T>) -> Read<Vec<T>> {
        let mut items = Vec::new();
        let mut is_read = true;
        let is_list = self.each_item(|json| {
            match item(json)? {
                Some(item) => items.push(item),
                None => is_read = false,
            }
            Ok(())
        })?;
        Ok((is_list && is_read).then_some(items))
    }

    /// Calls the reading at each item, and tells whether there is a list.
    pub fn each_item(&mut self, mut item: impl FnMut(&mut Self) -> Result<(), NoValue>) -> Result<bool, NoValue> {
        if self.peek() != Some(b'[') {
            return self.pass_over::<()>().map(|_| false);
        }
        self.open()?;
        if self.peek() == Some(b']') {
            return self.close();
        }
        loop {
            item(self)?;
            match self.peek() {
                Some(b',') => self.at += 1,
                Some(b']') => return self.close(),
                _ => return Err(NoValue),
            }
        }
    }

    /// Calls the reading at the value of each member, and tells whether there is an object.
    pub fn each_member(&mut self, mut member: impl FnMut(&mut Self, &'a [u8]) -> Result<(), NoValue>) -> Result<bool, NoValue> {
        if self.peek() != Some(b'{') {
            return self.pass_over::<()>().map(|_| false);
        }
        self.open()?;
        if self.peek() == Some(b'}') {
            return self.close();
        }
        loop {
            self.expect(b'"')?;
            let name = self.string()?;
            self.expect(b':')?;
            self.at += 1;
            member(self, name)?;
            match self.peek() {
                Some(b',') => self.at += 1,
                Some(b'}') => return self.close(),
                _ => return Err(NoValue),
            }
        }
    }

    /// Any value, of which nothing is asked.
    pub fn pass_over<T>(&mut self) -> Read<T> {
        match self.peek().ok_or(NoValue)? {
            b'{' => self.each_member(|json, _| json.pass_over::<()>().map(|_| ())).map(|_| None),
            b'[' => self.each_item(|json| json.pass_over::<()>().map(|_| ())).map(|_| None),
            b'"' => self.string().map(|_| None),
            b't' => self.word(b"true"),
            b'f' => self.word(b"false"),
            b'n' => self.word(b"null"),
            _ => self.numeral().map(|_| None),
        }
    }

    /// The next byte that is no space.
    #[inline]
    fn peek(&mut self) -> Option<u8> {
        while let Some(byte) = self.bytes.get(self.at) {
            if !matches!(byte, b' ' | b'\t' | b'\n' | b'\r') {
                return Some(*byte);
            }
            self.at += 1;
        }
        None
    }

    fn expect(&mut self, byte: u8) -> Result<(), NoValue> {
        require(self.peek() == Some(byte))
    }

    fn open(&mut self) -> Result<(), NoValue> {
        self.at += 1;
        self.depth += 1;
        require(self.depth <= DEEPEST)
    }

    fn close(&mut self) -> Result<bool, NoValue> {
        self.at += 1;
        self.depth -= 1;
        Ok(true)
    }

    fn word<T>(&mut self, word: &[u8]) -> Read<T> {
        require(self.bytes[self.at..].starts_with(word))?;
        self.at += word.len();
        Ok(None)
    }

    /// The digits from here on, one at least.
    fn digits(&mut self) -> Result<&'a [u8], NoValue> {
        let rest = &self.bytes[self.at..];
        let length = rest.iter().position(|byte| !byte.is_ascii_digit()).unwrap_or(rest.len());
        self.at += length;
        require(length > 0)?;
        Ok(&rest[..length])
    }

    fn takes(&mut self, bytes: &[u8]) -> bool {
        let is_next = self.bytes.get(self.at).is_some_and(|byte| bytes.contains(byte));
        self.at += usize::from(is_next);
        is_next
    }

    /// A number; one with a sign, a point or an exponent, or from 2^64 on, only has to be one that a float can have.
    fn numeral(&mut self) -> Read<u64> {
        let start = self.at;
        let mut is_whole = !self.takes(b"-");
        let digits = self.digits()?;
        require(digits.len() == 1 || digits[0] != b'0')?;
        if self.takes(b".") {
            is_whole = false;
            self.digits()?;
        }
        if self.takes(b"eE") {
            is_whole = false;
            self.takes(b"+-");
            self.digits()?;
        }
        let value = if is_whole { value(digits) } else { None };
        if value.is_some() {
            return Ok(value);
        }
        let text = std::str::from_utf8(&self.bytes[start..self.at]).map_err(|_| NoValue)?;
        let float: f64 = text.parse().map_err(|_| NoValue)?;
        require(float.is_finite())?;
        Ok(None)
    }

    /// The text that begins with the quotation mark here.
    fn string(&mut self) -> Result<&'a [u8], NoValue> {
        let start = self.at + 1;
        let end = start + plain_length(&self.bytes[start..]);
        match self.bytes.get(end) {
            Some(b'"') => {
                self.at = end + 1;
                Ok(&self.bytes[start..end])
            }
            Some(b'\\') => {
                self.at = end;
                self.unescaped(self.bytes[start..end].to_vec())
            }
            _ => Err(NoValue),
        }
    }

    /// The text that goes on here with an escape. Escapes are rare: such a text is kept for good, as the bytes are.
    fn unescaped(&mut self, mut text: Vec<u8>) -> Result<&'a [u8], NoValue> {
        loop {
            let plain = &self.bytes[self.at..];
            let plain = &plain[..plain_length(plain)];
            text.extend_from_slice(plain);
            self.at += plain.len() + 1;
            match self.bytes.get(self.at - 1) {
                Some(b'"') => return Ok(text.leak()),
                Some(b'\\') => {
                    let letter = self.escape()?;
                    text.extend_from_slice(letter.encode_utf8(&mut [0; 4]).as_bytes());
                }
                _ => return Err(NoValue),
            }
        }
    }

    /// What stands behind a backslash.
    fn escape(&mut self) -> Result<char, NoValue> {
        let byte = *self.bytes.get(self.at).ok_or(NoValue)?;
        self.at += 1;
        Ok(match byte {
            b'"' | b'\\' | b'/' => char::from(byte),
            b'b' => '\u{8}',
            b'f' => '\u{c}',
            b'n' => '\n',
            b'r' => '\r',
            b't' => '\t',
            b'u' => {
                let mut unit = self.code_unit()?;
                if (0xd800..0xdc00).contains(&unit) {
                    require(self.takes(b"\\") && self.takes(b"u"))?;
                    let low = self.code_unit()?.wrapping_sub(0xdc00);
                    require(low < 0x400)?;
                    unit = 0x10000 + ((unit - 0xd800) << 10) + low;
                }
                char::from_u32(unit).ok_or(NoValue)?
            }
            _ => return Err(NoValue),
        })
    }

    /// Four hexadecimal digits.
    fn code_unit(&mut self) -> Result<u32, NoValue> {
        let digits = self.bytes.get(self.at..self.at + 4).ok_or(NoValue)?;
        self.at += 4;
        digits.iter().try_fold(0, |unit, digit| Ok(unit << 4 | char::from(*digit).to_digit(16).ok_or(NoValue)?))
    }
}

fn require(is_so: bool) -> Result<(), NoValue> {
    if is_so { Ok(()) } else { Err(NoValue) }
}

/// The number that the digits write, if it is below 2^64.
fn value(digits: &[u8]) -> Option<u64> {
    digits.iter().try_fold(0u64, |value, digit| value.checked_mul(10)?.checked_add(u64::from(digit - b'0')))
}

/// How many bytes stand before the first quotation mark, backslash or control; looked at by eights.
#[inline]
fn plain_length(bytes: &[u8]) -> usize {
    const ONES: u64 = 0x0101_0101_0101_0101;
    const HIGHS: u64 = 0x8080_8080_8080_8080;
    let zeros = |word: u64| word.wrapping_sub(ONES) & !word;
    let mut length = 0;
    for chunk in bytes.chunks_exact(8) {
        let word = u64::from_le_bytes(chunk.try_into().unwrap());
        let controls = word.wrapping_sub(ONES * 0x20) & !word;
        let ends = (controls | zeros(word ^ (ONES * 0x22)) | zeros(word ^ (ONES * 0x5c))) & HIGHS;
        if ends != 0 {
            return length + ends.trailing_zeros() as usize / 8;
        }
        length += 8;
    }
    let rest = &bytes[length..];
    length + rest.iter().position(|byte| matches!(byte, b'"' | b'\\' | 0..0x20)).unwrap_or(rest.len())
}
