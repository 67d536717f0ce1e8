//! Bytes on their way out, whatever they say.

/// A line's words are put one after another, each with what stands before it.
#[derive(Default)]
pub struct Output(pub Vec<u8>);

/// The digits of the numbers below a hundred.
const PAIRS: [[u8; 2]; 100] = {
    let mut pairs = [[0; 2]; 100];
    let mut number = 0;
    while number < 100 {
        pairs[number] = [b'0' + (number / 10) as u8, b'0' + (number % 10) as u8];
        number += 1;
    }
    pairs
};

impl Output {
    pub fn text(&mut self, text: &[u8]) -> &mut Output {
        self.0.extend_from_slice(text);
        self
    }

    pub fn word(&mut self, word: &str) -> &mut Output {
        self.text(word.as_bytes())
    }

    pub fn number(&mut self, number: impl Into<u64>) -> &mut Output {
        let mut digits = [0; 20];
        let mut at = digits.len();
        let mut rest = number.into();
        while rest >= 10 {
            at -= 2;
            digits[at..at + 2].copy_from_slice(&PAIRS[(rest % 100) as usize]);
            rest /= 100;
        }
        if rest > 0 || at == digits.len() {
            at -= 1;
            digits[at] = b'0' + rest as u8;
        }
        self.text(&digits[at..])
    }

    pub fn count(&mut self, count: usize) -> &mut Output {
        self.number(count as u64)
    }

    /// A list of JSON.
    pub fn list<T>(&mut self, items: impl IntoIterator<Item = T>, mut put: impl FnMut(&mut Output, T)) -> &mut Output {
        self.word("[");
        for (index, item) in items.into_iter().enumerate() {
            if index > 0 {
                self.word(",");
            }
            put(self, item);
        }
        self.word("]")
    }

    /// A text of JSON.
    pub fn quoted(&mut self, text: &[u8]) -> &mut Output {
        self.word("\"");
        for byte in text {
            if b"\"\\".contains(byte) {
                self.word("\\");
            }
            self.0.push(*byte);
        }
        self.word("\"")
    }
}
