//! Text blocks: cut into pairs in one pass, and answers written after all pairs are judged.

/// A pair's place in its block.
#[derive(Clone, Copy, Default)]
pub struct Pair {
    pub start: u16,
    pub equals: u16,
    pub end: u16,
}

/// The answer to a pair.
#[derive(Clone, Copy, Default)]
pub enum Said {
    #[default]
    Nothing,
    Number(u32),
    Word(&'static [u8]),
}

/// Which bytes may stand in a name after its first.
const NAME: [bool; 256] = {
    let mut table = [false; 256];
    let mut byte = 0;
    while byte < 256 {
        let b = byte as u8;
        table[byte] = b.is_ascii_alphanumeric() || matches!(b, b'.' | b'-' | b'+' | b'@' | b'_');
        byte += 1;
    }
    table
};

/// Cut a block into pairs; none where its form is broken.
pub fn cut(block: &[u8], pairs: &mut [Pair; 64]) -> Option<usize> {
    let mut count = 0;
    let mut at = 0;
    while at < block.len() {
        if count == 64 || !block[at].is_ascii_uppercase() {
            return None;
        }
        let start = at;
        at += 1;
        if block[start] == b'X' && block.get(at) == Some(&b'#') {
            at += 1;
        }
        while at < block.len() && NAME[block[at] as usize] {
            at += 1;
        }
        if at - start > 63 || block.get(at) != Some(&b'=') {
            return None;
        }
        let equals = at;
        let value = &block[equals + 1..];
        let length = value.iter().position(|&byte| byte == 0)?;
        if length > 255 {
            return None;
        }
        at = equals + 1 + length;
        pairs[count] = Pair {
            start: start as u16,
            equals: equals as u16,
            end: at as u16,
        };
        count += 1;
        at += 1;
    }
    Some(count)
}

/// A number in either form, below 2^64.
pub fn number(value: &[u8]) -> Option<u64> {
    let (digits, base) = match value {
        [b'0', b'x' | b'X', rest @ ..] => (rest, 16),
        [b'0', _, ..] => return None,
        _ => (value, 10),
    };
    if digits.is_empty() {
        return None;
    }
    let mut number = 0u64;
    for &digit in digits {
        let digit = match digit {
            b'0'..=b'9' => digit - b'0',
            b'a'..=b'f' if base == 16 => digit - b'a' + 10,
            b'A'..=b'F' if base == 16 => digit - b'A' + 10,
            _ => return None,
        };
        number = number.checked_mul(base)?.checked_add(digit.into())?;
    }
    Some(number)
}

/// Writes answers to the lent text.
pub struct Writer<'a> {
    pub text: &'a mut [u8],
    pub length: usize,
}

impl Writer<'_> {
    fn bytes(&mut self, bytes: &[u8]) {
        self.text[self.length..self.length + bytes.len()].copy_from_slice(bytes);
        self.length += bytes.len();
    }

    /// An answered pair: the name with its equals sign, the value, a zero byte.
    pub fn pair(&mut self, name: &[u8], said: Said) {
        match said {
            Said::Nothing => return,
            Said::Word(word) => {
                self.bytes(name);
                self.bytes(word);
            }
            Said::Number(number) => {
                self.bytes(name);
                self.decimal(number);
            }
        }
        self.bytes(b"\0");
    }

    fn decimal(&mut self, mut number: u32) {
        let mut digits = [0; 10];
        let mut at = digits.len();
        loop {
            at -= 1;
            digits[at] = b'0' + (number % 10) as u8;
            number /= 10;
            if number == 0 {
                break;
            }
        }
        self.bytes(&digits[at..]);
    }
}
