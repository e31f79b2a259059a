//! The words of a line: numbers, bytes, and how a line is cut into words.

/// The words of a line, or none where its spaces are wrong or it holds a tab or a carriage return.
pub fn words_of(line: &[u8]) -> Option<Vec<&[u8]>> {
    if line.contains(&b'\t') || line.contains(&b'\r') {
        return None;
    }
    let words: Vec<_> = line.split(|&byte| byte == b' ').collect();
    // Two spaces, or one at either end, leave an empty word.
    words.iter().all(|word| !word.is_empty()).then_some(words)
}

/// A number: decimal, or `0x` and hex digits in either case; leading zeros are fine.
pub fn number(word: &[u8]) -> Option<u64> {
    let (digits, base) = match word.strip_prefix(b"0x") {
        Some(hex) => (hex, 16),
        None => (word, 10),
    };
    if digits.is_empty() {
        return None;
    }
    digits.iter().try_fold(0u64, |number, &digit| {
        let digit = char::from(digit).to_digit(base)?;
        number.checked_mul(base.into())?.checked_add(digit.into())
    })
}

/// A number of at most `bits` bits.
pub fn number_in(word: &[u8], bits: u32) -> Option<u64> {
    number(word).filter(|&number| bits == 64 || number >> bits == 0)
}

/// An even number of hex digits, or `-` for none.
pub fn bytes(word: &[u8]) -> Option<Vec<u8>> {
    if word == b"-" {
        return Some(Vec::new());
    }
    if !word.len().is_multiple_of(2) {
        return None;
    }
    word.chunks(2)
        .map(|two| {
            let high = char::from(two[0]).to_digit(16)?;
            let low = char::from(two[1]).to_digit(16)?;
            Some((high * 16 + low) as u8)
        })
        .collect()
}

#[cfg(test)]
mod tests {
    use super::*;

    #[test]
    fn words_are_separated_by_one_space() {
        assert_eq!(words_of(b"a bc").unwrap(), [&b"a"[..], b"bc"]);
        for line in ["a  b", " a", "a ", " ", "a\tb", "a\r", "\r"] {
            assert_eq!(words_of(line.as_bytes()), None, "{line:?}");
        }
    }

    #[test]
    fn numbers_are_decimal_or_hex() {
        for (word, wanted) in [
            ("0", 0),
            ("007", 7),
            ("0x0", 0),
            ("0xFf", 255),
            ("0x00000000000000000000001", 1),
            ("000000000000000000000000018446744073709551615", u64::MAX),
            ("0xffffffffffffffff", u64::MAX),
        ] {
            assert_eq!(number(word.as_bytes()), Some(wanted), "{word}");
        }
        for word in [
            "",
            "0x",
            "0X1",
            "x1",
            "1x",
            "-1",
            "+1",
            "1_0",
            "ff",
            "0x1g",
            "-",
            "18446744073709551616",
            "0x10000000000000000",
            "0x0x1",
            "1.0",
        ] {
            assert_eq!(number(word.as_bytes()), None, "{word}");
        }
        assert_eq!(number(&[0xff, 0xfe]), None);
    }

    #[test]
    fn numbers_fit_their_width() {
        for (word, bits, fits) in [
            ("1", 1, true),
            ("2", 1, false),
            ("255", 8, true),
            ("256", 8, false),
            ("0xffff", 16, true),
            ("0x10000", 16, false),
            ("4294967295", 32, true),
            ("4294967296", 32, false),
            ("0xffffffffffffffff", 64, true),
        ] {
            assert_eq!(number_in(word.as_bytes(), bits).is_some(), fits, "{word}");
        }
    }

    #[test]
    fn bytes_are_pairs_of_hex_digits() {
        assert_eq!(bytes(b"-"), Some(vec![]));
        assert_eq!(bytes(b"00aBFf"), Some(vec![0, 0xab, 0xff]));
        for word in ["0", "0g", "--", "abc", "0x00", "+1"] {
            assert_eq!(bytes(word.as_bytes()), None, "{word}");
        }
    }
}
