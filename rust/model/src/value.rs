//! The forms of values: numbers, booleans and lists.

/// 0, or digits not starting with 0, or 0x or 0X and at least one hex digit; below 2^64.
pub fn number(value: &[u8]) -> Option<u64> {
    let text = str::from_utf8(value).ok()?;
    if let Some(hex) = text.strip_prefix("0x").or_else(|| text.strip_prefix("0X")) {
        return number_in(hex, 16);
    }
    if text.len() > 1 && text.starts_with('0') {
        return None;
    }
    number_in(text, 10)
}

/// At least one digit of the base and nothing else. (`from_str_radix` alone would take a sign.)
fn number_in(digits: &str, base: u32) -> Option<u64> {
    if !digits.chars().all(|c| c.is_digit(base)) {
        return None;
    }
    u64::from_str_radix(digits, base).ok()
}

/// Yes or No.
pub fn boolean(value: &[u8]) -> Option<bool> {
    match value {
        b"Yes" => Some(true),
        b"No" => Some(false),
        _ => None,
    }
}

/// Whether the comma list has the item.
pub fn list_has(list: &[u8], item: &[u8]) -> bool {
    list.split(|&byte| byte == b',').any(|each| each == item)
}

#[cfg(test)]
mod tests {
    use super::*;

    #[test]
    fn trap_49_numbers() {
        let good = [
            ("0", 0),
            ("0x0", 0),
            ("0X00", 0),
            ("1", 1),
            ("0x1F", 31),
            ("0XaB", 171),
            ("18446744073709551615", u64::MAX),
            ("0x0000000000000000000ffffffffffffffff", u64::MAX),
        ];
        for (text, wanted) in good {
            assert_eq!(number(text.as_bytes()), Some(wanted), "{text}");
        }
        let bad = [
            "00",
            "01",
            "0x",
            "0X",
            "",
            " 1",
            "1 ",
            "+1",
            "-1",
            "0x+1",
            "1a",
            "a",
            "0xg",
            "x1",
            "1_0",
            "00x1",
            "18446744073709551616",
            "0x10000000000000000",
            "36893488147419103233",
        ];
        for text in bad {
            assert_eq!(number(text.as_bytes()), None, "{text}");
        }
        assert_eq!(number(&[0xff]), None);
        assert_eq!(number("\u{661}".as_bytes()), None);
    }

    #[test]
    fn booleans_are_exact() {
        assert_eq!(boolean(b"Yes"), Some(true));
        assert_eq!(boolean(b"No"), Some(false));
        for text in ["yes", "YES", "no", "", "Yes ", "Yes,No", "1"] {
            assert_eq!(boolean(text.as_bytes()), None);
        }
    }

    #[test]
    fn lists_are_compared_item_by_item() {
        assert!(list_has(b"None", b"None"));
        assert!(list_has(b"CRC32C,None", b"None"));
        assert!(list_has(b",None,", b"None"));
        for list in [
            "",
            "none",
            "None ",
            " None",
            "NoneX",
            "CRC32C",
            "XNone",
            "None;CRC32C",
        ] {
            assert!(!list_has(list.as_bytes(), b"None"), "{list}");
        }
    }
}
