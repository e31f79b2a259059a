//! The form of a text block: pairs, each followed by one zero byte.

/// Most pairs in a block.
const MOST_PAIRS: usize = 64;
const LONGEST_NAME: usize = 63;
const LONGEST_VALUE: usize = 255;

/// One pair of a block.
#[derive(Clone, Copy, Debug, PartialEq, Eq)]
pub struct Pair<'a> {
    pub name: &'a [u8],
    pub value: &'a [u8],
}

/// The pairs of a whole block, or none where its form is broken anywhere.
pub fn pairs_of(block: &[u8]) -> Option<Vec<Pair<'_>>> {
    let mut pairs = Vec::new();
    let mut rest = block;
    while !rest.is_empty() {
        let end = rest.iter().position(|&byte| byte == 0)?;
        pairs.push(pair_of(&rest[..end])?);
        rest = &rest[end + 1..];
    }
    (pairs.len() <= MOST_PAIRS).then_some(pairs)
}

/// A pair without its zero byte.
fn pair_of(bytes: &[u8]) -> Option<Pair<'_>> {
    let equals = bytes.iter().position(|&byte| byte == b'=')?;
    let pair = Pair {
        name: &bytes[..equals],
        value: &bytes[equals + 1..],
    };
    (is_name(pair.name) && pair.value.len() <= LONGEST_VALUE).then_some(pair)
}

/// An upper-case letter, then letters, digits or . - + @ _ (also # directly after a leading X); 1 to 63 bytes.
fn is_name(name: &[u8]) -> bool {
    if name.is_empty() || name.len() > LONGEST_NAME {
        return false;
    }
    name.iter().enumerate().all(|(place, &byte)| match place {
        0 => byte.is_ascii_uppercase(),
        1 if name[0] == b'X' && byte == b'#' => true,
        _ => byte.is_ascii_alphanumeric() || b".-+@_".contains(&byte),
    })
}

#[cfg(test)]
mod tests {
    use super::*;

    fn good(block: &[u8]) -> bool {
        pairs_of(block).is_some()
    }

    #[test]
    fn a_pair_is_a_name_and_a_value() {
        let pairs = pairs_of(b"A=1\0Bc=\0X-d==e=\0").unwrap();
        let shown: Vec<_> = pairs.iter().map(|p| (p.name, p.value)).collect();
        let wanted: [(&[u8], &[u8]); 3] = [(b"A", b"1"), (b"Bc", b""), (b"X-d", b"=e=")];
        assert_eq!(shown, wanted);
        assert_eq!(pairs_of(b""), Some(vec![]));
    }

    #[test]
    fn trap_42_at_most_64_pairs() {
        assert!(good(&b"A=\0".repeat(64)));
        assert!(!good(&b"A=\0".repeat(65)));
    }

    #[test]
    fn trap_44_names() {
        for name in ["A", "Z9", "Aa.-+@_z", "X#", "X#-", "X-foo", "XX"] {
            assert!(good(format!("{name}=1\0").as_bytes()), "{name}");
        }
        for name in [
            "", "a", "9", "X-#", "XX#", "Y#", "#", "A b", "A\u{e9}", "A/", "X##",
        ] {
            assert!(!good(format!("{name}=1\0").as_bytes()), "{name}");
        }
        assert!(good(format!("{}=1\0", "N".repeat(63)).as_bytes()));
        assert!(!good(format!("{}=1\0", "N".repeat(64)).as_bytes()));
    }

    #[test]
    fn trap_45_zero_bytes() {
        for block in [
            &b"\0"[..],
            b"A=1\0\0",
            b"\0A=1\0",
            b"A=1",
            b"A=1\0B=2",
            b"A\0",
            b"A\0=\0",
        ] {
            assert!(!good(block), "{block:?}");
        }
    }

    #[test]
    fn trap_53_values_have_up_to_255_bytes_of_any_kind_but_zero() {
        assert!(good(&[b"A=", &[0xff; 255][..], b"\0"].concat()));
        assert!(!good(&[b"A=", &[b'v'; 256][..], b"\0"].concat()));
    }
}
