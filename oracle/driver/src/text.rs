//! Fields of a line: decimal numbers and lower-case hex.
//!
//! Each value has one spelling only. A reader that let a second one pass
//! would hide a fault in whatever wrote the line.

/// A decimal number without sign or leading zeros that fits the type asked for.
pub fn decimal<T: TryFrom<u64>>(field: &[u8]) -> Option<T> {
    let digits = !field.is_empty() && field.iter().all(u8::is_ascii_digit);
    let padded = field.len() > 1 && field[0] == b'0';
    if !digits || padded {
        return None;
    }
    let number: u64 = std::str::from_utf8(field).ok()?.parse().ok()?;
    T::try_from(number).ok()
}

/// A hex number of exactly `width` lower-case digits (at most 16).
pub fn hex_number(field: &[u8], width: usize) -> Option<u64> {
    if field.len() != width {
        return None;
    }
    field.iter().try_fold(0, |number, byte| {
        Some(number << 4 | u64::from(digit(*byte)?))
    })
}

/// Bytes as pairs of lower-case hex digits, or `-` for no bytes at all.
pub fn hex_bytes(field: &[u8]) -> Option<Vec<u8>> {
    if field == b"-" {
        return Some(Vec::new());
    }
    if field.is_empty() || field.len() % 2 == 1 {
        return None;
    }
    field
        .chunks_exact(2)
        .map(|pair| Some(digit(pair[0])? << 4 | digit(pair[1])?))
        .collect()
}

/// The spelling that `hex_bytes` reads.
pub fn hex(bytes: &[u8]) -> String {
    if bytes.is_empty() {
        return "-".to_string();
    }
    let mut text = String::with_capacity(2 * bytes.len());
    for byte in bytes {
        for half in [byte >> 4, byte & 15] {
            text.extend(char::from_digit(half.into(), 16));
        }
    }
    text
}

fn digit(byte: u8) -> Option<u8> {
    match byte {
        b'0'..=b'9' => Some(byte - b'0'),
        b'a'..=b'f' => Some(byte - b'a' + 10),
        _ => None,
    }
}

#[cfg(test)]
mod tests {
    use super::*;

    #[test]
    fn a_decimal_number_has_one_spelling() {
        assert_eq!(decimal::<u16>(b"0"), Some(0));
        assert_eq!(decimal::<u16>(b"65535"), Some(65_535));
        assert_eq!(decimal::<u64>(b"18446744073709551615"), Some(u64::MAX));
        for bad in [
            "", "+1", "-1", "01", "00", " 1", "1 ", "0x1", "1_0", "\u{661}",
        ] {
            assert_eq!(decimal::<u64>(bad.as_bytes()), None, "{bad:?}");
        }
    }

    #[test]
    fn a_decimal_number_must_fit() {
        assert_eq!(decimal::<u16>(b"65536"), None);
        assert_eq!(decimal::<u32>(b"4294967296"), None);
        assert_eq!(decimal::<u64>(b"18446744073709551616"), None);
    }

    #[test]
    fn hex_is_lower_case_and_of_the_width_asked_for() {
        assert_eq!(hex_number(b"0a", 2), Some(10));
        assert_eq!(hex_number(b"ffffffffffffffff", 16), Some(u64::MAX));
        for bad in ["a", "00a", "0A", "0g", "+1", " 1"] {
            assert_eq!(hex_number(bad.as_bytes(), 2), None, "{bad:?}");
        }
    }

    #[test]
    fn hex_bytes_come_in_pairs() {
        assert_eq!(hex_bytes(b"-"), Some(vec![]));
        assert_eq!(hex_bytes(b"00ff10"), Some(vec![0, 255, 16]));
        for bad in ["", "0", "000", "0F", "--", "zz"] {
            assert_eq!(hex_bytes(bad.as_bytes()), None, "{bad:?}");
        }
    }

    #[test]
    fn hex_is_what_hex_bytes_reads() {
        assert_eq!(hex(&[]), "-");
        assert_eq!(hex(&[0, 255, 16]), "00ff10");
        let bytes: Vec<u8> = (0..=255).collect();
        assert_eq!(hex_bytes(hex(&bytes).as_bytes()), Some(bytes));
    }
}
