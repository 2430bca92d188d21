//! Words of 64 bits, as people write and read them.

/// A decimal or hexadecimal number of 64 bits, unsigned or signed.
pub fn integer(text: &str) -> Option<u64> {
    let (negative, digits) = match text.strip_prefix('-') {
        Some(digits) => (true, digits),
        None => (false, text),
    };
    let (radix, digits) = match digits.strip_prefix("0x") {
        Some(digits) => (16, digits),
        None => (10, digits),
    };
    let plain = digits.chars().all(|digit| digit.is_ascii_alphanumeric());
    let size = u64::from_str_radix(digits, radix).ok().filter(|_| plain)?;
    match negative {
        true => (size <= 1 << 63).then_some(size.wrapping_neg()),
        false => Some(size),
    }
}

/// Such a number, or one with a point: the bits of a float.
pub fn word(text: &str) -> Option<u64> {
    if !text.contains('.') {
        return integer(text);
    }
    let float: f64 = text.parse().ok()?;
    (float.is_finite() && !text.starts_with('+')).then_some(float.to_bits())
}

/// How a word is read, and its readings.
pub const READINGS: [&str; 4] = ["unsigned", "signed", "hexadecimal", "float"];

pub fn readings(word: u64) -> [String; 4] {
    [word.to_string(), (word as i64).to_string(), format!("{word:#x}"), float(word)]
}

/// The float whose bits these are, with a point or an exponent.
pub fn float(word: u64) -> String {
    format!("{:?}", f64::from_bits(word))
}

#[cfg(test)]
mod tests {
    use super::{integer, readings, word};

    #[test]
    fn integers() {
        let all = u64::MAX;
        let least = 1 << 63;
        for (text, read) in [
            ("0", Some(0)),
            ("-0", Some(0)),
            ("-1", Some(all)),
            ("0xff", Some(255)),
            ("-0xff", Some(all - 254)),
            ("18446744073709551615", Some(all)),
            ("0xFFFFFFFFFFFFFFFF", Some(all)),
            ("-9223372036854775808", Some(least)),
            ("-0x8000000000000000", Some(least)),
            ("18446744073709551616", None),
            ("0x10000000000000000", None),
            ("-9223372036854775809", None),
            ("", None),
            ("-", None),
            ("0x", None),
            ("+1", None),
            ("0x+1", None),
            ("--1", None),
            ("12a", None),
            ("1.5", None),
        ] {
            assert_eq!(integer(text), read, "{text}");
        }
    }

    #[test]
    fn floats_have_a_point() {
        for (text, float) in [("1.5", 1.5), ("-.5", -0.5), ("2.", 2.0), ("1.0e-3", 0.001), ("-0.0", -0.0)] {
            assert_eq!(word(text), Some(f64::to_bits(float)), "{text}");
        }
        for text in ["1e9", "inf", "NaN", "nan.", "+1.5", ".", "-.", "0x1.8", "1.5.2", "1.0e999", "1,5"] {
            assert_eq!(word(text), None, "{text}");
        }
        assert_eq!(word("-5"), integer("-5"));
    }

    #[test]
    fn words_are_read_in_four_ways() {
        let all = u64::MAX;
        assert_eq!(readings(all), ["18446744073709551615", "-1", "0xffffffffffffffff", "NaN"]);
        assert_eq!(
            readings(f64::to_bits(-0.0)),
            ["9223372036854775808", "-9223372036854775808", "0x8000000000000000", "-0.0"]
        );
    }
}
