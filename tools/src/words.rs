//! Numbers and floats as words, read and shown.

/// A number up to `most`: decimal, or hexadecimal behind 0x.
pub fn number(word: &str, most: u32) -> Result<u32, String> {
    let value = match word.strip_prefix("0x") {
        Some(digits) if only(digits, |c| c.is_ascii_hexdigit()) => {
            u64::from_str_radix(digits, 16).ok()
        }
        None if only(word, |c| c.is_ascii_digit()) => word.parse().ok(),
        _ => {
            return Err(format!(
                "'{}' is no number: write digits, or 0x and hexadecimal ones",
                cut(word)
            ));
        }
    };
    let fitting = value.and_then(|value| u32::try_from(value).ok());
    fitting
        .filter(|&value| value <= most)
        .ok_or_else(|| format!("{} is too large: write {most} at most", cut(word)))
}

/// A float: decimal, or its bits behind 0x.
pub fn float(word: &str) -> Result<f32, String> {
    if word.starts_with("0x") {
        let bits = number(word, u32::MAX);
        return bits.map(f32::from_bits);
    }
    let digits = only(word, |c| c.is_ascii_digit() || "+-.eE".contains(c));
    match word.parse::<f32>() {
        Ok(value) if digits && value.is_finite() => Ok(value),
        Ok(_) if digits => Err(format!(
            "{} is beyond every float: write 0x7F800000 for the infinity",
            cut(word)
        )),
        _ => Err(format!(
            "'{}' is no float: write decimals as -1.5e3, or the 32 bits as 0x3F800000",
            cut(word)
        )),
    }
}

fn only(word: &str, allowed: impl Fn(char) -> bool) -> bool {
    !word.is_empty() && word.chars().all(allowed)
}

/// A word for a message: its beginning where it is long, and nothing that would move the cursor.
#[must_use]
pub fn cut(word: &str) -> String {
    let plain = |c: char| if c.is_control() { '?' } else { c };
    let mut short: String = word.chars().take(40).map(plain).collect();
    if word.chars().count() > 40 {
        short.push_str("...");
    }
    short
}

/// A float as people read it. Two that are not alike have different words.
#[must_use]
pub fn shown(x: f32) -> String {
    let size = x.abs();
    if x.is_nan() {
        "NaN".into()
    } else if size == 0.0 || size.is_infinite() || (1e-4..1e7).contains(&size) {
        format!("{x}")
    } else {
        format!("{x:e}")
    }
}

/// Floats side by side, each in a column of its own.
#[must_use]
pub fn columns(floats: &[f32]) -> String {
    let cells: Vec<String> = floats
        .iter()
        .map(|&x| format!("{:>13}", shown(x)))
        .collect();
    cells.join(" ")
}

/// Numbers in words: "8", "11 to 13", "4, 8 to 9".
#[must_use]
pub fn ranges(numbers: &[usize]) -> String {
    let mut runs: Vec<(usize, usize)> = Vec::new();
    for &n in numbers {
        match runs.last_mut() {
            Some((_, last)) if *last + 1 == n => *last = n,
            _ => runs.push((n, n)),
        }
    }
    let word = |&(first, last): &(usize, usize)| {
        if first == last {
            first.to_string()
        } else {
            format!("{first} to {last}")
        }
    };
    runs.iter().map(word).collect::<Vec<_>>().join(", ")
}

/// "1 row", "2 rows", "2 refreshes".
#[must_use]
pub fn counted(n: usize, one: &str) -> String {
    let end = match n {
        1 => "",
        _ if one.ends_with("sh") => "es",
        _ => "s",
    };
    format!("{n} {one}{end}")
}

#[cfg(test)]
mod tests {
    use super::*;

    #[test]
    fn numbers_are_decimal_or_hexadecimal_and_bounded() {
        assert_eq!(number("255", 255), Ok(255));
        assert_eq!(number("0xff", 255), Ok(255));
        assert_eq!(number("4294967295", u32::MAX), Ok(u32::MAX));
        for word in ["", "-1", "+1", "1.0", "0x", "0xg", "x1", "0x-1", "٣"] {
            assert!(
                number(word, 255).unwrap_err().contains("no number"),
                "{word}"
            );
        }
        for word in ["256", "0x100", "4294967296", "99999999999999999999999"] {
            assert!(
                number(word, 255).unwrap_err().contains("too large"),
                "{word}"
            );
        }
    }

    #[test]
    fn floats_are_decimal_or_bits() {
        let bits = |word| float(word).map(f32::to_bits);
        assert_eq!(bits("0.1"), Ok(0x3DCC_CCCD));
        assert_eq!(bits("-0"), Ok(0x8000_0000));
        assert_eq!(bits("1e20"), Ok(0x60AD_78EC));
        assert_eq!(bits("0x7FC00001"), Ok(0x7FC0_0001));
        assert_eq!(bits("0x1"), Ok(1));
        for word in [
            "",
            "nan",
            "inf",
            "-infinity",
            "1e",
            "1,0",
            "0x",
            "--1",
            "1_0",
        ] {
            assert!(float(word).unwrap_err().contains("no "), "{word}");
        }
        assert!(float("1e39").unwrap_err().contains("0x7F800000"));
        assert!(float("0x123456789").unwrap_err().contains("too large"));
    }

    #[test]
    fn shown_floats_are_told_apart() {
        for (x, word) in [
            (0.0, "0"),
            (-0.0, "-0"),
            (1.0, "1"),
            (0.1, "0.1"),
            (-431_602_080.0, "-4.3160208e8"),
            (1e-6, "1e-6"),
            (f32::NEG_INFINITY, "-inf"),
            (f32::NAN, "NaN"),
            (1e20, "1e20"),
        ] {
            assert_eq!(shown(x), word);
        }
        assert_eq!(ranges(&[4, 8, 9, 11]), "4, 8 to 9, 11");
        let counts = [counted(1, "row"), counted(0, "row"), counted(2, "refresh")];
        assert_eq!(counts, ["1 row", "0 rows", "2 refreshes"]);
        assert_eq!(cut(&"é\n".repeat(30)), format!("{}...", "é?".repeat(20)));
    }
}
