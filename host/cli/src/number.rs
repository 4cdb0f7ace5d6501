//! Numbers as words: a fraction, a decimal number, or a bit pattern; and back, so that no bit is lost.

/// The largest whole number up to which every whole number is an f64.
const EXACT: i64 = 1 << 53;

/// The number that a word stands for, or why it stands for none.
pub fn number(word: &str) -> Result<f64, String> {
    if let Some(digits) = word.strip_prefix("0x").or_else(|| word.strip_prefix("0X")) {
        return pattern(word, digits);
    }
    if let Some((above, below)) = word.split_once('/') {
        return fraction(word, above, below);
    }
    decimal(word)
}

/// The number of 16 hex digits.
fn pattern(word: &str, digits: &str) -> Result<f64, String> {
    let hex = digits.len() == 16 && digits.bytes().all(|b| b.is_ascii_hexdigit());
    let bits = u64::from_str_radix(digits, 16).ok().filter(|_| hex);
    bits.map(f64::from_bits)
        .ok_or_else(|| format!("`{word}` is no bit pattern: after 0x stand 16 hex digits"))
}

/// A fraction of whole numbers. Both are exact as f64, so one division rounds once.
fn fraction(word: &str, above: &str, below: &str) -> Result<f64, String> {
    let whole = |part: &str| -> Result<i64, String> {
        let value = part
            .parse()
            .map_err(|_| format!("`{word}` is no fraction of two whole numbers"))?;
        if (-EXACT..=EXACT).contains(&value) {
            return Ok(value);
        }
        Err(format!(
            "`{word}`: the numbers of a fraction are at most 2^53 in size"
        ))
    };
    let (above, below) = (whole(above)?, whole(below)?);
    if below == 0 {
        return Err(format!("`{word}` divides by 0"));
    }
    Ok(above as f64 / below as f64)
}

/// A decimal number; also nan and inf.
fn decimal(word: &str) -> Result<f64, String> {
    let value: f64 = word.parse().map_err(|_| format!("`{word}` is no number"))?;
    let has_digits = word.bytes().any(|b| b.is_ascii_digit());
    if has_digits && value.is_infinite() {
        return Err(format!(
            "`{word}` is larger than 64 bits hold; infinity is written inf"
        ));
    }
    if value == 0.0 && mantissa(word).any(|b| (b'1'..=b'9').contains(&b)) {
        return Err(format!(
            "`{word}` is nearer to 0 than 64 bits hold; zero is written 0"
        ));
    }
    Ok(value)
}

/// The bytes of a decimal number before its exponent.
fn mantissa(word: &str) -> impl Iterator<Item = u8> + '_ {
    word.bytes().take_while(|b| !b"eE".contains(b))
}

/// A short word for a number that gives the same bits: whole where it is whole, else decimal, else its pattern.
pub fn word(value: f64) -> String {
    if !value.is_finite() {
        return format!("0x{:016x}", value.to_bits());
    }
    let is_minus_zero = value == 0.0 && value.is_sign_negative();
    if value.fract() == 0.0 && value.abs() < 1e15 && !is_minus_zero {
        return format!("{}", value as i64);
    }
    format!("{value:?}")
}

/// A number in a message: as its word, with its pattern where it is not finite.
pub fn told(value: f64) -> String {
    if value.is_nan() {
        return format!("not a number (0x{:016x})", value.to_bits());
    }
    if value.is_infinite() {
        return if value > 0.0 {
            "infinite"
        } else {
            "minus infinite"
        }
        .to_string();
    }
    word(value)
}

/// A count with a comma before each three digits.
pub fn grouped(count: u64) -> String {
    let digits = count.to_string();
    let mut grouped = String::new();
    for (at, digit) in digits.chars().enumerate() {
        if at > 0 && (digits.len() - at) % 3 == 0 {
            grouped.push(',');
        }
        grouped.push(digit);
    }
    grouped
}

/// A count and its noun, which has an s but for one.
pub fn counted(count: usize, noun: &str) -> String {
    let ending = if count == 1 { "" } else { "s" };
    format!("{} {noun}{ending}", grouped(count as u64))
}

#[cfg(test)]
mod tests {
    use super::*;

    #[test]
    fn words_give_numbers() {
        assert_eq!(number("1/1024"), Ok(1.0 / 1024.0));
        assert_eq!(number("-3/4"), Ok(-0.75));
        assert_eq!(number("4"), Ok(4.0));
        assert_eq!(number("+1"), Ok(1.0));
        assert_eq!(number("-2.5e3"), Ok(-2500.0));
        assert_eq!(number("0x3ff0000000000000"), Ok(1.0));
        assert_eq!(number("inf"), Ok(f64::INFINITY));
        assert_eq!(number("nan").unwrap().to_bits(), 0x7ff8_0000_0000_0000);
        assert_eq!(number("0e5"), Ok(0.0));
        assert_eq!(number("5e-324"), Ok(5e-324));
        assert_eq!(number("-0").unwrap().to_bits(), (-0.0f64).to_bits());
    }

    #[test]
    fn words_that_stand_for_none() {
        for (word, why) in [
            ("1/0", "divides by 0"),
            ("1/x", "no fraction"),
            ("/", "no fraction"),
            ("1/9007199254740993", "at most 2^53"),
            ("1e999", "larger than 64 bits hold"),
            ("-1e999", "larger than 64 bits hold"),
            ("1e-999", "nearer to 0"),
            ("0x12", "no bit pattern"),
            ("0x+123456789abcdef", "no bit pattern"),
            ("four", "no number"),
            ("", "no number"),
            ("1_000", "no number"),
        ] {
            let said = number(word).unwrap_err();
            assert!(said.contains(why), "{word}: {said}");
        }
    }

    #[test]
    fn every_number_comes_back() {
        let patterns = [
            0,
            1,
            1 << 63,
            0x7ff8_0000_0000_0001,
            0x7ff0_0000_0000_0000,
            u64::MAX,
        ];
        let numbers = [
            0.0,
            -0.0,
            1.0,
            0.1,
            1.0 / 3.0,
            1e15,
            1e16,
            1e300,
            -4.0,
            1073741824.5,
            2f64.powi(-1074),
        ];
        let all = patterns.iter().map(|&b| f64::from_bits(b)).chain(numbers);
        for value in all {
            let word = word(value);
            assert_eq!(number(&word).unwrap().to_bits(), value.to_bits(), "{word}");
        }
        assert_eq!(
            (word(4.0), word(-0.0), word(0.5)),
            ("4".into(), "-0.0".into(), "0.5".into())
        );
    }

    #[test]
    fn counts_in_groups() {
        assert_eq!(
            (grouped(7), grouped(4610), grouped(1_000_000)),
            ("7".into(), "4,610".into(), "1,000,000".into())
        );
        assert_eq!(
            (counted(1, "slice"), counted(0, "slice")),
            ("1 slice".into(), "0 slices".into())
        );
    }
}
