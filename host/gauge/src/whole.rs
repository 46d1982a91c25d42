//! A sample as a word: a whole number, or a decimal that is one.

use crate::fault::front;
use crate::text::strange;

/// The sample that a word is, or what is wrong with it. `12`, `12.00` and `1.2e1` are the same.
pub fn sample(word: &str) -> Result<i32, String> {
    let number = word.parse().ok().or_else(|| from_decimal(word));
    number.ok_or_else(|| {
        let (word, has) = (front(word), strange(word));
        format!("{word} is not a whole number of 32 bits{has}")
    })
}

// Exactly: the digits are shifted, never rounded.
fn from_decimal(word: &str) -> Option<i32> {
    let (mantissa, exponent) = match word.split_once(['e', 'E']) {
        Some((mantissa, exponent)) => (mantissa, exponent.parse().ok()?),
        None => (word, 0i32),
    };
    let (front, back) = mantissa.split_once('.').unwrap_or((mantissa, ""));
    let back = back.trim_end_matches('0');
    let digits: i64 = format!("{front}{back}").parse().ok()?;
    let shift = exponent.checked_sub(i32::try_from(back.len()).ok()?)?;
    let power = 10i64.checked_pow(shift.unsigned_abs())?;
    let number = match shift {
        0.. => digits.checked_mul(power)?,
        _ if digits % power == 0 => digits / power,
        _ => return None,
    };
    i32::try_from(number).ok()
}

#[cfg(test)]
mod tests {
    use super::*;

    #[test]
    fn decimals_that_are_whole_numbers_are_samples() {
        for (word, number) in [
            ("12", 12),
            ("+12", 12),
            ("-12.00", -12),
            ("12.", 12),
            ("0.0", 0),
            ("1.2e1", 12),
            ("1200E-2", 12),
            ("2147483647.0", i32::MAX),
            ("-2147483648", i32::MIN),
            ("5.00000000000000000000000000000", 5),
        ] {
            assert_eq!(sample(word), Ok(number), "{word}");
        }
    }

    #[test]
    fn all_else_is_told() {
        for word in [
            "",
            "x",
            "1.5",
            "-.5",
            ".",
            "-",
            "1e-1",
            "1e99",
            "1e",
            "e1",
            "1.2.3",
            "1.-5",
            "nan",
            "2147483648",
            "9e2147483647",
            "1e-2147483648",
            "0x10",
            "1_0",
        ] {
            let said = format!("{word} is not a whole number of 32 bits");
            assert_eq!(sample(word), Err(said));
        }
        let said = sample("\u{2212}5").unwrap_err();
        assert!(said.ends_with("32 bits (it has a Unicode minus, U+2212)"));
    }
}
