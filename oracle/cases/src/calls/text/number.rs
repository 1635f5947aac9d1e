//! Numbers as the command line reads and writes them.

use crate::bits::bits_of;

/// Decimals are read by their digits, as a whole number below this.
const DIGITS: u64 = 1 << 24;

/// The most places after the point.
const PLACES: usize = 6;

/// A number by its bits, and these beside it; every NaN is written alike.
pub fn number(bits: u32) -> String {
    let x = f32::from_bits(bits);
    if x.is_nan() {
        return "nan".to_string();
    }
    let shown = if x.is_infinite() {
        x.to_string()
    } else {
        decimal(x).unwrap_or_else(|| about(x))
    };
    format!("{shown} {}", pattern(bits))
}

/// A number in a call: in decimal where that is the very number, else its bits.
pub fn argument(x: f32) -> String {
    decimal(x).unwrap_or_else(|| pattern(bits_of(x)))
}

fn pattern(bits: u32) -> String {
    format!("0x{bits:08X}")
}

/// The decimal with the fewest places that reads back as x.
fn decimal(x: f32) -> Option<String> {
    let texts = (0..=PLACES).map(|places| format!("{x:.places$}"));
    texts.into_iter().find(|text| {
        let digits = text.replace(['-', '.'], "");
        let fits = digits.parse().is_ok_and(|n: u64| n < DIGITS);
        fits && text.parse().is_ok_and(|y: f32| y.to_bits() == x.to_bits())
    })
}

/// About how large x is: cut to three places, of which there are none from 2^23 up.
fn about(x: f32) -> String {
    let sign = if x.is_sign_negative() { "-" } else { "" };
    let size = x.abs();
    if size >= 18_446_744_073_709_551_616.0 {
        return format!("~{sign}2^64+");
    }
    let whole = size as u64;
    if size >= 8_388_608.0 {
        return format!("~{sign}{whole}");
    }
    format!("~{sign}{whole}.{:03}", (size % 1.0 * 1000.0) as u64)
}

#[cfg(test)]
mod tests {
    use super::*;

    #[test]
    fn numbers_of_every_kind() {
        let written = |x: f32| number(bits_of(x));
        assert_eq!(written(-0.0), "-0 0x80000000");
        assert_eq!(written(-12.375), "-12.375 0xC1460000");
        assert_eq!(written(0.1), "0.1 0x3DCCCCCD");
        assert_eq!(written(16_777_215.0), "16777215 0x4B7FFFFF");
        assert_eq!(written(16_777_216.0), "~16777216 0x4B800000");
        assert_eq!(written(1.0 / 3.0), "~0.333 0x3EAAAAAB");
        assert_eq!(written(f32::MIN), "~-2^64+ 0xFF7FFFFF");
        assert_eq!(written(f32::NEG_INFINITY), "-inf 0xFF800000");
        assert_eq!(written(f32::NAN), "nan");
        assert_eq!(argument(f32::NAN), "0x7FC00000");
        assert_eq!(argument(0.5), "0.5");
    }
}
