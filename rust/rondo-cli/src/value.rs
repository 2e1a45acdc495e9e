//! Values, exact both ways.

/// A value: a decimal number, with an exponent or not, `nan`, `inf`, or `0x` and the 16 hex digits of its pattern.
pub fn read(text: &str) -> Result<f64, String> {
    if let Some(hex) = text.strip_prefix("0x") {
        return pattern(hex);
    }
    let value: f64 = text.parse().map_err(|_| "it is no number (1.5, -2e-9, nan, 0x3ff8000000000000)".to_string())?;
    if value.is_infinite() && text.bytes().any(|b| b.is_ascii_digit()) {
        return Err("it is beyond the greatest number of 64 bits, 1.7976931348623157e308".to_string());
    }
    Ok(value)
}

fn pattern(hex: &str) -> Result<f64, String> {
    if hex.len() != 16 || !hex.bytes().all(|b| b.is_ascii_hexdigit()) {
        return Err("after 0x stand 16 hex digits".to_string());
    }
    Ok(f64::from_bits(u64::from_str_radix(hex, 16).unwrap_or(0)))
}

/// The shortest text that reads back as the same value; a NaN other than the usual one by its pattern.
pub fn text(value: f64) -> String {
    if value.is_nan() && value.to_bits() != 0x7ff8_0000_0000_0000 {
        return format!("0x{:016x}", value.to_bits());
    }
    format!("{value:?}")
}

#[cfg(test)]
mod tests {
    use super::*;

    #[test]
    fn exact_both_ways() {
        let mut bits = 1u64;
        for _ in 0..100_000 {
            bits = bits.wrapping_mul(6_364_136_223_846_793_005).wrapping_add(1_442_695_040_888_963_407);
            let value = f64::from_bits(bits);
            assert_eq!(read(&text(value)).unwrap().to_bits(), bits);
        }
        for value in [0.0, -0.0, 5e-324, f64::MAX, f64::MIN_POSITIVE, 0.1, 1e21, f64::NAN, f64::INFINITY] {
            assert_eq!(read(&text(value)).unwrap().to_bits(), value.to_bits());
        }
    }

    #[test]
    fn refuses() {
        for word in ["", "much", "--1", "1.2.3", "0x12", "0x3ff000000000000g", "1,5", "1e999", "-1e309", "0x+ff000000000000"] {
            assert!(read(word).is_err(), "{word}");
        }
    }
}
