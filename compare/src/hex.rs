//! Bytes and coefficients as hexadecimal digits.

/// Two digits for each byte, nothing between; `-` for no bytes.
pub fn of_bytes(bytes: &[u8]) -> String {
    if bytes.is_empty() {
        return "-".to_owned();
    }
    bytes.iter().map(|byte| format!("{byte:02X}")).collect()
}

/// Four digits for each number, commas between; `-` for none.
pub fn of_numbers(numbers: &[u16]) -> String {
    if numbers.is_empty() {
        return "-".to_owned();
    }
    let words: Vec<String> = numbers
        .iter()
        .map(|number| format!("{number:04X}"))
        .collect();
    words.join(",")
}

/// Reads pairs of digits; spaces between them are passed over.
///
/// # Panics
///
/// If a digit is no digit or stands alone.
pub fn bytes(text: &str) -> Vec<u8> {
    let digits: Vec<u32> = text
        .chars()
        .filter(|letter| *letter != ' ')
        .map(|letter| letter.to_digit(16).expect("a hexadecimal digit"))
        .collect();
    assert!(digits.len().is_multiple_of(2), "digits come in pairs");
    digits
        .chunks(2)
        .map(|pair| u8::try_from(16 * pair[0] + pair[1]).expect("two digits are a byte"))
        .collect()
}

#[cfg(test)]
mod tests {
    use super::*;

    #[test]
    fn both_ways() {
        assert_eq!(bytes("00 45 fE"), [0x00, 0x45, 0xFE]);
        assert_eq!(of_bytes(&[0x00, 0x45, 0xFE]), "0045FE");
        assert_eq!(of_bytes(&[]), "-");
        assert_eq!(of_numbers(&[5, 4093]), "0005,0FFD");
    }
}
