//! Bytes written as capital hexadecimal pairs run together, with `-` for none.

pub fn to_text(bytes: &[u8]) -> String {
    if bytes.is_empty() {
        return "-".to_string();
    }
    bytes.iter().map(|byte| format!("{byte:02X}")).collect()
}

pub fn from_text(text: &str) -> Option<Vec<u8>> {
    if text == "-" {
        return Some(Vec::new());
    }
    let digits: Option<Vec<u8>> = text.chars().map(|c| c.to_digit(16).map(|digit| digit as u8)).collect();
    let digits = digits?;
    if digits.is_empty() || digits.len() % 2 == 1 {
        return None;
    }
    Some(digits.chunks(2).map(|pair| pair[0] << 4 | pair[1]).collect())
}

/// Sixteen bytes out of 32 digits that are known to be right.
pub fn block(text: &str) -> [u8; 16] {
    from_text(text).and_then(|bytes| bytes.try_into().ok()).expect("32 hexadecimal digits")
}

#[cfg(test)]
mod tests {
    use super::*;

    #[test]
    fn there_and_back() {
        assert_eq!(to_text(&[0x0A, 0xF0]), "0AF0");
        assert_eq!(from_text("0AF0"), Some(vec![0x0A, 0xF0]));
        assert_eq!(to_text(&[]), "-");
        assert_eq!(from_text("-"), Some(vec![]));
        assert_eq!(from_text("0"), None);
        assert_eq!(from_text("0G"), None);
        assert_eq!(from_text(""), None);
    }
}
