//! Bytes as hex.

/// Two digits a byte, at least one byte.
pub fn bytes(word: &str) -> Option<Vec<u8>> {
    let pairs = word.as_bytes().chunks(2);
    let bytes = pairs.map(|pair| match *pair {
        [high, low] => Some(digit(high)? << 4 | digit(low)?),
        _ => None,
    });
    bytes.collect::<Option<Vec<u8>>>().filter(|b| !b.is_empty())
}

/// A digit; capitals are none.
pub fn digit(byte: u8) -> Option<u8> {
    match byte {
        b'0'..=b'9' => Some(byte - b'0'),
        b'a'..=b'f' => Some(byte - b'a' + 10),
        _ => None,
    }
}

/// The job that a text of jobs/ stands for: bytes with spaces between them, and comment lines.
pub fn job(text: &str) -> Option<Vec<u8>> {
    let lines = text.lines().filter(|line| !line.starts_with('#'));
    bytes(&lines.flat_map(str::split_whitespace).collect::<String>())
}
