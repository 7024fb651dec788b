//! What set-ups and board texts share: cutting a text into lines, and reading hexadecimal fields.

/// The lines of a text, each with its LF; what stands after the last LF is a line without one.
pub fn lines(text: &[u8]) -> impl Iterator<Item = &[u8]> {
    text.split_inclusive(|&byte| byte == b'\n')
}

/// The number that a field of eight upper-case hexadecimal digits is.
pub fn hex_field(field: &[u8]) -> Option<u32> {
    if field.len() != 8 {
        return None;
    }
    field
        .iter()
        .try_fold(0, |number, &byte| Some(number << 4 | hex_digit(byte)?))
}

fn hex_digit(byte: u8) -> Option<u32> {
    match byte {
        b'0'..=b'9' => Some(u32::from(byte - b'0')),
        b'A'..=b'F' => Some(u32::from(byte - b'A') + 10),
        _ => None,
    }
}
