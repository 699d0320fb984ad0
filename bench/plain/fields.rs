//! Fields of lines: bytes between spaces, numbers and values.

const VALUE_LIMIT: usize = 1024;

/// The bytes up to the next space, and those after it.
pub fn split_field(bytes: &[u8]) -> Option<(&[u8], &[u8])> {
    let at = bytes.iter().position(|&b| b == b' ')?;
    Some((&bytes[..at], &bytes[at + 1..]))
}

/// A number without a sign and without leading zeros.
pub fn number(bytes: &[u8]) -> Option<u64> {
    if bytes.is_empty() || (bytes[0] == b'0' && bytes.len() > 1) {
        return None;
    }
    bytes.iter().try_fold(0u64, |n, &b| {
        let digit = b.is_ascii_digit().then(|| u64::from(b - b'0'))?;
        n.checked_mul(10)?.checked_add(digit)
    })
}

pub fn value(bytes: &[u8]) -> Option<&[u8]> {
    ((1..=VALUE_LIMIT).contains(&bytes.len()) && !bytes.contains(&b'\r')).then_some(bytes)
}
