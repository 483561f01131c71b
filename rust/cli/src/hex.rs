//! Hex text: groups of digits with spaces, line ends or commas between them, each with or without
//! 0x in front. From # to the end of a line is a comment.

/// A group that is not as expected.
pub struct Odd<'a> {
    /// Counted from 1.
    pub line: usize,
    pub group: &'a str,
}

/// The bytes that pairs of digits stand for.
pub fn bytes(text: &str) -> Result<Vec<u8>, Odd<'_>> {
    let mut bytes = Vec::new();
    for (line, group) in groups(text) {
        let pairs = without_0x(group).as_bytes().chunks(2);
        let found: Option<Vec<u8>> = pairs.map(byte).collect();
        match found {
            Some(found) if !found.is_empty() => bytes.extend(found),
            _ => return Err(Odd { line, group }),
        }
    }
    Ok(bytes)
}

/// The numbers below 2^64 that the groups stand for.
pub fn numbers(text: &str) -> Result<Vec<u64>, Odd<'_>> {
    let number = |(line, group)| {
        let digits = without_0x(group);
        match u64::from_str_radix(digits, 16) {
            // Rust's numbers may have a sign.
            Ok(number) if !digits.starts_with('+') => Ok(number),
            _ => Err(Odd { line, group }),
        }
    };
    groups(text).map(number).collect()
}

/// A number below 2^64 that is no hex text: decimal, or hex with 0x in front.
pub fn number(text: &str) -> Option<u64> {
    let digits = without_0x(text);
    let radix = if digits == text { 10 } else { 16 };
    // Rust's numbers may have a sign.
    let is_signed = digits.starts_with('+');
    u64::from_str_radix(digits, radix)
        .ok()
        .filter(|_| !is_signed)
}

/// Each group with the number of its line.
fn groups(text: &str) -> impl Iterator<Item = (usize, &str)> {
    let lines = (1..).zip(text.lines());
    lines.flat_map(|(number, line)| {
        let uncommented = line.split('#').next().unwrap_or("");
        let groups = uncommented.split(|c: char| c.is_whitespace() || c == ',');
        groups
            .filter(|group| !group.is_empty())
            .map(move |group| (number, group))
    })
}

fn byte(pair: &[u8]) -> Option<u8> {
    let [high, low] = pair else { return None };
    let digit = |character: u8| char::from(character).to_digit(16);
    u8::try_from(digit(*high)? * 16 + digit(*low)?).ok()
}

fn without_0x(group: &str) -> &str {
    let stripped = group.strip_prefix("0x");
    stripped
        .or_else(|| group.strip_prefix("0X"))
        .unwrap_or(group)
}
