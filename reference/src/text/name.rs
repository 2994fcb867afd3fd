//! The names of kept balances as text: in quotes, or as `0x` and sixteen hex digits.

use crate::planning::Name;

/// The bytes that stand in quotes as they are, a quote and a backslash with a backslash before it.
fn is_printable(byte: u8) -> bool {
    (0x20..=0x7e).contains(&byte)
}

/// The name as it is written: in quotes if it is printable bytes and then only zero bytes.
pub fn show(name: &Name) -> String {
    let length = name.iter().position(|byte| *byte == 0).unwrap_or(8);
    let (shown, padding) = name.split_at(length);
    match shown.iter().all(|byte| is_printable(*byte)) && padding.iter().all(|byte| *byte == 0) {
        true => in_quotes(shown),
        false => in_hex(name),
    }
}

fn in_quotes(bytes: &[u8]) -> String {
    let mut text = "\"".to_string();
    for byte in bytes {
        if matches!(byte, b'"' | b'\\') {
            text.push('\\');
        }
        text.push(char::from(*byte));
    }
    text + "\""
}

fn in_hex(name: &Name) -> String {
    let digits: String = name.iter().map(|byte| format!("{byte:02x}")).collect();
    format!("0x{digits}")
}

/// The name that is all that follows a keyword, a comment apart.
pub fn read(rest: &str) -> Result<Name, String> {
    let rest = rest.trim_start();
    if is_nothing(rest) {
        return Err("a name is wanted after the keyword".to_string());
    }
    let (name, after) = match rest.strip_prefix('"') {
        Some(quoted) => read_quoted(quoted)?,
        None => read_hex(rest)?,
    };
    match is_nothing(after) {
        true => Ok(name),
        false => Err(format!("'{}' stands after the name", after.trim())),
    }
}

/// Whether a text has nothing but a comment.
fn is_nothing(text: &str) -> bool {
    let text = text.trim_start();
    text.is_empty() || text.starts_with('#')
}

/// The name up to the closing quote, and what stands after that.
fn read_quoted(quoted: &str) -> Result<(Name, &str), String> {
    let mut bytes = Vec::new();
    let mut letters = quoted.chars();
    loop {
        match letters.next() {
            None => return Err("the quote is not closed".to_string()),
            Some('"') => return Ok((padded(&bytes)?, letters.as_str())),
            Some('\\') => bytes.push(escaped(letters.next())?),
            Some(letter) => bytes.push(printable(letter)?),
        }
    }
}

/// The byte of the letter after a backslash.
fn escaped(letter: Option<char>) -> Result<u8, String> {
    match letter {
        Some('"') => Ok(b'"'),
        Some('\\') => Ok(b'\\'),
        Some(_) => Err("a backslash stands before a quote or a backslash only".to_string()),
        None => Err("the quote is not closed".to_string()),
    }
}

fn printable(letter: char) -> Result<u8, String> {
    match u8::try_from(letter) {
        Ok(byte) if is_printable(byte) => Ok(byte),
        _ => Err(format!("{letter:?} is not a printable ASCII byte")),
    }
}

/// The bytes with zero bytes after them.
fn padded(bytes: &[u8]) -> Result<Name, String> {
    let mut name = Name::default();
    match name.get_mut(..bytes.len()) {
        Some(start) => start.copy_from_slice(bytes),
        None => return Err("the name is longer than eight bytes".to_string()),
    }
    Ok(name)
}

/// The name in hex digits, and what stands after it.
fn read_hex(rest: &str) -> Result<(Name, &str), String> {
    let end = rest.find(|letter: char| letter.is_whitespace() || letter == '#');
    let (word, after) = rest.split_at(end.unwrap_or(rest.len()));
    let Some(digits) = word.strip_prefix("0x") else {
        return Err(format!(
            "'{word}' is not a name in quotes or in hex digits after 0x"
        ));
    };
    if digits.len() != 16 || !digits.bytes().all(|digit| digit.is_ascii_hexdigit()) {
        return Err(format!("'{word}' is not 0x and sixteen hex digits"));
    }
    let value = u64::from_str_radix(digits, 16).expect("sixteen hex digits are 64 bits");
    Ok((value.to_be_bytes(), after))
}
