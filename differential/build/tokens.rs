//! A Rust text as tokens.

pub struct Token<'a> {
    pub text: &'a str,
    pub at: usize,
}

/// Words, numbers and punctuation, without comments and literals of text.
pub fn tokens(source: &str) -> Vec<Token<'_>> {
    let bytes = source.as_bytes();
    let is_word = |b: u8| b.is_ascii_alphanumeric() || b == b'_';
    let mut out = vec![];
    let mut i = 0;
    while i < bytes.len() {
        let rest = &source[i..];
        let length = if rest.starts_with("//") {
            rest.find('\n').unwrap_or(rest.len())
        } else if bytes[i] == b'"' {
            let mut end = i + 1;
            while bytes[end] != b'"' {
                end += if bytes[end] == b'\\' { 2 } else { 1 };
            }
            out.push(Token { text: "\"", at: i });
            end + 1 - i
        } else if is_word(bytes[i]) || bytes[i] == b'\'' {
            let length = 1 + bytes[i + 1..].iter().take_while(|b| is_word(**b)).count();
            out.push(Token { text: &rest[..length], at: i });
            length
        } else if ["=>", "->", "||", "&&", "::", ">=", "<="].iter().any(|p| rest.starts_with(p)) {
            out.push(Token { text: &rest[..2], at: i });
            2
        } else if bytes[i].is_ascii_punctuation() {
            out.push(Token { text: &rest[..1], at: i });
            1
        } else {
            rest.chars().next().map_or(1, char::len_utf8)
        };
        i += length;
    }
    out
}
