//! Lines, tokens and numbers, as driver texts, schedules and scripts have them.

/// What a token says where a number is wanted.
pub enum Numeral {
    Other,
    TooLarge,
    Number(u64),
}

/// The lines of a text, each without its LF; a last one without LF counts.
pub fn lines(text: &[u8]) -> Vec<&[u8]> {
    let mut lines: Vec<&[u8]> = text.split(|&byte| byte == b'\n').collect();
    if lines.last().is_some_and(|last| last.is_empty()) {
        lines.pop();
    }
    lines
}

/// The tokens of a line, or nothing where one of its bytes or tokens may not stand there.
pub fn tokens(line: &[u8]) -> Option<Vec<&str>> {
    if !line.iter().all(|&byte| may_stand(byte)) {
        return None;
    }
    let line = std::str::from_utf8(line).ok()?;
    let code = line.split(';').next().unwrap_or("");
    let parts = code.split([' ', '\t', '\r']);
    let tokens: Vec<&str> = parts.filter(|token| !token.is_empty()).collect();
    tokens.iter().all(|token| is_token(token)).then_some(tokens)
}

fn may_stand(byte: u8) -> bool {
    byte == b'\t' || byte == b'\r' || (b' '..=b'~').contains(&byte)
}

fn is_token(token: &str) -> bool {
    is_name(token) || is_capital_word(token) || is_number(token) || label(token).is_some()
}

/// A name: at most 32 small letters, digits and underscores, not beginning with a digit.
pub fn is_name(token: &str) -> bool {
    let is_start = |byte: u8| byte.is_ascii_lowercase() || byte == b'_';
    token.bytes().next().is_some_and(is_start)
        && token.bytes().all(|byte| is_start(byte) || byte.is_ascii_digit())
        && token.len() <= 32
}

fn is_capital_word(token: &str) -> bool {
    !token.is_empty() && token.bytes().all(|byte| byte.is_ascii_uppercase() || byte == b'_')
}

/// The radix and the digits of a number.
fn digits(token: &str) -> (u32, &str) {
    token.strip_prefix("0x").map_or((10, token), |digits| (16, digits))
}

fn is_number(token: &str) -> bool {
    let (radix, digits) = digits(token);
    !digits.is_empty() && digits.chars().all(|digit| digit.is_digit(radix))
}

/// The name of a label, which has a colon behind it.
pub fn label(token: &str) -> Option<&str> {
    token.strip_suffix(':').filter(|name| is_name(name))
}

/// The number that a token writes.
pub fn number(token: &str) -> Numeral {
    if !is_number(token) {
        return Numeral::Other;
    }
    let (radix, digits) = digits(token);
    u64::from_str_radix(digits, radix).map_or(Numeral::TooLarge, Numeral::Number)
}

/// The number of a register, a lock or a cell: a letter, then decimal digits.
pub fn numbered(letter: char, token: &str) -> Numeral {
    match token.strip_prefix(letter) {
        Some(digits) if digits.bytes().all(|byte| byte.is_ascii_digit()) => number(digits),
        _ => Numeral::Other,
    }
}

/// The tokens of a line behind its first one. What asks for a token gets nothing where another
/// form stands there; a number out of its range is noted.
pub struct Operands<'t, 'a> {
    left: std::slice::Iter<'t, &'a str>,
    pub out_of_range: bool,
}

impl<'t, 'a> Operands<'t, 'a> {
    pub fn new(tokens: &'t [&'a str]) -> Self {
        Operands { left: tokens.iter(), out_of_range: false }
    }

    pub fn any(&mut self) -> Option<&'a str> {
        self.left.next().copied()
    }

    /// Whether no token is left.
    pub fn is_empty(&self) -> bool {
        self.left.len() == 0
    }

    pub fn end(&self) -> Option<()> {
        self.is_empty().then_some(())
    }

    pub fn name(&mut self) -> Option<&'a str> {
        self.any().filter(|token| is_name(token))
    }

    /// A name, or nothing at the end of the line.
    pub fn name_or_end(&mut self) -> Option<Option<&'a str>> {
        if self.is_empty() { Some(None) } else { self.name().map(Some) }
    }

    pub fn number(&mut self, least: u64, most: u64) -> Option<u64> {
        let numeral = number(self.any()?);
        self.within(numeral, least, most)
    }

    pub fn numbered(&mut self, letter: char, count: u64) -> Option<u8> {
        let numeral = numbered(letter, self.any()?);
        self.within(numeral, 0, count - 1).map(|number| number as u8)
    }

    fn within(&mut self, numeral: Numeral, least: u64, most: u64) -> Option<u64> {
        match numeral {
            Numeral::Other => None,
            Numeral::Number(number) if (least..=most).contains(&number) => Some(number),
            _ => {
                self.out_of_range = true;
                Some(least)
            }
        }
    }
}
