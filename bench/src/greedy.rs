//! A plain greedy scanner of Standard ML over bytes: what the port's `scan` is timed against.
//!
//! A token's class follows from its first byte, by a table made at compile time; each class has a
//! loop that ends where the token does. It gives what the port gives.

/// The most bytes of a text, and the most tokens.
const MOST_BYTES: usize = 32_768;
const MOST_TOKENS: usize = 4_096;

/// A refusal: number and place.
pub type Refused = (u8, usize);

/// The class of a byte.
#[derive(Clone, Copy, PartialEq, Eq)]
enum Class {
    None,
    Space,
    Letter,
    Digit,
    Prime,
    Underbar,
    Symbol,
    Open,
    Single,
    Dot,
    Quote,
}

/// The class of each byte.
static CLASSES: [Class; 256] = {
    let mut classes = [Class::None; 256];
    let mut byte = 0;
    while byte < 256 {
        classes[byte] = class(byte as u8);
        byte += 1;
    }
    classes
};

const fn class(byte: u8) -> Class {
    match byte {
        b'\t'..=b'\r' | b' ' => Class::Space,
        b'a'..=b'z' | b'A'..=b'Z' => Class::Letter,
        b'0'..=b'9' => Class::Digit,
        b'\'' => Class::Prime,
        b'_' => Class::Underbar,
        b'!' | b'%' | b'&' | b'$' | b'#' | b'+' | b'-' | b'/' | b':' | b'<' | b'=' | b'>'
        | b'?' | b'@' | b'\\' | b'~' | b'`' | b'^' | b'|' | b'*' => Class::Symbol,
        b'(' => Class::Open,
        b')' | b'[' | b']' | b'{' | b'}' | b',' | b';' => Class::Single,
        b'.' => Class::Dot,
        b'"' => Class::Quote,
        _ => Class::None,
    }
}

fn class_at(text: &[u8], at: usize) -> Class {
    text.get(at).map_or(Class::None, |&byte| CLASSES[usize::from(byte)])
}

/// Writes the tokens of a text as commands at the output's start and gives how many bytes. It reads
/// the text once, into a table, because nothing may be written where the text is refused.
pub fn scan(text: &[u8], output: &mut [u8]) -> Result<usize, Refused> {
    if text.len() > MOST_BYTES {
        return Err((1, 0));
    }
    if let Err(error) = std::str::from_utf8(text) {
        return Err((2, error.valid_up_to()));
    }
    let mut table = [[0; 4]; MOST_TOKENS];
    let (mut at, mut count) = (0, 0);
    while at < text.len() {
        let end = end(text, at).ok_or_else(|| (missing(text[at]), at))?;
        if let Some(command) = table.get_mut(count) {
            let [low, high, ..] = (end - at).to_le_bytes();
            *command = [5, kind(&text[at..end]), low, high];
        }
        (at, count) = (end, count + 1);
    }
    let commands = table.get(..count).ok_or((1, 0))?.as_flattened();
    output.get_mut(..commands.len()).ok_or((8, 0))?.copy_from_slice(commands);
    Ok(commands.len())
}

fn missing(first: u8) -> u8 {
    match first {
        b'(' => 10,
        b'"' => 11,
        _ => 12,
    }
}

/// Where the token at an offset ends.
fn end(text: &[u8], at: usize) -> Option<usize> {
    match class_at(text, at) {
        Class::None => None,
        Class::Space => Some(run(text, at + 1, |class| class == Class::Space)),
        Class::Letter | Class::Prime => Some(run(text, at + 1, is_alphanumeric)),
        Class::Digit => Some(number(text, at)),
        Class::Symbol => Some(symbols(text, at)),
        Class::Open if text.get(at + 1) == Some(&b'*') => comment(text, at + 2),
        Class::Open | Class::Single | Class::Underbar => Some(at + 1),
        Class::Dot if text[at..].starts_with(b"...") => Some(at + 3),
        Class::Dot => Some(at + 1),
        Class::Quote => string(text, at + 1).map(|(end, _)| end),
    }
}

fn is_alphanumeric(class: Class) -> bool {
    matches!(class, Class::Letter | Class::Digit | Class::Prime | Class::Underbar)
}

/// The end of a run of classes.
fn run(text: &[u8], mut at: usize, is_part: impl Fn(Class) -> bool) -> usize {
    while is_part(class_at(text, at)) {
        at += 1;
    }
    at
}

fn digits(text: &[u8], at: usize) -> usize {
    run(text, at, |class| class == Class::Digit)
}

fn hexadecimal(text: &[u8], mut at: usize) -> usize {
    while text.get(at).is_some_and(u8::is_ascii_hexdigit) {
        at += 1;
    }
    at
}

/// `~` before a number, `#` before a character constant, else a run of symbols.
fn symbols(text: &[u8], at: usize) -> usize {
    match (text[at], text.get(at + 1)) {
        (b'~', Some(b'0'..=b'9')) => number(text, at),
        (b'#', Some(b'"')) => match string(text, at + 2) {
            Some((end, 1)) => end,
            _ => at + 1,
        },
        _ => run(text, at + 1, |class| class == Class::Symbol),
    }
}

/// The end of a number, from its sign.
fn number(text: &[u8], at: usize) -> usize {
    let is_negative = text[at] == b'~';
    let first = at + usize::from(is_negative);
    let behind = match &text[first..] {
        [b'0', b'x', ..] => hexadecimal(text, first + 2),
        [b'0', b'w', b'x', ..] if !is_negative => match hexadecimal(text, first + 3) {
            end if end > first + 3 => end,
            _ => 0,
        },
        [b'0', b'w', ..] if !is_negative => digits(text, first + 2),
        _ => 0,
    };
    if behind > first + 2 {
        return behind;
    }
    let mut end = digits(text, first);
    if text.get(end) == Some(&b'.') && class_at(text, end + 1) == Class::Digit {
        end = digits(text, end + 1);
    }
    if matches!(text.get(end), Some(b'e' | b'E')) {
        let from = end + 1 + usize::from(text.get(end + 1) == Some(&b'~'));
        if class_at(text, from) == Class::Digit {
            end = digits(text, from);
        }
    }
    end
}

/// The end of a comment, from behind its first bracket.
fn comment(text: &[u8], mut at: usize) -> Option<usize> {
    let mut open = 1_usize;
    while let [first, second, ..] = text.get(at..)? {
        match (first, second) {
            (b'(', b'*') => (open, at) = (open + 1, at + 2),
            (b'*', b')') if open == 1 => return Some(at + 2),
            (b'*', b')') => (open, at) = (open - 1, at + 2),
            _ => at += 1,
        }
    }
    None
}

/// The end of a string, from behind its first quote, and how many characters it denotes.
fn string(text: &[u8], mut at: usize) -> Option<(usize, usize)> {
    let mut count = 0;
    loop {
        match *text.get(at)? {
            b'"' => return Some((at + 1, count)),
            b'\\' => {
                let (end, denoted) = escape(text, at + 1)?;
                (at, count) = (end, count + denoted);
            }
            b' '..=b'~' => (at, count) = (at + 1, count + 1),
            _ => return None,
        }
    }
}

/// The end of an escape, from behind its `\`, and how many characters it denotes.
fn escape(text: &[u8], at: usize) -> Option<(usize, usize)> {
    let rest = &text[at..];
    match *rest.first()? {
        b'a' | b'b' | b't' | b'n' | b'v' | b'f' | b'r' | b'"' | b'\\' => Some((at + 1, 1)),
        b'^' => matches!(rest.get(1), Some(64..=95)).then_some((at + 2, 1)),
        b'u' => {
            let is_code = rest.len() > 4 && rest[1..5].iter().all(u8::is_ascii_hexdigit);
            (is_code && rest[1..3] == *b"00").then_some((at + 5, 1))
        }
        b'0'..=b'9' => {
            let is_code = rest.len() > 2 && rest[..3].iter().all(u8::is_ascii_digit);
            (is_code && rest[..3] <= b"255"[..]).then_some((at + 3, 1))
        }
        b'\t'..=b'\r' | b' ' => {
            let end = run(text, at, |class| class == Class::Space);
            (text.get(end) == Some(&b'\\')).then_some((end + 1, 0))
        }
        _ => None,
    }
}

/// The kind of a token.
fn kind(token: &[u8]) -> u8 {
    match token {
        [b'(', b'*', ..] => 1,
        b"..." => 2,
        b"and" => 3,
        b"val" => 4,
        b"fun" => 5,
        b"type" => 6,
        b"eqtype" => 7,
        b"datatype" => 8,
        b"abstype" => 9,
        b"exception" => 10,
        b"open" => 11,
        b"infix" => 12,
        b"infixr" => 13,
        b"nonfix" => 14,
        b"do" => 15,
        b"local" => 16,
        b"structure" => 17,
        b"signature" => 18,
        b"functor" => 19,
        b"include" => 20,
        _ => 0,
    }
}
