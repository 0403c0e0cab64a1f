//! A plain lexer of the same tokens: prints its name, the bytes of a file, nanoseconds and the count of tokens.

use std::time::Instant;

#[derive(Clone, Copy, PartialEq)]
pub enum Kind {
    Name,
    Number(u64),
    Quoted,
    Sign,
    LineEnd,
}

#[allow(dead_code)]
pub struct Token {
    kind: Kind,
    start: u32,
    end: u32,
    line: u32,
}

fn lex(text: &[u8]) -> Result<Vec<Token>, u32> {
    let mut tokens = Vec::new();
    let (mut at, mut line, mut owed) = (0, 1u32, false);
    while at < text.len() {
        let start = at;
        let byte = text[at];
        let kind = match byte {
            b' ' | b'\t' => {
                at += 1;
                continue;
            }
            b'#' => {
                while at < text.len() && text[at] != b'\n' && text[at] != b'\r' {
                    at += 1;
                }
                continue;
            }
            b'\n' => {
                at += 1;
                if owed {
                    tokens.push(Token { kind: Kind::LineEnd, start: start as u32, end: at as u32, line });
                }
                (line, owed) = (line + 1, false);
                continue;
            }
            b'a'..=b'z' | b'A'..=b'Z' => {
                while at < text.len() && (text[at].is_ascii_alphanumeric() || text[at] == b'_') {
                    at += 1;
                }
                if at - start > 64 {
                    return Err(line);
                }
                Kind::Name
            }
            b'0'..=b'9' => {
                let mut value = 0u64;
                while at < text.len() && text[at].is_ascii_digit() {
                    value = value
                        .checked_mul(10)
                        .and_then(|v| v.checked_add((text[at] - b'0') as u64))
                        .ok_or(line)?;
                    at += 1;
                }
                if at < text.len() && text[at] == b'.' {
                    at += 1;
                    while at < text.len() && text[at] == b'0' {
                        at += 1;
                    }
                }
                Kind::Number(value)
            }
            b'"' => {
                at += 1;
                while at < text.len() && (32..127).contains(&text[at]) && text[at] != b'"' {
                    at += 1;
                }
                if at == text.len() || text[at] != b'"' || at - start > 1025 {
                    return Err(line);
                }
                at += 1;
                Kind::Quoted
            }
            b'=' | b'+' | b'-' | b'*' | b'<' | b'>' | b'^' | b'(' | b')' | b',' | b'!' => {
                at += 1;
                let pairs = matches!(byte, b'=' | b'+' | b'-' | b'*' | b'<' | b'>' | b'!');
                if pairs && at < text.len() && text[at] == b'=' {
                    at += 1;
                } else if byte == b'!' {
                    return Err(line);
                }
                Kind::Sign
            }
            _ => return Err(line),
        };
        tokens.push(Token { kind, start: start as u32, end: at as u32, line });
        owed = true;
    }
    if owed {
        tokens.push(Token { kind: Kind::LineEnd, start: at as u32, end: at as u32, line });
    }
    Ok(tokens)
}

fn main() {
    let name = std::env::args().nth(1).expect("a file");
    let text = std::fs::read(name).expect("a file that can be read");
    let start = Instant::now();
    let count = match lex(&text) {
        Ok(tokens) => tokens.len(),
        Err(_) => 0,
    };
    println!("plain {} {} {}", text.len(), start.elapsed().as_nanos(), count);
}
