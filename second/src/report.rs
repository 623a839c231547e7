//! What is told of a difference: command lines as they are typed, text by its
//! lines, and a file, which is no text, in hexadecimal.

use crate::generate::Line;
use crate::observe::{End, Said};

const REPORT_LINES: usize = 40;
/// How many bytes of a file are shown, and how many of them before the first
/// that differs.
const REPORT_BYTES: usize = 64;
const BYTES_BEFORE: usize = 16;

/// A command line as it is typed; words that are not plain are quoted.
pub fn spoken(line: &Line) -> String {
    let words: Vec<String> = line
        .iter()
        .map(|word| match word {
            _ if word.chars().any(char::is_control) => format!("$'{}'", word.escape_default()),
            _ if word.is_empty() || word.bytes().any(|b| !b.is_ascii_alphanumeric()) => {
                format!("'{word}'")
            }
            _ => word.clone(),
        })
        .collect();
    words.join(" ")
}

pub fn hex(bytes: &[u8]) -> String {
    bytes.iter().map(|byte| format!("{byte:02x}")).collect()
}

/// In what a program differs from what it should have said.
pub fn difference(said: &Said, expected: &Said) -> String {
    let mut message = match said.end {
        End::Status(0) => String::new(),
        End::Status(status) => format!("ended with status {status}\n"),
        End::Signal(signal) => format!("died of signal {signal}\n"),
        End::Hung => "did not end by itself\n".to_string(),
    };
    for (name, said, expected) in [
        ("output", &said.output, &expected.output),
        ("standard error", &said.errors, &expected.errors),
    ] {
        if said != expected {
            message += &format!("{name}: {}", sides(said, expected));
        }
    }
    message
}

/// Both sides by lines, or by bytes where one of them is no text.
fn sides(said: &[u8], expected: &[u8]) -> String {
    match (text(said), text(expected)) {
        (Some(said), Some(expected)) => format!(
            "first difference in line {}\n{}{}",
            first_difference(said.lines(), expected.lines()) + 1,
            lines("the given program", said),
            lines("expected", expected)
        ),
        _ => {
            let first = first_difference(said.iter(), expected.iter());
            format!(
                "first difference at byte {first}\n{}{}",
                bytes("the given program", said, first),
                bytes("expected", expected, first)
            )
        }
    }
}

/// Bytes that can be shown as they are.
fn text(bytes: &[u8]) -> Option<&str> {
    let text = std::str::from_utf8(bytes).ok()?;
    let plain = |letter: char| letter == '\n' || !letter.is_control();
    text.chars().all(plain).then_some(text)
}

/// How many items two lists have in common before they part.
fn first_difference<T: PartialEq>(
    one: impl Iterator<Item = T>,
    other: impl Iterator<Item = T>,
) -> usize {
    one.zip(other).take_while(|(a, b)| a == b).count()
}

fn lines(name: &str, text: &str) -> String {
    let count = text.lines().count();
    let mut shown = format!("{name} ({count} lines, {} bytes):\n", text.len());
    for line in text.lines().take(REPORT_LINES) {
        shown += &format!("  | {line}\n");
    }
    shown
}

fn bytes(name: &str, bytes: &[u8], first: usize) -> String {
    let from = first.saturating_sub(BYTES_BEFORE);
    let to = bytes.len().min(from + REPORT_BYTES);
    let part = hex(&bytes[from..to]);
    format!(
        "{name} ({} bytes), from byte {from}:\n  | {part}\n",
        bytes.len()
    )
}

#[cfg(test)]
mod tests {
    use super::*;

    fn told(said: &[u8], expected: &[u8]) -> String {
        difference(&Said::answer(said), &Said::answer(expected))
    }

    #[test]
    fn text_is_told_by_its_lines() {
        let told = told(b"a\nb\n", b"a\nc\n");
        assert!(told.starts_with("output: first difference in line 2\n"));
        assert!(told.contains("the given program (2 lines, 4 bytes):\n  | a\n  | b\n"));
        assert!(told.contains("expected (2 lines, 4 bytes):\n  | a\n  | c\n"));
    }

    #[test]
    fn a_file_is_told_in_hexadecimal_and_cut() {
        let file = vec![1; 24_605];
        let longer = [&file[..], &[2]].concat();
        let told = told(&longer, &file);
        assert!(told.starts_with("output: first difference at byte 24605\n"));
        let last = format!("from byte 24589:\n  | {}02\n", "01".repeat(16));
        assert!(told.contains(&last), "{told}");
        assert!(told.len() < 400);
    }

    #[test]
    fn nothing_beside_a_file() {
        let told = told(b"", &[4, 20, 5]);
        assert!(told.contains("the given program (0 bytes), from byte 0:\n  | \n"));
        assert!(told.contains("expected (3 bytes), from byte 0:\n  | 041405\n"));
    }

    #[test]
    fn the_same_is_nothing_to_tell() {
        assert_eq!(told(&[0, 255], &[0, 255]), "");
    }
}
