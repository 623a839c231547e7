//! The examples are what their readable forms make, score as their table
//! says, and show what hardening is for.

use second::examples;
use second::programs::{hrun, hscore};
use std::fs;
use std::path::{Path, PathBuf};

fn directory() -> PathBuf {
    Path::new(env!("CARGO_MANIFEST_DIR")).join("../examples")
}

fn line(fixed: &str, input: &str) -> Vec<String> {
    let words = fs::read_to_string(directory().join(input)).unwrap();
    let fixed = fixed.split_whitespace();
    fixed
        .chain(words.split_whitespace())
        .map(String::from)
        .collect()
}

fn file(name: &str) -> Vec<u8> {
    fs::read(directory().join(name)).unwrap()
}

#[test]
fn every_line_of_the_table() {
    assert_eq!(examples::check(&directory(), None), Ok(true));
}

#[test]
fn plain_changes_and_hardened_does_not() {
    for name in ["verify_pin", "token_check"] {
        let input = format!("{name}.rejected.input");
        let file = file(&format!("{name}.bin"));
        let score = |mode: &str| -> Vec<u32> {
            let text = hscore(&line(&format!("{mode} 1000 16"), &input), &file).unwrap();
            text.split_whitespace()
                .map(|word| word.parse().unwrap())
                .collect()
        };
        assert!(score("plain")[4] > 0, "{name}");
        let hardened = score("hardened");
        assert_eq!(
            (hardened[0], &hardened[2..]),
            (hardened[1], &[0, 0, 0, 0][..]),
            "{name}"
        );
    }
}

#[test]
fn leaving_the_loop_at_once_lets_any_pin_in() {
    let file = file("verify_pin.bin");
    let run = |fixed: &str| hrun(&line(fixed, "verify_pin.all_wrong.input"), &file).unwrap();
    assert!(run("plain 1000 16 none").starts_with("returned 0\n"));
    assert!(run("plain 1000 16 0").starts_with("returned 1\n"));
    assert!(run("hardened 1000 16 1").starts_with("caught\n"));
}

#[test]
fn a_raised_amount_is_credited_by_one_inversion_only_when_plain() {
    let file = file("token_check.bin");
    let run = |fixed: &str, input: &str| {
        let text = hrun(&line(fixed, &format!("token_check.{input}.input")), &file).unwrap();
        let mut lines = text.lines();
        (
            lines.next().unwrap().to_string(),
            lines.nth(4).unwrap().to_string(),
        )
    };
    let said = |outcome: &str, events: &str| (outcome.to_string(), events.to_string());
    assert_eq!(
        run("plain 1000 16 none", "accepted"),
        said("returned 1", "events 1 1250")
    );
    assert_eq!(
        run("plain 1000 16 none", "rejected"),
        said("returned 0", "events")
    );
    let credited = (0..19).filter(|place| {
        let fixed = format!("plain 1000 16 {place}");
        run(&fixed, "rejected") == said("returned 1", "events 1 9250")
    });
    assert_eq!(credited.count(), 1);
}
