//! What the headers say, the crate says too.

use takhvoi::{Error, Kernel, Sizes};

/// The header with its part on files, where the crate lies in its repository.
fn header() -> Option<String> {
    let read = |name| std::fs::read_to_string(format!("{}/../../library/{name}", env!("CARGO_MANIFEST_DIR"))).ok();
    Some(read("takhvoi.h")? + &read("takhvoi_file.h")?)
}

/// A text without its comments.
fn without_comments(text: &str) -> String {
    text.split("/*").enumerate().map(|(n, part)| if n == 0 { part } else { part.split_once("*/").map_or("", |(_, rest)| rest) }).collect()
}

#[test]
fn each_function_is_declared() {
    let Some(header) = header() else { return };
    let raw = include_str!("../src/raw.rs");
    let declared = |text: &str, start: &str, end: &str| -> Vec<String> {
        let mut names: Vec<String> =
            text.split(start).skip(1).filter_map(|part| part.split_once(end)).map(|(name, _)| name.trim().to_string()).collect();
        names.retain(|name| name.chars().all(|letter| letter.is_ascii_alphanumeric() || letter == '_'));
        names.sort();
        names
    };
    assert_eq!(declared(&without_comments(&header), "uint32_t takhvoi_", "("), declared(raw, "pub fn takhvoi_", "("));
}

#[test]
fn each_number_has_its_text() {
    let Some(header) = header() else { return };
    let mut found = 0;
    for line in header.lines() {
        let Some((name, number)) = line.trim().trim_end_matches(',').split_once(" = ") else { continue };
        let (Some(name), Ok(number)) = (name.strip_prefix("TAKHVOI_"), number.parse::<u32>()) else { continue };
        // Bits of effects are no numbers of faults.
        if number == 0 || name.starts_with("EFFECT_") {
            continue;
        }
        let case = format!("case TAKHVOI_{name}: return \"");
        let text = header.split(&case).nth(1).and_then(|rest| rest.split('"').next()).expect("a number has a text");
        let error = Error::from_number(number);
        assert_eq!((error.number(), error.text()), (number, text));
        found += 1;
    }
    assert!(found > 30);
}

#[test]
fn an_error_says_what_and_where() {
    assert_eq!(Error::Refused { instruction: 3, rule: 7 }.to_string(), "the verifier refuses: instruction 3, rule 7");
    assert_eq!(Error::NoRoom.to_string(), "no room in the region");
    let refused: Box<dyn std::error::Error> = Box::new(Kernel::in_memory(Sizes { area: 1, region: 1 }).unwrap_err());
    assert_eq!(refused.to_string(), "a size or range is past its limits");
}
