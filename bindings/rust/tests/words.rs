//! What the crate says of itself: version, texts of codes, errors that pass as errors.

use core::error::Error;
use futtockfig::{arrange_words, code, compare, page, version, EMPTY, HEADER_WORDS, VERSION};

#[test]
fn one_version() {
    assert_eq!(version(), VERSION);
    assert_eq!(env!("CARGO_PKG_VERSION"), format!("{VERSION}.0.0"));
}

#[test]
fn each_code_has_a_text_of_its_own() {
    let none = code::text(u32::MAX);
    let texts: Vec<&str> = (0..200).map(code::text).filter(|text| *text != none).collect();
    assert!(texts.len() > 30);
    assert!((1..texts.len()).all(|i| !texts[..i].contains(&texts[i])));
    assert_eq!(code::text(code::OK), "done");
}

#[test]
fn refusals_are_errors() {
    let errors: [Box<dyn Error>; 3] = [
        page(&EMPTY[1..], &mut []).unwrap_err().into(),
        compare(&EMPTY, &EMPTY[1..], 0).unwrap_err().into(),
        arrange_words(&EMPTY, 1, &[], &mut []).unwrap_err().into(),
    ];
    let told: Vec<String> = errors.iter().map(|error| error.to_string()).collect();
    assert!(told[0].contains("code 105") && told[1].contains("code 110") && told[2].contains("code 4"), "{told:?}");
    assert_eq!(EMPTY.len(), HEADER_WORDS);
}
