//! The sample logs in `examples/` are the ones that the rules write, and each
//! number from 1 to 10, and 13, has one. The programs are run on those logs.

use checks::log::{replay, samples, table, walk};
use std::fs;
use std::path::Path;

fn stored(name: &str) -> Vec<u8> {
    let path = Path::new(env!("CARGO_MANIFEST_DIR")).join("../examples").join(name);
    fs::read(&path).unwrap_or_else(|error| panic!("{}: {error}", path.display()))
}

#[test]
fn stored_as_the_rules_write_them() {
    for log in samples() {
        assert!(stored(&format!("{}.log", log.name)) == log.bytes, "{}.log differs", log.name);
        let text = String::from_utf8(stored(&format!("{}.txt", log.name))).unwrap();
        assert_eq!(text, walk(&log.bytes), "{}.txt differs", log.name);
    }
    assert_eq!(String::from_utf8(stored("logs/README.md")).unwrap(), table());
}

#[test]
fn the_programs_read_and_print_the_samples() {
    assert!(stored("../crates/walk_log/stdin") == stored("third_row.log"), "walk_log/stdin differs");
    assert!(stored("../crates/walk_log/stdout") == stored("third_row.txt"), "walk_log/stdout differs");
    let (input, output) = replay();
    assert!(stored("../crates/replay/stdin") == input, "replay/stdin differs");
    assert!(stored("../crates/replay/stdout") == output.as_bytes(), "replay/stdout differs");
}

#[test]
fn each_number_has_a_log() {
    let printed: Vec<String> = samples().iter().map(|log| walk(&log.bytes)).collect();
    for number in (1..=10).chain([13]) {
        let start = format!("refused {number} at ");
        assert!(printed.iter().any(|text| text.lines().last().unwrap().starts_with(&start)), "no log meets {number}");
    }
}

#[test]
fn the_third_row_is_printed_as_documents_01_and_02_have_it() {
    let text = "pair stress plastic tangent yielded branch\n\
                1 201000000000 99000000000 2000 1 1\n\
                2 -202980000000 -97020000000 2000 1 2\n\
                end 2\n";
    assert_eq!(stored("third_row.txt"), text.as_bytes());
}
