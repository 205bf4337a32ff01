//! The sample texts, whose lines are typed beside them.

use second::dcfg::lines;
use std::fs;
use std::path::Path;

#[test]
fn every_sample() {
    let folder = Path::new(env!("CARGO_MANIFEST_DIR")).join("../../samples/dcfg");
    let mut numbers = Vec::new();
    for entry in fs::read_dir(folder).expect("the samples' folder") {
        let path = entry.expect("an entry").path();
        if path.extension().is_some_and(|ending| ending == "json") {
            let text = fs::read(&path).expect("a sample");
            let expected = fs::read_to_string(path.with_extension("txt")).expect("its lines");
            assert_eq!(lines(&text), expected, "{}", path.display());
            numbers.extend(number(&expected));
        }
    }
    // 30 has none: a text of 1 MiB is nothing to look at.
    for number in 31..=39 {
        assert!(
            numbers.contains(&number),
            "no sample is refused by {number}"
        );
    }
}

/// The number of a refusal's line.
fn number(lines: &str) -> Option<u64> {
    lines
        .split(' ')
        .skip_while(|word| *word != "refused")
        .nth(1)?
        .parse()
        .ok()
}
