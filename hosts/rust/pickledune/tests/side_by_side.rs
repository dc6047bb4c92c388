//! The example of several checks side by side.
#[allow(dead_code)] // its main
#[path = "../examples/side_by_side.rs"]
mod example;

use example::{checks, line, side_by_side, table};

/// One by one, each in words of its own that held something else.
#[test]
fn no_check_disturbs_another() {
    let table = table().unwrap();
    let alone = |&check: &example::Check| line(&table, check, &mut [7; 200]);
    let one_by_one: Vec<String> = checks().iter().map(alone).collect();
    for _ in 0..20 {
        assert_eq!(side_by_side(&table, &checks()), one_by_one);
    }
}

#[test]
fn the_page_shows_what_is_printed() {
    let path = concat!(env!("CARGO_MANIFEST_DIR"), "/../README.md");
    let page = std::fs::read_to_string(path).expect(path);
    let printed = side_by_side(&table().unwrap(), &checks());
    let shown: String = printed.iter().map(|line| format!("    {line}\n")).collect();
    assert!(page.contains(&shown), "{path} does not show\n{shown}");
}
