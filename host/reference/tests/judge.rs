//! The comparison itself: it passes what is right and finds each deliberate mistake.

use std::process::{Command, Output};

const COMPARE: &str = env!("CARGO_BIN_EXE_compare");
const MIRROR: &str = env!("CARGO_BIN_EXE_mirror");
const CASES: &str = concat!(env!("CARGO_MANIFEST_DIR"), "/../cases");

fn compare(arguments: &[&str], driver: &[&str]) -> Output {
    Command::new(COMPARE)
        .args(arguments)
        .arg("--driver")
        .args(driver)
        .output()
        .expect("compare runs")
}

fn said(output: &Output) -> String {
    String::from_utf8_lossy(&output.stdout).into_owned()
}

fn mistakes() -> usize {
    let list = Command::new(MIRROR).arg("--list").output();
    said(&list.expect("mirror runs")).lines().count()
}

#[test]
fn equal_to_itself_and_reaches_everything() {
    let output = compare(&["--seed", "3"], &[MIRROR]);
    let said = said(&output);
    assert!(output.status.success(), "{said}");
    assert!(said.contains("dictionaries: equal"), "{said}");
}

#[test]
fn the_stored_cases_hold() {
    let output = compare(&["--cases", CASES], &[MIRROR]);
    assert!(output.status.success(), "{}", said(&output));
}

#[test]
fn each_mistake_is_found_and_stored() {
    assert!(mistakes() >= 12);
    for number in 1..=mistakes() {
        let store = format!("{}/wrong-{number}", env!("CARGO_TARGET_TMPDIR"));
        std::fs::create_dir_all(&store).expect("a directory");
        let wrong = number.to_string();
        let driver = [MIRROR, "--wrong", &wrong];
        let output = compare(&["--seed", "5", "--store", &store], &driver);
        assert!(!output.status.success(), "mistake {number} isn't found");
        assert!(said(&output).contains("DIFFERENT"), "mistake {number}");
        assert!(stored_case_tells(&store, &driver), "mistake {number}");
    }
}

/// The case stored holds for the reference and fails for the wrong head.
fn stored_case_tells(store: &str, driver: &[&str]) -> bool {
    let right = compare(&["--cases", store], &[MIRROR]);
    let wrong = compare(&["--cases", store], driver);
    right.status.success() && !wrong.status.success()
}

#[test]
fn a_driver_that_ends_is_a_difference() {
    let store = env!("CARGO_TARGET_TMPDIR");
    let output = compare(&["--seed", "5", "--store", store], &["true"]);
    assert!(!output.status.success());
    assert!(said(&output).contains("the driver ended"));
}
