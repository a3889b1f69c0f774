//! The program `not_proper` prints the file of well-formed telegrams that are
//! not proper.

use std::process::Command;

#[test]
fn the_file_is_what_the_program_prints() {
    let ran = Command::new(env!("CARGO_BIN_EXE_not_proper"))
        .output()
        .unwrap();
    assert!(ran.status.success());
    let kept = include_str!("../../../data/well-formed-not-proper.txt");
    assert_eq!(String::from_utf8(ran.stdout).unwrap(), kept);
}
