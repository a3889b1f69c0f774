//! The program `seam` prints the file of telegrams that only the ring refuses.

use std::process::Command;

#[test]
fn the_file_is_what_the_program_prints() {
    let ran = Command::new(env!("CARGO_BIN_EXE_seam")).output().unwrap();
    assert!(ran.status.success());
    let kept = include_str!("../../../data/strip-passes-ring-refuses.txt");
    assert_eq!(String::from_utf8(ran.stdout).unwrap(), kept);
}
