//! When a program is built, and what is said of it.

use crate::scratch::{assert_answer, assert_no_answer, Scratch};
use crate::{proper, PROPER};
use compare::programs::{run, stderr, PROGRAMS};
use std::io::{BufRead, BufReader};
use std::process::{Child, Stdio};

/// Answers as it should, and has these crates checked to do so.
fn assert_checks(scratch: &Scratch, crates: &[&str]) {
    let before = scratch.proved().len();
    let ran = scratch.balise(&["check"], proper().as_bytes());
    assert_answer(&ran, 0, PROPER);
    assert_eq!(scratch.proved()[before..], *crates, "{ran:?}");
}

const ALL: [&str; 2] = ["texts", "check_telegram"];
const PROGRAM: [&str; 1] = ["check_telegram"];

#[test]
fn progress_and_the_log() {
    let scratch = Scratch::new();
    scratch.hook("sleep 1");
    let ran = scratch.balise(&["check"], proper().as_bytes());
    assert_answer(&ran, 0, PROPER);
    let log = scratch.path("target/balise-check_telegram.log");
    let said = stderr(&ran);
    let lines: Vec<&str> = said.lines().collect();
    assert!(lines[0].starts_with(
        "balise: proving and building check_telegram and what it is made of, 2 crates;"
    ));
    assert!(lines[0].ends_with(&format!("The log: {}", log.display())));
    assert_eq!(
        lines[1..],
        [
            "balise: proving texts; after that, at most 1 left",
            "balise: proving check_telegram; after that, at most 0 left"
        ]
    );
    assert!(log.exists());
    assert_eq!(scratch.proved(), ALL);
    assert_checks(&scratch, &[]);
}

#[test]
fn build_builds_all() {
    let scratch = Scratch::new();
    assert_answer(&scratch.balise(&["build"], b""), 0, "");
    for program in PROGRAMS {
        assert!(scratch.proved().iter().any(|name| name == program.name));
    }
    let count = scratch.proved().len();
    assert_answer(&scratch.balise(&["build"], b""), 0, "");
    assert_answer(&scratch.balise_alone(&["build"], b""), 0, "");
    assert_eq!(scratch.proved().len(), count);
}

#[test]
fn a_touched_file_costs_nothing_and_a_changed_one_a_build() {
    let scratch = Scratch::built();
    scratch
        .shell("find crates crates.txt balise -exec touch {} +; touch -d 2001-01-01 target/bin/*");
    scratch.write(
        "crates/check_telegram/stdin",
        "an example that someone changed",
    );
    scratch.write(
        "crates/read_window/src/file.rt",
        "a crate that check does not need",
    );
    assert_checks(&scratch, &[]);
    for (file, text) in [
        ("crates/texts/src/file.rt", "other"),
        ("crates/texts/specs/File.antt", "a file more"),
        ("crates/texts/proofs/a/Answers.antt", "a file more"),
    ] {
        scratch.write(file, text);
        // with an old time, as of an archive that was unpacked
        scratch.shell(&format!("touch -d 2001-01-01 {file}"));
        assert_no_answer(
            &scratch.balise_alone(&["check"], proper().as_bytes()),
            "the Rattle toolchain is missing",
        );
        assert_checks(&scratch, &ALL);
        assert_checks(&scratch, &[]);
    }
    scratch.shell("sed -i 's/^check_telegram:.*/check_telegram: texts words/' crates.txt");
    assert_checks(&scratch, &ALL);
    scratch.shell("rm crates/texts/specs/File.antt");
    assert_checks(&scratch, &ALL);
}

/// What was put back is what was built.
#[test]
fn a_change_undone_costs_nothing() {
    let scratch = Scratch::built();
    scratch.shell("cp crates/texts/src/file.rt kept; echo more >>crates/texts/src/file.rt");
    scratch.hook("echo logic=not-proved; exit 1");
    assert_no_answer(&scratch.balise(&["check"], b""), "not proved: texts;");
    scratch.shell("mv kept crates/texts/src/file.rt");
    assert_answer(
        &scratch.balise_alone(&["check"], proper().as_bytes()),
        0,
        PROPER,
    );
}

#[test]
fn a_copy_needs_no_toolchain() {
    let scratch = Scratch::built();
    let ran = scratch.shell("cp -r . ../\"${PWD##*/}\"-copy && mv ../\"${PWD##*/}\"-copy copy && rm -rf crates target balise");
    assert!(ran.status.success(), "{ran:?}");
    let ran = run(
        scratch.command("copy/balise", false).arg("check"),
        Stdio::piped(),
        proper().as_bytes(),
    );
    assert_answer(&ran, 0, PROPER);
    // also where nothing can be written
    scratch.shell("chmod -R a-w copy");
    let ran = run(
        scratch.command("copy/balise", false).arg("check"),
        Stdio::piped(),
        proper().as_bytes(),
    );
    assert_answer(&ran, 0, PROPER);
    scratch.shell("chmod -R u+w copy");
}

#[test]
fn a_program_that_is_gone_or_changed_is_built_again() {
    let scratch = Scratch::built();
    let program = "target/bin/check_telegram";
    for line in [
        format!("rm {program}"),
        format!("chmod a-x {program}"),
        format!("echo >>{program}"),
        format!("cp target/bin/read_window {program}"),
    ] {
        scratch.shell(&line);
        assert_checks(&scratch, &PROGRAM);
        // also where no build is recorded, as after the toolchain alone
        scratch.shell(&format!("rm target/*.built; {line}"));
        assert_checks(&scratch, &PROGRAM);
    }
}

#[test]
fn a_build_that_fails() {
    let scratch = Scratch::new();
    let proper = proper();
    let check = || scratch.balise(&["check"], proper.as_bytes());
    let log = scratch.path("target/balise-check_telegram.log");
    let see = format!("; see {}\n", log.display());
    scratch.hook("echo logic=not-proved; exit 1");
    assert_no_answer(&check(), &format!("balise: not proved: texts{see}"));
    scratch.hook("echo 'rt: crates.txt: line 1: expected NAME'; exit 2");
    assert_no_answer(
        &check(),
        &format!("the toolchain could not build check_telegram{see}"),
    );
    // proved, and the stored example differs
    scratch.hook("[ $step = check ] || echo other");
    let ran = check();
    assert_no_answer(
        &ran,
        "check_telegram is proved, but its run on the stored example",
    );
    assert!(!stderr(&ran).contains("not proved"));
    assert!(stderr(&ran).ends_with(&see));
    scratch.hook("[ $name = texts ] || echo change >>crates/texts/src/file.rt");
    assert_no_answer(&check(), "was changed during the build");
    scratch.hook("");
    assert_answer(&check(), 0, PROPER);
}

#[test]
fn without_a_toolchain_nothing_is_built() {
    let scratch = Scratch::new();
    let ran = scratch.balise_alone(&["check"], proper().as_bytes());
    assert_no_answer(
        &ran,
        "the Rattle toolchain is missing: there is no command rt",
    );
}

/// One that holds the lock of builds until its standard input is closed.
fn holder(scratch: &Scratch) -> Child {
    let line = "mkdir -p target; echo read_window >target/balise.lock; exec 9<>target/balise.lock; flock 9; echo held; read -r -t 60";
    let mut child = scratch
        .command("bash", false)
        .args(["-c", line])
        .stdin(Stdio::piped())
        .stdout(Stdio::piped())
        .spawn()
        .expect("bash");
    let mut held = String::new();
    BufReader::new(child.stdout.take().expect("a pipe"))
        .read_line(&mut held)
        .expect("a line");
    assert_eq!(held, "held\n");
    child
}

/// While another build runs, that is said before it ends.
#[test]
fn another_build() {
    let scratch = Scratch::new();
    scratch.write("file", &proper());
    let mut other = holder(&scratch);
    let mut waiting = scratch
        .command("./balise", true)
        .args(["check", "file"])
        .stdin(Stdio::null())
        .stdout(Stdio::piped())
        .stderr(Stdio::piped())
        .spawn()
        .expect("the script");
    let mut said = BufReader::new(waiting.stderr.take().expect("a pipe"));
    let mut line = String::new();
    said.read_line(&mut line).expect("a line");
    assert!(line.starts_with("balise: another build is running, of read_window; its log is "));
    assert!(scratch.proved().is_empty());
    drop(other.stdin.take());
    other.wait().expect("an end");
    let ran = waiting.wait_with_output().expect("an output");
    assert_answer(&ran, 0, PROPER);
    assert_eq!(scratch.proved(), ALL);
}

/// A build that is interrupted leaves no program that would be run.
#[test]
fn an_interrupted_build() {
    for signal in ["INT", "TERM", "KILL"] {
        let scratch = Scratch::new();
        scratch.write("file", &proper());
        scratch.hook("[ $name = texts ] || { echo half >target/bin/$name; sleep 2; }");
        let line = format!("timeout -s {signal} 1 ./balise check file");
        let ran = scratch.shell(&line);
        assert!(!ran.status.success());
        assert!(ran.stdout.is_empty(), "{ran:?}");
        assert!(!scratch.path("target/balise-check_telegram.built").exists());
        scratch.hook("");
        let ran = scratch.balise(&["check", "file"], b"");
        assert_answer(&ran, 0, PROPER);
    }
}

/// A program that another build replaces while it runs is not answered for.
#[test]
fn a_program_replaced_while_it_runs() {
    let scratch = Scratch::new();
    scratch.program(
        "check_telegram",
        "echo '#' >>\"$0\"; printf 'balise check 1\\nbits 0\\nlong proper\\n'",
    );
    let ran = scratch.balise(&["check"], b"");
    assert_no_answer(&ran, "check_telegram was changed while it ran");
}

/// The toolchain follows no symbolic link, and what it leads to is in no sum.
#[test]
fn a_symbolic_link_in_the_source() {
    let scratch = Scratch::built();
    scratch.shell("mv crates/texts/src/file.rt kept; ln -s ../../../kept crates/texts/src/file.rt");
    let ran = scratch.balise(&["check"], proper().as_bytes());
    assert_no_answer(&ran, "is a symbolic link");
}

/// A sum that cannot be made is no sum.
#[test]
fn a_tool_that_is_missing() {
    for tool in ["find", "xargs", "sha256sum", "awk", "flock"] {
        let scratch = Scratch::new();
        scratch.shell(&format!("rm tools/{tool}"));
        let ran = scratch.balise(&["check"], proper().as_bytes());
        assert_no_answer(&ran, &format!("there is no command {tool}"));
    }
}

/// Two that find nothing built: one builds, and the other takes what it built.
#[test]
fn two_at_once_build_once() {
    let scratch = Scratch::new();
    scratch.write("file", &proper());
    scratch.hook("sleep 0.2");
    let ran = scratch.shell("./balise check file & ./balise check file; wait");
    assert_answer(&ran, 0, &PROPER.repeat(2));
    assert_eq!(scratch.proved(), ALL);
}
