//! An answer only for the file named: in each of these tests a telegram fit to
//! burn stands on standard input, and the file named is another.

use crate::scratch::{assert_answer, assert_no_answer, Scratch};
use crate::{proper, BAD, PROPER};
use compare::programs::{stderr, tool};
use std::fs::{self, File};
use std::os::fd::AsRawFd;
use std::os::unix::fs::{MetadataExt, PermissionsExt};
use std::os::unix::net::UnixListener;

/// A name that cannot be opened is answered so before anything is built, and
/// also where all is built.
fn assert_not_opened(name: &str, make: impl Fn(&Scratch), words: &str) {
    for scratch in [Scratch::new(), Scratch::built()] {
        make(&scratch);
        let before = scratch.proved();
        let ran = scratch.balise(&["check", name], proper().as_bytes());
        assert_no_answer(&ran, words);
        assert_eq!(scratch.proved(), before);
    }
}

/// Makes a socket. Its path is short, wherever the folder is.
fn make_socket(scratch: &Scratch) {
    let folder = File::open(&scratch.root).expect("a folder");
    let path = format!("/proc/self/fd/{}/socket", folder.as_raw_fd());
    drop(UnixListener::bind(path).expect("a socket"));
}

#[test]
fn a_socket() {
    assert_not_opened("socket", make_socket, "balise: socket: it is a socket\n");
}

#[test]
fn a_folder() {
    assert_not_opened("docs", |_| (), "balise: docs: it is a folder\n");
}

#[test]
fn no_file() {
    assert_not_opened("none", |_| (), "balise: none: there is no such file\n");
    assert_not_opened("", |_| (), "balise: '': there is no such file\n");
    // a name that bash would open as a connection
    let name = "/dev/tcp/127.0.0.1/1";
    assert_not_opened(name, |_| (), "1: there is no such file\n");
}

#[test]
fn no_permission() {
    let scratch = Scratch::built();
    scratch.write("secret", &proper());
    let secret = scratch.path("secret");
    fs::set_permissions(&secret, fs::Permissions::from_mode(0o000)).expect("its mode");
    // root may read any file, so root asks as nobody
    let root = fs::metadata(&secret).expect("a file").uid() == 0;
    let ran = if root {
        if tool("setpriv").is_none() {
            println!("skipped: there is no command setpriv");
            return;
        }
        let nobody = "setpriv --reuid=65534 --regid=65534 --clear-groups";
        scratch.write("input", &proper());
        scratch.shell(&format!("{nobody} ./balise check secret <input"))
    } else {
        scratch.balise(&["check", "secret"], proper().as_bytes())
    };
    assert_no_answer(&ran, "balise: secret: there is no permission to read it\n");
}

/// The file was opened before the build, so the answer is for what it held.
#[test]
fn a_file_removed_while_building() {
    let scratch = Scratch::new();
    scratch.write("file", "01x");
    scratch.hook("rm -f file");
    let ran = scratch.balise(&["check", "file"], proper().as_bytes());
    assert_answer(&ran, 0, BAD);
    assert!(stderr(&ran).ends_with("balise: file: character 120 at byte 3\n"));
    assert!(!scratch.path("file").exists());
}

/// A name that comes to stand for another file during the build.
#[test]
fn a_file_replaced_while_building() {
    let scratch = Scratch::new();
    scratch.write("file", "01x");
    scratch.write("other", &proper());
    scratch.hook("[ ! -f other ] || mv other file");
    let ran = scratch.balise(&["check", "file"], proper().as_bytes());
    assert_answer(&ran, 0, BAD);
}

#[test]
fn what_opens_and_cannot_be_read() {
    let scratch = Scratch::built();
    let ran = scratch.balise(&["check", "/proc/self/mem"], proper().as_bytes());
    assert_no_answer(&ran, "balise: /proc/self/mem: the input cannot be read\n");
    let ran = scratch.shell("./balise check <&-");
    assert_no_answer(&ran, "balise: standard input: it is closed\n");
    let ran = scratch.shell("./balise check <docs");
    assert_no_answer(&ran, "balise: standard input: it is a folder\n");
}

/// A shell that ends at a redirection that fails, or at a test that does not
/// hold, and one that is not bash.
#[test]
fn other_shells() {
    let scratch = Scratch::built();
    scratch.write("file", &proper());
    make_socket(&scratch);
    for shell in ["POSIXLY_CORRECT=1 bash", "bash --posix", "bash -e"] {
        let ran = scratch.shell(&format!("{shell} ./balise check socket <file"));
        assert_no_answer(&ran, "balise: socket: it is a socket\n");
        assert_answer(
            &scratch.shell(&format!("{shell} ./balise check file")),
            0,
            PROPER,
        );
    }
    let ran = scratch.shell("unset BASH_VERSION; sh ./balise check none <file");
    assert_eq!(ran.status.code(), Some(2), "{ran:?}");
    assert!(ran.stdout.is_empty());
}

#[test]
fn standard_input() {
    let scratch = Scratch::built();
    let proper = proper();
    assert_answer(&scratch.balise(&["check"], proper.as_bytes()), 0, PROPER);
    assert_answer(
        &scratch.balise(&["check", "-"], proper.as_bytes()),
        0,
        PROPER,
    );
    let twice = scratch.balise(&["check", "-", "-"], proper.as_bytes());
    assert_no_answer(&twice, "only once");
}

/// A pipe under two names is read under the first.
#[test]
fn a_pipe_named_twice() {
    let scratch = Scratch::built();
    let names = ["check", "-", "/dev/stdin"];
    let ran = scratch.balise(&names, proper().as_bytes());
    let answer = format!("==> standard input <==\n{PROPER}");
    assert_answer(&ran, 2, &answer);
    assert_eq!(
        stderr(&ran),
        "balise: /dev/stdin: it can be read only once\n"
    );
}

/// A name of a descriptor that only the script has.
#[test]
fn a_descriptor_of_the_script() {
    let scratch = Scratch::built();
    scratch.write("file", &proper());
    for number in 10..14 {
        let name = format!("/dev/fd/{number}");
        let close = "exec 10<&- 11<&- 12<&- 13<&-";
        let ran = scratch.shell(&format!("{close}; ./balise check file {name}"));
        assert_eq!(ran.status.code(), Some(2), "{ran:?}");
        let words = format!("balise: {name}: there is no such file\n");
        assert_eq!(stderr(&ran), words);
    }
}

#[test]
fn names_that_begin_with_a_sign_and_links() {
    let scratch = Scratch::built();
    scratch.write("-x", &proper());
    assert_answer(&scratch.balise(&["check", "./-x"], b""), 0, PROPER);
    assert_answer(&scratch.balise(&["check", "--", "-x"], b""), 0, PROPER);
    assert_no_answer(&scratch.balise(&["check", "-x"], b""), "no option '-x'");
    std::os::unix::fs::symlink("./-x", scratch.path("link")).expect("a link");
    assert_answer(&scratch.balise(&["check", "link"], b""), 0, PROPER);
    let ran = scratch.shell("mkdir bin && cd bin && ln -s ../balise b && ./b check ../link");
    assert_answer(&ran, 0, PROPER);
}

#[test]
fn several_files() {
    let scratch = Scratch::built();
    scratch.write("good", &proper());
    scratch.write("b\nad", "2");
    let answer = format!("==> good <==\n{PROPER}==> $'b\\nad' <==\n{BAD}");
    let ran = scratch.balise(&["check", "good", "b\nad"], b"");
    assert_answer(&ran, 0, &answer);
    assert_eq!(stderr(&ran), "balise: $'b\\nad': character 50 at byte 1\n");
    let ran = scratch.balise(&["check", "--status", "b\nad", "good"], b"");
    assert_eq!(ran.status.code(), Some(1));
    let ran = scratch.balise(&["--status", "check", "good", "none", "-"], b"2");
    let answer = format!("==> good <==\n{PROPER}==> standard input <==\n{BAD}");
    assert_answer(&ran, 2, &answer);
}

/// All are opened before the first is read.
#[test]
fn a_file_removed_while_another_is_read() {
    let scratch = Scratch::new();
    scratch.program(
        "check_telegram",
        "rm -f two; cat >/dev/null; printf 'balise check 1\\nbits 0\\nlong proper\\n'",
    );
    scratch.write("one", "");
    scratch.write("two", "");
    let ran = scratch.balise(&["check", "one", "two"], b"");
    assert_eq!(ran.status.code(), Some(0), "{ran:?}");
    assert!(!scratch.path("two").exists());
}

/// More files than a process may have open to begin with.
#[test]
fn many_files() {
    let scratch = Scratch::built();
    scratch.write("good", &proper());
    let ran = scratch
        .shell("ulimit -S -n 64; ./balise check $(yes good | head -n 300) | grep -c 'long proper'");
    assert_answer(&ran, 0, "300\n");
}
