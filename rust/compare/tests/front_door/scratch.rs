//! A folder with the script `balise`, small crates in place of the real ones,
//! and a toolchain that proves nothing: its `rt` puts the programs of the
//! repository's `target/bin` in their places.

use compare::programs::{repository, run, stderr, stdout, tool, PROGRAMS};
use std::fs;
use std::os::unix::fs::{symlink, PermissionsExt};
use std::path::{Path, PathBuf};
use std::process::{Command, Output, Stdio};
use std::sync::atomic::{AtomicUsize, Ordering};
use std::{env, process};

/// What the script calls.
const TOOLS: [&str; 23] = [
    "awk",
    "bash",
    "cat",
    "cmp",
    "cut",
    "env",
    "find",
    "flock",
    "grep",
    "install",
    "mkdir",
    "paste",
    "readlink",
    "rm",
    "sed",
    "sh",
    "sha256sum",
    "sleep",
    "sort",
    "tr",
    "uniq",
    "wc",
    "xargs",
];

/// `rt` of the scratch folder. As the real one it does not prove again what has
/// not changed, and makes a program when it is run. A file `hook` beside it is run
/// for each crate that is proved, and for each program that is run: `$step` is
/// `check` or `run`.
const RT: &str = r#"#!/bin/sh
PATH=$PATH:/usr/bin:/bin
here=$(cd "$(dirname "$0")" && pwd)
step=$1
name=${PWD##*/}
[ "$step" = version ] || cd ../..
case $step in
    version) echo "kit of the tests" ;;
    check)
        mkdir -p target/stamp
        sum=$(find crates.txt crates -type f ! -name stdin ! -path '*/out/*' | sort | xargs cat | cksum)
        if [ "$(cat "target/stamp/$name" 2>/dev/null)" = "$sum" ] && { [ "$name" = texts ] || [ -x "crates/$name/out/$name" ]; }; then
            exit 0
        fi
        echo "$name" >>"$here/proved"
        [ ! -f "$here/hook" ] || . "$here/hook"
        echo "$sum" >"target/stamp/$name"
        ;;
    run)
        [ ! -f "$here/hook" ] || . "$here/hook"
        mkdir -p "crates/$name/out"
        install "$here/programs/$name" "crates/$name/out"
        ;;
esac
"#;

/// Puts a program in its place. Another process writes it: what this one has
/// open for writing, no other thread's child could run.
fn install(from: &Path, to: &Path) {
    let status = Command::new("install").arg(from).arg(to).status();
    assert!(status.expect("install").success());
}

pub struct Scratch {
    pub root: PathBuf,
}

impl Scratch {
    /// A folder in which nothing is built.
    pub fn new() -> Scratch {
        static COUNT: AtomicUsize = AtomicUsize::new(0);
        let count = COUNT.fetch_add(1, Ordering::Relaxed);
        let name = format!("balise-front-door-{}-{count}", process::id());
        let folder = env::temp_dir().canonicalize().expect("a folder");
        let scratch = Scratch {
            root: folder.join(name),
        };
        let root = &scratch.root;
        let _ = fs::remove_dir_all(root); // of a run that was ended
        for folder in ["docs", "tools", "kit/programs"] {
            fs::create_dir_all(root.join(folder)).expect("a folder");
        }
        fs::set_permissions(root, fs::Permissions::from_mode(0o755)).expect("its mode");
        install(&repository().join("balise"), &root.join("balise"));
        let page = "docs/BENCH.md";
        fs::copy(repository().join(page), root.join(page)).expect(page);
        let mut crates = String::from("texts: # characters\n");
        let programs = PROGRAMS.map(|program| program.name);
        for name in programs {
            crates += &format!("{name}: texts\n");
        }
        scratch.write("crates.txt", &crates);
        for name in ["texts"].iter().chain(&programs) {
            scratch.write(&format!("crates/{name}/src/file.rt"), name);
            scratch.write(&format!("crates/{name}/stdin"), "");
        }
        for name in TOOLS {
            let tool = tool(name).unwrap_or_else(|| panic!("there is no {name}"));
            symlink(tool, root.join("tools").join(name)).expect("a link");
        }
        for name in programs {
            let program = repository().join("target/bin").join(name);
            install(&program, &root.join("kit/programs").join(name));
        }
        scratch.script("kit/rt", RT);
        scratch
    }

    /// A folder in which all programs are built.
    pub fn built() -> Scratch {
        let scratch = Scratch::new();
        let ran = scratch.balise(&["build"], b"");
        assert_eq!(ran.status.code(), Some(0), "{ran:?}");
        scratch
    }

    pub fn path(&self, name: &str) -> PathBuf {
        self.root.join(name)
    }

    pub fn write(&self, name: &str, text: &str) {
        let path = self.path(name);
        fs::create_dir_all(path.parent().expect("a folder")).expect("a folder");
        fs::write(path, text).expect(name);
    }

    /// What `rt` does at each check of a crate `$name`, in the shell.
    pub fn hook(&self, text: &str) {
        self.write("kit/hook", text);
    }

    fn script(&self, name: &str, text: &str) {
        self.write("script", text);
        install(&self.path("script"), &self.path(name));
    }

    /// A program of the kit, as a shell script.
    pub fn program(&self, name: &str, text: &str) {
        let name = format!("kit/programs/{name}");
        self.script(&name, &format!("#!/bin/sh\n{text}\n"));
    }

    /// The crates that `rt` was asked to check, in order.
    pub fn proved(&self) -> Vec<String> {
        let list = fs::read_to_string(self.path("kit/proved")).unwrap_or_default();
        list.lines().map(String::from).collect()
    }

    /// A command in this folder, with the toolchain or without.
    pub fn command(&self, program: &str, toolchain: bool) -> Command {
        let mut path = self.path("tools").into_os_string();
        if toolchain {
            path.push(":");
            path.push(self.path("kit"));
        }
        let mut command = Command::new(program);
        command.current_dir(&self.root).env("PATH", path);
        command
    }

    /// `./balise` with this standard input.
    pub fn balise(&self, arguments: &[&str], input: &[u8]) -> Output {
        let mut command = self.command("./balise", true);
        run(command.args(arguments), Stdio::piped(), input)
    }

    /// `./balise` with this standard input where there is no toolchain.
    pub fn balise_alone(&self, arguments: &[&str], input: &[u8]) -> Output {
        let mut command = self.command("./balise", false);
        run(command.args(arguments), Stdio::piped(), input)
    }

    /// A line of the shell in this folder, with the commands of the machine.
    pub fn shell(&self, line: &str) -> Output {
        let mut path = self.path("kit").into_os_string();
        path.push(":");
        path.push(env::var_os("PATH").expect("a path"));
        let mut command = Command::new("bash");
        command.args(["-c", line]).current_dir(&self.root);
        run(command.env("PATH", path), Stdio::piped(), b"")
    }

    /// What a line of the shell writes to a terminal at which this is typed;
    /// none where the machine has no command `script`.
    pub fn at_a_terminal(&self, line: &str, typed: &str) -> Option<String> {
        if tool("script").is_none() {
            println!("skipped: there is no command script");
            return None;
        }
        let line = format!("printf '{typed}' | script -qec '{line}' /dev/null");
        Some(stdout(&self.shell(&line)).replace('\r', ""))
    }
}

impl Drop for Scratch {
    fn drop(&mut self) {
        let _ = fs::remove_dir_all(&self.root);
    }
}

/// Nothing was answered: status 2, nothing on standard output, and these words
/// on standard error.
pub fn assert_no_answer(ran: &Output, words: &str) {
    assert_eq!(ran.status.code(), Some(2), "{ran:?}");
    assert_eq!(stdout(ran), "", "{ran:?}");
    assert!(stderr(ran).contains(words), "{ran:?}");
}

/// This status and this whole answer.
pub fn assert_answer(ran: &Output, status: i32, answer: &str) {
    assert_eq!(stdout(ran), answer, "{ran:?}");
    assert_eq!(ran.status.code(), Some(status), "{ran:?}");
}
