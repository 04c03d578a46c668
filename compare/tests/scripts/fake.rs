//! A small repository with the real scripts, in which the toolchain and cargo only pretend.

use std::collections::BTreeMap;
use std::fs::{self, File, Permissions};
use std::os::unix::fs::{PermissionsExt, symlink};
use std::path::{Path, PathBuf};
use std::process::{Command, Output};
use std::time::SystemTime;

/// The commands that the scripts may use beside the toolchain and cargo.
const TOOLS: [&str; 28] = [
    "awk",
    "basename",
    "bash",
    "cat",
    "chmod",
    "cmp",
    "cp",
    "cut",
    "dirname",
    "env",
    "find",
    "flock",
    "grep",
    "ln",
    "mkdir",
    "od",
    "readlink",
    "realpath",
    "rm",
    "sed",
    "sha256sum",
    "sort",
    "tee",
    "touch",
    "tr",
    "wc",
    "xargs",
    "mktemp",
];

const SCRIPTS: [&str; 7] = [
    "bin/library",
    "bin/programs",
    "bin/proved.sh",
    "bin/build-and-run.sh",
    "bin/scope-deps",
    "compare/oracle",
    "demo",
];

const FILES: [(&str, &str); 17] = [
    (
        "crates.txt",
        "# a comment: none\nleaf:\nstage: leaf\nstage_c staticlib: stage\nrun: stage io\nanswer: run\nsheet: run\n\
         thin: run\nstrict_answer: run\nstrict_sheet: run\nother:\n",
    ),
    ("crates/leaf/src/lib.rt", "leaf\n"),
    ("crates/stage/src/lib.rt", "stage\n"),
    ("crates/stage_c/src/lib.rt", "stage_c\n"),
    ("crates/run/src/lib.rt", "run\n"),
    ("crates/answer/src/main.rt", "answer\n"),
    ("crates/sheet/src/main.rt", "sheet\n"),
    ("crates/thin/src/main.rt", "thin\n"),
    ("crates/strict_answer/src/main.rt", "strict_answer\n"),
    ("crates/strict_sheet/src/main.rt", "strict_sheet\n"),
    ("crates/other/src/lib.rt", "other\n"),
    ("bindings/rust/src/main.rs", "tool\n"),
    ("bindings/rust/build.rs", "build\n"),
    ("compare/src/main.rs", "harness\n"),
    ("interface/scope_deps.rs", "interface\n"),
    ("examples/a.job", "job\n"),
    ("shared/docs/src/src/react_compiler_hir/mod.rs", "types\n"),
];

/// Proves the crate in whose folder it is called, and those below it, where they or one below them
/// changed since it proved them, and are without the word `unproved`. FAKE_EDIT stands for an edit
/// made meanwhile.
const RT: &str = r#"#!/usr/bin/env bash
[ "$1" != version ] || { echo "${FAKE_KIT:-kit 1}"; exit; }
echo "rt $*" >>"$FAKE_CALLS"
crate=${PWD##*/} verb=$1 anew=''
say() { if [ "$verb" = run ]; then echo "$1" >&2; else echo "$1"; fi; }
for below in leaf stage $([ "$verb" = lib ] || echo run) "$crate"; do
  mkdir -p "../$below/out"
  [ -z "$anew" ] && cmp -s "../$below/src/"* "../$below/out/proved" && continue
  anew=yes
  say "rt: chose --jobs 2 for $below"
  if grep -q unproved "../$below/src/"*; then say "fn $below::f: no proof: it is false"; say logic=not-proved; exit 1; fi
  say "fn $below::f: proved"
  say "crate $below: modules loaded=0 checked=1"
  say "logic=proved functions=1"
  cat "../$below/src/"* >"../$below/out/proved"
done
[ -z "${FAKE_EDIT:-}" ] || echo "$FAKE_EDIT" >>../leaf/src/lib.rt
if [ "$verb" = run ]; then
  printf '%s\n' '#!/usr/bin/env bash' 'cat >/dev/null' "printf '${FAKE_ANSWER:-RF\\003}'" >"out/$crate"
  chmod +x "out/$crate"
  "out/$crate"
else
  cat ../leaf/src/lib.rt ../stage/src/lib.rt >"out/lib$crate.a"
fi
"#;

/// Builds programs that say how they were built, and their words, and pass their input on. The tool
/// without the library reads any file but one called `bad.job` and any input but `bad`, and ends
/// with status 3 where a command asks the stage.
const CARGO: &str = r#"#!/usr/bin/env bash
echo "cargo $*" >>"$FAKE_CALLS"
kind=whole
while [ $# -gt 0 ]; do
  case $1 in --target-dir) target=$2 ;; --bin) program=$2 ;; --no-default-features) kind=light ;; esac
  shift
done
mkdir -p "$target/release"
printf '%s\n' '#!/usr/bin/env bash' "echo $kind: \$*" >"$target/release/$program"
if [ $kind = light ]; then
  printf '%s\n' 'case " $* $(cat) " in *" bad.job "* | *" bad "*) exit 1 ;; *" -- "*) ;; *" --help "*) exit ;; esac' \
    'case ${1:-} in answer | sheet | thin | explain | draw) exit 3 ;; esac' >>"$target/release/$program"
else
  echo cat >>"$target/release/$program"
fi
chmod +x "$target/release/$program"
"#;

pub struct Fake {
    folder: PathBuf,
    pub root: PathBuf,
    /// The directories in which commands are found.
    path: Vec<PathBuf>,
    environment: BTreeMap<&'static str, String>,
}

/// What a script wrote, and its exit status.
#[derive(Debug)]
pub struct Said {
    pub out: String,
    pub messages: String,
    pub status: i32,
}

impl Said {
    fn of(output: Output) -> Self {
        let text = |bytes| String::from_utf8(bytes).unwrap();
        Self {
            out: text(output.stdout),
            messages: text(output.stderr),
            status: output.status.code().unwrap(),
        }
    }
}

impl Drop for Fake {
    fn drop(&mut self) {
        let _ = fs::remove_dir_all(&self.folder);
    }
}

impl Fake {
    /// A new repository, in a folder of this name outside the real one, in which the toolchain
    /// would take its crates for files that nothing proves.
    pub fn new(name: &str) -> Self {
        let folder = format!("scope-deps-scripts-{}-{name}", std::process::id());
        let folder = std::env::temp_dir().canonicalize().unwrap().join(folder);
        let _ = fs::remove_dir_all(&folder);
        let root = folder.join("a repository");
        let path = ["rt", "cargo", "tools"].map(|part| folder.join(part)).to_vec();
        let fake = Self { folder, root, path, environment: BTreeMap::new() };
        for (file, text) in FILES {
            fake.write(file, text);
        }
        fs::rename(fake.root.join("shared"), fake.folder.join("shared")).unwrap();
        for script in SCRIPTS {
            let real = Path::new(env!("CARGO_MANIFEST_DIR")).join("..").join(script);
            fake.write_program(&fake.root.join(script), &fs::read_to_string(real).unwrap());
        }
        fake.write_program(&fake.path[0].join("rt"), RT);
        fake.write_program(&fake.path[1].join("cargo"), CARGO);
        fake.link_tools();
        fake
    }

    fn link_tools(&self) {
        fs::create_dir_all(&self.path[2]).unwrap();
        let path = std::env::var_os("PATH").unwrap();
        for tool in TOOLS {
            let real = std::env::split_paths(&path).map(|place| place.join(tool)).find(|file| file.is_file());
            symlink(real.unwrap_or_else(|| panic!("{tool} was not found")), self.path[2].join(tool)).unwrap();
        }
    }

    pub fn write(&self, file: &str, text: &str) {
        let file = self.root.join(file);
        fs::create_dir_all(file.parent().unwrap()).unwrap();
        fs::write(file, text).unwrap();
    }

    fn write_program(&self, file: &Path, text: &str) {
        fs::create_dir_all(file.parent().unwrap()).unwrap();
        fs::write(file, text).unwrap();
        fs::set_permissions(file, Permissions::from_mode(0o755)).unwrap();
    }

    pub fn read(&self, file: &str) -> String {
        fs::read_to_string(self.root.join(file)).unwrap()
    }

    pub fn has(&self, file: &str) -> bool {
        self.root.join(file).exists()
    }

    /// From now on this command, `rt` or `cargo`, is not found.
    pub fn without(&mut self, command: &str) {
        self.path.retain(|place| !place.ends_with(command));
    }

    pub fn set(&mut self, variable: &'static str, value: impl Into<String>) {
        self.environment.insert(variable, value.into());
    }

    pub fn unset(&mut self, variable: &'static str) {
        self.environment.remove(variable);
    }

    /// Runs a script of the repository, by way of a link in another folder.
    pub fn run(&self, script: &str, words: &[&str]) -> Said {
        self.run_on(script, words, "")
    }

    /// The same with this on standard input.
    pub fn run_on(&self, script: &str, words: &[&str], input: &str) -> Said {
        let input_file = self.folder.join("input");
        fs::write(&input_file, input).unwrap();
        let link = self.folder.join("link");
        let _ = fs::remove_file(&link);
        symlink(self.root.join(script), &link).unwrap();
        let output = Command::new(&link)
            .args(words)
            .current_dir(&self.folder)
            .stdin(File::open(input_file).unwrap())
            .env_clear()
            .env("PATH", std::env::join_paths(&self.path).unwrap())
            .env("FAKE_CALLS", self.folder.join("calls"))
            .envs(&self.environment)
            .output()
            .unwrap();
        Said::of(output)
    }

    /// Has the real package for callers in Rust checked by the real cargo, with the toolchain that
    /// only pretends.
    pub fn check_package(&self) -> Said {
        let real = Path::new(env!("CARGO_MANIFEST_DIR")).join("..");
        for part in
            ["Cargo.toml", "Cargo.lock", "build.rs", "src"].map(|part| format!("bindings/rust/{part}"))
        {
            self.copy(&real, &part);
        }
        self.copy(&real, "compare/Cargo.toml");
        let others = std::env::var_os("PATH").unwrap();
        let path = [self.path[0].clone()].into_iter().chain(std::env::split_paths(&others));
        let mut cargo = Command::new(env!("CARGO"));
        cargo
            .args(["check", "--lib", "--offline", "--manifest-path"])
            .arg(self.root.join("bindings/rust/Cargo.toml"));
        cargo.arg("--target-dir").arg(self.folder.join("cargo's target")).env_remove("SCOPE_DEPS_LIBRARY");
        cargo.env("PATH", std::env::join_paths(path).unwrap()).env("FAKE_CALLS", self.folder.join("calls"));
        Said::of(cargo.output().unwrap())
    }

    /// Copies a file or directory of the real repository, and what links in it name. Times of
    /// change are kept, by which cargo sees what is new.
    fn copy(&self, real: &Path, part: &str) {
        let (from, to) = (real.join(part), self.root.join(part));
        let status = Command::new("cp").args(["-RLTp"]).arg(from).arg(to).status().unwrap();
        assert!(status.success(), "{part} cannot be copied");
    }

    /// The calls of toolchain and cargo since the last time, each by its first two words. That of
    /// `rt version` is not counted.
    pub fn calls(&self) -> Vec<String> {
        let calls = self.folder.join("calls");
        let text = fs::read_to_string(&calls).unwrap_or_default();
        let _ = fs::remove_file(calls);
        text.lines().map(|call| call.split(' ').take(2).collect::<Vec<_>>().join(" ")).collect()
    }

    /// All files below the repository, with the time of their last change.
    pub fn files(&self) -> BTreeMap<PathBuf, SystemTime> {
        let mut files = BTreeMap::new();
        let mut folders = vec![self.root.clone()];
        while let Some(folder) = folders.pop() {
            for entry in fs::read_dir(&folder).unwrap() {
                let file = entry.unwrap().path();
                let data = fs::symlink_metadata(&file).unwrap();
                folders.extend(data.is_dir().then(|| file.clone()));
                files.insert(file, data.modified().unwrap());
            }
        }
        files
    }
}
