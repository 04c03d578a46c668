//! Links the stage's library: the one that `SCOPE_DEPS_LIBRARY` names, or the repository's. Where
//! that is missing or belongs to other sources, it is proved and made outside the sources, and the
//! terminal shows how far that is.

fn main() {
    println!("cargo::rerun-if-changed=build.rs");
    #[cfg(feature = "library")]
    library::link();
}

#[cfg(feature = "library")]
mod library {
    use std::path::{Path, PathBuf};
    use std::process::{Command, Stdio};
    use std::{env, fs};

    const VARIABLE: &str = "SCOPE_DEPS_LIBRARY";
    const SCRIPT: &str = "../../bin/library";
    const CRATES: &str = "../../crates";
    /// What of a crate its proof reads. What the toolchain leaves beside these is no source.
    const PARTS: [&str; 3] = ["src", "specs", "proofs"];

    pub fn link() {
        println!("cargo::rerun-if-env-changed={VARIABLE}");
        if env::var("CARGO_CFG_TARGET_ARCH").is_ok_and(|arch| arch != "x86_64") {
            fail("the stage's library is for x86-64");
        }
        let folder = PathBuf::from(env::var("OUT_DIR").expect("cargo sets OUT_DIR"));
        let library = file(&folder);
        println!("cargo::rerun-if-changed={}", library.display());
        if let Err(why) = fs::copy(&library, folder.join("libstage.a")) {
            fail(&format!("{} cannot be read: {why}", library.display()));
        }
        println!("cargo::rustc-link-search=native={}", folder.display());
        println!("cargo::rustc-link-lib=static=stage");
    }

    /// The library's file, which may be made in this folder.
    fn file(folder: &Path) -> PathBuf {
        if let Some(file) = env::var_os(VARIABLE).filter(|value| !value.is_empty()) {
            return PathBuf::from(file);
        }
        if !Path::new(SCRIPT).is_file() {
            fail(&format!("{VARIABLE} names no file, and the stage's library is not in this package"));
        }
        println!("cargo::rerun-if-changed=../../crates.txt");
        for folder in fs::read_dir(CRATES).into_iter().flatten().flatten() {
            for part in PARTS.map(|part| folder.path().join(part)).iter().filter(|part| part.is_dir()) {
                println!("cargo::rerun-if-changed={}", part.display());
            }
        }
        warn(folder);
        let run = Command::new("bash").args([SCRIPT, "--into"]).arg(folder).stderr(terminal()).output();
        let output = run.unwrap_or_else(|why| {
            fail(&format!("{SCRIPT} cannot be run ({why}); {VARIABLE} may name a library that is ready"))
        });
        if !output.status.success() {
            String::from_utf8_lossy(&output.stderr).lines().for_each(|line| println!("cargo::error={line}"));
            fail(&format!("{SCRIPT} failed; {VARIABLE} may name a library that is ready"));
        }
        PathBuf::from(String::from_utf8_lossy(&output.stdout).trim())
    }

    /// Warns where the library has to be proved. What is made in the meantime is newer than this
    /// script's start, so cargo runs it again at the next build, and then there is nothing to say.
    fn warn(folder: &Path) {
        let checked = Command::new("bash").args([SCRIPT, "--check", "--into"]).arg(folder).output();
        if let Some(output) = checked.ok().filter(|output| !output.status.success()) {
            String::from_utf8_lossy(&output.stderr)
                .lines()
                .for_each(|line| println!("cargo::warning={line}"));
        }
    }

    /// The terminal, or a pipe where there is none. Cargo shows what a build script says when the
    /// script has ended, which is minutes too late for the progress of a proof.
    fn terminal() -> Stdio {
        fs::OpenOptions::new().write(true).open("/dev/tty").map_or_else(|_| Stdio::piped(), Stdio::from)
    }

    /// Stops the build with one line.
    fn fail(why: &str) -> ! {
        println!("cargo::error={why}");
        std::process::exit(1)
    }
}
