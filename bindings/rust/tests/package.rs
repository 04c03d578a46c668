//! The package: cargo makes one that stands alone and builds.

use std::path::Path;
use std::process::{Command, Output};

/// The library that these tests were linked with, which the build script has put here.
const LIBRARY: &str = concat!(env!("OUT_DIR"), "/libstage.a");

fn cargo(words: &[&str], library: &str) -> Output {
    Command::new(env!("CARGO"))
        .args(words)
        .args(["--offline", "--allow-dirty", "--manifest-path"])
        .arg(Path::new(env!("CARGO_MANIFEST_DIR")).join("Cargo.toml"))
        .arg("--target-dir")
        .arg(Path::new(env!("CARGO_TARGET_TMPDIR")).join("package"))
        .env("SCOPE_DEPS_LIBRARY", library)
        .output()
        .unwrap()
}

#[test]
fn the_package_builds_alone_with_a_library_that_is_pointed_at() {
    let packaged = cargo(&["package"], LIBRARY);
    assert!(packaged.status.success(), "{}", String::from_utf8_lossy(&packaged.stderr));
    let unset = cargo(&["package"], "");
    let said = String::from_utf8_lossy(&unset.stderr);
    assert!(!unset.status.success() && said.contains("SCOPE_DEPS_LIBRARY names no file"), "{said}");
}

#[test]
fn the_package_has_licence_notice_and_readme() {
    let listed = cargo(&["package", "--list"], LIBRARY);
    let listed = String::from_utf8(listed.stdout).unwrap();
    for file in ["LICENSE", "NOTICE", "README.md", "build.rs", "src/interface.rs", "src/lib.rs"] {
        assert!(listed.lines().any(|line| line == file), "{file}\n{listed}");
    }
}
