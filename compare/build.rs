//! Cuts the items of the Rust source that the oracle runs, and makes the two
//! edits that the specification asks for. Cuts the propagation a second time, with the
//! joining step of the strict one. Links the stage's library where there is one that
//! belongs to the sources beside it.

#[path = "src/cutter.rs"]
mod cutter;

use std::path::{Path, PathBuf};
use std::process::Command;
use std::{env, fs};

const VARIABLE: &str = "SCOPE_DEPS_REFERENCE";
const DEFAULT_PLACE: &str = "../../shared/docs/src";
const STAGE: &str = "src/react_compiler_inference/propagate_scope_dependencies_hir.rs";
const TYPES: &str = "src/react_compiler_hir/mod.rs";

const LIBRARY_VARIABLE: &str = "SCOPE_DEPS_LIBRARY";
const LIBRARY_SCRIPT: &str = "../bin/library";
/// The library, and what it is made from, beside the crates.
const LIBRARY_SOURCES: [&str; 3] =
    ["../target/staticlib/libstage.a", "../target/staticlib/libstage.a.digest", "../crates.txt"];
const CRATES: &str = "../crates";
/// What of a crate its proof reads. What the toolchain leaves beside these is no source.
const PARTS: [&str; 3] = ["src", "specs", "proofs"];

/// Items of the types file.
const TYPE_ITEMS: &[&str] = &[
    "struct FloatValue",
    "impl FloatValue",
    "impl PartialEq for FloatValue",
    "impl Eq for FloatValue",
    "impl Hash for FloatValue",
    "enum PropertyLiteral",
    "struct MutableRange",
    "struct DependencyPathEntry",
    "struct ReactiveScopeDependency",
    "impl CloneIn for ReactiveScopeDependency",
];

/// Items of the stage.
const STAGE_ITEMS: &[&str] = &[
    "fn are_equal_paths",
    "struct PropertyPathNode",
    "struct PropertyPathRegistry",
    "impl PropertyPathRegistry",
    "fn reduce_maybe_optional_chains",
    "struct BlockInfo",
    "struct CollectHoistableContext",
    "fn is_immutable_at_instr",
    "fn in_range",
    "fn propagate_non_null",
    "enum TraversalState",
    "enum PropagationDirection",
    "fn recursively_propagate_non_null",
    "enum PropertyAccessType",
    "fn is_optional_access",
    "fn is_dependency_access",
    "fn merge_access",
    "enum HoistableAccessType",
    "struct HoistableNode",
    "struct HoistableNodeEntry",
    "struct DependencyNode",
    "struct DependencyNodeEntry",
    "struct ReactiveScopeDependencyTreeHIR",
    "impl ReactiveScopeDependencyTreeHIR",
    "fn collect_minimal_deps_in_subtree",
];

/// Items of the stage that are cut again for the strict propagation.
const STRICT_ITEMS: &[&str] = &["fn propagate_non_null", "fn recursively_propagate_non_null"];

fn main() {
    link_library();
    println!("cargo::rustc-check-cfg=cfg(reference)");
    println!("cargo::rerun-if-env-changed={VARIABLE}");
    println!("cargo::rerun-if-changed=build.rs");
    println!("cargo::rerun-if-changed=src/cutter.rs");
    match read_sources() {
        Ok((types, stage)) => {
            write("cut.rs", cut_all(&types, &stage));
            write("strict.rs", cut_edited(&stage, STRICT_ITEMS, edit_strictly));
            println!("cargo::rustc-cfg=reference");
            println!("cargo::rustc-env=REFERENCE_ABSENT=");
        }
        Err(why) => println!("cargo::rustc-env=REFERENCE_ABSENT={why}"),
    }
}

/// Links the stage's library, or notes why it cannot be called.
fn link_library() {
    println!("cargo::rustc-check-cfg=cfg(library)");
    let absent = match library() {
        Err(why) => why,
        Ok(_) if env::var("CARGO_CFG_TARGET_ARCH").is_ok_and(|arch| arch != "x86_64") => {
            "the stage's library is for x86-64".to_string()
        }
        Ok(file) => {
            let copy = out_dir().join("libscope_deps.a");
            if let Err(why) = fs::copy(&file, &copy) {
                println!("cargo::error=the stage's library, {}, cannot be read: {why}", file.display());
                std::process::exit(1)
            }
            println!("cargo::rustc-cfg=library");
            println!("cargo::rustc-link-search=native={}", out_dir().display());
            println!("cargo::rustc-link-lib=static=scope_deps");
            println!("cargo::rustc-env=LIBRARY_FILE={}", copy.display());
            String::new()
        }
    };
    println!("cargo::rustc-env=LIBRARY_ABSENT={absent}");
}

/// The library's file, or why there is none that belongs to the sources beside it.
fn library() -> Result<PathBuf, String> {
    println!("cargo::rerun-if-env-changed={LIBRARY_VARIABLE}");
    if let Some(file) = env::var_os(LIBRARY_VARIABLE).filter(|value| !value.is_empty()) {
        let file = PathBuf::from(file);
        println!("cargo::rerun-if-changed={}", watched(&file).display());
        let absent = format!("the stage's library is not where {LIBRARY_VARIABLE} points");
        return if file.is_file() { Ok(file) } else { Err(absent) };
    }
    for input in LIBRARY_SOURCES {
        println!("cargo::rerun-if-changed={}", watched(Path::new(input)).display());
    }
    for folder in fs::read_dir(CRATES).into_iter().flatten().flatten() {
        for part in PARTS.map(|part| folder.path().join(part)).iter().filter(|part| part.is_dir()) {
            println!("cargo::rerun-if-changed={}", part.display());
        }
    }
    let run = Command::new("bash").args([LIBRARY_SCRIPT, "--check"]).output();
    let output = run.map_err(|why| format!("{LIBRARY_SCRIPT} cannot be run: {why}"))?;
    if output.status.success() {
        return Ok(PathBuf::from(String::from_utf8_lossy(&output.stdout).trim()));
    }
    // One line, `library: WHY; HOW LONG`.
    let said = String::from_utf8_lossy(&output.stderr);
    let why = said.trim_start_matches("library: ").split([';', '\n']).next().unwrap_or_default();
    Err(format!("{why}; `bin/library` makes it"))
}

/// The file, or where it is absent the nearest directory in which it would appear:
/// cargo builds anew each time where a watched file is absent.
fn watched(file: &Path) -> &Path {
    let above = file.ancestors().take(3);
    above.into_iter().find(|path| path.exists() && !path.as_os_str().is_empty()).unwrap_or(file)
}

fn out_dir() -> PathBuf {
    PathBuf::from(env::var("OUT_DIR").expect("cargo sets OUT_DIR"))
}

/// Stops the build with one line.
fn fail(why: &str) -> ! {
    println!("cargo::error=the items could not be cut from the Rust source: {why}");
    std::process::exit(1)
}

/// The texts of the two source files, or why they are not there.
fn read_sources() -> Result<(String, String), String> {
    let (root, place) = match env::var_os(VARIABLE).filter(|value| !value.is_empty()) {
        Some(root) => (PathBuf::from(root), format!("where {VARIABLE} points")),
        None => {
            let default = "at ../shared/docs/src beside the repository";
            (PathBuf::from(DEFAULT_PLACE), format!("{default}, and {VARIABLE} is not set"))
        }
    };
    Ok((read(&root, TYPES, &place)?, read(&root, STAGE, &place)?))
}

fn read(root: &Path, file: &str, place: &str) -> Result<String, String> {
    let path = root.join(file);
    println!("cargo::rerun-if-changed={}", path.display());
    fs::read_to_string(path).map_err(|_| format!("{file} of the Rust source cannot be read {place}"))
}

/// Writes what was cut to cargo's output directory.
fn write(file: &str, text: Result<String, String>) {
    let text = text.unwrap_or_else(|why| fail(&why));
    fs::write(out_dir().join(file), text).unwrap_or_else(|why| fail(&why.to_string()));
}

fn cut_all(types: &str, stage: &str) -> Result<String, String> {
    let types = cut_edited(types, TYPE_ITEMS, |_, item| Ok(item.to_string()))?;
    Ok(types + &cut_edited(stage, STAGE_ITEMS, edit)?)
}

/// An edit of an item, by its name and its text.
type Edit = fn(&str, &str) -> Result<String, String>;

/// The items of these names, each edited.
fn cut_edited(source: &str, names: &[&str], edit: Edit) -> Result<String, String> {
    let mut text = String::new();
    for name in names {
        let item = edit(name, cutter::cut(source, name)?);
        text += &format!("{}\n\n", item.map_err(|why| format!("in `{name}`: {why}"))?);
    }
    Ok(text)
}

/// The two edits: a stable sort, and a counter in the round loop.
fn edit(name: &str, item: &str) -> Result<String, String> {
    match name {
        "impl ReactiveScopeDependencyTreeHIR" => cutter::replace_once(item, "sort_unstable_by", "sort_by"),
        "fn propagate_non_null" => {
            let counted =
                cutter::insert_in_block_after(item, "0..100", " rounds::started(registry.nodes.len());")?;
            cutter::insert_in_block_after(&counted, "!changed", " rounds::settled();")
        }
        _ => Ok(item.to_string()),
    }
}

/// Where nothing joins under the existing propagation.
const NONE_IS_DONE: &str = "done_neighbor_sets.is_empty()";

/// The edits of the strict propagation: the same, and nothing joins where not all neighbours are
/// Done.
fn edit_strictly(name: &str, item: &str) -> Result<String, String> {
    let none_joins = format!("{NONE_IS_DONE} || done_neighbor_sets.len() < neighbors.len()");
    match name {
        "fn recursively_propagate_non_null" => cutter::replace_once(item, NONE_IS_DONE, &none_joins),
        _ => edit(name, item),
    }
}
