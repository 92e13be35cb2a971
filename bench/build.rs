//! Finds the proved library, as the tests do, and ISA-L where it is installed.

use std::env;
use std::io::Write;
use std::path::Path;
use std::process::{Command, Stdio};

/// Links with ISA-L and prints its version.
const PROBE: &str = r#"
#include <isa-l.h>
#include <stdio.h>
int main(void) {
    printf("%d.%d.%d", ISAL_MAJOR_VERSION, ISAL_MINOR_VERSION, ISAL_PATCH_VERSION);
    return crc16_t10dif(0, (const unsigned char *)"", 0);
}
"#;

fn main() {
    library();
    if let Some(version) = isal() {
        println!("cargo::rustc-link-lib=isal");
        println!("cargo::rustc-cfg=isal");
        println!("cargo::rustc-env=BENCH_ISAL={version}");
    }
    println!("cargo::rustc-check-cfg=cfg(isal)");
    // A file that is missing counts as changed, so that an installation is noticed.
    println!("cargo::rerun-if-changed=/usr/include/isa-l.h");
    let compiler = env::var("RUSTC").expect("cargo names the compiler");
    let version = written(Command::new(compiler).arg("--version")).expect("the compiler runs");
    println!("cargo::rustc-env=BENCH_RUSTC={}", version.trim());
}

/// Both archives of the library. As they have the same functions, those of the second get a mark before their names.
fn library() {
    let folder = env::var("IRUMBOLAI_LIBRARY")
        .unwrap_or_else(|_| format!("{}/../target/staticlib", env!("CARGO_MANIFEST_DIR")));
    println!("cargo::rerun-if-changed=build.rs");
    println!("cargo::rerun-if-env-changed=IRUMBOLAI_LIBRARY");
    println!("cargo::rerun-if-changed={folder}/libirumbolai.a");
    println!("cargo::rustc-link-search=native={folder}");
    println!("cargo::rustc-link-lib=static=irumbolai");
    let second = format!("{folder}/libirumbolai-v3.a");
    println!("cargo::rerun-if-changed={second}");
    let out = env::var("OUT_DIR").expect("cargo names a folder");
    mark(Path::new(&second), &Path::new(&out).join("libmarked.a"));
    println!("cargo::rustc-link-search=native={out}");
    println!("cargo::rustc-link-lib=static=marked");
}

/// Copies an archive, with a mark before the name of each function that it exports.
fn mark(from: &Path, to: &Path) {
    let listed = Command::new("nm")
        .args(["--extern-only", "--defined-only", "--format=posix"])
        .arg(from)
        .output()
        .expect("nm runs");
    assert!(listed.status.success(), "nm reads {}", from.display());
    let listed = String::from_utf8(listed.stdout).expect("names are text");
    let names = listed.lines().filter_map(|line| line.split_once(" T "));
    let marks = names.map(|(name, _)| format!("--redefine-sym={name}=v3_{name}"));
    let marked = Command::new("objcopy")
        .args(marks)
        .args([from, to])
        .status()
        .expect("objcopy runs");
    assert!(marked.success(), "objcopy writes {}", to.display());
}

/// ISA-L's version, if a C program can be linked with it and runs.
fn isal() -> Option<String> {
    let probe = Path::new(&env::var("OUT_DIR").ok()?).join("isal_probe");
    let mut compiler = Command::new("cc")
        .args(["-x", "c", "-", "-lisal", "-o"])
        .arg(&probe)
        .stdin(Stdio::piped())
        .stderr(Stdio::null())
        .spawn()
        .ok()?;
    compiler.stdin.take()?.write_all(PROBE.as_bytes()).ok()?;
    if !compiler.wait().ok()?.success() {
        return None;
    }
    written(&mut Command::new(probe))
}

fn written(command: &mut Command) -> Option<String> {
    let output = command.output().ok()?;
    let text = String::from_utf8(output.stdout).ok()?;
    output.status.success().then_some(text)
}
