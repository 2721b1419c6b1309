//! The C header: that it declares the archive's functions, all of them and no other, and that a C program works with it.
use std::collections::BTreeSet;
use std::path::{Path, PathBuf};
use std::process::Command;

fn here() -> &'static Path {
    Path::new(env!("CARGO_MANIFEST_DIR"))
}

/// The folder of the archive, found as build.rs finds it.
fn archive() -> PathBuf {
    let folder = std::env::var_os("SCREENS_LIB").map_or_else(|| here().join("../../target/staticlib"), PathBuf::from);
    folder.join("libscreens.a")
}

/// Words that begin with `screens_` and end before something that is no part of a name.
fn names(bytes: &[u8], ends: impl Fn(u8) -> bool) -> BTreeSet<String> {
    let part = |b: &u8| b.is_ascii_alphanumeric() || *b == b'_';
    let words = bytes.split(|b| !part(b)).filter(|word| word.starts_with(b"screens_"));
    words
        .filter(|word| {
            let end = word.as_ptr_range().end.addr() - bytes.as_ptr().addr();
            bytes.get(end).is_some_and(|b| ends(*b))
        })
        .map(|word| String::from_utf8_lossy(word).into_owned())
        .collect()
}

#[test]
fn the_header_declares_what_the_archive_has() {
    let header = std::fs::read(here().join("../include/screens.h")).unwrap();
    let declared = names(&header, |b| b == b'(');
    // in the archive's tables of symbols a name ends in a zero byte
    let exported = names(&std::fs::read(archive()).unwrap(), |b| b == 0);
    assert_eq!(declared, exported);
}

#[test]
fn a_c_program_calls_every_function() {
    let program = Path::new(env!("CARGO_TARGET_TMPDIR")).join("interface");
    let source = here().join("tests/c/interface.c");
    let compiled = Command::new("cc")
        .args(["-Wall", "-Wextra", "-Werror", "-pedantic", "-std=c99", "-O1"])
        .arg("-I")
        .arg(here().join("../include"))
        .arg(&source)
        .arg(archive())
        .args(["-lm", "-o"])
        .arg(&program)
        .output()
        .expect("a C compiler by the name cc");
    assert!(
        compiled.status.success(),
        "{}",
        String::from_utf8_lossy(&compiled.stderr)
    );

    let called = names(&std::fs::read(source).unwrap(), |b| b == b'(');
    let header = std::fs::read(here().join("../include/screens.h")).unwrap();
    assert_eq!(called, names(&header, |b| b == b'('));

    let ran = Command::new(&program).output().unwrap();
    let said = String::from_utf8_lossy(&ran.stdout);
    assert!(ran.status.success() && said.ends_with(" 0 failed\n"), "{said}");
}
