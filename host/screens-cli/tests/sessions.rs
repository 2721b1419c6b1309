//! Stored sessions: each `$` line of a file in sessions/ is run, and what the tool says must be what stands below it: `>` for
//! what it prints, `!` for its errors, and its exit status if that is not 0. Lines with `#` and empty ones are remarks.
//! SCREENS_STORE=1 stores what it says now.
mod common;
use common::Folder;
use std::path::Path;

/// What the tool says, with the time left out.
fn said(folder: &Folder, line: &str) -> String {
    let words: Vec<&str> = line.split_whitespace().skip(1).collect();
    let ran = folder.run(&words);
    let mut text = String::new();
    for line in ran.out.lines() {
        match line.split_once(" cells in ") {
            Some((cells, time)) if time.ends_with(" s") => text += &format!("> {cells} cells in TIME s\n"),
            _ => text += &format!("> {line}\n"),
        }
    }
    for line in ran.err.lines() {
        text += &format!("! {line}\n");
    }
    match ran.status {
        Some(0) => text,
        Some(status) => format!("{text}exit {status}\n"),
        None => format!("{text}ended by a signal\n"),
    }
}

fn session(name: &str) {
    let path = Path::new(env!("CARGO_MANIFEST_DIR")).join(format!("tests/sessions/{name}.txt"));
    let stored = std::fs::read_to_string(&path).unwrap();
    let folder = Folder::new(name);
    let mut now = String::new();
    for line in stored.lines() {
        if let Some(words) = line.strip_prefix("$ ") {
            now += &format!("{line}\n{}", said(&folder, words));
        } else if line.starts_with('#') || line.is_empty() {
            now += &format!("{line}\n");
        }
    }
    if std::env::var_os("SCREENS_STORE").is_some() {
        std::fs::write(&path, now).unwrap();
        return;
    }
    for (line, (now, stored)) in now.lines().zip(stored.lines()).enumerate() {
        assert_eq!(now, stored, "{name}, line {}", line + 1);
    }
    assert_eq!(now.lines().count(), stored.lines().count());
}

#[test]
fn small_screen() {
    session("small");
}

#[test]
fn examples() {
    session("examples");
}

#[test]
fn refusals() {
    session("refusals");
}

#[test]
fn usage() {
    session("usage");
}

#[test]
fn named_shapes() {
    session("shapes");
}

#[test]
fn strange_screen() {
    session("strange");
}
