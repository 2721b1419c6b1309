//! Links the proved static library. Its folder is SCREENS_LIB (an absolute path), or target/staticlib of the repository.
use std::path::{Path, PathBuf};
use std::process::ExitCode;

fn folder() -> PathBuf {
    match std::env::var_os("SCREENS_LIB") {
        Some(folder) => PathBuf::from(folder),
        None => {
            let repository = Path::new(env!("CARGO_MANIFEST_DIR")).ancestors().nth(2);
            repository.expect("the repository's folder").join("target/staticlib")
        }
    }
}

fn main() -> ExitCode {
    let folder = folder();
    let archive = folder.join("libscreens.a");
    println!("cargo::rerun-if-env-changed=SCREENS_LIB");
    println!("cargo::rerun-if-changed={}", archive.display());
    if std::env::var("CARGO_CFG_TARGET_ARCH").as_deref() != Ok("x86_64") {
        println!("cargo::error=the static library is for x86-64 only");
        return ExitCode::FAILURE;
    }
    if !archive.is_file() {
        println!(
            "cargo::error=there is no {}: make it with `./archive.sh` in the repository's folder, or name the folder that has libscreens.a by the environment variable SCREENS_LIB",
            archive.display()
        );
        return ExitCode::FAILURE;
    }
    println!("cargo::rustc-link-search=native={}", folder.display());
    println!("cargo::rustc-link-lib=static=screens");
    ExitCode::SUCCESS
}
