//! Links the proved archive: the one that PUFFWIDGET_ARCHIVE names, or target/staticlib/libpuffwidget.a of the repository.

use std::env;
use std::path::{Path, PathBuf};

fn main() {
    println!("cargo::rerun-if-env-changed=PUFFWIDGET_ARCHIVE");
    if env::var_os("DOCS_RS").is_some() {
        return; // pages are made without it
    }
    let named = env::var_os("PUFFWIDGET_ARCHIVE").map(PathBuf::from);
    let archive = named.unwrap_or_else(|| PathBuf::from("../target/staticlib/libpuffwidget.a"));
    println!("cargo::rerun-if-changed={}", archive.display());
    if env::var("CARGO_CFG_TARGET_ARCH").as_deref() != Ok("x86_64") {
        println!("cargo::error=the proved archive is x86-64 code: build for an x86_64 target (docs/HOST.md says how on Arm)");
        return;
    }
    match (archive.canonicalize(), archive.is_file()) {
        (Ok(archive), true) => link(archive),
        _ => println!(
            "cargo::error=the proved archive {} is not there: make it by `host/run archive` (it needs the Rattle kit), or name one by PUFFWIDGET_ARCHIVE",
            archive.display()
        ),
    }
}

/// The archive by its folder and its name.
fn link(archive: PathBuf) {
    if let (Some(folder), Some(name)) = (archive.parent(), archive.file_name()) {
        println!("cargo::rustc-link-search=native={}", folder.display());
        println!("cargo::rustc-link-lib=static:+verbatim={}", Path::new(name).display());
    }
}
