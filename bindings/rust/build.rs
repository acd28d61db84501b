//! Links the archive of the proved library. GIRTHS_ARCHIVE names it; otherwise it is target/staticlib/libexports.a of the repository that this
//! crate lies in, and where there is none yet, `bindings/build` proves and builds it.
use std::ffi::OsStr;
use std::path::{Path, PathBuf};
use std::process::{Command, Stdio};
use std::time::SystemTime;

fn stop(message: &str) -> ! {
    eprintln!("girths: {message}");
    std::process::exit(1)
}

fn is_program(name: &str) -> bool {
    std::env::var_os("PATH").is_some_and(|p| std::env::split_paths(&p).any(|d| d.join(name).is_file()))
}

fn build(root: &Path, archive: &Path) {
    if !root.join("crates.txt").is_file() {
        stop(&format!("{} is missing, and {} is not the repository that it is built from: name an archive in GIRTHS_ARCHIVE", archive.display(), root.display()));
    }
    if !is_program("rt") {
        stop(&format!("{} is missing, and so is `rt`, the Rattle toolchain that builds it: put rt on the path, or name an archive in GIRTHS_ARCHIVE", archive.display()));
    }
    let made = Command::new("bash").arg("bindings/build").current_dir(root).stdin(Stdio::null()).stdout(Stdio::null()).status();
    if !made.is_ok_and(|s| s.success()) || !archive.is_file() {
        stop(&format!("`bash bindings/build` failed in {}: run it there to see why", root.display()));
    }
}

/// The folders of the crates' sources. What rt keeps lies beside them, in out/.
fn sources(root: &Path) -> Vec<PathBuf> {
    let crates = std::fs::read_dir(root.join("crates")).into_iter().flatten().flatten();
    crates.flat_map(|c| ["src", "specs", "proofs"].map(|f| c.path().join(f))).filter(|p| p.is_dir()).collect()
}

/// The newest time of a source below a folder.
fn newest(folder: &Path) -> Option<SystemTime> {
    let entries = std::fs::read_dir(folder).ok()?;
    entries.flatten().map(|e| e.path()).filter_map(|p| {
        if p.is_dir() {
            newest(&p)
        } else if p.extension().is_some_and(|e| e == "rt" || e == "antt") {
            p.metadata().ok()?.modified().ok()
        } else {
            None
        }
    }).max()
}

fn own_archive() -> PathBuf {
    let root = Path::new(env!("CARGO_MANIFEST_DIR")).join("../..");
    let archive = root.join("target/staticlib/libexports.a");
    if !archive.is_file() {
        build(&root, &archive);
    }
    let made = archive.metadata().and_then(|m| m.modified()).ok();
    if sources(&root).iter().filter_map(|f| newest(f)).max() > made {
        println!("cargo:warning=the archive is older than a source below crates/: `bash bindings/build` builds it again");
    }
    println!("cargo:rerun-if-changed={}", root.join("crates.txt").display());
    for folder in sources(&root) {
        println!("cargo:rerun-if-changed={}", folder.display());
    }
    archive
}

fn main() {
    println!("cargo:rerun-if-env-changed=GIRTHS_ARCHIVE");
    let archive = match std::env::var_os("GIRTHS_ARCHIVE") {
        Some(named) => PathBuf::from(named),
        None => own_archive(),
    };
    let Ok(archive) = archive.canonicalize() else {
        stop(&format!("GIRTHS_ARCHIVE names {}, which is not there", archive.display()));
    };
    if archive.file_name() != Some(OsStr::new("libexports.a")) {
        stop(&format!("GIRTHS_ARCHIVE names {}: the file's name has to be libexports.a", archive.display()));
    }
    println!("cargo:rerun-if-changed={}", archive.display());
    println!("cargo:rustc-link-search=native={}", archive.parent().unwrap().display());
    println!("cargo:rustc-link-lib=static=exports");
}
