//! Finds or makes the static library that this crate links.
//!
//! The archive is `target/staticlib/libscreen.a` of the repository two levels up. Where it is missing, or older
//! than the proved sources in `crates/`, `.ci/make archive` makes it: that proves the library first. The
//! environment variable `MUDORDER_ARCHIVE` names an archive to be taken as it is: the one that the gate has just made,
//! or one made elsewhere, for a machine without `rt`.

use std::env;
use std::fs::{self, File};
use std::io;
use std::path::{Path, PathBuf};
use std::process::{Command, ExitCode};
use std::time::SystemTime;

const ARCHIVE: &str = "target/staticlib/libscreen.a";

fn main() -> ExitCode {
    println!("cargo::rerun-if-changed=build.rs");
    println!("cargo::rerun-if-env-changed=MUDORDER_ARCHIVE");
    match find_or_make().and_then(|archive| link(&archive)) {
        Ok(()) => ExitCode::SUCCESS,
        Err(message) => {
            for line in message.lines() {
                println!("cargo::error={line}");
            }
            ExitCode::FAILURE
        }
    }
}

fn find_or_make() -> Result<PathBuf, String> {
    if variable("CARGO_CFG_TARGET_ARCH")? != "x86_64" {
        return Err("the static library of the proved code is for x86-64 alone".to_string());
    }
    match env::var_os("MUDORDER_ARCHIVE") {
        Some(path) => given(PathBuf::from(path)),
        None => of_repository(&repository_root()?),
    }
}

/// The archive that the environment names; no other will do.
fn given(path: PathBuf) -> Result<PathBuf, String> {
    println!("cargo::rerun-if-changed={}", path.display());
    if !path.is_absolute() {
        Err(format!("MUDORDER_ARCHIVE names {}, which is no absolute path", path.display()))
    } else if !path.is_file() {
        Err(format!("MUDORDER_ARCHIVE names {}, and there is no such file", path.display()))
    } else {
        Ok(path)
    }
}

/// The repository's own archive, made anew where it is missing or older than its sources.
fn of_repository(root: &Path) -> Result<PathBuf, String> {
    let (crates, list) = (root.join("crates"), root.join("crates.txt"));
    println!("cargo::rerun-if-changed={}", crates.display());
    println!("cargo::rerun-if-changed={}", list.display());
    if !list.is_file() {
        return Err(format!(
            "{} has no crates.txt: this crate stands two levels below the repository's root\n\
             (elsewhere, let MUDORDER_ARCHIVE name a libscreen.a)",
            root.display()
        ));
    }
    let archive = root.join(ARCHIVE);
    let sources = newest(&crates).and_then(|time| Ok(time.max(newest(&list)?)));
    let sources = sources.map_err(|error| format!("cannot read {}: {error}", crates.display()))?;
    match fs::metadata(&archive).and_then(|data| data.modified()) {
        Ok(made) if made >= sources => Ok(archive),
        _ => make(root).and_then(|began| date(&archive, began)).map(|()| archive),
    }
}

/// Gives the archive the time at which its making began, so that a source saved meanwhile is newer.
fn date(archive: &Path, began: SystemTime) -> Result<(), String> {
    let dated = File::options().write(true).open(archive).and_then(|file| file.set_modified(began));
    dated.map_err(|error| format!("cannot date {}: {error}", archive.display()))
}

/// Runs `.ci/make archive` in the repository's root and hands back when it began.
fn make(root: &Path) -> Result<SystemTime, String> {
    make_out_folders(&root.join("crates"))
        .map_err(|error| format!("cannot make the crates' folders out: {error}"))?;
    let began = SystemTime::now();
    if let Err(error) = Command::new("rt").arg("version").output() {
        return Err(format!(
            "{ARCHIVE} is missing or older than crates/, and `rt`, which makes it, cannot be run ({error}).\n\
             Install the Rattle kit, or run `.ci/make archive` in the repository's root on a machine that has it\n\
             and let MUDORDER_ARCHIVE name the archive."
        ));
    }
    match Command::new(root.join(".ci/make")).arg("archive").output() {
        Err(error) => Err(format!("cannot run `.ci/make archive`: {error}")),
        Ok(output) if !output.status.success() => Err(format!(
            "`.ci/make archive` failed in {} ({}):\n{}{}",
            root.display(),
            output.status,
            String::from_utf8_lossy(&output.stdout),
            String::from_utf8_lossy(&output.stderr),
        )),
        Ok(_) => Ok(began),
    }
}

/// Links a copy, so that what was compiled stays whole when the repository's `target/` is removed.
fn link(archive: &Path) -> Result<(), String> {
    let folder = PathBuf::from(variable("OUT_DIR")?);
    fs::copy(archive, folder.join("libscreen.a"))
        .map_err(|error| format!("cannot copy {}: {error}", archive.display()))?;
    println!("cargo::rustc-link-search=native={}", folder.display());
    println!("cargo::rustc-link-lib=static=screen");
    Ok(())
}

fn repository_root() -> Result<PathBuf, String> {
    let here = PathBuf::from(variable("CARGO_MANIFEST_DIR")?);
    let root = here.ancestors().nth(2).map(Path::to_path_buf);
    root.ok_or_else(|| format!("{} does not stand two levels below a repository", here.display()))
}

/// Makes the folder `out` in each crate before `rt` does: making it changes the crate's own folder.
fn make_out_folders(crates: &Path) -> io::Result<()> {
    for entry in fs::read_dir(crates)? {
        let folder = entry?.path();
        if folder.is_dir() {
            fs::create_dir_all(folder.join("out"))?;
        }
    }
    Ok(())
}

/// The latest time at which the file, or any file or folder below, was changed. What `rt` keeps in `out` is no source.
fn newest(path: &Path) -> io::Result<SystemTime> {
    let data = fs::metadata(path)?;
    let mut time = data.modified()?;
    if data.is_dir() {
        for entry in fs::read_dir(path)? {
            let entry = entry?;
            if entry.file_name() != "out" {
                time = time.max(newest(&entry.path())?);
            }
        }
    }
    Ok(time)
}

fn variable(name: &str) -> Result<String, String> {
    env::var(name).map_err(|_| format!("cargo did not set {name}"))
}
