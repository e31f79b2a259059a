//! Makes the proved static library, `target/staticlib/libcapi.a`, by `rt lib` in `crates/capi`, unless the one that stands there was made
//! of these very sources. `DRAWBEVEL_STATICLIB` names one to take as it is.

use std::hash::{DefaultHasher, Hasher};
use std::path::{Path, PathBuf};
use std::process::Command;
use std::{env, fs};

const ARCHIVE: &str = "libcapi.a";
/// The parts of a crate that are proved. What else its folder has, `out` above all, is read by no proof.
const PARTS: [&str; 3] = ["src", "specs", "proofs"];
/// Beside the archive: the digest of the sources that it was made of.
const SOURCES: &str = "libcapi.sources";

fn main() {
    println!("cargo::rerun-if-env-changed=DRAWBEVEL_STATICLIB");
    let root = Path::new(env!("CARGO_MANIFEST_DIR")).join("../..");
    let folder = match env::var_os("DRAWBEVEL_STATICLIB") {
        Some(archive) => {
            let archive = PathBuf::from(archive);
            println!("cargo::rerun-if-changed={}", archive.display());
            archive.parent().expect("a file").to_owned()
        }
        None => made(&root),
    };
    // The tests compile C programs against the same archive.
    println!(
        "cargo::rustc-env=DRAWBEVEL_ARCHIVE={}",
        folder.join(ARCHIVE).display()
    );
    println!("cargo::rustc-link-search=native={}", folder.display());
    println!("cargo::rustc-link-lib=static=capi");
}

/// The folder of an archive that is made of the sources as they stand.
fn made(root: &Path) -> PathBuf {
    let crates = root.join("crates");
    let list = root.join("crates.txt");
    let folder = root.join("target/staticlib");
    let archive = folder.join(ARCHIVE);
    let stamp = folder.join(SOURCES);
    let parts = parts_of(&crates);
    for file in [&list, &archive, &stamp] {
        println!("cargo::rerun-if-changed={}", file.display());
    }
    for part in &parts {
        // In place of a part that a crate doesn't have, its folder, in which the part may come.
        let folder = part.parent().expect("a crate's folder");
        let watched = if part.is_dir() { part } else { folder };
        println!("cargo::rerun-if-changed={}", watched.display());
    }
    let digest = digest_of(root, &list, &parts);
    let is_of_these = fs::read_to_string(&stamp).is_ok_and(|of| of == digest);
    if !(is_of_these && archive.exists()) {
        // An archive that fails to be made anew must not pass for one of these sources later.
        let _ = fs::remove_file(&stamp);
        prove(&crates.join("capi"), &archive);
        if let Err(error) = fs::write(&stamp, digest) {
            fail(&format!("cannot write {}: {error}", stamp.display()));
        }
    }
    folder
}

/// A digest of the list of crates and of the names and contents of all that is proved, not of what programs print or of edits that
/// must fail.
fn digest_of(root: &Path, list: &Path, parts: &[PathBuf]) -> String {
    let mut files = vec![list.to_owned()];
    for part in parts {
        sources(part, &mut files);
    }
    files.sort();
    let mut digest = DefaultHasher::new();
    for file in files {
        let content = fs::read(&file)
            .unwrap_or_else(|error| fail(&format!("cannot read {}: {error}", file.display())));
        let name = file.strip_prefix(root).unwrap_or(&file);
        digest.write(name.to_string_lossy().as_bytes());
        digest.write_usize(content.len());
        digest.write(&content);
    }
    format!("{:016x}\n", digest.finish())
}

/// The folders of every crate that are proved, also where there is none.
fn parts_of(crates: &Path) -> Vec<PathBuf> {
    let entries = fs::read_dir(crates)
        .unwrap_or_else(|error| fail(&format!("cannot read {}: {error}", crates.display())));
    let folders = entries.flatten().map(|entry| entry.path());
    let parts = folders.flat_map(|folder| PARTS.map(|part| folder.join(part)));
    parts.collect()
}

fn sources(folder: &Path, files: &mut Vec<PathBuf>) {
    let Ok(entries) = fs::read_dir(folder) else {
        return;
    };
    for entry in entries.flatten() {
        let path = entry.path();
        let is_source = path
            .extension()
            .is_some_and(|kind| kind == "rt" || kind == "antt");
        if path.is_dir() {
            sources(&path, files);
        } else if is_source {
            files.push(path);
        }
    }
}

/// Has `rt lib` prove the crate in this folder and make its archive, which is copied to where it is wanted.
fn prove(capi: &Path, archive: &Path) {
    let outcome = Command::new("rt").arg("lib").current_dir(capi).status();
    match outcome {
        Ok(status) if status.success() => {}
        Ok(status) => fail(&format!(
            "'rt lib' failed in {} ({status}); run it by hand to see why",
            capi.display()
        )),
        Err(error) => fail(&format!(
            "cannot run 'rt' ({error}): install Rattle's kit and put rt on the PATH"
        )),
    }
    let made = capi.join("out").join(ARCHIVE);
    let folder = archive.parent().expect("a file");
    let copied = fs::create_dir_all(folder).and_then(|()| fs::copy(&made, archive));
    if let Err(error) = copied {
        fail(&format!(
            "cannot copy {} to {}: {error}",
            made.display(),
            archive.display()
        ));
    }
}

/// An error that cargo shows as such.
fn fail(text: &str) -> ! {
    println!("cargo::error={text}");
    std::process::exit(1)
}
