//! C programs over `drawbevel.h`, compiled with every warning an error.

use std::fs;
use std::path::{Path, PathBuf};
use std::process::Command;

/// The folder above the workspace.
pub fn root() -> PathBuf {
    Path::new(env!("CARGO_MANIFEST_DIR")).join("../..")
}

/// The folder of the header.
pub fn include() -> PathBuf {
    root().join("include")
}

/// What a source is compiled as.
#[derive(Clone, Copy, Debug, PartialEq, Eq)]
pub enum Language {
    /// C11.
    C,
    /// C++17.
    Cpp,
}

impl Language {
    /// The system's compiler.
    pub fn compiler(self) -> &'static str {
        match self {
            Language::C => "cc",
            Language::Cpp => "c++",
        }
    }

    /// The system's compiler, and those of gcc and clang that are there.
    pub fn compilers(self) -> Vec<&'static str> {
        let others = match self {
            Language::C => ["gcc", "clang"],
            Language::Cpp => ["g++", "clang++"],
        };
        let is_there = |name: &&str| Command::new(name).arg("--version").output().is_ok();
        let mut compilers = vec![self.compiler()];
        compilers.extend(others.into_iter().filter(is_there));
        compilers
    }

    fn arguments(self) -> [&'static str; 3] {
        match self {
            Language::C => ["-std=c11", "-x", "c"],
            Language::Cpp => ["-std=c++17", "-x", "c++"],
        }
    }
}

/// Compile a source with the header of a folder, by a compiler of its language; panics with what the compiler says. `arguments` come
/// after the source.
pub fn compile(
    compiler: &str,
    language: Language,
    include: &Path,
    source: &Path,
    arguments: &[&str],
) {
    let ran = Command::new(compiler)
        .args(["-Wall", "-Wextra", "-Wpedantic", "-Wshadow"])
        .args(["-Wconversion", "-Wsign-conversion", "-Werror", "-I"])
        .arg(include)
        .args(language.arguments())
        .arg(source)
        .args(["-x", "none"])
        .args(arguments)
        .output()
        .unwrap_or_else(|error| {
            panic!("cannot run {compiler}: {error}; install a C and a C++ compiler")
        });
    assert!(
        ran.status.success(),
        "{compiler}: {}",
        String::from_utf8_lossy(&ran.stderr)
    );
}

/// What a C11 program prints that is linked with an archive. It is compiled into `scratch`.
pub fn output(source: &Path, archive: &str, scratch: &Path) -> String {
    fs::create_dir_all(scratch).unwrap();
    let program = scratch.join(source.file_stem().expect("a file"));
    let program = program.to_str().unwrap();
    let language = Language::C;
    let arguments = [archive, "-o", program];
    compile(
        language.compiler(),
        language,
        &include(),
        source,
        &arguments,
    );
    let ran = Command::new(program).output().unwrap();
    assert!(ran.status.success());
    String::from_utf8(ran.stdout).unwrap()
}
