//! The C header compiles without warnings as C11 and as C++17, the C example says what is written beside it, and the header's structs
//! are refused as their words are.

use std::fs;
use std::path::{Path, PathBuf};
use testkit::c::{Language, compile, include, output, root};

/// A folder of our own for what is compiled.
fn scratch() -> PathBuf {
    let folder = Path::new(env!("CARGO_TARGET_TMPDIR")).join("c");
    fs::create_dir_all(&folder).unwrap();
    folder
}

/// What a program prints is what is written beside it.
fn assert_says(source: &Path) {
    let said = output(source, env!("DRAWBEVEL_ARCHIVE"), &scratch());
    let expected = fs::read_to_string(source.with_extension("c.expected")).unwrap();
    assert_eq!(said, expected);
}

#[test]
fn the_header_compiles_as_c_and_as_cpp() {
    let source = scratch().join("empty.c");
    fs::write(&source, "#include <drawbevel.h>\nextern int unused;\n").unwrap();
    for language in [Language::C, Language::Cpp] {
        for compiler in language.compilers() {
            compile(compiler, language, &include(), &source, &["-fsyntax-only"]);
        }
    }
}

#[test]
fn the_example_says_what_is_expected() {
    assert_says(&root().join("examples/session.c"));
}

#[test]
fn typed_structs_with_fields_too_wide_are_refused() {
    assert_says(&root().join("rust/drawbevel/tests/typed.c"));
}
