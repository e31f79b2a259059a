//! `include/drawbevel.h` under test: its inline functions, structs and constants, in C and in C++, as an engine against the model; and faulty
//! headers, each of which must be found.

mod checks;
mod data_checks;
mod declared;
mod faults;
mod record;
mod shim;

use difftest::{Area, Report, run, seed};
use model::Model;
use shim::Library;
use std::collections::BTreeSet;
use std::fs;
use std::path::{Path, PathBuf};
use std::sync::Mutex;
use std::sync::atomic::{AtomicUsize, Ordering};
use testkit::c::{Language, compile, include};
use testkit::traps;

const SEED: u64 = 64_000_001;

/// A folder of our own for what is compiled.
fn scratch(name: &str) -> PathBuf {
    let folder = Path::new(env!("CARGO_TARGET_TMPDIR"))
        .join("header")
        .join(name);
    fs::create_dir_all(&folder).unwrap();
    folder
}

fn header() -> String {
    fs::read_to_string(include().join("drawbevel.h")).unwrap()
}

fn library(language: Language) -> Library {
    let object = scratch(language.compiler()).join("shim.so");
    Library::compiled(language, &include(), &object)
}

/// The checks and traps, and a differential run of so many calls; panics at the first that is answered otherwise.
fn put_to_the_test(library: &Library, calls: usize) -> Report {
    for (_, check) in checks::ALL {
        check(library);
    }
    traps::run(|| library.engine());
    let engine = library.engine();
    run(Model::default(), engine, seed(SEED), calls, &Area::ALL).unwrap()
}

#[test]
fn the_header_in_c_answers_as_the_model() {
    let report = put_to_the_test(&library(Language::C), 210_000);
    report.coverage.assert_whole();
}

#[test]
fn the_header_in_cpp_answers_as_the_model() {
    put_to_the_test(&library(Language::Cpp), 42_000);
}

/// What is declared and not used by the shim isn't tested.
#[test]
fn the_shim_uses_all_that_the_header_declares() {
    let (header, shim) = (header(), include_str!("shim.c"));
    let used = declared::identifiers(shim);
    let mut wanted = declared::constants(&header);
    wanted.extend(declared::functions(&header));
    assert!(wanted.contains("DRAWBEVEL_HELD") && wanted.contains("drawbevel_login_refused"));
    let missing: Vec<_> = wanted.difference(&used).collect();
    assert!(missing.is_empty(), "not in shim.c: {missing:?}");
    let past = |word: &&String| word.starts_with("drawbevel_core_");
    assert_eq!(used.iter().find(past), None, "shim.c goes past the header");
}

/// The shim names a field with the member of a PDU's union that has it, or with a variable that is called as its struct is.
#[test]
fn the_shim_uses_every_field() {
    let structs = declared::structs(&header());
    let used = declared::members(include_str!("shim.c"));
    let is_struct = |kind: &str| kind.starts_with("drawbevel_");
    let of_unions: Vec<_> = structs
        .iter()
        .flat_map(|each| &each.fields)
        .filter(|(kind, _)| is_struct(kind))
        .collect();
    let mut wanted = BTreeSet::new();
    for each in &structs {
        let member = of_unions.iter().find(|(kind, _)| *kind == each.name);
        let owner = match member {
            Some((_, member)) => member,
            None => each.name.trim_start_matches("drawbevel_"),
        };
        let own = each.fields.iter().filter(|(kind, _)| !is_struct(kind));
        wanted.extend(own.map(|(_, field)| (owner.to_owned(), field.to_owned())));
    }
    for (owner, field) in [
        ("login", "cid"),
        ("reject", "reason"),
        ("held", "ticket"),
        ("task", "ends"),
        ("came", "open"),
    ] {
        let known = (owner.to_owned(), field.to_owned());
        assert!(wanted.contains(&known), "{known:?} wasn't seen");
    }
    let missing: Vec<_> = wanted.difference(&used).collect();
    assert!(missing.is_empty(), "not in shim.c: {missing:?}");
}

/// In C++ a struct is named without `struct`, unless a function of the same name hides it.
#[test]
fn cpp_names_every_struct() {
    let names: Vec<_> = declared::structs(&header())
        .into_iter()
        .map(|each| each.name)
        .collect();
    assert!(names.iter().any(|name| name == "drawbevel_login_request"));
    let mut program = String::from("#include <drawbevel.h>\n");
    for name in names {
        program += &format!("extern {name} *some_{name};\n");
    }
    let source = scratch("names").join("names.cpp");
    fs::write(&source, program).unwrap();
    let arguments = ["-fsyntax-only"];
    for compiler in Language::Cpp.compilers() {
        compile(compiler, Language::Cpp, &include(), &source, &arguments);
    }
}

#[test]
fn every_faulty_header_is_found() {
    let header = header();
    let right = scratch("right");
    assert_eq!(faults::finding(&header, &right), None);
    let (next, missed) = (AtomicUsize::new(0), Mutex::new(Vec::new()));
    let work = || {
        while let Some(fault) = faults::ALL.get(next.fetch_add(1, Ordering::Relaxed)) {
            let name = fault.0;
            let folder = scratch(&format!("fault {name}"));
            match faults::finding(&faults::faulty(&header, *fault), &folder) {
                Some(found) => eprintln!("{name}: {found}"),
                None => missed.lock().unwrap().push(name),
            }
        }
    };
    std::thread::scope(|scope| {
        scope.spawn(work);
        scope.spawn(work);
    });
    let missed = missed.into_inner().unwrap();
    assert!(missed.is_empty(), "not found: {missed:?}");
}
