//! The pages say nothing that isn't so, as far as that can be looked up: names, files, links, tables of crates and of wrong programs, the
//! script's example.

mod checks;
mod faults;
mod page;
mod references;
mod tree;

use checks::{
    crates_amiss, dead_ends, example_amiss, long_lines, unnamed, unproved, unruled, untabled,
};
use page::Page;
use references::missing;

type Check = fn(&Page) -> Vec<String>;

/// The checks of a page.
fn checks(name: &str) -> Vec<Check> {
    let mut checks: Vec<Check> = vec![dead_ends];
    match name {
        "README.md" => checks.extend([missing as Check, long_lines]),
        "docs/RULES.md" => checks.extend([missing as Check, unruled, long_lines]),
        "docs/PROOF.md" => checks.extend([missing as Check, untabled, unproved, unnamed]),
        "docs/ARCHITECTURE.md" => checks.extend([missing as Check, crates_amiss]),
        "docs/SCRIPT.md" => checks.extend([missing as Check, example_amiss, long_lines]),
        "docs/DECISIONS.md" => checks.push(missing),
        // They tell of what was.
        "docs/CHANGES.md" | "docs/PORT.md" | "docs/DESIGN-PASS.md" | "docs/LOOK-BACK.md" => {}
        _ => panic!("{name} has no checks"),
    }
    checks
}

fn findings(page: &Page) -> Vec<String> {
    let mut findings: Vec<_> = checks(&page.name)
        .iter()
        .flat_map(|check| check(page))
        .collect();
    findings.sort();
    findings.dedup();
    findings
}

#[test]
fn what_the_pages_name_is_there() {
    let findings: Vec<_> = Page::all().iter().flat_map(findings).collect();
    assert!(findings.is_empty(), "\n{}", findings.join("\n"));
}

/// Found on its own line, unless the page lacks something by it.
#[test]
fn every_faulty_page_is_found() {
    for fault in faults::ALL {
        let (name, _, to, named) = fault;
        let (page, line) = faults::faulty(*fault);
        let findings = findings(&page);
        let own = format!("{name}:{line}: ");
        let found = findings.iter().any(|finding| {
            finding.contains(named) && (finding.starts_with(&own) || finding.contains(" lacks "))
        });
        assert!(found, "{own}'{to}' isn't found, but {findings:?}");
    }
}
