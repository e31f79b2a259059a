//! Faulty pages: one text replaced by another. Each must be found.

use crate::page::Page;

/// A fault: its page, the text that occurs once there, what stands in its place, and what the finding names.
pub type Fault = (&'static str, &'static str, &'static str, &'static str);

/// Every fault. None of the names is in the tree, or none where the page then says.
pub const ALL: &[Fault] = &[
    // ---- RULES.md: after a file; further in its list; in parentheses after it; before it; without one; of another section's file
    (
        "docs/RULES.md",
        "`keys/specs/Judge`: `initiator_name`",
        "`keys/specs/Judge`: `initiator_nam`",
        "initiator_nam`",
    ),
    (
        "docs/RULES.md",
        "`Refuses`, `Breaks`).",
        "`Refuses`, `Break`).",
        "`Break`",
    ),
    (
        "docs/RULES.md",
        "`ledger/specs/Book` (`sending`",
        "`ledger/specs/Book` (`book_step`",
        "`book_step`",
    ),
    ("docs/RULES.md", "`starred` in", "`starry` in", "`starry`"),
    (
        "docs/RULES.md",
        "(`stated_length`)",
        "(`stated_lengths`)",
        "`stated_lengths`",
    ),
    (
        "docs/RULES.md",
        "| `balance` |",
        "| `balanced` |",
        "`balanced`",
    ),
    (
        "docs/RULES.md",
        "(`run_at`)",
        "(`judge_key`)",
        "`judge_key`",
    ),
    // A must-fail edit bears this name, no definition.
    (
        "docs/RULES.md",
        "(`run_at`)",
        "(`take_empty`)",
        "`take_empty`",
    ),
    (
        "docs/RULES.md",
        "`book/specs/Effects`",
        "`book/specs/Effect`",
        "`book/specs/Effect`",
    ),
    (
        "docs/RULES.md",
        "(`response_writer/header_fixed`)",
        "(`response_writer/header_broken`)",
        "`response_writer/header_broken`",
    ),
    (
        "docs/RULES.md",
        "`place_map::gapless`",
        "`place_map::gap`",
        "`place_map::gap`",
    ),
    (
        "docs/RULES.md",
        "`key_table/src/table.rt`",
        "`key_table/src/tables.rt`",
        "tables.rt",
    ),
    (
        "docs/RULES.md",
        "[checks](#checks)",
        "[checks](#check)",
        "#check",
    ),
    (
        "docs/RULES.md",
        "A header has 48 bytes.",
        "A header has 48 bytes, and a line as long as this one, which says what the next line says in its own words, is longer than a line of the page.",
        "characters",
    ),
    // ---- PROOF.md: a theorem, a record, a file of a folder, edits with and without their crate, functions, a crate that is not named
    (
        "docs/PROOF.md",
        "| `stays` in `crates/session/proofs/Tied.antt`",
        "| `stay` in `crates/session/proofs/Tied.antt`",
        "`stay`",
    ),
    (
        "docs/PROOF.md",
        "`spoken-words`, `refusals-leave` in",
        "`spoken-word`, `refusals-leave` in",
        "`spoken-word`",
    ),
    (
        "docs/PROOF.md",
        "the record `Demand2` in",
        "the record `Demand3` in",
        "`Demand3`",
    ),
    (
        "docs/PROOF.md",
        "`login_book/specs`: `Demand`, `Rules`, `Events`",
        "`login_book/specs`: `Demand`, `Rule`, `Events`",
        "`Rule`",
    ),
    (
        "docs/PROOF.md",
        "`request_pdu/data_pad`",
        "`request_pdu/data_pads`",
        "`request_pdu/data_pads`",
    ),
    (
        "docs/PROOF.md",
        "`weak_refusal`",
        "`weak_refusals`",
        "`weak_refusals`",
    ),
    (
        "docs/PROOF.md",
        "(also `login/closed`",
        "(also `closed`",
        "`closed`",
    ),
    (
        "docs/PROOF.md",
        "`any_target`",
        "`no_target`",
        "`no_target`",
    ),
    (
        "docs/PROOF.md",
        "`book/notion_*`",
        "`book/motion_*`",
        "`book/motion_*`",
    ),
    (
        "docs/PROOF.md",
        "`session_questions::holder`",
        "`session::holder`",
        "`session::holder`",
    ),
    (
        "docs/PROOF.md",
        "`field::be`, `put`",
        "`field::be`, `puts`",
        "`puts`",
    ),
    (
        "docs/PROOF.md",
        "| `request_rules` |",
        "| `request_rule` |",
        "`request_rule`",
    ),
    (
        "docs/PROOF.md",
        "`session_snack/level_zero_snack`",
        "`session_statuses/level_zero`",
        "session_snack",
    ),
    (
        "docs/PROOF.md",
        "everything equals `login_step`",
        "everything equals `login_steps`",
        "`login_steps`",
    ),
    // ---- ARCHITECTURE.md: a file beside another, a crate that isn't there, one that lacks, one twice, a path
    (
        "docs/ARCHITECTURE.md",
        "`FieldRules.antt`",
        "`Layouts.antt`",
        "`Layouts.antt`",
    ),
    (
        "docs/ARCHITECTURE.md",
        "| `store` |",
        "| `stores` |",
        "store",
    ),
    ("docs/ARCHITECTURE.md", "| `words` |", "| |", "words"),
    (
        "docs/ARCHITECTURE.md",
        "| `print` |",
        "| `print`, `capi` |",
        "`capi`",
    ),
    (
        "docs/ARCHITECTURE.md",
        "`rust/drawbevel/tests/header`",
        "`rust/drawbevel/tests/untyped.c`",
        "untyped.c",
    ),
    // ---- SCRIPT.md: an answer, one that lacks, links
    (
        "docs/SCRIPT.md",
        "    held 0x00000007 0",
        "    held 0x00000008 0",
        "0x00000007",
    ),
    ("docs/SCRIPT.md", "    refused 7\n", "", "refused 7"),
    (
        "docs/SCRIPT.md",
        "[the rules](RULES.md)",
        "[the rules](RULE.md)",
        "RULE.md",
    ),
    (
        "docs/SCRIPT.md",
        "(RULES.md#known-peers)",
        "(RULES.md#peers)",
        "#peers",
    ),
    (
        "docs/SCRIPT.md",
        "`player.rs`",
        "`players.rs`",
        "`players.rs`",
    ),
    // ---- other pages
    (
        "README.md",
        "(`rust/model`)",
        "(`rust/models`)",
        "rust/models",
    ),
    ("README.md", "`bash .ci/run`", "`bash .ci/ran`", ".ci/ran"),
];

/// The page with a fault, and the fault's line.
pub fn faulty((name, from, to, _): Fault) -> (Page, usize) {
    let page = Page::read(name);
    let count = page.text.matches(from).count();
    assert_eq!(count, 1, "{name}: {count} times: {from}");
    let before = page.text.split(from).next().unwrap();
    let line = before.matches('\n').count() + 1;
    let text = page.text.replace(from, to);
    (Page { text, ..page }, line)
}
