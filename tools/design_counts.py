#!/usr/bin/env python3
"""Lists the places of docs/DESIGN-PASS.md, point by point: `tools/design_counts.py [COMMIT]`, of the working tree without a commit.

A hit is a place to look at. The page says which hits are none, and what became of the others.
"""

import collections
import os
import re
import subprocess
import sys

TOP = os.path.dirname(os.path.dirname(os.path.realpath(__file__)))
ABSENT = {"Refused", "Bad", "None", "NotHeld", "Stale", "Unfit", "NoConn", "Goes", "Nothing", "Free", "Fits", "Written"}


def git(*words):
    return subprocess.run(["git", *words], cwd=TOP, check=True, capture_output=True, text=True).stdout


def files(commit, pattern):
    """The files of a pattern, by their path, without comments."""
    names = git("ls-tree", "-r", "--name-only", commit) if commit else git("ls-files", "-co", "--exclude-standard")
    for name in sorted(n for n in names.split("\n") if re.fullmatch(pattern, n)):
        if commit:
            text = git("show", f"{commit}:{name}")
        elif os.path.exists(f"{TOP}/{name}"):
            text = open(f"{TOP}/{name}", encoding="utf-8").read()
        else:
            continue
        yield name, re.sub(r"//.*", "", text)


def parameters(rest):
    """Of a signature after its name: what stands in its first parentheses, and what stands after them."""
    start = rest.index("(")
    depth = 0
    for i in range(start, len(rest)):
        depth += {"(": 1, ")": -1}.get(rest[i], 0)
        if depth == 0:
            return rest[start + 1 : i], rest[i + 1 :]
    sys.exit(f"design_counts: no end of {rest}")


def functions(text):
    """The functions of a file: name, parameters, result, clauses, body."""
    lines = text.split("\n")
    for i, line in enumerate(lines):
        m = re.match(r"(\s*)(?:pub(?:\(crate\))? )?fn (\w+)", line)
        if not m:
            continue
        indent = m.group(1)
        top = next(k for k in range(i, len(lines)) if lines[k] == indent + "{" or re.match(r"(?!\s*(requires|ensures)\b).*[^=] \{$", lines[k]))
        end = next(k for k in range(top, len(lines)) if lines[k] == indent + "}")
        head = "\n".join(lines[i : top + 1])
        clauses = re.search(r"\n\s*(?:requires|ensures).*", head, re.S)
        signature = head[: clauses.start()] if clauses else head
        params, result = parameters(signature[m.end() :])
        yield m.group(2), params, result, clauses.group(0) if clauses else "", "\n".join(lines[top + 1 : end])


def shape(body):
    """A body without its names and numbers."""
    body = re.sub(r"\b\d\w*", "0", re.sub(r"\"(\\.|[^\"])*\"", "0", body))
    return re.sub(r"\s+", " ", re.sub(r"\b(?!if|else|match|while|for|let|mut|return)[A-Za-z_]\w*(::\w+)*", "x", body)).strip()


def show(title, rows):
    print(f"{title}: {len(rows)}")
    for row in rows:
        print(f"    {row}")


def main():
    commit = sys.argv[1] if len(sys.argv) > 1 else None
    enums, flags, codes, loops, casts, steps, tables = [], [], [], [], [], [], []
    shapes, clauses, pairs = collections.defaultdict(list), collections.defaultdict(set), collections.defaultdict(set)
    bearers = collections.defaultdict(set)
    for name, text in files(commit, r"crates/\w+/src/.*\.rt"):
        crate = name.split("/")[1]
        for m in re.finditer(r"\benum (\w+) \{\n(.*?)\n\s*\}", text, re.S):
            variants = re.findall(r"^\s*(\w+)\s*(\(|,| \{)", m.group(2), re.M)
            if ABSENT & {v for v, _ in variants} and any(mark != "," for _, mark in variants):
                enums.append(f"{crate}::{m.group(1)}")
        for m in re.finditer(r"\bstruct (\w+) \{\n(.*?)\n\}", text, re.S):
            if re.search(r"^\s*(pub )?ok: bool", m.group(2), re.M):
                flags.append(f"{crate}::{m.group(1)}")
        codes += [f"{crate}: {m.group(0)}" for m in re.finditer(r"const (?:FIELD|SNACK|NO_CONN|CLOSED): u32 = \d+", text)]
        tables += [f"{crate}: {m.group(1)}" for m in re.finditer(r"const (\w+): \[", text)]
        for fn, params, result, head, body in functions(text):
            at = f"{crate}::{fn}"
            if re.search(r"-> (u8|u16|u32|usize)\b", result) and re.search(r"refusal|^status_of$|^key_of$", fn):
                codes.append(at)
            if "Refused(u32)" in text and "make" == fn:
                codes += [f"{crate}: Refused(u32)"] * text.count("Refused(u32)")
            loops += [at] * len(re.findall(r"^\s*(?:while|loop)\b", body, re.M))
            if len(shape(body)) >= 40:
                shapes[shape(body)].append(at)
            if re.fullmatch(r"\s*(if \w+(\.\w+)? \{ 1 \} else \{ 0 \}|\w+(\.\w+)? as u\w+|\(\w+ % \w+\) as u\w+)\s*", body) or (
                re.search(r"match \w+ \{", body) and len(re.findall(r"=> \w+,?$", body, re.M)) >= 8
            ):
                casts.append(at)
            if len(re.findall(r"^\s*(?:0x\w+|\d+) => [\w:]+(?:\(\w+)?\(", body, re.M)) >= 3:
                steps.append(at)
            for clause in re.findall(r"requires \{ (.*?) \}\n", head, re.S):
                for part in re.split(r" × ", clause):
                    clauses[re.sub(r"[()]", "", part).strip()].add(at)
            given = [p.strip() for p in re.split(r",(?![^\[]*\])", params) if p.strip()]
            if crate != "capi" and not crate.endswith("_words"):
                for a, b in zip(given, given[1:]):
                    pairs[a, b].add(at)
                for p in given:
                    bearers[p.replace("&mut ", "&")].add(at)
    show("1 own enums with a variant for a refusal or for nothing beside a value", enums)
    show("1 a flag ok beside the values that it is about", flags)
    show("1 numbers for refusals, statuses, or a key that there is not", codes)
    show("2 functions of one shape", [" ~ ".join(v) for v in shapes.values() if len(v) > 1])
    show("3 while and loop", loops)
    show("4 conversions by hand", casts)
    show("5 clauses asked for by three functions or more", [f"{len(v)} {k}" for k, v in sorted(clauses.items()) if len(v) > 2])
    together = {k: v for k, v in pairs.items() if len(v) > 2}
    show("5 parameters side by side in three functions or more", [f"{len(v)} {a}, {b}" for (a, b), v in sorted(together.items())])
    always = [(a, b) for a, b in together if bearers[a.replace("&mut ", "&")] == bearers[b.replace("&mut ", "&")]]
    show("5 of these, where neither ever comes without the other", [f"{a}, {b}" for a, b in sorted(always)])
    show("6 tables", tables)
    show("7 matches of a number that choose a function", steps)
    answers = sum(len(re.findall(r"^pub ", text, re.M)) for _, text in files(commit, r"crates/\w+/proofs/.*/Answers\.antt"))
    lines = sum(text.count("\n") for _, text in files(commit, r"crates/\w+/proofs/.*\.antt"))
    print(f"8 answers: {answers}\n8 lines of proofs: {lines}")


main()
