#!/usr/bin/env python3
"""Brings the repository's own definitions, constructors and labels to the spelling of today's Rattle.

usage: python3 tools/spell_names.py        once, at the top, right after port.py

Definitions and constructors in lower camel case, as `beAt`, become snake case, as `be_at`; so do labels of records, whose dashes
become `_`. Types and facts have capitals already. Functions of src/, variants, exported C names and strings keep their names.
A definition whose new name a parameter, a field or a variable has already gets another (EXCEPT). A file specs/Contracts.antt
becomes specs/Promises.antt, since Rattle makes a module specs.contracts.
"""

import os
import re
import subprocess

# New names that would fall together with a field, a parameter or a lemma's variable.
EXCEPT = {
    "anyDataIn": "any_data_in_of",
    "cmdSN": "cmd_sn_of",
    "expCmdSN": "exp_cmd_sn_of",
    "expDataSN": "exp_data_sn_of",
    "maxCmdSN": "max_cmd_sn_of",
    "statSN": "stat_sn_of",
    "isOpen": "is_open_at",
    "maxData": "max_data_length",
    "tooLong": "is_too_long",
    "countHeld": "held_count",
    "leftBy": "left_after",
    "goesOn": "stage_goes_on",
    "runStep": "step_of_run",
    "isNumbered": "is_numbered_pdu",
}

# Names that are declared inside a module, and constructors that share a line, by crate.
INNER = {
    "login_book": ["keysAfter", "keysThen", "textThen", "stepBy"],
    "header_tables": [
        "nopOut",
        "scsiCommand",
        "taskManagement",
        "nopIn",
        "scsiResponse",
        "taskManagementResponse",
        "loginResponse",
        "logoutResponse",
    ],
}

DECLARED = re.compile(r"(?m)^(?:abbrev |unfoldable |pub |open )*([^\s:(){}.,=]+)(?: \([^)]*\)| \{[^}]*\})* : ")
MEMBERS = re.compile(r"(?m)^(?:pub )?(record|data) \S+[^\n]*where\n((?:  .*\n?|\n|--.*\n)*)")
MEMBER = re.compile(r"(?m)^  (?:pub )?([^\s:(){}]+) :")
CAMEL = re.compile(r"[a-z0-9][A-Z]")
WORD = r"(?<![\w'\u00b7-])%s(?![\w'\u00b7-])"


def snake(name):
    name = name.replace("R2T", "R2t")
    name = re.sub(r"([a-z0-9])([A-Z])", r"\1_\2", name)
    return re.sub(r"([A-Z]+)([A-Z][a-z])", r"\1_\2", name).lower()


def files(ends):
    for folder, dirs, names in os.walk("crates"):
        dirs[:] = sorted(d for d in dirs if d != "out")
        for name in sorted(names):
            if name.endswith(ends):
                yield os.path.join(folder, name)


def read(path):
    with open(path, encoding="utf-8") as f:
        return f.read()


def main():
    names, labels = {}, {}
    for path in files((".antt",)):
        if len(path.split(os.sep)) > 4:
            continue  # the proof of one function
        text = read(path)
        found = DECLARED.findall(text)
        for kind, part in MEMBERS.findall(text):
            for member in MEMBER.findall(part):
                found.append(member)
                if "-" in member and kind == "record":
                    labels[member] = snake(member).replace("-", "_")
                elif "-" in member:
                    names[member] = snake(member).replace("-", "_")
        for name in found:
            if name[0].islower() and CAMEL.search(name):
                names[name] = EXCEPT.get(name, snake(name))
    assert set(EXCEPT) <= set(names), set(EXCEPT) - set(names)

    for path in sorted(p for p in files((".antt",)) if p.endswith("specs/Contracts.antt")):
        new = path.replace("Contracts.antt", "Promises.antt")
        assert not os.path.exists(new), new
        subprocess.run(["git", "mv", path, new], check=True)

    whole = re.compile(WORD % ("(" + "|".join(sorted(map(re.escape, names), key=len, reverse=True)) + ")"))
    label = "(" + "|".join(sorted(map(re.escape, labels), key=len, reverse=True)) + ")"
    end = r"(?![\w'\u00b7-])"
    # a label is declared, projected, or set in a record
    placed = re.compile(r"(?m)((?<=[\w')])\.|^  (?:pub )?(?=[^\s]+ : )|[{;] ?|^ +(?=[^\s]+ = ))" + label + end)
    for path in files((".antt", ".rt", ".edit")):
        text = read(path)
        new = whole.sub(lambda m: names[m.group(1)], text)
        for name in INNER.get(path.split(os.sep)[1], []):
            new = re.sub(WORD % name, snake(name), new)
        if not path.endswith(".rt"):
            new = placed.sub(lambda m: m.group(1) + labels[m.group(2)], new)
        if path == "crates/session_state/proofs/Steps.antt":
            new = re.sub(WORD % "is-open" + "|" + r"(?<=\w\.)is-open" + end, "is_open", new)
        new = re.sub(r"(Rattle\.\w+\.specs)\.Contracts\b", r"\1.Promises", new)
        if path.endswith("specs/Lib.antt"):
            new = re.sub(r"(?m)^((?:pub )?mod) Contracts$", r"\1 Promises", new)
        if path.endswith(".edit"):
            new = new.replace("file: specs/Contracts.antt", "file: specs/Promises.antt")
        if new != text:
            with open(path, "w", encoding="utf-8") as f:
                f.write(new)


main()
