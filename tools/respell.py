#!/usr/bin/env python3
"""Respells this repository's own words: definitions, lemmas, fields, constructors and bound names of specs/ and proofs/, and
where the clauses of src/ and the pages cite them. Words get snake case, what is a type gets upper camel case. Run once, at
the top, on a tree that still has the older spelling; names that the toolchain makes, the library's own and those of Rust
items keep theirs."""
import glob
import re
import sys

CRATES = "tariff|measure|recursion|ledger|stay|columns|pumpplan"
TOKEN = r"[A-Za-z_][\w'-]*"
DECLARED = re.compile(
    r"^\s*(?:(?:pattern|unfoldable|abbrev|pub)\s+)*(?:(?:record|data)\s+)?(" + TOKEN + r")\s*(?:\{[^}]*\}\s*)*(?:\([^)]*\)\s*)*:\s*(.*)$"
)

# where two names would fall together, or a type's name would be taken
CHOSEN = {
    "Runs-agree": "RunsAlwaysAgree",
    "last-slot": "at_last_slot",
    "all-within": "all_within_lem",
    "by-energy": "planned_by_energy",
    "top-after-first": "top_after_first_refuted",
    "peak-then-energy": "peak_then_energy_refuted",
    "top-throughout": "top_throughout_refuted",
    "plan-fits": "standing_fits",
    "booking-rules": "booking_rules_lem",
    "of-each": "of_each_lem",
    "of-all": "of_all_lem",
}


def snake(name):
    return re.sub(r"(?<=[a-z0-9])([A-Z])", lambda m: "_" + m.group(1).lower(), name.replace("-", "_"))


def camel(name):
    return "".join(part[:1].upper() + part[1:] for part in name.split("-"))


def is_old(name):
    return "-" in name or re.match(r"[a-z][\w']*[A-Z]", name)


def respelled(name):
    if name in CHOSEN:
        return CHOSEN[name]
    return camel(name) if name[0].isupper() else snake(name)


def antt_files():
    return sorted(glob.glob("crates/*/specs/**/*.antt", recursive=True) + glob.glob("crates/*/proofs/**/*.antt", recursive=True))


def own_names():
    own, imported = set(), {}
    for path in antt_files():
        for line in open(path):
            use = re.match(r"\s*(?:pub )?use (\S+?)\.\{(.*)\}", line)
            if use:
                if not re.match(r"Rattle\.(" + CRATES + r")\.", use.group(1)):
                    imported.setdefault(path, set()).update(n.strip().split(" as ")[0] for n in use.group(2).split(","))
                else:
                    own.update(n.strip().split(" as ")[1] for n in use.group(2).split(",") if " as " in n)
                continue
            m = DECLARED.match(line)
            if m and not re.match(r"(goal|need)\.", m.group(2)):
                own.add(m.group(1))
            for m in re.finditer(r"(?:let|λ)\s+(" + TOKEN + ")", line):
                own.add(m.group(1))
            for m in re.finditer(r"[({]((?:" + TOKEN + r"\s+)+):", line):
                own.update(m.group(1).split())
    for path in sorted(glob.glob("crates/*/src/**/*.rt", recursive=True)):
        for line in open(path):
            use = re.match(r"\s*ghost use (\S+?)\.\{(.*)\};", line)
            if use and " as " in use.group(2):
                own.update(n.strip().split(" as ")[1] for n in use.group(2).split(",") if " as " in n)
    return {n for n in own if is_old(n)}, imported


def respell(text, own, skip, prose=False):
    def one(m):
        before = text[max(0, m.start() - 8) : m.start()]
        name = m.group(0)
        if name not in own or name in skip or re.search(r"(goal|need)\.$", before):
            return name
        return respelled(name)

    if prose:
        return re.sub(r"`(" + TOKEN + ")`", lambda m: "`" + (respelled(m.group(1)) if m.group(1) in own else m.group(1)) + "`", text)
    return re.sub(TOKEN, one, text)


def main():
    own, imported = own_names()
    changed = 0
    paths = antt_files() + sorted(glob.glob("crates/*/src/**/*.rt", recursive=True)) + sorted(glob.glob("docs/*.md")) + ["README.md"]
    for path in paths:
        text = open(path).read()
        # an answer's own name is the toolchain's
        out = respell(text, own, imported.get(path, set()), prose=path.endswith(".md"))
        if path.endswith(".antt") or path.endswith(".rt"):
            # comments keep their words but for names in backticks
            lines = []
            for old, new in zip(text.split("\n"), out.split("\n")):
                mark = "--" if path.endswith(".antt") else "//"
                at = re.search(r"(^|\s)" + mark, old)
                if at:
                    head = respell(old[: at.start()], own, imported.get(path, set()))
                    tail = re.sub(r"`(" + TOKEN + ")`", lambda m: "`" + (respelled(m.group(1)) if m.group(1) in own else m.group(1)) + "`", old[at.start() :])
                    new = head + tail
                lines.append(new)
            out = "\n".join(lines)
        if out != text:
            open(path, "w").write(out)
            changed += 1
    print(f"{len(own)} names respelled in {changed} files")
    return 0


sys.exit(main())
