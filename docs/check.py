#!/usr/bin/env python3
"""Checks that the pages say what is there.

    docs/check.py             all of the below
    docs/check.py believed    the table of what is believed is what the headline's definition imports, with its lengths
    docs/check.py clauses     each clause, law, test and field that a table of docs/PROMISES.md names exists
    docs/check.py links       each link and each path of a crate's file leads somewhere; MAP.md has each crate and each file of definitions
    docs/check.py cases       a program of tests is given each file of cases, and its copies of the examples are as they are in examples/
    docs/check.py commands    each command of a page, run with the built program, prints what the page shows
    docs/check.py editors     what editors and shells are told are the words of the language and the commands
    docs/check.py faults      each wrong design and each wrong definitions of the tables of LANGUAGE.md have the fault that is told there

A command is a line that begins with `$ ` in a block marked `console`; the lines after it are all that it prints on the standard output (a last
line feed that is not printed is not missed). The
commands of one page run one after another, in one shell and in one new directory, which has `cocoon`, `tools` and a copy of `examples`.
It prints a line for each thing that is wrong, and ends with status 1 if there is one.
"""

import itertools
import json
import pathlib
import re
import shutil
import subprocess
import sys
import tempfile

TOP = pathlib.Path(__file__).resolve().parent.parent
CRATES = TOP / "crates"
PROMISES = TOP / "docs" / "PROMISES.md"
HEADLINE = ("cocoon_cli", "Headline")
# What every promise of a call stands on: its cause, and the one outcome of the files.
CAUSES = ("cocoon_cli", "Run")
# The most lines of definitions that a reader has to believe, without comments, blank lines and imports.
MOST_BELIEVED = 2500


def crate_names():
    lines = (TOP / "crates.txt").read_text().splitlines()
    return [line.split(":")[0].split()[0] for line in lines if ":" in line and not line.startswith("#")]


def pages():
    return [TOP / "README.md", *sorted((TOP / "docs").glob("*.md")), *sorted((TOP / "examples").rglob("*.md")), *sorted((TOP / "editors").glob("*.md")), *sorted((TOP / "tools").glob("*.md"))]


def said(page):
    return page.relative_to(TOP)


# ---- what is believed

IMPORT = re.compile(r"^(?:pub )?use Rattle\.(\w+)\.specs\.([\w.]+?)(?:\.\{| as |$)", re.M)


def file_of(crate, module):
    return CRATES / crate / "specs" / (module.replace(".", "/") + ".antt")


def home(crate, module):
    """The crate in which a file of definitions stands that this one may hand on from another."""
    if file_of(crate, module).exists():
        return crate
    return next(other for other, name in IMPORT.findall((CRATES / crate / "specs" / "Lib.antt").read_text()) if name == module)


def imports(crate, module):
    """The files of definitions that one imports, of this repository's crates. What a crate's code declares is no such file."""
    for other, name in IMPORT.findall(file_of(crate, module).read_text()):
        if (CRATES / other).is_dir() and not name.startswith("declared"):
            yield home(other, name), name


def closure(first):
    """The files that a definition stands on, with its own."""
    found, left = set(), [first]
    while left:
        one = left.pop()
        if one not in found:
            found.add(one)
            left += imports(*one)
    return found


def weight(path):
    """The lines of a file that are no comment, no import and not blank."""
    lines = (line.strip() for line in path.read_text().splitlines())
    return sum(1 for line in lines if line and not line.startswith(("--", "use ", "pub mod ")))


def opening(path):
    """The comment that a file begins with."""
    return "".join(itertools.takewhile(lambda line: line.startswith("--"), path.open()))


def check_believed():
    text = PROMISES.read_text()
    section = re.search(r"^## What is believed$(.*?)(?=^## |\Z)", text, re.M | re.S)
    if not section:
        return ["docs/PROMISES.md has no section `What is believed`"]
    rows = re.findall(r"^\| `(\w+)/specs/([\w/]+)\.antt` \| (\d+) \|", section[1], re.M)
    listed = [(crate, name.replace("/", ".")) for crate, name, _ in rows]
    wrong = [f"docs/PROMISES.md: {c}/specs/{m}.antt is listed twice" for c, m in set(listed) if listed.count((c, m)) > 1]
    stands = closure(HEADLINE)
    wrong += [f"docs/PROMISES.md: {c}/specs/{m}.antt is not listed, and the headline stands on it" for c, m in sorted(stands - set(listed))]
    wrong += [f"docs/PROMISES.md: {c}/specs/{m}.antt is listed, and the headline does not stand on it" for c, m in sorted(set(listed) - stands)]
    for (crate, module), (_, _, length) in zip(listed, rows):
        if (crate, module) in stands and weight(file_of(crate, module)) != int(length):
            wrong.append(f"docs/PROMISES.md: {crate}/specs/{module}.antt has {weight(file_of(crate, module))} lines, and not {length}")
    total = sum(weight(file_of(*one)) for one in stands)
    if f"{len(stands)} files with {total:,} lines" not in section[1]:
        wrong.append(f"docs/PROMISES.md: `What is believed` does not say `{len(stands)} files with {total:,} lines`")
    if total > MOST_BELIEVED:
        wrong.append(f"the headline stands on {total:,} lines of definitions, and at most {MOST_BELIEVED:,} are to be believed")
    more = closure(CAUSES) - stands
    causes = f"{len(more)} more files with {sum(weight(file_of(*one)) for one in more):,} lines"
    if causes not in section[1]:
        wrong.append(f"docs/PROMISES.md: `What is believed` does not say `{causes}` of the causes of statuses")
    for path in sorted(CRATES.glob("*/specs/**/*.antt")):
        one = (path.relative_to(CRATES).parts[0], ".".join(path.relative_to(path.parents[len(path.relative_to(CRATES).parts) - 3]).with_suffix("").parts))
        if path.name != "Lib.antt" and one not in stands and "cite" not in opening(path).lower():
            wrong.append(f"{path.relative_to(TOP)}: the opening comment does not say which clauses cite it")
    return wrong


# ---- the clauses that pages name

FUNCTION = re.compile(r"^(?P<indent> *)(?:pub(?:\([^)]*\))? )?(?:const )?fn (?P<name>\w+)", re.M)
OWNER = re.compile(r"^(?:pub )?(?:impl(?:<[^>]*>)? (?:.* for )?(\w+)|trait (\w+))", re.M)
CLAUSE = re.compile(r"\b(ensures|requires)(?: (\w+))? \{")


def functions_of(crate):
    """The names of a crate's functions, each with the names of its clauses; `` is a clause without a name. A method stands under its
    own name, with the clauses of all methods of that name, and under `TYPE::NAME` with its own."""
    found = {}
    for path in sorted((CRATES / crate / "src").rglob("*.rt")):
        text = path.read_text()
        starts = [*FUNCTION.finditer(text)]
        for one, after in zip(starts, [*starts[1:], None]):
            part = text[one.start() : after.start() if after else len(text)]
            body = re.search(rf"^{one['indent']}\{{$", part, re.M)
            head = part[: body.start()] if body else part
            owners = [name for pair in OWNER.findall(text[: one.start()]) for name in pair if name] if one["indent"] else []
            for name in [one["name"], *(f"{owner}::{one['name']}" for owner in owners[-1:])]:
                found.setdefault(name, set()).update(CLAUSE.findall(head))
    return found


def types_of(crate):
    """The types, traits and modules of a crate's code, and the names of a type's conditions."""
    sources = "\n".join(path.read_text() for path in (CRATES / crate / "src").rglob("*.rt"))
    return set(re.findall(r"\b(?:struct|enum|trait|mod) (\w+)", sources)) | set(re.findall(r"^ +ghost (\w+):", sources, re.M))


def fields_of(crate):
    """The fields of the records of a crate's definitions."""
    texts = [path.read_text() for path in (CRATES / crate / "specs").rglob("*.antt")]
    return {name for text in texts for names in re.findall(r"^  (?:pub )?([\w ]+) : ", text, re.M) for name in names.split()}


class Names:
    """What the crates have, by name."""

    def __init__(self):
        self.functions = {crate: functions_of(crate) for crate in crate_names()}
        self.types = {crate: types_of(crate) for crate in crate_names()}
        self.fields = {crate: fields_of(crate) for crate in crate_names()}

    def has(self, crate, name):
        last = name.split("::")[-1]
        return last in self.functions[crate] or last in self.types[crate]

    def lacks_clause(self, crate, function, kind, clause):
        functions = self.functions[crate]
        name = function if function in functions else function.split("::")[-1]
        return (kind, clause) not in functions.get(name, set())


def wrong_in_cell(cell, crate, names):
    """What one cell of a column `Clause` names that is not there. Its pieces are parted by `;`: functions, `:`, and their clauses, or their
    conditions; `field` and `fields` come before names of fields, and `(its clause)` after a function with a clause without a name."""
    functions = []
    for piece in cell.split(";"):
        owners = [name for name in re.findall(r"\bof `(\w+)`", piece) if name in names.functions]
        home = owners[-1] if owners else crate
        is_condition = re.match(r"\s*conditions?\b", piece)
        asks = is_condition or re.search(r":\s*conditions?\b", piece)
        named, fields = [*re.split(r"\bfields? (?=`)", re.sub(r" of `\w+`", "", piece), maxsplit=1), ""][:2]
        head, _, tail = ("", ":", named) if is_condition else re.sub(r"\(.*", "", named).replace("` :", "`:").partition("`:")
        functions = functions if is_condition else re.findall(r"`([\w:]+)", head)
        unnamed = [""] if re.search(r"(its|their) clause", piece) else []
        yield from (f"`{it}` is nothing of {home}" for it in functions if not names.has(home, it))
        yield from (f"`{it}` is no field of {home}" for it in re.findall(r"`(\w+)`", fields) if it not in names.fields[home])
        for clause in re.findall(r"`(\w+)`", tail) + unnamed:
            kind = "requires" if asks else "ensures"
            yield from (f"`{it}` has no clause `{clause}`" for it in functions if names.lacks_clause(home, it, kind, clause))


def check_clauses():
    names, wrong, crate, column = Names(), [], "", None
    for number, line in enumerate(PROMISES.read_text().splitlines(), 1):
        if line.startswith("## "):
            last = line.split(": ")[-1].strip("`")
            crate, column = last if last in names.functions else "cocoon_cli", None
        cells = [cell.strip("| ") for cell in line.split(" | ")]
        if not line.startswith("|"):
            column = None
        elif column is None:
            column = cells.index("Clause") if "Clause" in cells else -1
        elif 0 <= column < len(cells):
            wrong += [f"docs/PROMISES.md:{number}: {it}" for it in wrong_in_cell(cells[column], crate, names)]
    return wrong


# ---- links, paths and the map

LINK = re.compile(r"\]\(([^)\s]+)\)")
PATH = re.compile(r"`(\w+/(?:src|specs|proofs|must-fail)/[\w/+.-]+)`")


def anchors(page):
    heads = re.findall(r"^#+ (.*)$", page.read_text(), re.M)
    return {re.sub(r"[^\w\- ]", "", head.lower()).replace(" ", "-") for head in heads}


def is_there(path):
    """Whether there is this file of a crate; NAME stands for any."""
    return "NAME" in path or (CRATES / path).exists()


def check_links():
    wrong = []
    for page in pages():
        for number, line in enumerate(page.read_text().splitlines(), 1):
            for link in LINK.findall(line):
                target, _, anchor = link.partition("#")
                to = (page.parent / target).resolve() if target else page
                if "://" not in link and (not to.exists() or anchor and anchor not in anchors(to)):
                    wrong.append(f"{said(page)}:{number}: the link {link} leads nowhere")
            wrong += [f"{said(page)}:{number}: there is no {path}" for path in PATH.findall(line) if not is_there(path)]
    return wrong + check_map()


def check_map():
    """The map has a row for each crate, which names each of its files of definitions."""
    rows = {}
    for crate, row in re.findall(r"^\| `(\w+)` \| (.*) \|$", (TOP / "docs" / "MAP.md").read_text(), re.M):
        rows[crate] = rows.get(crate, "") + row
    wrong = [f"docs/MAP.md has no row of {crate}" for crate in crate_names() if crate not in rows]
    costs = re.findall(r"^\| `(\w+)` \| [\d,]+ \| \d+ \|", (TOP / "docs" / "BENCH.md").read_text(), re.M)
    wrong += [f"docs/BENCH.md does not say what {crate} costs" for crate in crate_names() if crate not in costs]
    for path in sorted(CRATES.glob("*/specs/**/*.antt")):
        crate = path.relative_to(CRATES).parts[0]
        if path.stem != "Lib" and f"`{path.stem}`" not in rows.get(crate, ""):
            wrong.append(f"docs/MAP.md: the row of {crate} does not name `{path.stem}`")
    return wrong


# ---- cases


def check_cases():
    wrong = []
    for args in sorted(CRATES.glob("*/args")):
        words, data = args.read_text().split(), args.parent / "data"
        for path in [*data.glob("*.cases"), *data.glob("*.txt")]:
            if path.name not in words:
                wrong.append(f"{args.relative_to(TOP)} does not name {path.name}")
    for example in sorted((TOP / "examples").glob("*.*")):
        for path in CRATES.glob(f"*/data/{example.name}"):
            if example.suffix in (".ccn", ".defs") and path.read_bytes() != example.read_bytes():
                wrong.append(f"{path.relative_to(TOP)} is not as {example.relative_to(TOP)}")
    return wrong


# ---- the commands that pages show


def commands_of(page):
    """The commands of a page: the line of each, the command, and what it prints."""
    found, inside = [], False
    for number, line in enumerate(page.read_text().splitlines(), 1):
        if line.startswith("```"):
            inside = line.strip() == "```console"
        elif inside and line.startswith("$ "):
            found.append((number, line[2:], []))
        elif inside and found:
            found[-1][2].append(line + "\n")
    return [(number, command, "".join(printed)) for number, command, printed in found]


MARK = "-- the command above has ended --"


def check_page(page):
    commands = commands_of(page)
    if not commands:
        return []
    with tempfile.TemporaryDirectory() as room:
        for name in ("cocoon", "tools"):
            (pathlib.Path(room) / name).symlink_to(TOP / name)
        shutil.copytree(TOP / "examples", pathlib.Path(room) / "examples")
        # each command finds the status of the one before it in $?
        script = "".join(f"(exit $status); {command}\nstatus=$?; echo '{MARK}'\n" for _, command, _ in commands)
        ran = subprocess.run(["sh", "-c", f"status=0\n{script}"], cwd=room, stdin=subprocess.DEVNULL, stdout=subprocess.PIPE, text=True)
    printed = ran.stdout.split(f"{MARK}\n")
    wrong = []
    for (number, command, wanted), got in zip(commands, [*printed, *[""] * len(commands)]):
        got += "" if not got or got.endswith("\n") else "\n"
        if got != wanted:
            wrong.append(f"{said(page)}:{number}: `{command}` prints\n{got}and not\n{wanted}")
    return wrong


def check_commands():
    # built first, so that no page's first command builds it
    subprocess.run([TOP / "cocoon"], stdin=subprocess.DEVNULL, stdout=subprocess.DEVNULL, check=False)
    return [wrong for page in pages() for wrong in check_page(page)]


# ---- the faults that tables show

LANGUAGE = TOP / "docs" / "LANGUAGE.md"


def rows_of(page, *head):
    """The rows of the table of a page that has this head, cell by cell."""
    text = page.read_text()
    table = text[text.index(f"| {' | '.join(head)} |") :].splitlines()
    rows = [*itertools.takewhile(lambda line: line.startswith("|"), table)][2:]
    return [[cell.strip().replace("\\|", "|") for cell in re.split(r"(?<!\\)\|", row)[1:-1]] for row in rows]


def with_edits(lines, edits):
    """A design by its lines, with what a cell says: `line 3: ..`, `without line 9`, or `.. before line 28`. Indentation is kept."""
    new = list(lines)
    for number, text in re.findall(r"line (\d+): `([^`]*)`", edits):
        old = new[int(number) - 1]
        new[int(number) - 1] = old[: len(old) - len(old.lstrip())] + text
    for text, number in re.findall(r"`([^`]*)` before line (\d+)", edits):
        new.insert(int(number) - 1, f"  {text}")
    for number in re.findall(r"without line (\d+)", edits):
        del new[int(number) - 1]
    return "\n".join(new)


def compiled(design, definitions):
    """What `compile` prints of two texts, which stand in files of the names DESIGN and DEFS."""
    with tempfile.TemporaryDirectory() as room:
        (pathlib.Path(room) / "DESIGN").write_text(design)
        (pathlib.Path(room) / "DEFS").write_text(definitions)
        words = [TOP / "cocoon", "compile", "DESIGN", "DEFS", "out"]
        return subprocess.run(words, cwd=room, stdin=subprocess.DEVNULL, stdout=subprocess.PIPE, text=True).stdout.strip()


def check_faults():
    lines = (TOP / "examples" / "m.ccn").read_text().splitlines()
    definitions = (TOP / "examples" / "m.defs").read_text()
    tried = [
        (rule, f"language DESIGN {at} {rule.strip('`')}", compiled(with_edits(lines, edits), definitions))
        for rule, edits, at in rows_of(LANGUAGE, "Rule", "`m.ccn` with", "Told at")
    ]
    design = (TOP / "examples" / "f.ccn").read_text()
    tried += [
        (entries, f"definitions DEFS {fault.replace('`', '')}", compiled(design, entries.strip("`")))
        for entries, fault in rows_of(LANGUAGE, "Definitions", "Their first fault")
    ]
    return [f"{said(LANGUAGE)}: {what} is told as {got}, and not as {wanted}" for what, wanted, got in tried if got != wanted]


# ---- what editors know

EDITORS = TOP / "editors"


def check_editors():
    """The grammars have each reserved word, the completion each command of README.md, and the line of Vim stands in both places."""
    words = set(re.search(r"The reserved words are `([^`]*)`", LANGUAGE.read_text())[1].split())
    vim = (EDITORS / "vim" / "syntax" / "cocoon.vim").read_text()
    code = json.loads((EDITORS / "vscode" / "syntaxes" / "cocoon.tmLanguage.json").read_text())
    known = {
        "vim": {word for line in re.findall(r"^syntax keyword \w+ (.*)$", vim, re.M) for word in line.split()},
        "vscode": {word for one in code["patterns"] for list in re.findall(r"\\b\(?([a-z|]+)\)?\\b", one.get("match", "")) for word in list.split("|")},
    }
    wrong = [f"editors/{name}: other words than the reserved ones: {' '.join(sorted(has ^ words))}" for name, has in known.items() if has != words]
    commands = set(re.findall(r"^### (\w+)$", (TOP / "README.md").read_text(), re.M)) - {"Limits"}
    completed = set(re.search(r"compgen -W '([a-z ]+)'", (EDITORS / "bash" / "cocoon").read_text())[1].split())
    if commands != completed:
        wrong.append(f"editors/bash: other commands than those of README.md: {' '.join(sorted(commands ^ completed))}")
    line = re.search(r"errorformat=.*", (EDITORS / "vim" / "compiler" / "cocoon.vim").read_text())[0]
    if f"set {line}\n" not in (EDITORS / "README.md").read_text():
        wrong.append("editors/README.md has another errorformat than editors/vim")
    return wrong


CHECKS = {
    "believed": check_believed,
    "clauses": check_clauses,
    "links": check_links,
    "cases": check_cases,
    "commands": check_commands,
    "editors": check_editors,
    "faults": check_faults,
}


def main():
    asked = sys.argv[1:] or list(CHECKS)
    if not set(asked) <= set(CHECKS):
        sys.exit(__doc__)
    wrong = [line for name in asked for line in CHECKS[name]()]
    print("\n".join([*wrong, f"pages: {len(wrong)} wrong" if wrong else "pages: all is as they say"]))
    return 1 if wrong else 0


if __name__ == "__main__":
    sys.exit(main())
