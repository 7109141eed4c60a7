#!/usr/bin/env python3
"""Holds docs/PROMISES.md and docs/promises/*.md against the sources; the last line is 'N passed, M failed'.

Every public function of a crate, a method of a public trait too, stands in the crate's row and in a table of its page, with the promise that its contract
cites; one with a `requires` stands among the exceptions; every function of a row exists. No `pub fn` or `pub trait` stands in a module without `pub`, and
every `pub(crate) fn` with a `requires` stands in the table of inner functions, with the files that call it. Files, promises, meanings, theorems, `unique`
and must-fail edits that are cited exist, and every edit is on a page. The header declares what is exported. In names S stands for either sign.

Of each public function's answer the column "One outcome" says what settles it: a law that is declared, or "an equation", which its contract then is; where
it says "open", the function stands among the exceptions. What a promise unfolds to stands in a Meaning file, or on the list of `laws` in docs/PROMISES.md;
and a name that a Meaning or Promise file defines is defined nowhere else."""

import re
import sys
from pathlib import Path

ROOT = Path(__file__).resolve().parent.parent
CRATES = ROOT / "crates"
INDEX = (ROOT / "docs/PROMISES.md").read_text()
PAGES = {page.stem: page.read_text() for page in sorted((ROOT / "docs/promises").glob("*.md"))}
FUNCTION = re.compile(r'^pub (?:extern "C" )?fn (\w+)(.*?)(?:^| )\{$', re.M | re.S)
CLAUSE = re.compile(r"\b(?:requires|ensures)\b[^{]*\{")
INNER = re.compile(r"^pub\(crate\) fn (\w+)(.*?)(?:^| )\{$", re.M | re.S)
IMPL = re.compile(r"^impl(?:<[^>]*>)? (\w+).*?^\}$", re.M | re.S)
METHOD = re.compile(r"^    pub fn (\w+)(.*?)(?:^    | )\{$", re.M | re.S)
TRAIT = re.compile(r"^pub trait (\w+).*?^\}$", re.M | re.S)
TRAIT_METHOD = re.compile(r"^    fn (\w+)(.*?)(?:;|(?:^    | )\{)$", re.M | re.S)
INNER_METHOD = re.compile(r"^    pub\(crate\) fn (\w+)(.*?)(?:^    | )\{$", re.M | re.S)
PATH = re.compile(r"(?<![\w/.])(?:(?:crates|oracle|docs|include|tests|bindings|specs|proofs|must-fail)/[\w./-]*\w|\w+\.antt)")
DECLARED = re.compile(r"^\s*(?:(?:pub|unfoldable|abbrev|opaque|record|data) +)*([^\s:]+)", re.M)
SIGNS = (("S(?=[A-Z])", "Signed", "Unsigned"), ("(?<=_)S(?![a-zA-Z])", "signed", "unsigned"), ("(?:^|(?<=-))S(?=-)", "signed", "unsigned"))
seen = []


def see(right, what):
    seen.append(None if right else what)


def spans(text):
    return re.findall(r"`([^`\n]+)`", text)


def spelled(name):
    """The names that a name with S in it stands for."""
    for mark, *signs in SIGNS:
        if re.search(mark, name):
            return [one for sign in signs for one in spelled(re.sub(mark, sign, name, count=1))]
    return [name]


def words(text):
    """Every name within backticks; a::b::c is also b::c."""
    found = {one for span in spans(text) for word in re.findall(r"[\w:-]+", span) for one in spelled(word)}
    return found | {one.split("::", 1)[1] for one in found if one.count("::") == 2}


def clauses(contract, kind):
    """The texts of the clauses of a kind, with a name or without; in a clause braces are in pairs."""
    found = []
    for start in [one.end() for one in CLAUSE.finditer(contract) if one[0].startswith(kind)]:
        depth, end = 1, start
        while depth:
            depth += {"{": 1, "}": -1}.get(contract[end], 0)
            end += 1
        found.append(contract[start : end - 1].strip())
    return found


def public(crate):
    """(module, name, contract) of each function that another crate, or C, can call."""
    lib = (crate / "src/lib.rt").read_text()
    files = [("", lib)] + [(name, (crate / f"src/{name}.rt").read_text()) for name in re.findall(r"^pub mod (\w+);", lib, re.M)]
    return [(module, *found) for module, text in files for found in FUNCTION.findall(text) + entries(text)]


def methods(text, kind=METHOD, blocks=IMPL):
    """(type or trait, name, contract) of each method of a file's types, or of its traits."""
    return [(block[1], name, contract) for block in blocks.finditer(text) for name, contract in kind.findall(block[0])]


def entries(text):
    """(name, contract) of each public method, whose name begins with its type's or its trait's; those of a public trait are public."""
    return [(f"{of}::{name}", contract) for of, name, contract in methods(text) + methods(text, TRAIT_METHOD, TRAIT)]


def named(module, name, where, text):
    """A function of the root or of C goes by its name, one of a sign also if the text names the module, and the others with their module."""
    alone = module == "" or module.startswith("c_") or (module in ("signed", "unsigned") and re.search(f"{module}::|::{module}`", text))
    return f"{module}::{name}" in words(where) or (alone and name in words(where))


def functions(crate, row):
    exceptions = INDEX.split("## Exceptions")[1]
    pages = "".join(PAGES.get(name, "") for name in re.findall(r"promises/(\w+)\.md", row))
    table = " ".join(cell for head, cell in cells(pages) if head in ("Function", "Export"))
    see(row, f"docs/PROMISES.md: no row for the crate {crate.name}")
    see(pages or not (crate / "specs/Promise.antt").exists(), f"docs/PROMISES.md: no page for the crate {crate.name}")
    for module, name, contract in public(crate):
        full = "::".join(filter(None, (crate.name, module, name)))
        see(named(module, name, row, row), f"docs/PROMISES.md: {full} is not in its row")
        ensures = " ".join(clauses(contract, "ensures"))
        promise = [one for one in re.findall(r"\b[A-Z]\w+", ensures) if one not in ("Signed", "Unsigned", "File", "Self")][:1]
        if "no promise" not in row and "mathematics only" not in row:
            see(named(module, name, table, pages), f"docs/promises: {full} is in no table of its page")
            see(not promise or promise[0] in words(pages), f"docs/promises: {full} promises {promise}, which is not on its page")
            see(ensures, f"crates/{crate.name}/src: {full} promises nothing, and its row does not say so")
        see("requires" not in contract or f"`{full}`" in exceptions, f"docs/PROMISES.md: {full} has a `requires` and is no exception")
    known = {one for module, name, _ in public(crate) for one in (name, f"{module}::{name}", f"{module}::")}
    for word in words(row.split("|")[2]) if row else []:
        see(word in known, f"docs/PROMISES.md: {word} is no public function of {crate.name}")
    for module in re.findall(r"^mod (\w+);", (crate / "src/lib.rt").read_text(), re.M):
        text = (crate / f"src/{module}.rt").read_text()
        public_ones = [name for name, _ in FUNCTION.findall(text) + entries(text)]
        see(not public_ones, f"crates/{crate.name}/src/{module}.rt: `pub fn` or `pub trait` in a module without `pub`: {public_ones}")


def inner():
    """The table of inner functions: a `pub(crate) fn` with a `requires`, a method too, and the other files of its crate that call it."""
    own, told = {}, {}
    for crate in sorted(lib.parent for lib in CRATES.glob("*/src/lib.rt")):
        files = {file.stem: re.sub(r"//.*", "", file.read_text()) for file in crate.glob("*.rt")}
        for module, name in [(module, name) for module in files for name, contract in INNER.findall(files[module]) if "requires" in contract]:
            own[f"{crate.parent.name}::{module}::{name}"] = sorted(other for other in files if re.search(rf"\b{module}::{name}\(", files[other]))
        for module, kind, name in [(module, kind, name) for module in files for kind, name, contract in methods(files[module], INNER_METHOD) if "requires" in contract]:
            own[f"{crate.parent.name}::{module}::{kind}::{name}"] = sorted(other for other in files if other != module and f".{name}(" in files[other])
    for module, names, callers in re.findall(r"^\| `(\w+::\w+)` \|(.*)\|(.*)\|$", INDEX.split("Other inner functions")[1], re.M):
        told |= {f"{module}::{name}": sorted(spans(callers)) for name in spans(names)}
    for full in sorted(own | told):
        see(told.get(full) == own.get(full), f"docs/PROMISES.md: inner function {full}: called from {own.get(full)}, the table says {told.get(full)}")


def paths(page, text, crate):
    """Paths from the root, and within the page's crate; a name alone is a file of its specs."""
    for path in sorted(set(PATH.findall(text))):
        places = [ROOT / path] + ([crate / path, crate / "specs" / path] if crate else [])
        see(any(place.exists() for place in places), f"{page}: {path} does not exist")
    for link in re.findall(r"\]\(([\w./]+)\)", text):
        see((ROOT / page).parent.joinpath(link).exists(), f"{page}: the link {link} leads nowhere")


def table_rows(text):
    """The rows of each table, by heading."""
    head = None
    for line in text.splitlines():
        row = [cell.strip() for cell in re.split(r"(?<!\\)\|", line)[1:-1]] if line.startswith("|") else None
        if row and head and not set(row) <= {"---"}:
            yield dict(zip(head, row))
        head = (head or row) if row else None


def cells(text):
    """(heading, cell) of each cell of each table."""
    return [cell for row in table_rows(text) for cell in row.items()]


def settled(crate, row):
    """What settles the answer of each public function, by its row on the crate's page."""
    page = PAGES.get(crate.name, "")
    if "no promise" in row or "mathematics only" in row or not page:
        return
    cited = [ROOT / path for path in set(re.findall(r"crates/\w+/specs/\w+\.antt", page)) if (ROOT / path).exists()]
    declared = {name for file in [*crate.glob("specs/*.antt"), *cited] for name in DECLARED.findall(file.read_text())}
    for module, name, contract in public(crate):
        full = "::".join(filter(None, (crate.name, module, name)))
        said = [one.get("One outcome", "") for one in table_rows(page) if named(module, name, one.get("Function", one.get("Export", "")), page)]
        laws = [law for span in spans(said[0]) for law in spelled(span)] if said else []
        if said and said[0].startswith("an equation"):
            ensures = clauses(contract, "ensures")
            see(ensures and all(re.match(r"(\w+ )?(result(\.now)?|\w+\.new) ≡ ", one) for one in ensures), f"docs/promises/{crate.name}.md: the contract of {full} is no equation")
        else:
            opened = said and said[0].startswith("open:")
            see((laws or opened) and all(law in declared for law in laws), f"docs/promises/{crate.name}.md: what settles the answer of {full}? ({said})")
        open_ones = INDEX.split("Promises that leave something open")[1].split("\n\n")[0]
        see(not said or not said[0].startswith("open") or f"`{full}`" in open_ones or f"`{crate.name}`" in open_ones, f"docs/PROMISES.md: {full} leaves something open and is no exception")


USE = re.compile(r"^(?:ghost )?use Rattle\.(?!std\.)(\w+)\.specs\.([\w.-]+)\.\{([^}]*)\}", re.M)
DEFINED = re.compile(r"^ *(?:(?:unfoldable|abbrev) pub|pub (?:record|data)) +([^\s:({]+)", re.M)


def believed():
    """Definitions that promises unfold to stand in Meaning files or on the list of `laws`; a Promise file has promises and laws alone."""
    listed = {name for row in table_rows(INDEX) for name in spans(row.get("Definition of `laws`", ""))}
    see(listed, "docs/PROMISES.md: no list of the definitions of `laws`")
    for name in listed:
        see(any(name in DEFINED.findall(file.read_text()) for file in CRATES.glob("laws/specs/*.antt")), f"docs/PROMISES.md: `laws` has no definition {name}")

    def definition(crate, module, name):
        file = CRATES / crate / f"specs/{module}.antt"
        return file.exists() and name in DEFINED.findall(file.read_text())

    def fine(crate, module, name):
        return module in ("Meaning", "Promise") or module.startswith("declared") or (crate == "laws" and name in listed) or not definition(crate, module, name)

    for file in sorted([*CRATES.glob("*/specs/Meaning.antt"), *CRATES.glob("*/specs/Promise.antt")]):
        where = file.relative_to(ROOT)
        for crate, module, imported in USE.findall(file.read_text()):
            for name in [one.split(" as ")[0].strip() for one in imported.split(",") if one.strip()]:
                see(fine(crate, module, name), f"{where}: {name} stands in {module} of {crate}, no Meaning file")
                see(file.stem == "Promise" or module != "Promise", f"{where}: a meaning cites the promise {name}")
    for file in sorted(CRATES.glob("*/specs/Promise.antt")):
        for name in DEFINED.findall(file.read_text()):
            see(name[0].isupper(), f"{file.relative_to(ROOT)}: {name} is no promise; its place is Meaning.antt")
    for lib in sorted(CRATES.glob("*/src/lib.rt")):
        crate, row = lib.parent.parent, rows.get(lib.parent.parent.name, "")
        if "no promise" in row or "mathematics only" in row:
            continue
        for module, name, contract in public(crate):
            source = (crate / f"src/{module or 'lib'}.rt").read_text()
            names_used = {one.split(" as ")[-1].strip(): (of, part, one.split(" as ")[0].strip()) for of, part, many in USE.findall(source) for one in many.split(",")}
            if is_inner(row, module, name):
                continue
            for word in set(re.findall(r"[\w-]+", contract)) & set(names_used):
                see(fine(*names_used[word]), f"crates/{crate.name}/src: the contract of {name} cites {word}, which stands in no Meaning or Promise file")


def is_inner(row, module, name):
    """Whether the index says that a function is for other crates of ours alone."""
    cell = row.split("|")
    first, functions = (cell[1], cell[2]) if len(cell) > 2 else ("", "")
    if "(inner" in first:
        return name not in words(first.split("but for")[1] if "but for" in first else "")
    after = functions.split("inner:")[1] if "inner:" in functions else ""
    return f"{module}::{name}" in words(after) or name in words(after)


def one_name():
    """A name that a Meaning or Promise file defines is defined by no other file."""
    where = {}
    for file in sorted(CRATES.glob("*/specs/*.antt")):
        for name in DEFINED.findall(file.read_text()):
            where.setdefault(name, []).append(file)
    for name, files in sorted(where.items()):
        if any(file.stem in ("Meaning", "Promise") for file in files):
            see(len(files) == 1, f"{name} is several things: " + ", ".join(str(file.relative_to(ROOT)) for file in files))


def names(page, text, crate):
    """Promises, theorems and `unique` are declared in the crate's specs, or in specs that the page cites, theorems also in the files of lemmas in proofs/; meanings occur there."""
    cited = [ROOT / path for path in set(re.findall(r"crates/\w+/(?:specs|proofs)/\w+\.antt", text)) if (ROOT / path).exists()]
    specs = "\n".join(file.read_text() for file in [*crate.glob("specs/*.antt"), *(file for file in cited if file.parent.name == "specs")])
    lemmas = "\n".join(file.read_text() for file in [*crate.glob("proofs/*.antt"), *(file for file in cited if file.parent.name == "proofs")])
    declared, all_words, theorems = set(DECLARED.findall(specs)), set(re.findall(r"[\w'-]+", specs)), set(DECLARED.findall(lemmas))
    for head, cell in cells(text):
        for span in spans(cell) if head in ("Promise", "Theorem", "One outcome", "Meaning") else []:
            first = re.match(r"[A-Z]\w+" if head == "Promise" else r"[a-zA-Z][\w-]+(?!\S*\.antt)", span)
            for name in spelled(first.group()) if first else []:
                known = name in (all_words if head == "Meaning" else declared) or (head == "Theorem" and name in theorems)
                see(known, f"{page}: {name} ({head}) is not in the specs")
        if head == "Edit":
            see((crate / f"must-fail/{spans(cell)[0]}.edit").exists(), f"{page}: there is no edit {spans(cell)[0]}")


rows = {spans(line)[0]: line for line in INDEX.split("## Exceptions")[0].splitlines() if line.startswith("| `")}
for lib in sorted(CRATES.glob("*/src/lib.rt")):
    functions(lib.parent.parent, rows.get(lib.parent.parent.name, ""))
    settled(lib.parent.parent, rows.get(lib.parent.parent.name, ""))
inner()
believed()
one_name()
paths("docs/PROMISES.md", INDEX, None)
for stem, text in PAGES.items():
    paths(f"docs/promises/{stem}.md", text, CRATES / stem)
    names(f"docs/promises/{stem}.md", text, CRATES / stem)
for edit in sorted(CRATES.glob("*/must-fail/*.edit")):
    own = [text for stem, text in PAGES.items() if stem == edit.parent.parent.name] or PAGES.values()
    see(any(edit.stem in words(text) for text in own), f"{edit.relative_to(ROOT)} is on no page")
declared = set(re.findall(r"\b(tq_\w+)\s*\(", (ROOT / "include/tamqoret.h").read_text()))
exported = {name for _, name, _ in public(CRATES / "capi")}
for name in sorted(declared | exported):
    see(name in declared and name in exported, f"include/tamqoret.h: {name} is not " + ("exported" if name in declared else "declared"))
failures = [what for what in seen if what]
print(*failures, f"{len(seen) - len(failures)} passed, {len(failures)} failed", sep="\n")
sys.exit(1 if failures else 0)
