#!/usr/bin/env python3
"""architecture.py WHAT: holds README.md and docs/ to the tree. WHAT is one of the functions marked `check` below; prints what is wrong, and fails where anything is."""
import glob
import os
import re
import sys

PLAN, RULES, DECISIONS, PROMISES = "docs/ARCHITECTURE.md", "docs/RULES.md", "docs/DECISIONS.md", "docs/PROMISES.md"
PAGES = ["README.md"] + sorted(glob.glob("docs/*.md"))
OUTSIDE = {"std", "io", "os", "libc", "bytes"}  # crates of the kit
CHECKS = {}


def check(function):
    CHECKS[function.__name__.replace("_", "-")] = function
    return function


def text_of(path):
    with open(path, encoding="utf-8") as file:
        return file.read()


def prose_of(page):
    """The page without its code blocks."""
    return re.sub(r"^```.*?^```", "", text_of(page), flags=re.M | re.S)


def quoted(text):
    """What stands in backticks, one or more of them on each side."""
    return [span.strip() for _, span in re.findall(r"(?<!`)(`+)(?!`)(.*?[^`])\1(?!`)", text) if span.strip()]


def tables_of(page):
    """The page's tables, each a list of rows, each a list of cells; without the line of dashes."""
    tables, table = [], []
    for line in prose_of(page).split("\n") + [""]:
        if line.startswith("|"):
            cells = [cell.strip() for cell in line.strip().strip("|").split("|")]
            if not re.fullmatch(r"[-| ]+", line):
                table.append(cells)
        elif table:
            tables.append(table)
            table = []
    return tables


def table_with(page, *heading):
    """The rows of the table whose heading has these cells."""
    for table in tables_of(page):
        if set(heading) <= set(table[0]):
            return table[1:]
    sys.exit(f"{page} has no table with the columns {', '.join(heading)}")


# ---- the tree

def floors():
    """crates.txt: each heading up to its colon, and the crates below it."""
    found, name = [], ""
    for line in text_of("crates.txt").split("\n"):
        if line.startswith("#"):
            name = line[1:].split(":")[0].strip()
        elif line.strip():
            found.append((name, named_in(line)))
    return found


def named_in(line):
    """The crate that a line of crates.txt is about; words behind it, as `staticlib`, say how it is built."""
    return line.split(":")[0].split()[0]


CRATES = [crate for _, crate in floors()]


def names_in(source):
    """The functions, constants and types of a file, those of a type as Type::name."""
    names, owner = set(), ""
    for line in source.split("\n"):
        opening = re.match(r"impl (\w+)(?:<[^>]*>)? \{|(?:pub(?:\(crate\))? )?(?:enum|struct) (\w+)(.*)", line)
        if opening:
            owner = opening[1] or opening[2]
            names.add(owner)
            if opening[2] and not opening[3].rstrip().endswith("{"):
                owner = ""
        elif line.startswith("}"):
            owner = ""
        item = re.match(r'( *)(?:pub(?:\(crate\))? )?(?:extern "C" )?(?:fn|const) (\w+)', line)
        variant = re.match(r"    (?:pub )?(\w+)[,(:]", line)
        if item and not item[1]:
            names.add(item[2])
        elif item and owner:
            names.add(f"{owner}::{item[2]}")
        elif variant and owner:
            names.add(f"{owner}::{variant[1]}")
    return names


def names_of(crate):
    """All that a crate's src/ defines, with and without its module."""
    names = set()
    for path in glob.glob(f"crates/{crate}/src/*.rt"):
        module = os.path.basename(path)[:-3]
        found = names_in(text_of(path))
        names |= found | {f"{module}::{name}" for name in found} | {module}
    return names


def lacks_code(path):
    """Why there is no such crate::name; empty where there is one."""
    crate, name = path.split("::", 1)
    if crate in OUTSIDE or crate in CRATES and name in names_of(crate):
        return ""
    return f"crates/{crate}/src has no {name}" if crate in CRATES else f"there is no crate {crate}"


def defines(path, name):
    """Whether a file of definitions or proofs has this one; in proofs it may stand in a module with parameters."""
    front = " *" if "/proofs/" in path else ""
    return re.search(rf"^{front}(?:abbrev |unfoldable )?(?:pub )?(?:data |record )?{re.escape(name)}(?= )", text_of(path), re.M)


NAMES = r"(`[^`]+`(?:, `[^`]+`)*)"
FOLDER = r"(?:crates/)?(\w+/(?:specs|proofs))/"
FILE = r"(\w+\.antt)"


def citations(text):
    """Each file with a name that it is said to have: `FILE`: `name`, `name`, where FILE without a folder is one of rules; `name` (`FILE`); `name` in `FILE`."""
    found = re.findall(rf"`(?:{FOLDER})?{FILE}`: {NAMES}", text)
    found += [(folder, file, names) for names, folder, file in re.findall(rf"{NAMES}(?: \(| in )`{FOLDER}{FILE}`", text)]
    for folder, file, names in found:
        for name in quoted(names):
            yield f"crates/{folder or 'rules/specs'}/{file}", name


def lacks_citation(path, name):
    if not os.path.isfile(path):
        return f"there is no {path}"
    return "" if defines(path, name) else f"{path} has no {name}"


# ---- the checks: each gives what is wrong, a line each

@check
def crates():
    """The table of crates: those of crates.txt, in its order, by its floors."""
    floor, told = "", []
    for cells in table_with(PLAN, "crate", "refusals"):
        if cells[0].startswith("**"):
            floor = cells[0].strip("*")
        else:
            told.append((floor, cells[0].strip("`")))
            if not cells[1]:
                yield f"{cells[0]} has no line that says what it holds"
    if told != floors():
        for floor, crate in sorted(set(told) ^ set(floors())):
            yield f"crate {crate} of floor '{floor}' is not on both sides"
        yield "the table of crates is not crates.txt, in its order and by its floors"
    if [cells[0].strip("`") for cells in table_with("docs/CHECKS.md", "crate", "edits")] != CRATES + ["all"]:
        yield "the table of docs/CHECKS.md is not crates.txt, in its order"
    for line in text_of("crates.txt").split("\n"):
        for other in line.partition(":")[2].split() if line and line[0] != "#" else []:
            if other in CRATES and CRATES.index(named_in(line)) <= CRATES.index(other):
                yield f"crates.txt: {named_in(line)} uses {other}, which doesn't stand before it"
    for crate in sorted(set(CRATES) ^ set(os.listdir("crates"))):
        yield f"crates.txt and crates/ differ in {crate}"


@check
def header():
    """include/bai2.h has the library's names and numbers of refusals, its limits, and the rules' kinds of fields, of which first_type is TYPE there."""
    reasons = re.findall(r"^    (\w+) = (\d+),$", text_of("crates/base_refusals/src/lib.rt"), re.M)
    named = {re.sub(r"(?<!^)(?=[A-Z])", "_", name).upper(): int(number) for name, number in reasons}
    limits = {name: int(n.replace("_", "")) for name, n in re.findall(r"const (LONGEST_\w+): usize = ([\d_]+);", text_of("crates/base_limits/src/lib.rt"))}
    told = {name: int(number) for name, number in re.findall(r"\bBAI2_(\w+) = (\d+)", text_of("include/bai2.h"))}
    if sorted(named.values()) != list(range(1, 21)):
        yield "base_refusals has not the numbers 1 to 20, each once"
    for name, number in sorted({**named, **limits}.items()):
        if told.get(name) != number:
            yield f"{name} is {number}, and BAI2_{name} is {told.get(name)}"
    kinds = {name: int(number) for name, number in re.findall(r"^kind_number (\w+) = (\d+)$", text_of("crates/rules/specs/Grammar.antt"), re.M)}
    kinds = {"FIELD_" + name.removeprefix("first_").upper(): number for name, number in kinds.items()}
    if not kinds or kinds != {name: number for name, number in told.items() if name.startswith("FIELD_")}:
        yield "the kinds of include/bai2.h are not those of rules/specs/Grammar.antt"


def refusal_rows():
    return [dict(zip(("number", "meaning", "definition", "code", "sample", "edit"), cells)) for cells in table_with(PLAN, "meaning", "code", "must-fail edit")]


@check
def refusals():
    """The table of refusals: 1 to 20, each with a definition, code, a sample and an edit that are there."""
    rows = refusal_rows()
    if [row["number"] for row in rows] != [str(n) for n in range(1, 21)]:
        yield "the table of refusals has not the numbers 1 to 20, each once"
    for row in rows:
        lacks = [lacks_citation(*cited) for cited in citations(row["definition"])] or ["no definition is cited"]
        lacks += [lacks_code(name) for name in quoted(row["code"])] or ["no code is cited"]
        edits = [edit.split("/") for edit in quoted(row["edit"])]
        lacks += [""] if edits else ["no edit is cited"]
        lacks += ["" if os.path.isfile(f"crates/{crate}/must-fail/{edit}") else f"there is no {edit} of {crate}" for crate, edit in edits]
        lacks.append(lacks_sample(row["number"], row["sample"]))
        yield from (f"refusal {row['number']}: {why}" for why in lacks if why)


def lacks_sample(number, cell):
    """A file that is refused so; a program that prints such an answer; a test; or, of 14, none."""
    sample = quoted(cell)[0] if quoted(cell) else ""
    if number == "14":
        return "" if cell.startswith("none") else "it can't have a sample"
    if sample.endswith(".bai"):
        said = re.search(rf"^{re.escape(sample)}: refused {number} ", text_of("crates/run_samples/stdout"), re.M)
        return "" if said and os.path.isfile(f"crates/run_samples/data/{sample}") else f"{sample} is not a sample that is refused so"
    if sample in CRATES:
        said = re.search(rf": {number} 0\b", text_of(f"crates/{sample}/stdout"))
        return "" if said else f"{sample} prints no such answer"
    return "" if os.path.isfile(sample) else f"there is no {sample or 'sample'}"


@check
def both_tables():
    """Both tables give the same refusals to the same crates."""
    by_crate = {(cells[0].strip("`"), n) for cells in table_with(PLAN, "crate", "refusals") for n in re.findall(r"\d+", cells[2])}
    by_number = {(name.split("::")[0], row["number"]) for row in refusal_rows() for name in quoted(row["code"])}
    for crate, number in sorted(by_crate ^ by_number):
        yield f"refusal {number} of {crate} is in one table only"


@check
def rules():
    """Each row of RULES.md cites a definition; RULES.md and all other pages cite only what is there."""
    for table in tables_of(RULES):
        for cells in table[1:]:
            if not list(citations(cells[-1])):
                yield f"{RULES}: no definition is cited for: {cells[0]}"
    rows = table_with(RULES, "number", "place")
    if [cells[0] for cells in rows] != [str(n) for n in range(1, 21)]:
        yield f"{RULES} has not the refusals 1 to 20, each once"
    for page in PAGES:
        for cited in citations(prose_of(page)):
            why = lacks_citation(*cited)
            if why:
                yield f"{page}: {why}"


@check
def code():
    """Each crate::name in backticks is there, and each crate that is called one."""
    for page in PAGES:
        prose = prose_of(page)
        for span in quoted(prose):
            for name in re.findall(r"(?<![\w:])[a-z]\w*(?:::\w+)+", span):
                why = lacks_code(name)
                if why:
                    yield f"{page}: `{name}`: {why}"
        for crate in re.findall(r"\bcrates? `(\w+)`", prose):
            if crate not in CRATES:
                yield f"{page}: there is no crate {crate}"


@check
def paths():
    """Each path in backticks is there: of a folder of the repository, of a crate by its name, or of any crate's folders, where a word in capitals stands for any name."""
    for page in PAGES:
        for span in quoted(prose_of(page)):
            path = re.match(r"[a-z][\w-]*/[\w.*/-]*", span)
            top = path[0].split("/")[0] if path else "target"
            if top == "target":
                continue
            where = path[0].replace("/", "/must-fail/", 1) if path[0].endswith(".edit") else path[0]
            if top in CRATES:
                where = f"crates/{where}"
            elif top in ("src", "specs", "proofs", "must-fail"):
                where = "crates/*/" + re.sub(r"\b[A-Z]+\b", "*", path[0])
            if not glob.glob(where):
                yield f"{page}: there is no `{path[0]}`"


@check
def proofs():
    """Each theorem and must-fail edit that is named is there; so is each file of rules that a decision names."""
    sources = glob.glob("crates/*/proofs/**/*.antt", recursive=True) + glob.glob("crates/*/specs/*.antt")
    proved = set(re.findall(r"^ *(?:abbrev |unfoldable )?(?:pub )?([^\s:]+) :", "\n".join(map(text_of, sources)), re.M))
    edits = {os.path.basename(path)[:-5] for path in glob.glob("crates/*/must-fail/*.edit")}
    for page in [PLAN, RULES, DECISIONS, PROMISES, "docs/TRUST.md"]:
        for name in quoted(prose_of(page)):
            if re.fullmatch(r"[a-z]\w*(-\w+)+", name) and name not in proved | {"must-fail"}:
                yield f"{page}: there is no theorem `{name}`"
        for table in tables_of(page):
            columns = [i for i, heading in enumerate(table[0]) if heading.startswith("must-fail")]
            for name in (name for cells in table[1:] for i in columns for name in quoted(cells[i])):
                if re.fullmatch(r"\w+", name) and name not in edits and name not in CRATES:
                    yield f"{page}: there is no edit `{name}`"
    for names in re.findall(r"\((`[A-Z]\w*`(?:, `\w+`)*)\)", prose_of(DECISIONS)):
        files = [f"crates/rules/specs/{name}.antt" for name in quoted(names) if name[0].isupper()]
        yield from (f"{DECISIONS}: there is no {file}" for file in files if not os.path.isfile(file))
        for name in quoted(names):
            if name[0].islower() and not any(os.path.isfile(file) and defines(file, name) for file in files):
                yield f"{DECISIONS}: none of {names} has `{name}`"


def promised():
    """The rows of PROMISES.md with a call or an inner function, each with its table's heading."""
    for table in tables_of(PROMISES):
        if table[0][0] in ("call", "function"):
            yield from ((table[0], cells) for cells in table[1:])


def name_in(cell):
    """The function that a row is about, without what it takes and gives."""
    return re.split(r"[( ]", quoted(cell)[0])[0] if quoted(cell) else ""


def crate_of(name):
    """The crate of a function; of one for C, which is named without it, the one that has it."""
    if "::" in name:
        return name.split("::")[0]
    return next((crate for crate in CRATES if name in public_functions(crate)), "any crate")


@check
def promises():
    """Each call of PROMISES.md has two edits of its own crate, and each inner function whose last column is headed as theirs; what follows a semicolon is free."""
    for heading, cells in promised():
        if heading[0] == "call" or heading[-1] == "must-fail edits":
            name = name_in(cells[0])
            edits = quoted(cells[-1].split(";")[0])
            if len({edit for edit in edits if os.path.isfile(f"crates/{crate_of(name)}/must-fail/{edit}.edit")}) < 2:
                yield f"{PROMISES}: `{name}` has not two edits of {crate_of(name)}"


def public_functions(crate):
    """The public functions of a crate, those of a module or type with its name; those for C by their own."""
    for path in sorted(glob.glob(f"crates/{crate}/src/*.rt")):
        module, owner = os.path.basename(path)[:-3], ""
        front = crate if module == "lib" else f"{crate}::{module}"
        for line in text_of(path).split("\n"):
            opening = re.match(r"impl (\w+)(?:<[^>]*>)? \{", line)
            owner = f"{opening[1]}::" if opening else "" if line.startswith("}") else owner
            item = re.match(r' *pub (extern "C" )?fn (\w+)', line)
            if item:
                yield item[2] if item[1] else f"{front}::{owner}{item[2]}"


@check
def functions():
    """PROMISES.md has a row for each public function of each library, and for no other; the calls first, then the inner functions in the order of crates.txt."""
    libraries = [crate for crate in CRATES if os.path.isfile(f"crates/{crate}/src/lib.rt")]
    public = {name for crate in libraries for name in public_functions(crate)}
    told, inner = [], []
    for heading, cells in promised():
        told.append(name_in(cells[0]))
        if len(quoted(cells[0])) != 1 or len(cells) != len(heading) or not all(cells):
            yield f"{PROMISES}: the row of {cells[0]} has not one function, or an empty cell"
        if heading[0] == "function":
            inner.append(crate_of(told[-1]))
        elif inner:
            yield f"{PROMISES}: the call {cells[0]} stands after inner functions"
    for name in sorted(public - set(told)):
        yield f"{PROMISES} has no row for `{name}`"
    for name in sorted({name for name in told if name not in public or told.count(name) > 1}):
        yield f"{PROMISES}: `{name}` is no public function of a library, or has two rows"
    order = [CRATES.index(crate) for crate in inner if crate in CRATES]
    if order != sorted(order):
        yield f"{PROMISES}: the inner functions are not in the order of crates.txt"


wrong = list(CHECKS[sys.argv[1]]())
print("\n".join(wrong), end="\n" if wrong else "")
sys.exit(1 if wrong else 0)
