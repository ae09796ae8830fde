"""The documents are true as far as a program can tell; the last line is 'N passed, M failed'.

- each definition that they name as FILE.`name` stands in a file of that name in specs/: of a crate that the row names, in a table
  whose row names one, and else of any crate; and so does each file that the tables of docs/CLAIMS.md name without a definition;
- each function in the table of what is proved of the program (docs/CLAIMS.md), and each call in docs/LAW.md, stands in a crate
  that its row names, and is reached from `main`, or its line says that the program does not use it;
- each law in the tables of what is proved beside the program stands in the crate that its heading names, which the program does not
  use; and each law that such a crate has stands there;
- each crate is named by the map (docs/ARCHITECTURE.md), and each crate, source, script and log that a document names is there, and
  so is each file and each heading that it links to;
- each row that docs/DECISIONS.md names stands in the transcript that it names;
- the settings of docs/USAGE.md are those of share/polipo.conf.example and of the program;
- each script is named by another file, by its path, or imported by one: it is run, or told how to run.
"""

import functools
import pathlib
import re
import subprocess
import sys

sys.path.insert(0, str(pathlib.Path(__file__).resolve().parent))
from build import TOP, below, crates

DOCUMENTS = [TOP / "README.md", TOP / "bench/README.md", *sorted((TOP / "docs").glob("*.md"))]
CLAIMS, LAW = TOP / "docs/CLAIMS.md", TOP / "docs/LAW.md"
CITED = re.compile(r"\b([A-Z]\w*)\.((?:`\w+`(?:, |,\n|; and |\s+and\s+)?)+)")
NAME = re.compile(r"`(\w+)`")
CRATE = re.compile(r"\bpp_\w+\b(?!\*)")
IN_PROGRAM, BESIDE, LAW_OVER_LOGS = "## Proved of the program", "## Proved beside it", "## The law over logs"
UNUSED = "the program does not"
# Crates that were given up, which DECISIONS names with the last commit that has them.
GIVEN_UP = {"pp_oracle", "pp_judge"}


def name_of(document):
    return document.relative_to(TOP)


def tracked():
    listed = subprocess.run(["git", "ls-files"], cwd=TOP, capture_output=True, text=True, check=False)
    return listed.stdout.split()


# ---- definitions


@functools.cache
def definitions():
    """Of each crate the (file, name) of its definitions, and (file, None) of its files."""
    found = {}
    for file in (TOP / "crates").glob("*/specs/**/*.antt"):
        here = found.setdefault(file.relative_to(TOP).parts[1], set())
        here.add((file.stem, None))
        for line in file.read_text().splitlines():
            if words := re.match(r"(?:(?:pub|abbrev|unfoldable|data|record|syntax|ghost) )+(\w+)", line):
                here.add((file.stem, words.group(1)))
            if fields := re.match(r" +(?:pub )?(\w+) :", line):
                here.add((file.stem, fields.group(1)))
    return found


def known_in(names):
    return set().union(*(definitions().get(name, set()) for name in names))


def cited(text):
    for file, names in CITED.findall(text):
        for name in NAME.findall(names):
            if not name.startswith("pp_"):
                yield file, name


def pieces(document):
    """Each row of the tables of a document, with the crates that it names, where it names one (`pp_law` too, of the law over logs);
    and what stands between the tables, with none."""
    between, meant = [], set()
    for line in document.read_text().splitlines():
        if line.startswith("## "):
            meant = {"pp_law"} if line == LAW_OVER_LOGS else set()
        if line.startswith("| "):
            named = {name for name in CRATE.findall(line) if name in definitions()}
            yield line, named | meant if named else named
        else:
            between.append(line)
    yield "\n".join(between), set()


def missing_definitions():
    for document in DOCUMENTS:
        for text, named in pieces(document):
            known = known_in(named or definitions())
            for file, name in cited(text):
                if (file, name) not in known:
                    yield f"{name_of(document)}: no definition {file}.`{name}`" + (f" in {', '.join(sorted(named))}" if named else "")


def files_in(text):
    """The files of definitions that a text names alone, one behind the other."""
    bare = re.sub(r"`[^`]*`", "", CITED.sub("", text))
    return [word for part in re.split(r"[,;.:\s]+", bare) if re.fullmatch(r"[A-Z][A-Za-z]+", word := part)]


def missing_files():
    for names, cells in program_rows():
        known = known_in([*names, *CRATE.findall(cells[-1])])
        for file in files_in(cells[-1]):
            if (file, None) not in known:
                yield f"docs/CLAIMS.md: {names[0]} has no file {file} of definitions"
    for crate, text in headings():
        known = known_in([crate, *CRATE.findall(text)])
        for run in re.findall(r"(?<![`\w.])[A-Z]\w+(?:, [A-Z]\w+)+(?=[.;)])", text):
            for file in run.split(", "):
                if (file, None) not in known:
                    yield f"docs/CLAIMS.md: {crate} has no file {file} of definitions"


# ---- functions


@functools.cache
def functions(name):
    """Of a crate the words that stand in each of its functions, tests left out, and the types that have methods of each name."""
    bodies, types, promised = {}, {}, set()
    for file in (TOP / "crates" / name / "src").rglob("*.rt"):
        if "tests" in file.stem or "tests" in file.relative_to(TOP).parts:
            continue
        text = re.sub(r"//[^\n]*", "", file.read_text())
        marks = re.finditer(r"^(?:pub(?:\([a-z]+\))? )?(?:impl\b(?:<[^{]*?>)? (?:[^{]*?\bfor )?(\w+)|trait (\w+))|\bfn (\w+)", text, re.MULTILINE)
        holder, starts = None, []
        for mark in marks:
            if mark.group(3):
                starts.append((mark.start(), mark.group(3), holder))
            else:
                holder = mark.group(1) or mark.group(2)
                if mark.group(2) or " for " in mark.group(0):
                    promised.add(holder)
        for (at, function, of), (end, _, _) in zip(starts, [*starts[1:], (len(text), "", None)]):
            bodies.setdefault(function, set()).update(re.findall(r"\w+", text[at:end]))
            types.setdefault(function, set()).add(of)
    return bodies, types, {function for function, of in types.items() if of & promised}


@functools.cache
def reached():
    """The (crate, function) that may be called from `main`, by names alone: at least all that are. A crate calls what is its own, what
    stands below it, and where its call is of a trait what any crate has of that name."""
    listed = crates()
    program = below("polipo", listed)
    of_traits = set().union(*(functions(crate)[2] for crate in program))
    reach = {crate: below(crate, listed) for crate in program}
    having = {}
    for crate in program:
        for name in functions(crate)[0]:
            having.setdefault(name, []).append(crate)
    found, wanted = set(), [("polipo", "main")]
    while wanted:
        crate, name = wanted.pop()
        if (crate, name) in found or name not in functions(crate)[0]:
            continue
        found.add((crate, name))
        for word in functions(crate)[0][name]:
            wanted += [(other, word) for other in having.get(word, ()) if word in of_traits or other in reach[crate]]
    return found


def program_rows():
    """The crates and the cells of each row of the table of what is proved of the program."""
    part = CLAIMS.read_text().split(IN_PROGRAM, 1)[-1].split("\n## ", 1)[0]
    for line in part.splitlines():
        cells = [cell.strip() for cell in line.strip().strip("|").split(" | ")]
        if line.startswith("| `") and len(cells) >= 3:
            yield NAME.findall(cells[0]), cells


def calls_in(text):
    """The (type or None, function) that a cell names behind or beside its definitions."""
    for word in re.findall(r"`(\w+(?:::\w+)?)`", CITED.sub("", text)):
        of, _, name = word.rpartition("::")
        if not name.startswith("pp_") and name[0].islower():
            yield of or None, name


def false_calls(where, names, text, is_unused):
    for of, name in calls_in(text):
        having = [crate for crate in names if name in functions(crate)[0] and (of is None or of in functions(crate)[1][name])]
        if not having:
            yield f"{where}: {', '.join(names)} has no function {of + '::' if of else ''}{name}"
        elif not is_unused and not any((crate, name) in reached() for crate in having):
            yield f"{where}: {name} of {having[0]} is not reached from main"


def false_claims():
    program = below("polipo", crates())
    for names, cells in program_rows():
        for crate in set(names) - program:
            yield f"docs/CLAIMS.md: {crate} is no part of the program"
        yield from false_calls("docs/CLAIMS.md", names, cells[-1], False)
    if not list(program_rows()):
        yield f"docs/CLAIMS.md: no table under '{IN_PROGRAM}'"
    for line in LAW.read_text().split(f"\n{LAW_OVER_LOGS}", 1)[0].splitlines():
        names = [crate for crate in dict.fromkeys(CRATE.findall(line)) if crate in crates()]
        if line.startswith("| ") and names:
            yield from false_calls("docs/LAW.md", names, line.strip(" |").split(" | ")[-1], UNUSED in line)


# ---- laws


def headings():
    """(crate, paragraphs) of each heading of a crate in the part of what is proved beside the program: what stands before its table."""
    part = CLAIMS.read_text().split(BESIDE, 1)[-1].split("\n## ", 1)[0]
    for piece in re.split(r"\n#{3,4} (?=`pp_)", part)[1:]:
        title, _, rest = piece.partition("\n")
        yield NAME.findall(title)[0], "\n".join(line for line in rest.split("\n### ")[0].splitlines() if not line.startswith("|"))


def stated():
    """(crate, law) of each row there: of the crate of its heading, or of the crate that stands in the row in its place."""
    part = CLAIMS.read_text().split(BESIDE, 1)[-1].split("\n## ", 1)[0]
    crate = None
    for line in part.splitlines():
        if heading := re.match(r"#{3,4} (?:`(pp_\w+)`)?", line):
            crate = heading.group(1)
        cells = [cell.strip() for cell in line.strip().strip("|").split(" | ")]
        if row := re.fullmatch(r"`(\w+)`", cells[0]):
            if not row.group(1).startswith("pp_"):
                yield crate, row.group(1)
            else:
                yield from ((row.group(1), law) for _, law in calls_in(cells[-1]))


def laws_of(crate):
    """The functions of a crate that do nothing, but that they may call laws below, and have a clause."""
    law = re.compile(r"^pub fn (\w+)\(\)\s*\n(?:[ \t]+requires[^\n]*\n)*[ \t]+ensures[^{}]*(?:\{[^{}]*\}\s*(?:ensures[^{}]*)?)+\{(?:\s*\w+\(\);\s*)*\}", re.MULTILINE)
    return {name for file in (TOP / "crates" / crate / "src").rglob("*.rt") for name in law.findall(file.read_text())}


def false_laws():
    program = below("polipo", crates())
    found = set(stated())
    for crate, law in sorted(found, key=str):
        if crate in program:
            yield f"docs/CLAIMS.md: {crate} is part of the program"
        elif crate not in crates() or law not in laws_of(crate):
            yield f"docs/CLAIMS.md: {crate} has no law {law}"
    for crate in set(crates()) - program:
        for law in laws_of(crate) - {law for other, law in found if other == crate}:
            yield f"docs/CLAIMS.md: {law} of {crate} has no row"


# ---- what is there


def anchors(document):
    """The headings of a document, as links name them."""
    titles = re.findall(r"^#+ (.*)$", document.read_text(), re.MULTILINE)
    return {re.sub(r"[^\w\- ]", "", title.lower()).replace(" ", "-") for title in titles}


def unnamed():
    for crate in crates():
        if not re.search(rf"\b{crate}\b", (TOP / "docs/ARCHITECTURE.md").read_text()):
            yield f"docs/ARCHITECTURE.md: {crate} is not named"
    for document in DOCUMENTS:
        text = document.read_text()
        for crate in set(CRATE.findall(text)) - set(crates()) - GIVEN_UP:
            yield f"{name_of(document)}: there is no crate {crate}"
        for link, title in re.findall(r"\]\(([^)#:]*)#?([^)#:]*)\)", text):
            file = document.parent / link if link else document
            if not file.exists():
                yield f"{name_of(document)}: there is no {link}"
            elif title and title not in anchors(file):
                yield f"{name_of(document)}: {link} has no heading {title}"


# Names that stand for a reader's own files.
EXAMPLES = {"lives.log", "mine.log", "polipo.log", "FILE.antt"}


def missing_names():
    listed = tracked()
    names = {pathlib.Path(name).name for name in listed}
    for document in DOCUMENTS:
        text = document.read_text()
        for name in set(re.findall(r"\b(\w+\.(?:rt|py|log|c|antt))\b", text)) - EXAMPLES - names:
            yield f"{name_of(document)}: there is no {name}"
        for path in set(re.findall(r"(?<![\w/.~-])((?:\.ci|bench|crates|docs|e2e|share|tools|transcripts)/[\w./-]*\w)", text)):
            if not (TOP / path).exists() and not re.match(r"crates/\w+/out/", path) and not re.match(r"crates/[A-Z]+/", path):
                yield f"{name_of(document)}: there is no {path}"


def missing_rows():
    for file, title in re.findall(r"^\|.*\| `(\w+\.log)` \| (.*?) \|$", (TOP / "docs/DECISIONS.md").read_text(), re.MULTILINE):
        path = TOP / "transcripts" / file
        if not path.exists() or f"row {title}" not in path.read_text().splitlines():
            yield f"docs/DECISIONS.md: no row '{title}' in transcripts/{file}"


def other_settings():
    told = set(re.findall(r"^\| `(\w+)` \|", (TOP / "docs/USAGE.md").read_text().split("\n## Settings", 1)[-1].split("\n## ", 1)[0], re.MULTILINE))
    read = set(re.findall(r'Setting::\w+ => "(\w+)"', (TOP / "crates/pp_conf/src/setting.rt").read_text()))
    shown = set(re.findall(r"^#(\w+) =", (TOP / "share/polipo.conf.example").read_text(), re.MULTILINE))
    for name in told ^ read:
        yield f"docs/USAGE.md: {name} is no setting, or has no row"
    for name in shown ^ read:
        yield f"share/polipo.conf.example: {name} is no setting, or is not there"


def idle_scripts():
    listed = (name for name in tracked() if not name.startswith("crates/") and not name.endswith(".log"))
    texts = {name: (TOP / name).read_text(errors="replace") for name in listed}
    for name, path in ((name, pathlib.Path(name)) for name in texts):
        if path.parts[0] not in ("bench", "e2e", "tools", "transcripts") or path.suffix == ".md":
            continue
        stem, folder = re.escape(path.stem), re.escape(str(path.parent))
        ways = rf"\b{re.escape(path.name)}\b" if path.suffix else rf"\b{folder}/{stem}\b(?![./])"
        if path.suffix == ".py":
            ways += rf'|^\s*(?:import|from) (?:\w+, )*{stem}\b|^\s*"{stem}",$'
        if not any(re.search(ways, text, re.MULTILINE) for other, text in texts.items() if other not in (name, "tools/documents.py")):
            yield f"{name}: nothing runs it, and nothing says how"


def main():
    failed = 0
    checks = [missing_definitions, missing_files, false_claims, false_laws, unnamed, missing_names, missing_rows, other_settings, idle_scripts]
    for check in checks:
        faults = sorted(set(check()))
        failed += bool(faults)
        for fault in faults:
            print(f"FAILED: {fault}")
    print(f"{len(checks) - failed} passed, {failed} failed")
    return 1 if failed else 0


sys.exit(main())
