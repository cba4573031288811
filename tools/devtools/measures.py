"""Prints how large sources and pages are: what is to become smaller, or to stay small, each beside its bound.

The status is 0, also where a bound is not met: this tells, and decides nothing. It reads the sources as `rt fmt` lays them out. The
core's crates are those that make its step. A page is README.md and each other .md of the root, of docs/ and of a crate.

A value is for a proof alone where a `let` takes it, no code behind that reads it, and a call without an effect gives it. A call has an
effect where a function of ours with its name takes a `&mut`, where it is a macro, or where it is none of ours and not known to read alone.
Where no call gives the value, but a field, that costs nothing, and is told in a line of its own.
"""

import re
from collections import Counter, defaultdict

from .sources import TOKEN, behind_types, end_of, until, without_clauses
from .workspace import CORE, CRATES, ROOT

MOST_PARAMETERS, MOST_LINES, LONGEST_FILE = 6, 40, 800
FUNCTION = re.compile(r"( *)(?:pub(?:\([a-z]+\))? )?(?:const )?(?:unsafe )?(?:extern \"C\" )?fn (\w+)")
# What takes values by their names, but for a pattern that may fail.
LET = re.compile(r"(?<!if )(?<!while )\blet (?:mut )?(\w+|\((?:mut )?\w+(?:, (?:mut )?\w+)*,?\))(?:: [^=;]+?)? = ")
CALL = re.compile(r"\b([a-z_]\w*)(?:::<[^()]*?>)?(\(|!)")
# A value that ends the function, or goes by a test, is used.
TURNS = re.compile(r"\?|\b(?:return|break|continue|if|match|loop|for|while)\b")
# Calls of std and the kit that read, and do nothing else.
READING = set("alloc as_bytes as_slice as_str capacity clone contains copied first get is_empty is_err is_none is_ok is_some iter last len".split())
VARIANTS = re.compile(r"^use [\w.]*\.declared\.event\.Event\.TheVariants as (\w+)", re.MULTILINE)


def files(crates, folder, suffixes=(".rt", ".antt")):
    """The sources in a folder of each of the crates."""
    for crate in crates:
        yield from sorted(path for path in (CRATES / crate / folder).glob("**/*") if path.suffix in suffixes)


def all_crates():
    return sorted(path.name for path in CRATES.iterdir() if path.is_dir())


# A line that imports names. How many there are is a matter of layout.
IMPORT = re.compile(r"\s*(pub )?(ghost )?use ")


def lines_of(path):
    return path.read_text(encoding="utf-8").splitlines()


def short(path):
    return str(path.relative_to(ROOT)).removeprefix("crates/")


def parameters(tokens):
    """How many parameters stand in the brackets behind a function's name, `self` among them."""
    start = behind_types(tokens, 0) if tokens[:1] == ["<"] else 0
    depth, is_begun, count = 0, False, 0
    for token in tokens[start + 1 : end_of(tokens, start) - 1]:
        depth += (token in ("(", "[", "{", "<")) - (token in (")", "]", "}", ">"))
        is_begun = token != "," or depth > 0
        count += token == "," and depth == 0
    return count + is_begun


def functions(path):
    """Each function with a body: its name, its parameters, and the lines between the braces of the body."""
    lines = [re.sub(r"//.*", "", line) for line in lines_of(path)]
    for index, line in enumerate(lines):
        if not (begins := FUNCTION.match(line)):
            continue
        indent = begins[1]
        count = parameters(TOKEN.findall("\n".join(lines[index : index + 40])[begins.end() :]))
        opened = next((at for at in range(index, len(lines)) if is_opening(lines, at, index, indent)), None)
        if opened is None:
            continue
        closed = next((at for at in range(opened + 1, len(lines)) if lines[at].rstrip() == indent + "}"), opened)
        yield begins[2], count, max(closed - opened - 1, 0)


def is_opening(lines, at, index, indent):
    """Whether the function's body begins in the line."""
    line = lines[at].rstrip()
    return line == indent + "{" or line.endswith("{") and (at == index or line.startswith(indent + ")"))


def codes():
    """The code of each file, with the names that its texts have in braces."""
    for path in files(all_crates(), "src", (".rt",)):
        names = lambda text: " ".join(re.findall(r"\{(\w+)", text))
        yield path, without_clauses(path.read_text(encoding="utf-8"), names)


def effects(sources):
    """Whether some function of a name takes a `&mut`."""
    found = defaultdict(bool)
    for _, code in sources:
        for function in re.finditer(r"\bfn (\w+)", code):
            header = code[function.end() : until(code, function.end(), "{;")]
            found[function[1]] |= bool(re.search(r"&\s*(?:'\w+ )?mut\b", header))
    return found


def rest_of_block(code, at):
    """What stands behind a place, up to the end of its block."""
    depth = 0
    for place in range(at, len(code)):
        depth += (code[place] in "([{") - (code[place] in ")]}")
        if depth < 0:
            return code[at:place]
    return code[at:]


def unread(code):
    """Where a `let` stands whose values no code reads, with what it takes."""
    for found in LET.finditer(code):
        end = until(code, found.end(), ";")
        rest, names = rest_of_block(code, end), set(re.findall(r"\w+", found[1])) - {"mut", "_"}
        if not any(re.search(rf"\b{name}\b", rest) for name in names):
            yield code.count("\n", 0, found.start()) + 1, code[found.end() : end]


def has_effect(value, known):
    """Whether what gives a value does something besides, or the value is used by what stands around it."""
    if "&mut" in value or TURNS.search(value):
        return True
    return any(sign == "!" or (known[name] if name in known else name not in READING) for name, sign in CALL.findall(value))


def for_proofs_alone(sources):
    """The values that no code uses: those that calls give, and those that fields give."""
    known, called, named = effects(sources), [], []
    for path, code in sources:
        for line, value in unread(code):
            if not has_effect(value, known):
                (called if CALL.search(value) else named).append(f"{short(path)}:{line} {' '.join(value.split())}")
    return called, named


def variants():
    """The names of the variants of Event."""
    sources = (path.read_text(encoding="utf-8") for path in files(CORE, "src", (".rt",)))
    bodies = (found[1] for source in sources if (found := re.search(r"pub enum Event \{\n(.*?)\n\}", source, re.DOTALL)))
    return set(re.findall(r"^    (\w+) \{", next(bodies), re.MULTILINE))


def event_tables(folder):
    """The functions by cases of the core with a row for each variant of Event."""
    wanted = variants()
    for path in files(CORE, folder, (".antt",)):
        source = path.read_text(encoding="utf-8")
        # A variant stands behind its type, or behind the name that the file has for the module of the variants.
        names = ["Event", *VARIANTS.findall(source)]
        rows = {}
        row = re.compile(rf"\s*([^\s:(]+) [^∷→]*?\b(?:{'|'.join(names)})\.(\w+)")
        for line in source.splitlines():
            left, equals, _ = f"{line} ".partition(" = ")
            if equals and (found := row.match(left)):
                rows.setdefault(found[1], set()).add(found[2])
        yield from (f"{short(path)} {name}" for name, had in rows.items() if had >= wanted)


def pages():
    return [*sorted(ROOT.glob("*.md")), *sorted((ROOT / "docs").glob("*.md")), *sorted(CRATES.glob("*/*.md"))]


def words(path):
    return len(path.read_text(encoding="utf-8").split())


def line_count(crates, folder):
    return sum(sum(IMPORT.match(line) is None for line in lines_of(path)) for path in files(crates, folder))


def measures():
    """What is measured, its number, its bound in words, and what it counts by name."""
    every = [(path, *function) for path in files(all_crates(), "src", (".rt",)) for function in functions(path)]
    wide = [f"{short(path)} {name} {count}" for path, name, count, _ in every if count > MOST_PARAMETERS]
    yield f"functions with over {MOST_PARAMETERS} parameters, of all crates", len(wide), "none", wide
    long = [f"{short(path)} {name} {length}" for path, name, _, length in every if length > MOST_LINES]
    yield f"functions with over {MOST_LINES} lines, of all crates", len(long), "none but matches over events", long
    called, named = for_proofs_alone(list(codes()))
    yield "values that a call gives for a proof alone, of all crates", len(called), "none", called
    yield "values that a field gives for a proof alone", len(named), "", named
    for folder, what, most in (("specs", "definitions", 6), ("proofs", "proofs", 3)):
        tables = list(event_tables(folder))
        yield f"functions by cases with a row for each event, in {what} of the core", len(tables), f"at most {most}", tables
    counts = {folder: line_count(CORE, folder) for folder in ("src", "specs", "proofs")}
    for folder, count in counts.items():
        yield f"lines of {folder}/ of the core's crates", count, "", []
    yield "lines of all three, without imports", sum(counts.values()), "at most 17,400", [
        f"{crate} {sum(line_count([crate], folder) for folder in counts):,}" for crate in CORE]
    large = [f"{short(path)} {len(lines_of(path)):,}" for folder in counts for path in files(all_crates(), folder)
             if len(lines_of(path)) > LONGEST_FILE]
    yield f"files with over {LONGEST_FILE} lines, of all crates", len(large), "none", large
    sizes = Counter({str(path.relative_to(ROOT)): words(path) for path in pages()})
    yield "words of all pages", sum(sizes.values()), "at most 40,000", [f"{name} {count:,}" for name, count in sizes.most_common()]


def arguments(parser):
    parser.add_argument("--names", action="store_true", help="print behind the table what each number counts, by name")


def main(given):
    table = list(measures())
    width = max(len(what) for what, *_ in table)
    for what, number, bound, _ in table:
        print(f"{what:<{width}}  {number:>7,}  {bound}".rstrip())
    if given.names:
        for what, _, _, named in table:
            if named:
                print(f"\n{what}:", *named, sep="\n    ")
    return 0
