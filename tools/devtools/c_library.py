"""Builds the library for C, C++ and Rust with its examples, runs these and the tests, and ends in `N passed, M failed`.

It proves and builds crates/capffi first, by rt. Where capd is built, it asks both it and c/examples/explain.c questions at random: that
example by a block, by the text and by a mask.

What it builds lies in out/c: libbaybowl.a, to which c/include/baybowl.h belongs, and the examples. gcc, g++ and Python are needed;
clang and rustc are used where they are there, and it is said where they are not.
"""

import shutil
import subprocess
import sys
from pathlib import Path

from . import c_header as header
from . import c_questions as questions
from .workspace import C, CAPD, CRATES, HEADER, LIBRARY, ROOT, needs
from .workspace import C_BUILT as OUT

CAPFFI = CRATES / "capffi" / "out" / "libcapffi.a"
STRICT = ["-Wall", "-Wextra", "-Werror", "-pedantic"]
SOURCE, TESTS, EXAMPLES = C / "src" / "baybowl.c", C / "tests", C / "examples"
INCLUDES = [f"-I{folder}" for folder in (HEADER.parent, SOURCE.parent, TESTS)]
COMPILERS = {
    "gcc": ["-std=c11", "-x", "c"],
    "g++": ["-std=c++17", "-x", "c++"],
    "clang": ["-std=c11", "-x", "c"],
    "clang++": ["-std=c++17", "-x", "c++"],
}
SANITIZERS = ["-g", "-O1", "-fsanitize=address,undefined", "-fno-sanitize-recover=all", "-fno-omit-frame-pointer"]
README_QUESTION = {
    "fs": "cephfs",
    "grants": "allow rw fsname=cephfs path=/a, allow r fsname=cephfs",
    "uid": "9",
    "gid": "50",
    "path": "/b/x",
    "owner": "7",
    "group": "50",
    "mode": "0640",
    "access": "write",
}
README_ANSWER = b"denied write /b/x grant 1 rule 4 path, grant 2 rule 5 no-write\n"

passed, failed = 0, 0


def told(what, is_well, why=""):
    global passed, failed
    passed, failed = passed + bool(is_well), failed + (not is_well)
    print(f"{'ok' if is_well else 'FAILED'}: {what}{f': {why}' if why and not is_well else ''}", flush=True)
    return is_well


def run(words, **how):
    done = subprocess.run([str(it) for it in words], stdin=subprocess.DEVNULL, stdout=subprocess.PIPE, stderr=subprocess.PIPE, **how)
    return done.returncode, done.stdout, done.stderr


def begun(what):
    """Says what comes next, where it takes a while."""
    print(f"{what} ..", flush=True)


def must(words, **how):
    """Runs what all else stands on."""
    status, out, err = run(words, **how)
    if status != 0:
        said, asked = (out + err).decode(errors="replace"), " ".join(str(it) for it in words)
        sys.exit(f"{said}\ntools/dev c-library: {asked} failed\n{passed} passed, {failed + 1} failed")
    return out


def kit():
    return Path(must(["rt", "doc"]).decode().strip()).parent


def build_after_ci():
    """Builds capffi over the libraries that `rt ci` proved and left. `rt lib` would prove all of them once more."""
    every, at = needs(), kit()
    own = [it for it in every["capffi"] if it in every]
    of_kit = {"core", "std"}.union(*(set(every[it]) - set(every) for it in ["capffi", *own]))
    words = [at / "bin" / "rattle", "build", "--crate-name", "capffi", "src/lib.rt"]
    for name in sorted({"std"} | (set(every["capffi"]) - set(own))):
        words += ["--extern", f"{name}={at}/rlibs/{name}.rlib"]
    words += ["-L", f"dependency={at}/rlibs"]
    for name in own:
        rlib = CRATES / name / "out" / "rlib" / f"{name}.rlib"
        words += ["--extern", f"{name}={rlib}", "-L", f"dependency={rlib.parent}"]
    words += ["--antt-project", at / "rattle" / "logic" / "antt-project.json", "--logic-built", at / "logic_built", "--jobs", "2"]
    words += ["--links", "capffi=", "--crate-type", "staticlib", "--toolchain", at / "toolchain", "--backend", "llvm"]
    CAPFFI.parent.mkdir(exist_ok=True)
    must([*words, "-o", CAPFFI], cwd=CRATES / "capffi")


def build_library(is_after_ci):
    if is_after_ci:
        begun("proving and building crates/capffi over the libraries of rt ci")
        build_after_ci()
    else:
        begun("proving and building crates/capffi and what it stands on, which takes some minutes")
        must(["rt", "lib"], cwd=CRATES / "capffi")
    shutil.rmtree(OUT, ignore_errors=True)
    OUT.mkdir(parents=True)
    return archive(LIBRARY.name, ["-O2", "-fPIC"])


def archive(name, flags):
    """One archive of what is proved, of baybowl.c, and of the kit's calls of malloc, in which only what the header declares has a name."""
    shim, whole, names = (OUT / f"{name}.{kind}" for kind in ("shim.o", "o", "names"))
    must(["gcc", "-std=c11", *STRICT, *flags, *INCLUDES, "-c", SOURCE, "-o", shim])
    must(["ld", "-r", "-o", whole, shim, "--whole-archive", CAPFFI, kit() / "c" / "liblibc_c.a"])
    names.write_text("".join(f"{it}\n" for it in header.calls(ROOT)), encoding="utf-8")
    must(["objcopy", f"--keep-global-symbols={names}", whole])
    must(["ar", "rcs", OUT / name, whole])
    return OUT / name


def check_names(library):
    """The archive has the names of the header's calls, and no others."""
    status, out, err = run(["nm", "-g", "--defined-only", "-P", library])
    found = {line.split()[0] for line in out.decode().splitlines() if " " in line}
    told("names of the archive", status == 0 and found == set(header.calls(ROOT)), f"{err.decode()}{sorted(found ^ set(header.calls(ROOT)))}")


def check_header():
    file = OUT / "assertions.c"
    file.write_text(header.assertions(ROOT), encoding="utf-8")
    for name, options in COMPILERS.items():
        if not shutil.which(name):
            print(f"not there, and left out: {name}")
            continue
        status, out, err = run([name, *options, *STRICT, *INCLUDES, "-fsyntax-only", file])
        told(f"header and source by {name}", status == 0, (out + err).decode(errors="replace"))
    found = header.differences(ROOT)
    told("names of header and source", not found, "; ".join(found))


def check_words():
    """The words that the library has are those of the source."""
    source = TESTS / "words.c"
    status, out, err = build_c("words", [source], LIBRARY)
    wanted = [*header.rule_words(ROOT), *header.fault_words(ROOT)]
    said = run([OUT / "words"])[1].decode().split("\n")[:-1] if status == 0 else []
    told("words of rules and faults", said == wanted, (out + err).decode(errors="replace"))


def build_c(name, sources, library, flags=("-O2",), compiler="gcc"):
    return run([compiler, "-std=c11", *STRICT, "-D_GNU_SOURCE", *flags, *INCLUDES, *sources, library, "-pthread", "-o", OUT / name])


def check_example(name, built, words, wanted):
    status, out, err = built
    if status == 0:
        status, out, err = run(words)
    told(f"example {name}", status == 0 and out == wanted, (out + err).decode(errors="replace"))


def check_refused(name, asked):
    """Words that are wrong, and an output that can't be written, end with a status."""
    wrong = [[*asked, "--groups"], [*asked, "word"], [*asked, "--quiet"], [*asked, "--uid", "9"], [*asked, "--groups", "-1"], asked[:-2]]
    told(f"words that {name} refuses", all(run([OUT / "explain", *words])[0] == 2 for words in wrong))
    if Path("/dev/full").exists():
        with open("/dev/full", "wb") as full:
            done = subprocess.run([OUT / "explain", *asked], stdin=subprocess.DEVNULL, stdout=full, stderr=subprocess.PIPE)
        told(f"an output that {name} can't write", (done.returncode, done.stderr) == (1, b"explain: write failed\n"))


def check_examples(library):
    asked = [word for name, value in README_QUESTION.items() for word in (f"--{name}", value)]
    built = build_c("explain", [EXAMPLES / "explain.c"], library)
    check_example("explain.c", built, [OUT / "explain", *asked], README_ANSWER)
    check_example("explain.c, by the text", built, [OUT / "explain", *asked, "--by", "text"], README_ANSWER)
    check_example("explain.c, by a mask", built, [OUT / "explain", *asked, "--by=mask"], README_ANSWER)
    check_refused("explain.c", asked)
    built = run(["g++", "-std=c++17", *STRICT, "-O2", *INCLUDES, EXAMPLES / "beside.cpp", library, "-o", OUT / "beside"])
    check_example("beside.cpp", built, [OUT / "beside"], (EXAMPLES / "beside.stdout").read_bytes())
    if not shutil.which("rustc"):
        print("not there, and left out: rustc")
        return
    for name in ("shared", "session"):
        source = EXAMPLES / f"{name}.rs"
        built = run(["rustc", "--edition", "2021", "-O", "-D", "warnings", source, "-L", OUT, "-l", "static=baybowl", "-o", OUT / name])
        check_example(f"{name}.rs", built, [OUT / name], source.with_suffix(".stdout").read_bytes())


def check_test(name, built, program):
    begun(name)
    status, out, err = built
    if status == 0:
        status, out, err = run([program])
    told(name, status == 0 and not err, (out + err).decode(errors="replace"))
    if status == 0:
        print(f"    {out.decode().strip()}")


def check_tests(library):
    for name in ("pointers", "threads", "blocks", "memory"):
        check_test(name, build_c(name, [TESTS / f"{name}.c"], library), OUT / name)


def sanitizing():
    """The C compilers that have the sanitizers."""
    found = []
    source = OUT / "nothing.c"
    source.write_text("int main(void) { return 0; }\n", encoding="utf-8")
    for name in ("gcc", "clang"):
        if shutil.which(name) and run([name, *SANITIZERS, source, "-o", OUT / "nothing"])[0] == 0:
            found.append(name)
        else:
            print(f"not there, and left out: the sanitizers of {name}")
    return found


def check_sanitized(seed, is_compared):
    """The same with what watches memory and undefined behaviour: in the C code, and in what the library takes of malloc."""
    for compiler in sanitizing():
        # The whole C side is compiled anew, so that it is watched too.
        sources = [SOURCE, CAPFFI]
        for name in ("pointers", "threads", "blocks", "explain"):
            file = EXAMPLES / "explain.c" if name == "explain" else TESTS / f"{name}.c"
            program = OUT / f"{name}-{compiler}-sanitized"
            built = build_c(program.name, [file, *sources], kit() / "c" / "liblibc_c.a", SANITIZERS, compiler)
            if name != "explain":
                check_test(f"{name} under ASan and UBSan of {compiler}", built, program)
            elif told(f"explain built with ASan and UBSan by {compiler}", built[0] == 0, (built[1] + built[2]).decode(errors="replace")) and is_compared:
                check_questions(200, seed, program, f" under ASan and UBSan of {compiler}")


def has_capd(args):
    """Whether there is a program to compare with. `rt ci` leaves it; else it is built where questions are asked for by number."""
    if not CAPD.exists() and args.questions is not None and not args.after_ci:
        begun("proving and building crates/capd, which takes half an hour or so")
        must(["rt", "run", "--", "grants", "allow r"], cwd=CRATES / "capd")
    if CAPD.exists():
        return True
    if args.after_ci:
        told("the program that rt ci leaves", False, f"no {CAPD}")
    else:
        print("not there, and left out: capd, so no question is compared. --questions 2000 builds it")
    return False


def check_questions(count, seed, explain, how=""):
    begun(f"{count} questions{how}")
    kinds, differing = questions.ask(count, seed, str(explain), str(CAPD))
    answered = kinds["allowed"] > 0 and kinds["denied"] > 0 and kinds["status 1"] > 0
    what = f"{count} questions{how}, by block, by text and by mask, byte for byte as capd explain"
    told(what, answered and not differing, f"{len(differing)} differ, the first {differing[:1]}")
    print(f"    {dict(sorted(kinds.items()))}")


def arguments(parser):
    parser.add_argument("--questions", type=int, metavar="N", help="ask so many questions (default: 2000), and build capd first if need be")
    parser.add_argument("--seed", default="baybowl", metavar="WORD", help="ask other questions")
    parser.add_argument("--after-ci", action="store_true", help="take the libraries and the program that `rt ci` left in crates/*/out")


def main(args):
    library = build_library(args.after_ci)
    check_header()
    check_names(library)
    check_words()
    check_examples(library)
    check_tests(library)
    is_compared = has_capd(args)
    check_sanitized(args.seed, is_compared)
    if is_compared:
        check_questions(args.questions or 2000, args.seed, OUT / "explain")
    print(f"{passed} passed, {failed} failed")
    return 1 if failed else 0
