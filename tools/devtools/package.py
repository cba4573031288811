"""Makes of what a passed gate left a Debian package, out/package/baybowl_VERSION_ARCHITECTURE.deb, or a tree that is installed.

It takes crates/capd/out/capd, which `rt ci` leaves, and out/c/libbaybowl.a, which `tools/dev c-library` leaves. The command then
needs nothing but the C library. VERSION is what `capd --version` says, the day of the last commit, and the commit; the first alone where
git does not tell them.
"""

import argparse
import gzip
import json
import os
import shutil
import subprocess
import sys
import tempfile
from pathlib import Path

from .workspace import C, CAPD, HEADER, LIBRARY, ROOT

OUT = ROOT / "out" / "package"
DESCRIPTION = """what CephFS clients may do, and why not
 The command capd answers by the rules of a CephFS metadata server which access
 the MDS auth caps of a client allow, by which grant, or why not; compares lists
 of grants over every question that can be asked; tells what in one of them
 should be looked at again; and plays scripts of a server and its clients. The
 library libbaybowl.a answers the same to C, C++ and Rust.
"""
QUESTION = [
    *("explain", "--grants", "allow r path=/pub, allow rw path=/data uid=1001 gids=200", "--fs", "cephfs", "--uid", "1001"),
    *("--gid", "1001", "--groups", "200,300", "--path", "/data/report", "--owner", "1002", "--group", "200", "--mode", "0640"),
    *("--access", "write"),
]
ANSWER = "denied write /data/report grant 1 rule 4 path, grant 2 rule 11 mode-bits\n"


def told(words, **how):
    return subprocess.run([str(it) for it in words], check=True, stdout=subprocess.PIPE, text=True, **how).stdout


def version():
    project = told([CAPD, "--version"]).removeprefix("capd ").strip()
    try:
        commit = told(["git", "log", "-1", "--date=format:%Y%m%d", "--format=%cd.%h"], cwd=ROOT, stderr=subprocess.DEVNULL).strip()
    except (OSError, subprocess.CalledProcessError):
        return project
    return f"{project}.{commit}"


def architecture():
    return told(["dpkg", "--print-architecture"]).strip()


def pkg_config(prefix):
    return f"""prefix={prefix}
libdir=${{prefix}}/lib
includedir=${{prefix}}/include

Name: baybowl
Description: The verdict on CephFS grants, and the table of the locks
Version: {version()}
Libs: -L${{libdir}} -lbaybowl
Cflags: -I${{includedir}}
"""


def put(path, content, mode=0o644):
    """A file with this content, in folders of its own."""
    path.parent.mkdir(parents=True, exist_ok=True)
    path.write_bytes(content)
    path.chmod(mode)


def files(prefix):
    """What is installed: the path below the prefix, what stands there, and its mode."""
    yield "bin/capd", CAPD.read_bytes(), 0o755
    yield "share/man/man1/capd.1.gz", gzip.compress((ROOT / "docs" / "capd.1").read_bytes(), mtime=0), 0o644
    yield "share/bash-completion/completions/capd", (ROOT / "packaging" / "capd.bash").read_bytes(), 0o644
    yield "lib/libbaybowl.a", LIBRARY.read_bytes(), 0o644
    yield "lib/pkgconfig/baybowl.pc", pkg_config(prefix).encode(), 0o644
    yield "include/baybowl.h", HEADER.read_bytes(), 0o644
    pages = [ROOT / "README.md", ROOT / "CHANGELOG.md", *sorted((ROOT / "docs").glob("*.md"))]
    for page in [*pages, *sorted((C / "examples").glob("*.c"))]:
        yield f"share/doc/baybowl/{page.relative_to(ROOT)}", page.read_bytes(), 0o644


def install(into, prefix):
    for name, content, mode in files(prefix):
        put(into / prefix.lstrip("/") / name, content, mode)


def debian(tree, folder):
    """The package of a tree, in this folder."""
    size = sum(it.stat().st_size for it in tree.rglob("*") if it.is_file()) // 1024 + 1
    control = [
        *("Package: baybowl", f"Version: {version()}", f"Architecture: {architecture()}", "Depends: libc6"),
        *("Maintainer: Baybowl maintainers <maintainers@users.noreply.baybowl.example>", "Section: admin", "Priority: optional"),
        *(f"Installed-Size: {size}", f"Description: {DESCRIPTION}"),
    ]
    put(tree / "DEBIAN" / "control", "\n".join(control).encode())
    folder.mkdir(parents=True, exist_ok=True)
    package = folder / f"baybowl_{version()}_{architecture()}.deb"
    told(["dpkg-deb", "--root-owner-group", "--build", tree, package])
    shutil.rmtree(tree / "DEBIAN")
    return package


# ---- the test


class Tests:
    """What was tried, and how much of it went well."""

    def __init__(self):
        self.passed = self.failed = 0

    def tell(self, what, is_well):
        self.passed, self.failed = self.passed + is_well, self.failed + (not is_well)
        print(f"{'ok' if is_well else 'FAILED'}: {what}", flush=True)

    def try_out(self, what, call):
        try:
            self.tell(what, call())
        except (OSError, subprocess.CalledProcessError) as fault:
            self.tell(f"{what}: {fault}", False)


def answers(capd):
    return told([capd, *QUESTION]) == ANSWER


def speaks_json(capd):
    """Whether another reader of JSON finds in the object what the line for people says, and a path that is no text in its digits."""
    found = json.loads(told([capd, *QUESTION, "--json"]))
    rules = [f"grant {it['grant']} rule {it['rule']} {it['word']}" for it in found["rules"]]
    line = f"{found['verdict']} {found['access']} {found['path']} {', '.join(rules)}\n"
    other = [b"/\xff" if it == "/data/report" else it.encode() for it in QUESTION]
    path = json.loads(subprocess.run([os.fsencode(capd), *other, b"--json"], check=True, stdout=subprocess.PIPE).stdout)["path"]
    return line == ANSWER and bytes.fromhex(path["hex"]) == b"/\xff"


def plays(capd, script):
    """Whether the script is answered as the text beside it says, which was worked out by the rules and not by this program."""
    with open(script, "rb") as lines:
        return told([capd, "run"], stdin=lines) == script.with_suffix(".transcript").read_text()


def tells_why_unread(capd):
    """Whether a script that is too long, and one that isn't there yet on an input that doesn't wait, are told apart with --more alone."""
    too_long = b"\n" * (16 * 1024 * 1024 + 1)
    ours, theirs = os.pipe()
    os.set_blocking(ours, False)
    try:
        said = [
            subprocess.run([capd, "run", *more], **given, stderr=subprocess.PIPE, stdout=subprocess.PIPE)
            for more in ([], ["--more"])
            for given in ({"input": too_long}, {"stdin": ours})
        ]
    finally:
        os.close(ours)
        os.close(theirs)
    line = b"capd: read failed\n"
    hints = b"", b"", b"hint: a script has at most 16777216 bytes\n", b"hint: standard input had nothing yet, and is set not to wait for more\n"
    return [(it.returncode, it.stdout, it.stderr) for it in said] == [(1, b"", line + hint) for hint in hints]


def shows_page(page):
    return "capd compare OLD NEW" in told(["man", "-l", page], stderr=subprocess.DEVNULL, env={**os.environ, "MANWIDTH": "120"})


def completed(script, *words):
    given = " ".join(words)
    asked = f'source "{script}"; COMP_WORDS=({given}); COMP_CWORD={len(words) - 1}; _capd; echo "${{COMPREPLY[*]}}"'
    return told(["bash", "-c", asked]).split()


def completes(script):
    by_release = completed(script, "capd", "explain", "--mds", "16", "--access", "r")
    return completed(script, "capd", "co") == ["compare"] and by_release == ["read", "readwrite"]


def builds(tree, prefix, room):
    """Whether the example builds by what pkg-config says of the installed library alone, and answers."""
    root = tree / prefix.lstrip("/")
    seen = {**os.environ, "PKG_CONFIG_LIBDIR": str(root / "lib" / "pkgconfig"), "PKG_CONFIG_SYSROOT_DIR": str(tree)}
    # Folders of the system are told too, as these stand below another root.
    seen |= {"PKG_CONFIG_ALLOW_SYSTEM_CFLAGS": "1", "PKG_CONFIG_ALLOW_SYSTEM_LIBS": "1"}
    flags = told(["pkg-config", "--cflags", "--libs", "baybowl"], env=seen).split()
    example = root / "share" / "doc" / "baybowl" / "c" / "examples" / "explain.c"
    told(["cc", "-o", room / "explain", example, *flags])
    return told([room / "explain", *QUESTION[1:]]) == ANSWER


def is_there(tool):
    """Whether a tool is here, and tells its version: some images have a text in the place of man."""
    try:
        return tool in told([tool, "--version"], stderr=subprocess.STDOUT) or tool == "pkg-config"
    except (OSError, subprocess.CalledProcessError):
        return False


def holds_all(package, tree):
    told(["dpkg-deb", "--extract", package, tree])
    return answers(tree / "usr" / "bin" / "capd") and "Package: baybowl" in told(["dpkg-deb", "--info", package])


def test(prefix):
    tests = Tests()
    with tempfile.TemporaryDirectory() as name:
        room = Path(name)
        tree = room / "tree"
        install(tree, prefix)
        root = tree / prefix.lstrip("/")
        tests.try_out("the installed command answers", lambda: answers(root / "bin" / "capd"))
        tests.try_out("its objects are JSON", lambda: speaks_json(root / "bin" / "capd"))
        for script in sorted((ROOT / "examples").glob("*.transcript")):
            script = script.with_suffix(".script")
            tests.try_out(f"it plays examples/{script.name}", lambda script=script: plays(root / "bin" / "capd", script))
        tests.try_out("it tells why a script was not read", lambda: tells_why_unread(root / "bin" / "capd"))
        tests.try_out("its words are completed", lambda: completes(root / "share" / "bash-completion" / "completions" / "capd"))
        for tool, what, call in (
            ("man", "its page is shown", lambda: shows_page(root / "share" / "man" / "man1" / "capd.1.gz")),
            ("pkg-config", "the example in C builds by pkg-config alone, and answers", lambda: builds(tree, prefix, room)),
            ("dpkg-deb", "the package has a command that answers", lambda: holds_all(debian(tree, room), room / "extracted")),
        ):
            if is_there(tool):
                tests.try_out(what, call)
            else:
                print(f"no {tool} here: not tried whether {what}")
    print(f"{tests.passed} passed, {tests.failed} failed")
    return 1 if tests.failed else 0


def prefix(word):
    """A prefix, which begins with a slash."""
    if not word.startswith("/"):
        raise argparse.ArgumentTypeError(f"the prefix {word} does not begin with a slash")
    return word


def arguments(parser):
    parser.add_argument("--into", metavar="DESTDIR", type=Path, help="install below this folder in place of that; / is the running system")
    parser.add_argument("--prefix", default="/usr", type=prefix, help="install for this prefix (default: /usr)")
    parser.add_argument("--test", action="store_true", help="install into a folder that goes again, and try it: the command, its page, the "
                        "library by pkg-config alone, and the package; ends in `N passed, M failed`")


def main(given):
    for needed, by in ((CAPD, "rt ci"), (LIBRARY, "tools/dev c-library")):
        if not needed.exists():
            sys.exit(f"tools/dev package: no {needed}: {by} makes it")
    if given.test:
        return test(given.prefix)
    if given.into:
        install(given.into, given.prefix)
        return 0
    if not shutil.which("dpkg-deb"):
        sys.exit("tools/dev package: there is no dpkg-deb here; --into installs without it")
    with tempfile.TemporaryDirectory() as name:
        install(Path(name) / "tree", given.prefix)
        print(debian(Path(name) / "tree", OUT))
    return 0
