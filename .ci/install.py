#!/usr/bin/env python3
"""Installs the release below a scratch folder by the Makefile, and compares what stands there and what is built over it: .ci/install.py

It shows that the shared libraries export the functions of their headers alone; that the callers of examples/c link in C and in C++ by
pkg-config; that the callers of bindings/ build, write what `dispatch live --alarms` writes, and write the same where the library gets no memory
at one allocation or another, and leak nothing, and that others write what a desk knows (golden/desk); that man pages and completions are well formed; and that `make uninstall` leaves nothing.

What a missing tool leaves out is a line, `not run: ..`. Each fault is a line; the last line counts what came out right, and the exit status is
0 where all did.
"""

import os
import re
import shutil
import subprocess
import sys
import tempfile
from concurrent.futures import ThreadPoolExecutor
from pathlib import Path

ROOT = Path(__file__).resolve().parent.parent
SECONDS = 120  # no command takes so long
MOST = 2000  # no caller of the refusals asks so often for memory
MESSAGES = ("1002800000005FFFFFE0", "1807000000FA600000A82811C004E200FA2210502380338801F40800")
STRICT = ["-Wall", "-Wextra", "-Werror"]
WATCHED = ["valgrind", "--quiet", "--error-exitcode=9", "--leak-check=full", "--errors-for-leak-kinds=definite,indirect"]
WORDS_OF_BASH = {"r": "run", "run --w": "--workers", "run --workers ": "", "run --track crates.": "crates.txt", "help dec": "decode"}


class Checks:
    """What was found right and wrong."""

    def __init__(self):
        self.right = self.wrong = 0

    def check(self, name, is_right, more=""):
        self.right += bool(is_right)
        self.wrong += not is_right
        if not is_right:
            print(f"install: {name}: {more or 'another answer'}")
        return is_right

    def runs(self, name, *words, **more):
        """Whether a command ends with status 0; what it wrote is told where it does not."""
        done = run(*words, **more)
        return self.check(name, done.returncode == 0, " ".join((done.stdout + done.stderr).decode(errors="replace").split())[-300:])

    def has(self, *tools, what):
        """Whether all tools are there; a line says so where one is not."""
        missing = [tool for tool in tools if not shutil.which(tool)]
        if missing:
            print(f"install: not run: {what}, for want of {' and '.join(missing)}")
        return not missing


def run(*words, env=None, **more):
    env = {**os.environ, **(env or {})}
    return subprocess.run([str(word) for word in words], capture_output=True, timeout=SECONDS, env=env, **{"cwd": ROOT, **more})


class Scratch:
    """A folder with an installation, and the words that build over it."""

    def __init__(self, folder):
        self.folder, self.prefix = folder, folder / "prefix"
        self.lib, self.bindings = self.prefix / "lib", self.prefix / "share/dispatch/bindings"
        self.env = {"PKG_CONFIG_PATH": str(self.lib / "pkgconfig"), "LD_LIBRARY_PATH": str(self.lib), "PYTHONDONTWRITEBYTECODE": "1"}

    def make(self, target, *words):
        return ["make", "-s", target, f"OUT={self.folder}/out", f"PREFIX={self.prefix}", *words]

    def package(self, *words):
        return run("pkg-config", *words, env=self.env).stdout.decode().split()


# ---- what is installed

def files_below(folder):
    return sorted(path.relative_to(folder).as_posix() for path in folder.rglob("*") if not path.is_dir())


def installation(checks, scratch):
    """Whether it can be installed, below a PREFIX and below a DESTDIR."""
    clean = {"PATH": "/usr/bin:/bin"}
    if not checks.runs("make install", *scratch.make("install"), env=clean):
        return False
    checks.runs("make install DESTDIR=..", *scratch.make("install", f"DESTDIR={scratch.folder}/root"), env=clean)
    below = scratch.folder / f"root{scratch.prefix}"
    checks.check("DESTDIR has the files of PREFIX", files_below(below) == files_below(scratch.prefix))
    checks.check("rbc.pc names PREFIX", (below / "lib/pkgconfig/rbc.pc").read_bytes() == (scratch.lib / "pkgconfig/rbc.pc").read_bytes())
    wanted = run("release/dispatch", "--version").stdout
    checks.check("bin/dispatch", run(scratch.prefix / "bin/dispatch", "--version").stdout == wanted)
    return True


def libraries(checks, scratch):
    """The soname and the exported functions of each shared library, and the objects of each archive."""
    if not checks.has("nm", "objdump", "ar", what="the names in the libraries"):
        return
    for name in ("rbc", "ertms"):
        header = (scratch.prefix / f"include/{name}.h").read_text()
        abi = re.search(rf"^#define {name.upper()}_VERSION (\d+)$", header, re.M)[1]
        file = scratch.lib / f"lib{name}.so.{abi}"
        others = dict(re.findall(r"^#define (\w+) (\w+)$", header, re.M))
        wanted = {others.get(found, found) for found in re.findall(rf"^[a-z]\w*[ *]+({name}_\w+)\(", header, re.M)}
        table = [line.split() for line in run("nm", "-D", "--defined-only", file).stdout.decode().splitlines()]
        checks.check(f"functions of {file.name}", {row[2].partition("@")[0] for row in table if row[1] != "A"} == wanted, table)
        checks.check(f"soname of {file.name}", f"SONAME               {file.name}\n" in run("objdump", "-p", file).stdout.decode())
        checks.check(f"lib{name}.a", run("ar", "t", scratch.lib / f"lib{name}.a").stdout == f"{name}.o\nheap.o\n".encode())


def pages(checks, scratch):
    """Each man page is one that groff has no warning of."""
    if not checks.has("groff", what="man pages"):
        return
    for page in sorted((scratch.prefix / "share/man/man1").iterdir()):
        done = run("groff", "-man", "-ww", "-z", "-Tutf8", page)
        checks.check(page.name, not done.returncode and not done.stderr, done.stderr.decode())


def completions(checks, scratch):
    """What bash completes, and whether the other shells can read theirs."""
    share = scratch.prefix / "share"
    script = f"source {share}/bash-completion/completions/dispatch; compopt() {{ :; }}\n"
    script += "try() { COMP_WORDS=(dispatch \"$@\") COMP_CWORD=$#; _dispatch; printf '%s\\n' \"${COMPREPLY[*]}\"; }\n"
    for line, wanted in WORDS_OF_BASH.items():
        words = " ".join(f"'{word}'" for word in line.split(" "))
        checks.check(f"bash: dispatch {line}", run("bash", "-c", f"{script}try {words}").stdout.decode() == f"{wanted}\n")
    for shell, file in (("zsh", "zsh/site-functions/_dispatch"), ("fish", "fish/vendor_completions.d/dispatch.fish")):
        if checks.has(shell, what=f"completions of {shell}"):
            checks.runs(f"completions of {shell}", shell, "-n", share / file)


# ---- callers

def batches():
    """Tracks and batches on which a caller is compared with the program."""
    for track in ("main_line", "track_a"):
        for batch in sorted((ROOT / "examples").glob("*.batch")):
            yield ROOT / f"examples/{track}.toml", batch


def callers_in_c(checks, scratch, compiler, *words):
    """The callers of examples/c, shared and static."""
    if not checks.has(compiler, "pkg-config", what=f"callers by {compiler}"):
        return
    for name, package in (("live", "rbc"), ("alarms", "rbc"), ("message", "ertms")):
        for how in ([], ["-static"]):
            built = scratch.folder / f"{name}_{compiler}{''.join(how)}"
            found = scratch.package("--cflags", "--libs", package)
            said = " ".join([compiler, f"{name}.c", *how])
            if checks.runs(said, compiler, *words, *STRICT, *how, ROOT / f"examples/c/{name}.c", *found, "-o", built):
                checks.check(f"{said} runs", is_right_in_c(scratch, name, built))


def is_right_in_c(scratch, name, built):
    if name == "message":
        return all(run(built, message, env=scratch.env).stdout.endswith(f"{message}\n".encode()) for message in MESSAGES)
    words = ["run", "--alarms"] if name == "alarms" else ["run"]
    for track, batch in batches():
        wanted = run(scratch.prefix / "bin/dispatch", *words, "--track", track, input=batch.read_bytes()).stdout
        if name == "alarms":
            wanted = b"".join(line for line in wanted.splitlines(keepends=True) if line.split()[1] in (b"raised", b"cleared"))
        if run(built, track, input=batch.read_bytes(), env=scratch.env).stdout != wanted:
            return False
    return True


def with_another_memory(checks, scratch):
    """A program with heap.c among its own files, compiled as C or as C++: with the archives of the release, which have no memory in them, and with
    the installed ones, where its own functions are taken."""
    for compiler in filter(shutil.which, ("cc", "g++")):
        for archives in ([ROOT / "release/c/librbc_c.a", ROOT / "release/c/libertms_c.a"], [scratch.lib / "librbc.a", scratch.lib / "libertms.a"]):
            said, built = f"{compiler} live.c heap.c {archives[0].name}", scratch.folder / "own"
            words = [ROOT / "examples/c/live.c", ROOT / "include/heap.c", f"-I{scratch.prefix}/include", *archives]
            if checks.runs(said, compiler, *STRICT, *words, "-o", built):
                checks.check(f"{said} runs", is_right_in_c(scratch, "live", built))


def refuse(scratch):
    """The library that refuses an allocation, built."""
    built = scratch.folder / "refuse.so"
    run("cc", "-O2", "-shared", "-fPIC", ROOT / "bench/refuse.c", "-o", built, "-ldl")
    return built


# from a file: an empty last line, a form feed and other bytes that a text file may lose, and no last line feed
ODD_BATCHES = (b"enrol 7 1000\n\n", b"enrol 7 1000\n\fwithdraw 7\n", b"enrol 7 1000\r\n\xff\x1a\nenrol 7 1000")


def caller(checks, scratch, name, words, step=1):
    """A caller of bindings/: what it writes of each batch, and where one allocation of the library is refused."""
    for track, batch in batches():
        lines = batch.read_bytes()
        wanted = run(scratch.prefix / "bin/dispatch", "live", "--alarms", "--track", track, input=lines)
        done = run(*words, track, input=lines, env=scratch.env)
        checks.check(f"{name}: {batch.name} on {track.name}", (done.returncode, done.stdout, done.stderr) == (0, wanted.stdout, b""), done.stderr)
    for odd in ODD_BATCHES:
        (scratch.folder / "odd.batch").write_bytes(odd)
        wanted = run(scratch.prefix / "bin/dispatch", "live", "--alarms", "--track", track, input=odd)
        with (scratch.folder / "odd.batch").open() as lines:
            done = run(*words, track, stdin=lines, env=scratch.env)
        checks.check(f"{name}: {odd}", (done.returncode, done.stdout, done.stderr) == (0, wanted.stdout, b""), done.stderr)
    track, lines = ROOT / "examples/track_a.toml", (ROOT / "examples/first.batch").read_bytes()
    wanted, tool = run(scratch.prefix / "bin/dispatch", "live", "--alarms", "--track", track, input=lines).stdout, refuse(scratch)

    def refused(number):
        """Whether an allocation was refused, whether the caller was told, and whether it wrote the same. The library can do without some."""
        with tempfile.TemporaryFile(dir=scratch.folder) as tells:
            env = {**scratch.env, "LD_PRELOAD": str(tool), "REFUSE_IN": "librbc.so", "REFUSE": str(number), "REFUSE_TELLS": str(tells.fileno())}
            done = run(*words, track, input=lines, env=env, pass_fds=[tells.fileno()])
            was_refused = tells.seek(0, 2) > 0
        return was_refused, b"no memory at line" in done.stderr, (done.returncode, done.stdout) == (0, wanted)

    told = 0
    with ThreadPoolExecutor(os.cpu_count()) as pool:
        for at in range(1, MOST, 40 * step):
            ended = list(pool.map(refused, range(at, at + 40 * step, step)))
            told += sum(is_told for _, is_told, _ in ended)
            wrong = [number for number, (_, _, is_right) in zip(range(at, MOST, step), ended) if not is_right]
            checks.check(f"{name}: without memory, allocations from {at} on", not wrong, f"not as they should be: {wrong}")
            if not all(was_refused for was_refused, _, _ in ended):
                break
    checks.check(f"{name}: told that there was no memory", told > 0)
    if words[0] != sys.executable and checks.has("valgrind", what=f"the search for leaks in {name}"):
        checks.runs(f"{name}: leaks", *WATCHED, *words, track, input=lines, env=scratch.env)


def asked(checks, scratch, name, words):
    """A caller of bindings/ that prints what a desk knows, and why it refused a line."""
    folder = ROOT / "golden/desk"
    done = run(*words, ROOT / "examples/main_line.toml", input=(folder / "questions.batch").read_bytes(), env=scratch.env)
    wanted = (folder / "questions.expected").read_bytes()
    checks.check(f"{name}: what a desk knows", (done.returncode, done.stdout, done.stderr) == (0, wanted, b""), done.stderr)


def in_cpp(checks, scratch):
    if checks.has("g++", "cc", "pkg-config", what="the callers in C++"):
        found = scratch.package("--cflags", "--libs", "rbc")
        for name, shown in (("live", caller), ("desk", asked)):
            source, built = scratch.bindings / f"cpp/{name}.cpp", scratch.folder / f"{name}_cpp"
            if checks.runs(f"C++: {name}.cpp", "g++", "-std=c++17", "-pedantic", *STRICT, source, *found, "-o", built):
                shown(checks, scratch, "C++", [built])


def in_ada(checks, scratch):
    if checks.has("gnatmake", "cc", "pkg-config", what="the callers in Ada"):
        folder = scratch.folder / "ada"
        folder.mkdir()
        for name, shown in (("live", caller), ("desk", asked)):
            words = ["gnatmake", "-q", "-gnat2012", "-gnatwa", "-gnatwe", "-gnata", f"-I{scratch.bindings}/ada", f"{name}.adb", "-largs"]
            if checks.runs(f"Ada: {name}.adb", *words, *scratch.package("--libs", "rbc"), cwd=folder):
                shown(checks, scratch, "Ada", [folder / name])


def in_python(checks, scratch):
    if checks.has("cc", what="the callers in Python"):
        caller(checks, scratch, "Python", [sys.executable, scratch.bindings / "python/live.py"], step=5)
        asked(checks, scratch, "Python", [sys.executable, scratch.bindings / "python/desk.py"])


def in_rust(checks, scratch):
    """The crate, copied from the installation, with the callers of the desk and of the codec; shared and static."""
    if not checks.has("cargo", "cc", "pkg-config", what="the callers in Rust"):
        return
    crate, target = scratch.folder / "crate", scratch.folder / "target"
    shutil.copytree(scratch.bindings / "rust", crate)
    env = {**scratch.env, "CARGO_TARGET_DIR": str(target)}
    for how in ([], ["--features", "shared"]):
        if not checks.runs(f"Rust: cargo build {' '.join(how)}", "cargo", "build", "--offline", "--examples", *how, cwd=crate, env=env):
            return
        for message in MESSAGES:
            done = run(target / "debug/examples/message", message, env=scratch.env)
            checks.check(f"Rust: message {message}", done.stdout.endswith(f"{message}\n".encode()))
    caller(checks, scratch, "Rust", [target / "debug/examples/live"])
    asked(checks, scratch, "Rust", [target / "debug/examples/desk"])


def removed(checks, scratch):
    checks.runs("make uninstall", *scratch.make("uninstall"))
    checks.check("make uninstall leaves no file", not files_below(scratch.prefix), files_below(scratch.prefix))


def main():
    if len(sys.argv) != 1:
        sys.exit(__doc__)
    checks = Checks()
    with tempfile.TemporaryDirectory() as folder:
        scratch = Scratch(Path(folder))
        if checks.has("make", "cc", what="the installation") and installation(checks, scratch):
            libraries(checks, scratch)
            pages(checks, scratch)
            completions(checks, scratch)
            callers_in_c(checks, scratch, "cc", "-std=c11")
            callers_in_c(checks, scratch, "g++")
            with_another_memory(checks, scratch)
            for binding in (in_cpp, in_ada, in_python, in_rust):
                binding(checks, scratch)
            removed(checks, scratch)
    print(f"install: {checks.right} of {checks.right + checks.wrong} checks came out right")
    return 1 if checks.wrong else 0


if __name__ == "__main__":
    sys.exit(main())
