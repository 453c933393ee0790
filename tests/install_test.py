#!/usr/bin/env python3
"""Installs hd into folders of its own by `make`, and takes it away again: each file is where the system and Python look for it, no other program's is touched, and nothing is left.

    tests/install_test.py FOLDER      FOLDER has hd, and hdrun where a C compiler has made it, as make leaves them in bin

Nothing is built. What is not there is said, and left out.
"""
import contextlib
import os
import shutil
import subprocess
import sys
import sysconfig
import tempfile

from playing import Count, read

ROOT = os.path.dirname(os.path.dirname(os.path.abspath(__file__)))

OTHER = """#!/bin/sh
echo 'hd from util-linux 2.41'
"""

# What `make install` leaves below PREFIX.
FILES = {
    "bin/hd",
    "share/man/man1/hd.1",
    "share/man/man5/hd-formats.5",
    "share/bash-completion/completions/hd",
    "share/zsh/site-functions/_hd",
}
# What `make install-dli` leaves there, beside hd.py.
DLI_FILES = {"bin/hdrun", "share/man/man1/hdrun.1", "include/ims.h"}

# What bash completes behind words, of which the last is typed in part or not yet; FILES stands for names of files.
COMPLETED = """
hd s|serve salvage show stream
hd re|recover reload
hd --e|--explain
hd --explain |always never auto
hd --explain = n|never
hd --explain always ch|check
hd check |FILES
hd check edu.dbd |FILES
hd check edu.dbd edu.volume |
hd check edu.dbd --c|--cache
hd check --cache |
hd check --cache = |
hd check --cache 9 edu.dbd |FILES
hd check --cache = 9 edu.dbd edu.volume |
hd --explain = always deck a b c |FILES
hd reload edu.dbd edu.stream |FILES
hd reload edu.dbd edu.stream edu.volume |
hd recover edu.dbd edu.volume |FILES
hd rows --csv |
hd stream --csv |FILES
hd stream --|--csv --explain --types --no-sync --help
hd serve --com|--commit-on-request
hd show --svg |FILES
hd rows --tables |FILES
hd salvage --orphans |FILES
hd deck --commit |
hd explain Fu|Full
hd explain GB |
hd nothing |
"""

# A shell that completes the words of its command line.
SHELL = """
source "$1" && shift && compopt() { found=; } && found=FILES && COMP_WORDS=("$@") COMP_CWORD=$(($# - 1)) &&
_hd hd "${COMP_WORDS[COMP_CWORD]}" "${COMP_WORDS[COMP_CWORD - 1]}"
echo "${COMPREPLY[*]:-$found}"
"""

count = Count()
expect = count.expect


def make(*words, **more):
    """How make ended, as from a user's shell: nothing of a make above it is heard."""
    environment = {name: value for name, value in os.environ.items() if not name.startswith("MAKE") and name not in ("MFLAGS", "PREFIX", "DESTDIR", "FORCE", "PYTHON")}
    made = ["-o", "bin/hd", "-o", "bin/hdrun"]
    return subprocess.run(["make", "--no-print-directory", *made, *words], cwd=ROOT, env={**environment, **more}, stdout=subprocess.PIPE, stderr=subprocess.STDOUT, encoding="utf-8", timeout=120)


def files(folder):
    """The names of all files below a folder."""
    return {os.path.relpath(os.path.join(place, name), folder) for place, _, names in os.walk(folder) for name in names}


def imported(python, *folders):
    """Where a Python finds hd.py, with more folders to look in."""
    environment = dict(os.environ, PYTHONPATH=":".join(folders), PYTHONDONTWRITEBYTECODE="1")
    done = subprocess.run([python, "-c", "import hd; print(hd.__file__, hd.ssa('PART'))"], cwd="/", env=environment, stdout=subprocess.PIPE, stderr=subprocess.STDOUT, encoding="utf-8", timeout=60)
    return done.stdout


def program(place):
    """The program below a prefix: again and again, and gone at the end."""
    for what in ("install", "a second install"):
        done = make("install", f"PREFIX={place}")
        expect(what, done.returncode == 0 and files(place) == FILES, f"{done.stdout}{files(place)}")
    told = f"PATH finds another hd, or none, before this one: {place}/bin\n"
    expect("a folder that PATH does not have first is told", done.stdout.endswith(told), done.stdout)
    done = make("install", f"PREFIX={place}", PATH=f"{place}/bin:{os.environ['PATH']}")
    expect("and no other", done.returncode == 0 and told not in done.stdout, done.stdout)
    said = subprocess.run([os.path.join(place, "bin/hd"), "--version"], stderr=subprocess.PIPE, encoding="utf-8", timeout=60).stderr
    expect("the program runs from there", said.startswith("hd "), said)
    completion(os.path.join(place, "share/bash-completion/completions/hd"))
    done = make("uninstall", f"PREFIX={place}")
    expect("uninstall leaves nothing", done.returncode == 0 and not files(place), f"{done.stdout}{files(place)}")
    done = make("install", f"DESTDIR={place}/stage")
    expect("install into a stage", done.returncode == 0 and files(f"{place}/stage/usr/local") == FILES, done.stdout)
    make("uninstall", f"DESTDIR={place}/stage")
    expect("uninstall from a stage leaves nothing", not files(place), f"{files(place)}")


def completion(script):
    """What bash completes, and that the script of zsh is one, where there is a zsh."""
    for line in COMPLETED.strip().split("\n"):
        typed, _, wanted = line.partition("|")
        done = subprocess.run(["bash", "--norc", "-c", SHELL, "bash", script, *typed.split(" ")], stdout=subprocess.PIPE, stderr=subprocess.STDOUT, encoding="utf-8", timeout=60)
        expect(f"completes {typed}", done.stdout == wanted + "\n", done.stdout)
    if shutil.which("zsh"):
        place = os.path.dirname(os.path.dirname(os.path.dirname(script)))
        done = subprocess.run(["zsh", "-n", f"{place}/zsh/site-functions/_hd"], stdout=subprocess.PIPE, stderr=subprocess.STDOUT, encoding="utf-8", timeout=60)
        expect("the completion of zsh is read", (done.returncode, done.stdout) == (0, ""), done.stdout)


def other(place):
    """Another program of the name, as a package has it: it is replaced only where that is asked for."""
    os.makedirs(os.path.join(place, "bin"))
    standing = os.path.join(place, "bin/hexdump")
    with open(standing, "w", encoding="ascii") as file:
        file.write(OTHER)
    os.chmod(standing, 0o755)
    os.symlink("hexdump", os.path.join(place, "bin/hd"))
    done = make("install", f"PREFIX={place}")
    line = f"{place}/bin/hd is another program, and stays: give another PREFIX, or FORCE=1 to replace it\n"
    expect("another hd is told", done.returncode == 2 and done.stdout.startswith(line), done.stdout)
    expect("another hd stays", files(place) == {"bin/hd", "bin/hexdump"} and os.readlink(f"{place}/bin/hd") == "hexdump", f"{files(place)}")
    done = make("uninstall", f"PREFIX={place}")
    expect("uninstall leaves another hd", done.returncode == 0 and files(place) == {"bin/hd", "bin/hexdump"}, done.stdout)
    done = make("install", f"PREFIX={place}", "FORCE=1")
    expect("FORCE=1 replaces it", done.returncode == 0 and read(f"{place}/bin/hd") == read(f"{ROOT}/bin/hd"), done.stdout)
    expect("what it led to stays", read(standing) == OTHER.encode())


def modules(place):
    """hd.py where Python looks for modules, below a prefix, and in a stage."""
    version = f"python{sys.version_info[0]}.{sys.version_info[1]}"
    done = make("install-dli", f"PREFIX={place}", f"PYTHON={sys.executable}")
    folder = os.path.join(place, "lib", version, "site-packages")
    expect("install-dli", done.returncode == 0 and files(place) == DLI_FILES | {f"lib/{version}/site-packages/hd.py"}, f"{done.stdout}{files(place)}")
    expect("a folder in which Python does not look is told", f"PYTHONPATH={folder}\n" in done.stdout, done.stdout)
    said = imported(sys.executable, folder)
    expect("hd.py is imported", said == f"{folder}/hd.py b'PART     '\n", said)
    os.makedirs(os.path.join(folder, "__pycache__"))
    for name in ("hd.cpython-311.pyc", "other.cpython-311.pyc"):
        shutil.copy(os.path.join(folder, "hd.py"), os.path.join(folder, "__pycache__", name))
    done = make("uninstall", f"PREFIX={place}", f"PYTHON={sys.executable}")
    expect("uninstall takes hd.py and what Python made of it", files(place) == {f"lib/{version}/site-packages/__pycache__/other.cpython-311.pyc"}, f"{done.stdout}{files(place)}")
    stage = os.path.join(place, "stage")
    done = make("install-dli", f"DESTDIR={stage}", f"PYTHON={sys.executable}")
    folder = stage + sysconfig.get_path("purelib")
    expect("install-dli into a stage", done.returncode == 0 and files(stage) == {f"usr/local/{name}" for name in DLI_FILES} | {os.path.relpath(f"{folder}/hd.py", stage)}, f"{done.stdout}{files(stage)}")
    expect("it tells nothing", "PYTHONPATH" not in done.stdout, done.stdout)
    make("uninstall", f"DESTDIR={stage}", f"PYTHON={sys.executable}")
    expect("uninstall from a stage leaves nothing", not files(stage), f"{files(stage)}")


def environment(place):
    """A Python that stands in a folder of its own finds hd.py by itself."""
    if subprocess.run([sys.executable, "-m", "venv", "--without-pip", place], stdout=subprocess.PIPE, stderr=subprocess.STDOUT, timeout=120).returncode:
        print("(an environment of Python's is not tried: this Python makes none)")
        return
    python = os.path.join(place, "bin/python")
    for what, words in (("below its prefix", [f"PREFIX={place}"]), ("where it looks", [])):
        done = make("install-dli", f"DESTDIR=", f"PYTHON={python}", *words, *([] if words else [f"BIN={place}/bin", f"MAN={place}/man", f"INCLUDE={place}/include"]))
        expect(f"{what}: install-dli", done.returncode == 0 and "PYTHONPATH" not in done.stdout, done.stdout)
        said = imported(python)
        expect(f"{what}: import finds it", said.startswith(os.path.realpath(place)) or said.startswith(place), said)
        make("uninstall", f"PYTHON={python}", *words, *([] if words else [f"BIN={place}/bin", f"MAN={place}/man", f"INCLUDE={place}/include"]))
        expect(f"{what}: uninstall takes it away", "No module named 'hd'" in imported(python))


def main(words):
    programs = os.path.abspath(words[0] if words else "bin")
    tries = [program, other]
    if os.path.exists(os.path.join(programs, "hdrun")):
        tries += [modules, environment]
    else:
        print("(install-dli is not tried: there is no hdrun)")
    # make is told that the program is old, and would not make these anew
    for name in ("hd.bash", "hd.zsh"):
        with contextlib.suppress(FileNotFoundError):
            os.remove(os.path.join(ROOT, "bin", name))
    for one in tries:
        with tempfile.TemporaryDirectory(prefix="hd-install-") as place:
            one(os.path.join(os.path.realpath(place), "place"))
    return count.status()


if __name__ == "__main__":
    sys.exit(main(sys.argv[1:]))
