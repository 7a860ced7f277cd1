#!/usr/bin/env python3
"""The crates as the Rattle kit's command `rt` knows them, for scripts that call the prover over the libraries built.

    tools/kit.py archive NAME FILE KEPT [BACKEND]
                                       proves crates/NAME, a static library, and builds it into FILE, for Linux on x86-64
    tools/kit.py program NAME FILE     proves crates/NAME, a program, and builds it into FILE
    tools/kit.py take                  takes the libraries that `rt ci` has proved of these sources on this machine

A library is built if the checksum beside it, the kit's own `stamp`, is that of its sources and of those below it.
`rt ci` writes no such checksum, and restores the earlier files after it has proved them; but it keeps the proved ones.
So after `rt ci`, in this folder or in another one with the same files, `take` gives each crate its library, and the
checksum beside it, with which `rt check` and the scripts begin; and the programs. Where it could keep none, `take`
takes what `rt ci` left in this folder.

`archive` and `program` first prove and build each library below the crate that is not built, and those above it; as
many in parallel as RT_JOBS says. The proofs are kept in the folder KEPT for the next call. BACKEND is llvm, or rattle,
which is the kit's own compiler.

The command is a program and no library, so another kit may have other names inside. BORROWED lists each name that is
used here, and if a name is missing the script exits with status 2 before it tries anything.
"""
import functools
import hashlib
import importlib.machinery
import importlib.util
import os
import pathlib
import shutil
import signal
import subprocess
import sys

ROOT = pathlib.Path(__file__).resolve().parent.parent
# The names that are used of the command: its own, those of the module `rtlib` that it loads, and those of a crate.
BORROWED = {
    "rt": "KIT Kept Crate edited handles_of in_lanes kit_sum need processors rtlib unread",
    "rtlib": "Crate PARTS RATTLE crates_below files_of guarded lock sum_of",
    "Kept": "give is_built key place",
    "Crate": "allowed below count folder is_built is_program is_static link name rlib stamp words",
}


def stop(why):
    """End the script, which has judged nothing."""
    print(why, file=sys.stderr)
    sys.exit(2)


def look(owner, label):
    """Exit if the command lacks a name that is borrowed."""
    missing = [name for name in BORROWED[label].split() if not hasattr(owner, name)]
    if missing:
        what = " ".join(f"{label}.{name}" for name in missing)
        stop(f"tools/kit.py was written for another kit: the command rt on the PATH has no {what}")


def load():
    """The command `rt` as a module. Its `rtlib` has the crates, and the words that the prover is called with."""
    command = shutil.which("rt")
    if command is None:
        stop("the command rt of the Rattle kit is not on the PATH")
    sys.dont_write_bytecode = True
    loader = importlib.machinery.SourceFileLoader("rt", os.path.realpath(command))
    module = importlib.util.module_from_spec(importlib.util.spec_from_loader("rt", loader))
    loader.exec_module(module)
    look(module, "rt")
    look(module.rtlib, "rtlib")
    look(module.Kept, "Kept")
    # As the command itself does it for `rt ci`: crates below a crate are of the same class.
    module.rtlib.Crate, module.Crate.allowed = module.Crate, module.handles_of(str(ROOT))
    return module


if __name__ == "__main__" and "--help" in sys.argv[1:]:
    print(__doc__)
    sys.exit(0)
rt = load()


def begin():
    """Start what ends the prover with this script. No other thread may run then, since a signal's handler is set.

    Ctrl-C ends the script at once: else Python waits for the threads that wait for a proof.
    """
    signal.signal(signal.SIGINT, signal.SIG_DFL)
    rt.rtlib.guarded()


def processors():
    """How many processors there are to use."""
    return rt.processors()


def crate(name):
    """The crate of this name, with those below it."""
    folder = ROOT / "crates" / name
    if not (folder / "src").is_dir():
        stop(f"there is no crate {name}")
    found = rt.Crate(str(folder), str(ROOT), {})
    look(found, "Crate")
    return found


def write_stamp(library, stamp):
    """Put beside a library the sum of the sources that it was built from, as the command does."""
    pathlib.Path(library.rlib).with_name("stamp").write_text(stamp, encoding="utf-8")


def sum_of(crate):
    """A sum of all that the prover reads when it checks a crate: the kit, the crate's files, and those below it."""
    return hashlib.sha256(f"{rt.kit_sum()} {crate.stamp()}".encode()).hexdigest()


def copy_sources(crate, folder):
    """Copy the code, the definitions and the proofs of a crate into a folder."""
    for part in rt.rtlib.PARTS:
        if pathlib.Path(crate.folder, part).is_dir():
            shutil.copytree(f"{crate.folder}/{part}", folder / part)


def edited(text, folder):
    """The texts of the files that an edit changes, by their paths in the folder; or None, and why it doesn't apply."""
    return rt.edited(text, str(folder))


def is_unread(line, changed):
    """Whether the prover says by this line that it can't read one of the changed files, so that it judges nothing."""
    return rt.unread(line, changed)


def prove(verb, crate, flags, folder):
    """Run the prover, as `check` or `build`, over the sources in a folder, which are the crate's or a copy of them."""
    words = crate.words(flags, keeps=False)
    how = {"cwd": folder, "stdin": subprocess.DEVNULL, "stdout": subprocess.PIPE, "stderr": subprocess.STDOUT}
    how.update(encoding="utf-8", errors="replace")
    return subprocess.run([*rt.rtlib.guarded(), rt.rtlib.RATTLE, verb, *words], **how)


def archive(name, file, kept, backend="llvm"):
    """Prove a static library, and build it into the file. Return the status."""
    begin()
    library = crate(name)
    if not prove_below([library]):
        return 1
    flags = ["--jobs", str(min(4, processors())), "--toolchain", f"{rt.KIT}/toolchain", "--target"]
    flags += ["x86_64-unknown-linux-gnu", "--cpu", "x86-64", "--incremental", kept, "--backend", backend]
    ran = prove("build", library, [*flags, "-o", os.path.abspath(file)], library.folder)
    print(ran.stdout, end="")
    return ran.returncode


def prove_anew(crate, built, given, _jobs):
    """Prove a crate, if those below it are proved or built, and build its library or its object file."""
    if not all({**built, **given}[it.name] for it in crate.below()):
        return False
    to = f"{crate.folder}/out/{crate.name}.o" if crate.is_program else crate.rlib
    kind = ["--toolchain", f"{rt.KIT}/toolchain", "--backend", "llvm"] if crate.is_program else ["--statements"]
    shutil.rmtree(os.path.dirname(crate.rlib), ignore_errors=True)
    os.makedirs(os.path.dirname(to), exist_ok=True)
    stamp = crate.stamp()
    ran = prove("build", crate, ["--jobs", "1", *kind, "-o", to], crate.folder)
    print(f"== {crate.name}\n{ran.stdout}", end="", flush=True)
    if ran.returncode == 0 and not crate.is_program and stamp == crate.stamp():
        write_stamp(crate, stamp)
    return ran.returncode == 0


def built_below(crate):
    """The libraries below a crate that are built, and stand on such alone, by their names."""
    built = {}
    for it in crate.below():
        built[it.name] = it.is_built() and all(built[dep.name] for dep in it.below())
    return {name for name, is_here in built.items() if is_here}


def prove_below(crates, last=()):
    """Prove the libraries below some crates that are not built, and then the last. Return whether all are proved."""
    every = {it.name: it for crate in crates for it in [*crate.below(), *last]}
    held = rt.rtlib.lock([*every.values()])
    built, tasks = set().union(*(built_below(it) for it in crates)), {}
    for it in [it for it in every.values() if it.name not in built]:
        needed = [dep.name for dep in it.below() if dep.name not in built]
        given_built = dict.fromkeys(built, True)
        tasks[it.name] = needed, it.count(rb"\n"), rt.need(it), functools.partial(prove_anew, it, given_built)
    are_proved = all(rt.in_lanes(tasks).values())
    for folder in held:
        os.close(folder)
    return are_proved


def is_newer(crate, file):
    """Whether a file was made since the crate's sources and the libraries below last changed, by times that nothing can
    set."""
    made_of = [*rt.rtlib.files_of(crate.folder), *(it.rlib for it in crate.below())]
    return os.path.isfile(file) and max(os.stat(it).st_ctime for it in made_of) < os.stat(file).st_ctime


def take_kept(kept, library):
    """Give a library the files that the kit keeps of it, if it does. Return whether they are in its place."""
    key, stamp = kept.key(library), library.stamp()
    if not kept.at:
        is_here = is_newer(library, f"{library.rlib}/format")
        if is_here:
            write_stamp(library, stamp)
        return is_here
    if not os.path.isdir(kept.place(library, False, key)):
        return False
    # The kit copies over a file that is there, and that may be one which it keeps.
    shutil.rmtree(os.path.dirname(library.rlib), ignore_errors=True)
    if kept.give(library, False, key):
        write_stamp(library, stamp)
    return library.is_built()


def take_libraries(kept, libraries):
    """Take the libraries that the kit keeps, the lowest first. Return the names of those that are built then."""
    here, replaced = set(), set()
    for it in libraries:
        below = {dep.name for dep in it.below()}
        before = rt.rtlib.sum_of(f"{it.rlib}/format")
        is_taken = below <= here and take_kept(kept, it)
        # One that was built over another library than now stands below it serves no one.
        if is_taken or it.is_built() and below <= here - replaced:
            here.add(it.name)
        if is_taken and rt.rtlib.sum_of(f"{it.rlib}/format") != before:
            replaced.add(it.name)
        kept.is_built(it)
    return here


def take():
    """Take the libraries that `rt ci` has proved, and print the crates without one."""
    crates = rt.rtlib.crates_below(str(ROOT))
    libraries = [it for it in crates if not it.is_program and not it.is_static]
    held = rt.rtlib.lock(crates)
    kept = rt.Kept(crates)
    here = take_libraries(kept, libraries)
    for it in crates:
        if it.is_program and {dep.name for dep in it.below()} <= here and kept.give(it, False, kept.key(it)):
            here.add(it.name)
    for folder in held:
        os.close(folder)
    lacking = [it.name for it in crates if not it.is_static and it.name not in here]
    print(f"not proved by `rt ci` yet: {' '.join(lacking)}" if lacking else "each library and program is here")
    return 1 if lacking else 0


def program(name, file):
    """Prove a program, and the libraries below it that are not built, and build it into the file."""
    begin()
    whole = crate(name)
    if not prove_below([whole], [whole]) or whole.link(f"out/{name}.o", f"out/{name}.linked"):
        return 1
    shutil.move(f"{whole.folder}/out/{name}.linked", file)
    return 0


if __name__ == "__main__":
    verbs = {"archive": (archive, 5, 6), "program": (program, 4), "take": (take, 2)}
    verb, *lengths = verbs.get("".join(sys.argv[1:2]), (None,))
    if len(sys.argv) not in lengths:
        stop(__doc__)
    sys.exit(verb(*sys.argv[2:]))
