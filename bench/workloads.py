"""Builds a program of the workloads for certain processors, in any checkout."""
import pathlib
import shutil
import subprocess
import tempfile

# A workload without a round, which only shows that the program runs.
NOTHING = ["short", "1", "0"]


def is_current(program, checkout):
    """Returns whether the program is newer than all sources and proofs of the checkout."""
    if not program.is_file():
        return False
    sources = [path for kind in ("src/**/*.rt", "specs/**/*.antt", "proofs/**/*.antt")
               for path in checkout.glob(f"crates/*/{kind}")]
    changed = max(path.stat().st_mtime for path in [*sources, checkout / "crates.txt"])
    return program.stat().st_mtime > changed


def built(checkout, name, cpu):
    """Builds the program of a crate for these processors, and returns its path: build/CPU/NAME of the checkout.

    Its object file is left next to it. The files that `rt run` left in the crate stay what they were. Raises an OSError if
    it can't be built.
    """
    crate = checkout / "crates" / name
    files = name, f"{name}.o"
    program = checkout / "build" / cpu / name
    if is_current(program, checkout) and is_current(program.with_suffix(".o"), checkout):
        return program
    if not shutil.which("rt"):
        raise OSError("rt is not there: put the toolchain's folder bin on the PATH")
    log = checkout / "build" / "logs" / f"{name}-{cpu}.log"
    for folder in (program.parent, log.parent):
        folder.mkdir(parents=True, exist_ok=True)
    with tempfile.TemporaryDirectory(dir=program.parent) as before:
        copy(crate / "out", files, before)
        try:
            with open(log, "wb") as said:
                words = ["rt", "run", f"--cpu={cpu}", "--", *NOTHING]
                ran = subprocess.run(words, cwd=crate, stdin=subprocess.DEVNULL, stdout=said, stderr=subprocess.STDOUT)
            if ran.returncode != 0 or copy(crate / "out", files, program.parent) < len(files):
                raise OSError(f"`{' '.join(words)}` in {crate}: status {ran.returncode}; what it said is in {log}")
        finally:
            for file in files:
                (crate / "out" / file).unlink(missing_ok=True)
            copy(before, files, crate / "out")
    return program


def copy(source, files, target):
    """Copies those of these files that are in a folder, and returns how many these are."""
    there = [pathlib.Path(source) / file for file in files if (pathlib.Path(source) / file).is_file()]
    for file in there:
        shutil.copy2(file, target)
    return len(there)
