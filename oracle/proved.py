"""A crate of the comparison's own, proved and built over the crates as they stand.

That is done in a copy outside the repository, since `rt ci` refuses crates in it that crates.txt does not list.
"""
import hashlib
import os
import shutil
import subprocess
import sys
import tempfile

PARTS = ("src", "specs", "proofs")


def needed(deps):
    """The crates that the probe stands on, and their lines of crates.txt."""
    lines = {}
    with open("crates.txt") as listed:
        for line in listed:
            name, colon, rest = line.split("#")[0].partition(":")
            if colon:
                lines[name.strip()] = (rest.split(), line)
    found, left = {}, list(deps)
    while left:
        name = left.pop()
        if name in lines and name not in found:
            found[name] = lines[name][1]
            left += lines[name][0]
    return found


def summed(crates, source):
    """A sum over the toolchain and all that goes in."""
    total = hashlib.sha256(subprocess.run(["rt", "version"], capture_output=True, check=True).stdout)
    paths = [source] + sorted(os.path.join(at, name) for crate in crates for part in PARTS for at, _, names in os.walk(f"crates/{crate}/{part}") for name in names)
    for path in paths:
        with open(path, "rb") as read:
            total.update(repr((path, hashlib.sha256(read.read()).digest())).encode())
    return total.hexdigest()


def built(source, deps, to):
    """The probe over these crates: a program where `source` has a `main`, else a static library. It is made as the file `to`, where
    something changed since it was last made."""
    with open(source) as text:
        is_program = "\nfn main(" in text.read()
    crates = needed(deps)
    wanted = summed(crates, source)
    if os.path.exists(to) and os.path.exists(f"{to}.sum"):
        with open(f"{to}.sum") as kept:
            if kept.read() == wanted:
                return to
    with tempfile.TemporaryDirectory(prefix="gritstrut-probe-") as room:
        for crate in crates:
            for part in PARTS:
                if os.path.isdir(f"crates/{crate}/{part}"):
                    shutil.copytree(f"crates/{crate}/{part}", f"{room}/crates/{crate}/{part}")
        own = f"{room}/crates/probe"
        os.makedirs(f"{own}/src")
        shutil.copy(source, f"{own}/src/{'main' if is_program else 'lib'}.rt")
        with open(f"{room}/crates.txt", "w") as listed:
            listed.writelines(crates.values())
            listed.write(f"probe{'' if is_program else ' staticlib'}: {' '.join(deps)}\n")
        made = f"{own}/out/{'probe' if is_program else 'libprobe.a'}"
        done = subprocess.run(["rt", "run" if is_program else "lib"], cwd=own, stdin=subprocess.DEVNULL, capture_output=True, text=True)
        if not os.path.exists(made) or not is_program and done.returncode:
            sys.exit(done.stdout[-3000:] + done.stderr[-3000:])
        os.makedirs(os.path.dirname(to), exist_ok=True)
        shutil.copy(made, to)
    with open(f"{to}.sum", "w") as kept:
        kept.write(wanted)
    return to
