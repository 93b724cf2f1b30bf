"""The toolchain, and its commands that prove a crate over libraries that are proved, and make of it what is asked."""
import os
import subprocess
from pathlib import Path

import repository

# Where the libraries of this checkout lie once they are proved, and those for C.
MADE = Path(repository.TOP) / "out" / "build"
ARCHIVE, SHARED = (MADE / "dg_abi" / name for name in ("libdollar.a", "libdollar.so.1"))
# The version of the functions for C, which their symbols bear. A function more comes with the next number.
SYMBOLS = "DOLLAR_1 { global: dollar_*; local: *; };\n"


def found():
    """The folder of the toolchain, and its version."""
    try:
        guide, version = (subprocess.run(["rt", word], stdin=subprocess.DEVNULL, stdout=subprocess.PIPE, stderr=subprocess.DEVNULL,
                                         text=True, check=True).stdout.strip() for word in ("doc", "version"))
    except FileNotFoundError:
        raise ValueError("the program has to be built, and 'rt', the toolchain of Rattle, is not on the PATH; 'How to get it' in "
                         "README.md explains it, and ways without it") from None
    except (OSError, subprocess.CalledProcessError) as fault:
        raise ValueError(f"the program has to be built, and the toolchain can't be run: {fault}") from None
    return os.path.dirname(guide), version


def prover(kit, name, libraries, jobs):
    """What proves a crate on so many processors, up to the file of its root."""
    own = repository.crates()
    words = [f"{kit}/bin/rattle", "build", "--crate-name", name, "--extern", f"std={kit}/rlibs/std.rlib",
             "-L", f"dependency={kit}/rlibs", "-L", f"dependency={MADE}"]
    for library in libraries:
        words += ["--extern", f"{library}={MADE if library in own else f'{kit}/rlibs'}/{library}.rlib"]
    return [*words, "--antt-project", f"{kit}/rattle/logic/antt-project.json", "--logic-built", f"{kit}/logic_built",
            "--links", f"{name}=", "--jobs", str(jobs)]


def library(kit, name, libraries, jobs):
    """What makes of a crate the statements that the crates above it load."""
    return [[*prover(kit, name, libraries, jobs), "src/lib.rt", "--statements", "-o", f"{MADE}/{name}.rlib"]]


def for_c(kit, name, libraries, jobs):
    """What makes of a crate the libraries for C. They take `memcpy` and `memset` from the process that loads them, and nothing else
    from anywhere, so they go with any C library."""
    symbols = MADE / "dg_abi" / "symbols"
    symbols.parent.mkdir(parents=True, exist_ok=True)
    symbols.write_text(SYMBOLS)
    return [[*prover(kit, name, libraries, jobs), "--crate-type", "staticlib", "src/lib.rt", "--toolchain", f"{kit}/toolchain",
             "-o", f"{ARCHIVE}"],
            [f"{kit}/toolchain/bin/ld.lld", "-shared", "-soname", SHARED.name, "--version-script", f"{symbols}", "-z", "now",
             "--build-id=none", "--strip-all", "-o", f"{SHARED}", "--whole-archive", f"{ARCHIVE}", "--no-whole-archive",
             f"{kit}/toolchain/lib/libgcc.a"]]


def program(kit, name, libraries, jobs, place):
    """What makes of a crate a program, with the object beside it."""
    return [[*prover(kit, name, libraries, jobs), "src/main.rt", "--toolchain", f"{kit}/toolchain", "-o", f"{place}.o"],
            [f"{kit}/bin/rattle-link", "--target", "x86_64-unknown-linux-gnu", "--toolchain", f"{kit}/toolchain",
             "-o", place, f"{place}.o", f"{kit}/c/libos_c.a", f"{kit}/c/liblibc_c.a"]]
