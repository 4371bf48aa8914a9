"""Our patch program built for this machine, which the kit does for x86-64 only: the module that the kit's compiler gets, compiled for the processor at hand. For measuring; what users run is target/bin/patch."""

import fcntl
import os
import platform
import re
import shutil
import subprocess
import tempfile
from pathlib import Path

from machine import said
from programs import TOP, Failure

ROOM = TOP / "target/native"
BUILT = ROOM / "patch"
STAMP = TOP / "target/stamp/patch"

# What ties the module to x86-64.
BOUND = re.compile(r'^target (datalayout|triple).*$|"probe-stack"="inline-asm"|"target-cpu"="x86-64"', re.MULTILINE)


def ran(*command, **more):
    """Runs a step of the build; what it says is shown only where it fails."""
    done = subprocess.run([str(word) for word in command], stdout=subprocess.PIPE, stderr=subprocess.STDOUT, text=True, **more)
    if done.returncode != 0:
        raise Failure(f"{command[0]} ended with {done.returncode}:\n{done.stdout[-2000:]}")


def link_all(folder, to, but):
    """Links to all that the folder has, but for one name."""
    to.mkdir(parents=True)
    for path in folder.iterdir():
        if path.name != but:
            (to / path.name).symlink_to(path)


def watching_kit(kit, home, module):
    """A kit as the given one, whose compiler keeps a copy of the module that it is given."""
    own = Path("on") / platform.machine()
    for folder, but in (".", "on"), (own, "toolchain"), (own / "toolchain", "bin"), (own / "toolchain/bin", "clang"):
        link_all(kit / folder, home / folder, but)
    clang = home / own / "toolchain/bin/clang"
    keep = f'for word in "$@"; do case $word in *.bc) cp "$word" "{module}";; esac; done'
    clang.write_text(f'#!/bin/sh\n{keep}\nexec "{kit / own}/toolchain/bin/clang" "$@"\n')
    clang.chmod(0o755)


def keep_module(kit, module):
    """Has rt prove and build the program once more, by a kit that is watched, under the lock that tools/run takes."""
    with tempfile.TemporaryDirectory() as room, open(TOP / "crates.txt", "r+") as lock:
        os.chmod(room, 0o755)  # rt runs the program as nobody
        fcntl.flock(lock, fcntl.LOCK_EX)
        watching_kit(kit, Path(room) / "kit", module)
        STAMP.unlink(missing_ok=True)
        ran(kit / "bin/rt", "check", "patch", cwd=TOP, env={**os.environ, "RATTLE_HOME": str(Path(room) / "kit")})
    if not module.exists():
        raise Failure("the kit's compiler was given no module")


def freed(text):
    """The module with nothing in it that ties it to x86-64."""
    return BOUND.sub("", text)


def compiled(kit, module):
    """The program for this machine. The kit has its C code, which says why a call of the system failed, for x86-64 only; elsewhere it is left open, and a call that fails ends the program by a signal."""
    clang, name = kit / "on" / platform.machine() / "toolchain/bin/clang", platform.machine()
    ir, here, code = ROOM / "module.ll", ROOM / "here.ll", ROOM / "patch.o"
    ran(clang, "--target=x86_64-unknown-linux-gnu", "-S", "-emit-llvm", "-x", "ir", module, "-o", ir, "-O0", "-Xclang", "-disable-llvm-passes")
    here.write_text(freed(ir.read_text()))
    ran(clang, f"--target={name}-linux-gnu", "-O3", "-fPIC", "-Wno-override-module", "-x", "ir", here, "-c", "-o", code)
    rest = [kit / "lib/libos_c.a"] if name == "x86_64" else ["-no-pie", "-Wl,--unresolved-symbols=ignore-all"]
    ran("cc", code, *rest, "-o", BUILT)


def native():
    """The program built for this machine, anew where target/bin/patch is another than the one that it was made with."""
    for name in ("rt", "cc"):
        if shutil.which(name) is None:
            raise Failure(f"there is no {name} here, so the program cannot be built for this machine")
    kit = Path(said("rt", "doc")).parent.parent
    made_with = ROOM / "stamp"
    if not (BUILT.exists() and STAMP.exists() and made_with.exists() and made_with.read_text() == STAMP.read_text()):
        shutil.rmtree(ROOM, ignore_errors=True)
        ROOM.mkdir(parents=True)
        keep_module(kit, ROOM / "module.bc")
        compiled(kit, ROOM / "module.bc")
        made_with.write_text(STAMP.read_text())
    return str(BUILT)
