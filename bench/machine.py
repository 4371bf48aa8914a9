"""What the figures were measured on, and what the programs do to their buffers."""

import os
import platform
import shutil
import subprocess
from pathlib import Path


def said(*command):
    """The first line that a command prints, or that it is not here."""
    if shutil.which(command[0]) is None:
        return f"no {command[0]}"
    done = subprocess.run(command, stdout=subprocess.PIPE, text=True)
    return (done.stdout.splitlines() or ["nothing said"])[0]


def model():
    """The processor's name: /proc/cpuinfo has it on x86-64, lscpu on Arm."""
    texts = [Path("/proc/cpuinfo").read_text()]
    if shutil.which("lscpu"):
        done = subprocess.run(["lscpu"], stdout=subprocess.PIPE, text=True, env={**os.environ, "LC_ALL": "C"})
        texts.append(done.stdout)
    for line in "\n".join(texts).splitlines():
        name, _, value = line.partition(":")
        if name.strip().lower() == "model name":
            return value.strip()
    return "processor unknown"


def emulator():
    """The emulator that tools/run takes on this machine, or None."""
    kit = Path(said("rt", "doc")).parent
    found = kit / "on" / platform.machine() / "toolchain/bin/qemu-x86_64"
    return found if os.access(found, os.X_OK) else None


def load():
    return f"{os.getloadavg()[0]:.1f}"


def where():
    return f"{platform.machine()}, {model()}, {os.cpu_count()} cores; load average {load()} when this began"


BUFFERS = """\
- Buffers: cleared, and the time for it is in every figure. Our program makes its buffers once (work of 24,000 numbers, curve of 6,400, list of 1,536); for each word the finder clears (ℓ+1)²·W numbers of work before it starts, and the call clears R of them after finding and after listing. The second program takes fresh vectors from the allocator for each word, zeroed where it needs zeros; that is in its time too."""

EMULATED = "Times under an emulator say nothing about a real x86-64 machine, only how cases compare; nor does the ratio, for the second program is not emulated."


def header(with_second):
    """Lines for the top of the output; no date."""
    arm = emulator()
    lines = [
        f"- Machine: {where()}.",
        f"- Kit: {said('rt', 'version')}.",
    ]
    if arm:
        lines.append(f"- Our program: x86-64, emulated ({said(str(arm), '--version')}). {EMULATED}")
    else:
        lines.append("- Our program: x86-64, not emulated.")
    if with_second:
        lines.append(f"- Second program: {said('rustc', '--version')}, cargo build --release, runs directly on {platform.machine()}.")
    else:
        lines.append("- Second program: not measured, and nothing was compared: there is no cargo here.")
    lines.append("- Time: processor time, user and system, less that of a run with the same setting and points and no word.")
    lines.append(BUFFERS)
    return lines
