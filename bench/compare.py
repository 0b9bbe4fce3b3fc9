#!/usr/bin/env python3
"""Compares a serial build from nothing with `ninja -j1` and `make -j1`, where they are installed.

Writes a flat graph and a chain of N commands (`cp`) in the three tools' forms, runs the tools in turn, and prints for each the
median of the wall time and of the processor time of the tool itself (its children left out), and the least and most of the
latter. A ratio is llbuild's time over the tool's, so a ratio below 1 is less time than the tool takes.
Then it prints how long loading a manifest of many commands takes, by a build of a target that does not exist.

Usage: compare.py [-n N[,N..]] [-r ROUNDS] [--load N[,N..]] [--copy WORD] [PROGRAM]
PROGRAM is the built program; by default the one that the launcher built. An empty list leaves a part out.
WORD is how the commands name `cp`; with a slash in it, nobody looks for it in PATH.
"""
import argparse
import os
import pathlib
import shutil
import statistics
import subprocess
import tempfile
import time

TOP = pathlib.Path(__file__).resolve().parent.parent
PROGRAM = TOP / "crates" / "llbuild" / "out" / "llbuild"

# A target of a manifest has at most so many nodes.
NODES_MAX = 65536


def edges(count, chain):
    """The input and the output of each command."""
    for place in range(count):
        before = f"o{place - 1}" if chain and place > 0 else "s"
        yield place, before, f"o{place}"


def goals_of(count, chain):
    return [f"o{count - 1}"] if chain else [f"o{place}" for place in range(count)]


def write_manifest(folder, count, chain, copy="cp"):
    """The manifest. A target that would have too many nodes is followed by others."""
    goals = goals_of(count, chain)
    lines = ["client:", "  name: basic", "targets:"]
    for first in range(0, len(goals), NODES_MAX):
        name = "all" if first == 0 else f"all{first}"
        lines.append(f"  {name}: [{', '.join(goals[first:first + NODES_MAX])}]")
    lines.append("commands:")
    for place, before, after in edges(count, chain):
        lines += [f"  c{place}:", "    tool: shell", f"    inputs: [{before}]", f"    outputs: [{after}]", f"    args: [{copy}, {before}, {after}]"]
    (folder / "build.llbuild").write_text("\n".join(lines) + "\n")


def write_others(folder, count, chain, copy="cp"):
    """The same graph for ninja and for make."""
    goals = goals_of(count, chain)
    ninja = ["rule cp", f"  command = {copy} $in $out"]
    make = [f"all: {' '.join(goals)}"]
    for _, before, after in edges(count, chain):
        ninja.append(f"build {after}: cp {before}")
        make += [f"{after}: {before}", f"\t{copy} {before} {after}"]
    ninja += [f"build all: phony {' '.join(goals)}", "default all"]
    (folder / "build.ninja").write_text("\n".join(ninja) + "\n")
    (folder / "Makefile").write_text("\n".join(make) + "\n")
    (folder / "s").write_text("one\n")


def clean(folder):
    """Removes what a build made, and what ninja keeps."""
    for path in folder.iterdir():
        if path.name[0] in "o." and path.is_file():
            path.unlink()


def own_time(pid):
    """The processor time of a process that has ended but is not yet awaited, without its children, in seconds."""
    try:
        # The time of the only thread, in nanoseconds.
        return int(pathlib.Path(f"/proc/{pid}/schedstat").read_text().split()[0]) / 1e9
    except OSError:
        # User and system time, in ticks of mostly 10 ms.
        fields = pathlib.Path(f"/proc/{pid}/stat").read_text().rsplit(")", 1)[1].split()
        return (int(fields[11]) + int(fields[12])) / os.sysconf("SC_CLK_TCK")


def run(words, folder):
    """Wall time and processor time of the process alone, its status, and the most memory that it or a child had, in kB."""
    begin = time.monotonic()
    child = subprocess.Popen(words, cwd=folder, stdout=subprocess.DEVNULL, stderr=subprocess.DEVNULL)
    os.waitid(os.P_PID, child.pid, os.WEXITED | os.WNOWAIT)
    wall = time.monotonic() - begin
    own = own_time(child.pid)
    _, status, usage = os.wait4(child.pid, 0)
    child.returncode = os.waitstatus_to_exitcode(status)
    return wall, own, child.returncode, usage.ru_maxrss


def build_words(program, target):
    return [str(program), "buildsystem", "build", "--serial", "--no-db", "-f", "build.llbuild", target]


def tools(program):
    found = [("llbuild", build_words(program, "all"))]
    if shutil.which("ninja"):
        found.append(("ninja", ["ninja", "-j1"]))
    if shutil.which("make"):
        found.append(("make", ["make", "-j1", "all"]))
    return found


def check_built(tool, folder, count):
    """Refuses a run that did not make every output with the source's content."""
    for place in range(count):
        path = folder / f"o{place}"
        if not path.is_file() or path.read_text() != "one\n":
            raise SystemExit(f"{tool} did not make {path.name}")


def compare(program, count, chain, rounds, copy):
    shape = "chain" if chain else "flat"
    if not chain and count > NODES_MAX:
        raise SystemExit(f"a flat graph of {count} commands does not fit into one target")
    times = {}
    with tempfile.TemporaryDirectory() as name:
        folder = pathlib.Path(name)
        write_manifest(folder, count, chain, copy)
        write_others(folder, count, chain, copy)
        found = tools(program)
        for turn in range(rounds):
            # Each round begins with another tool.
            first = turn % len(found)
            for tool, words in found[first:] + found[:first]:
                clean(folder)
                wall, own, status, _ = run(words, folder)
                if status != 0:
                    raise SystemExit(f"{tool} ended with status {status}")
                check_built(tool, folder, count)
                times.setdefault(tool, []).append((wall, own))
    walls = {tool: statistics.median(wall for wall, _ in seen) for tool, seen in times.items()}
    owns = {tool: statistics.median(own for _, own in seen) for tool, seen in times.items()}
    leasts = {tool: min(own for _, own in seen) for tool, seen in times.items()}
    for tool, seen in times.items():
        most = max(own for _, own in seen)
        print(
            f"{shape:5} {count:6} {tool:7} wall {walls[tool]:8.3f} s (ratio {walls['llbuild'] / walls[tool]:4.2f})"
            f"  own {owns[tool]:7.3f} s (ratio {owns['llbuild'] / owns[tool]:4.2f}), {owns[tool] / count * 1e6:6.1f} us a command"
            f"  least {leasts[tool]:7.3f} s (ratio {leasts['llbuild'] / leasts[tool]:4.2f}), most {most:7.3f} s",
            flush=True,
        )


def check_unknown(words, folder):
    """Refuses a manifest that is not read to its end: only then the target is what is missing."""
    ended = subprocess.run(words, cwd=folder, stdout=subprocess.DEVNULL, stderr=subprocess.PIPE, text=True)
    if ended.returncode != 2 or "unknown target" not in ended.stderr:
        raise SystemExit(f"loading ended with status {ended.returncode}: {ended.stderr.strip()}")


def load(program, count, rounds):
    with tempfile.TemporaryDirectory() as name:
        folder = pathlib.Path(name)
        write_manifest(folder, count, False)
        words = build_words(program, "none")
        check_unknown(words, folder)
        seen = [run(words, folder) for _ in range(rounds)]
        size = (folder / "build.llbuild").stat().st_size
    owns = [own for _, own, _, _ in seen]
    own = statistics.median(owns)
    wall = statistics.median(wall for wall, _, _, _ in seen)
    most = max(memory for _, _, _, memory in seen)
    print(
        f"load  {count:6} commands, {size} bytes: wall {wall:.3f} s, own {own:.3f} s ({min(owns):.3f} to {max(owns):.3f} s),"
        f" {own / count * 1e6:.2f} us a command, {own / size * 1e9:.0f} ns a byte, {most} kB",
        flush=True,
    )


def say_machine():
    """The load of the machine, which says how far wall times can be trusted."""
    average = " ".join(f"{number:.2f}" for number in os.getloadavg())
    print(f"processors {os.cpu_count()}, load average {average}", flush=True)


def main():
    parser = argparse.ArgumentParser(description=__doc__, formatter_class=argparse.RawDescriptionHelpFormatter)
    parser.add_argument("-n", default="1000,10000", help="numbers of commands to build")
    parser.add_argument("-r", type=int, default=5, help="rounds")
    parser.add_argument("--load", default="25000,50000,100000", help="numbers of commands to load")
    parser.add_argument("--copy", default="cp", help="how the commands name cp")
    parser.add_argument("program", nargs="?", default=str(PROGRAM))
    given = parser.parse_args()
    program = pathlib.Path(given.program).resolve()
    say_machine()
    for count in [int(n) for n in given.n.split(",") if n]:
        for chain in (False, True):
            compare(program, count, chain, given.r, given.copy)
    for count in [int(n) for n in given.load.split(",") if n]:
        load(program, count, given.r)
    say_machine()


if __name__ == "__main__":
    main()
