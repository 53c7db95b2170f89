#!/usr/bin/env python3
"""compare.py SCRIPT [--cfs PROGRAM]... [--peer MODE:SCHEMA[:buffered]]... [--rounds N] [--command play|serve] ...

Runs the programs on one request file alternately, round after round, and prints for each: requests a second (median over
the rounds), processor time (user and system) a request, peak memory, and for each peer the ratio cfs / peer of wall time and of
processor time: the median of the ratios of one and the same round, with the least and greatest. A ratio below 1: cfs is
faster. Processor time is the figure to trust where the machine is busy.

  --cfs        a built program (several may be named; the first is what ratios are of)
  --peer       of sqlite_peer, as memory:packed, wal:packed, delete:pair:buffered
  --command    play (a new volume in memory), or serve: `cfs format` and `cfs serve` on a volume file in --scratch
  --cylinders  of the volume (default 1,024)
  --same       ends with 1 unless all replies agree, identifiers taken in the order in which they come up
The folder of this file must have built: cc -O2 -o sqlite_peer sqlite_peer.c -lsqlite3 (or name it by --sqlite), and
cc -O2 -static -o spent spent.c."""
import argparse
import os
import re
import statistics
import subprocess
import sys
import tempfile

HERE = os.path.dirname(os.path.abspath(__file__))


def arguments():
    p = argparse.ArgumentParser(description=__doc__, formatter_class=argparse.RawDescriptionHelpFormatter)
    p.add_argument("script")
    p.add_argument("--cfs", action="append", default=[])
    p.add_argument("--peer", action="append", default=[])
    p.add_argument("--rounds", type=int, default=5)
    p.add_argument("--command", choices=("play", "serve"), default="play")
    p.add_argument("--cylinders", type=int, default=1024)
    p.add_argument("--seed", default="0")
    p.add_argument("--sqlite", default=HERE + "/sqlite_peer")
    p.add_argument("--scratch", default=None, help="where volumes and databases lie")
    p.add_argument("--same", action="store_true")
    p.add_argument("--short", action="store_true", help="one line a program")
    return p.parse_args()


class Run:
    def __init__(self, words, folder):
        told = f"{folder}/spent"
        words = [os.path.abspath(words[0]), *words[1:]]
        self.told = subprocess.run([HERE + "/spent", told, *words], stdout=subprocess.PIPE, stderr=subprocess.DEVNULL).stdout
        with open(told) as f:
            status, *figures = f.read().split()
        self.status = int(status)
        self.wall, self.user, self.sys, peak = map(float, figures)
        self.cpu, self.peak = self.user + self.sys, peak / 1024


def same_names(path):
    """The replies, with each identifier replaced by the place at which it first came up."""
    seen, out = {}, []
    for line in open(path, "rb").read().split(b"\n"):
        found = re.fullmatch(rb"ok ([0-9a-f]{16})", line)
        out.append(b"ok #%d" % seen.setdefault(found[1], len(seen)) if found else line)
    return out


def main():
    a = arguments()
    lines = sum(1 for it in open(a.script, "rb") if it.strip(b" \t\r\n") and not it.startswith(b"#"))
    folder = tempfile.mkdtemp(dir=a.scratch)
    programs = [(f"cfs{i or ''}", path) for i, path in enumerate(a.cfs)] + [(p, None) for p in a.peer]
    runs = {name: [] for name, _ in programs}

    def one(name, path):
        out, volume = f"{folder}/{name.replace(':', '-')}.out", f"{folder}/volume"
        if path and a.command == "play":
            words = [path, "play", str(a.cylinders), a.seed, "0", a.script, out]
        elif path:
            if os.path.exists(volume):
                os.remove(volume)
            Run([path, "format", volume, str(a.cylinders), a.seed], folder)
            words = [path, "serve", volume, a.seed, "0", a.script, out]
        else:
            mode, schema, *more = name.split(":")
            for it in os.listdir(folder):
                if it.startswith("database"):
                    os.remove(f"{folder}/{it}")
            words = [a.sqlite, mode, schema, f"{folder}/database", a.seed, a.script, out, *more]
        run = Run(words, folder)
        if run.status not in (0,):
            sys.exit(f"{name}: status {run.status}: {run.told[-200:]}")
        return run

    for _ in range(a.rounds):
        for name, path in programs:
            runs[name].append(one(name, path))
    mid = statistics.median
    first = programs[0][0]
    for name, _ in programs:
        it = runs[name]
        text = f"{name:24} {lines / mid(r.wall for r in it):>10,.0f}/s  cpu {mid(r.cpu for r in it) / lines * 1e6:8.3f} us/request (user {mid(r.user for r in it) / lines * 1e6:.3f})  peak {max(r.peak for r in it):8.1f} MB"
        if name != first:
            for what in ("wall", "cpu"):
                ratios = sorted(getattr(x, what) / getattr(y, what) for x, y in zip(runs[first], it))
                text += f"  {what} {first}/it {mid(ratios):.3f} [{ratios[0]:.3f}..{ratios[-1]:.3f}]"
        print(text, flush=True)
    good = True
    if a.same:
        outs = {name: same_names(f"{folder}/{name.replace(':', '-')}.out") for name, _ in programs}
        for name in outs:
            if outs[name] != outs[first]:
                good = False
                at = next((i for i, (x, y) in enumerate(zip(outs[first], outs[name])) if x != y), None)
                print(f"{name}: replies differ from {first}'s, at reply {at}")
    for it in os.listdir(folder):
        os.remove(f"{folder}/{it}")
    os.rmdir(folder)
    return 0 if good else 1


sys.exit(main())
