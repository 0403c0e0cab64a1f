#!/usr/bin/env python3
"""Compares recorded runs with those of the machine's definitions: entries byte for byte, and what was written.

    run.py DEFS RUNS [NAME ..]

DEFS is the command that runs definitions outside the prover, RUNS a folder of recorded runs (README.md says what is in
each), NAME the runs to look at, all of them by default. Prints each difference, and a line at the end. Status 1 where
something differs, 2 where nothing could be compared.
"""
import os
import re
import struct
import subprocess
import sys

# the worked program of a run, by the run's name up to the point
PROGRAMS = {
    "again": "Again.again",
    "apart": "Apart.apart",
    "barrier": "Barrier.barrier",
    "chunks_three": "Chunks.chunks_three",
    "clash": "Clash.clash",
    "disk": "Disk.disk",
    "disk_two": "Disk.disk",
    "first": "First.first",
    "gone": "Gone.gone",
    "mix": "Mix.mix",
    "order": "Order.order",
    "small_one": "Small.small",
    "small_three": "Small.small",
    "tight": "Tight.tight",
    "top": "Top.top",
    "twice": "Twice.twice",
}
FIELDS = struct.Struct(">IIBBBBIIIII")
NUMBERS = {"workers": 1, "servers": 1, "cache": 16, "puts": 4, "servercache": 16}


def text_of(folder, name):
    path = os.path.join(folder, name)
    return open(path, encoding="utf-8").read() if os.path.exists(path) else ""


def asked(folder):
    """The options of a run and its choices, as the definitions take them."""
    words = text_of(folder, "words").split()
    given = {w[2:]: words[i + 1] for i, w in enumerate(words) if w.startswith("--") and w != "--dump"}
    numbers = {k: int(given.get(k, d)) for k, d in NUMBERS.items()}
    unknown = set(given) - set(NUMBERS) - {"schedule"}
    if unknown:
        raise SystemExit("%s: options that this script doesn't know: %s" % (folder, ", ".join(sorted(unknown))))
    options = "record { workers = %(workers)d; servers = %(servers)d; cache = %(cache)d; puts = %(puts)d; server_cache = %(servercache)d; place = [] }" % numbers
    return options, text_of(folder, given["schedule"]).split() if "schedule" in given else []


def entries_of(folder):
    return [tuple(int(x) for x in line.split()) for line in text_of(folder, "record").splitlines()]


def asked_of(defs, world, mode, expressions):
    run = subprocess.run([defs, "--main", world, mode] + expressions, capture_output=True, text=True)
    if run.returncode == 2 or not run.stdout:
        raise SystemExit(run.stdout + run.stderr)
    return run.stdout


def answers(output, expressions):
    """What is printed of each expression; with several, each stands behind a line of its own."""
    if len(expressions) == 1:
        return [output]
    parts = output.split("-- ")
    return [part.split("\n", 1)[1] for part in parts[1:]]


def one_line(words):
    return " ".join(words.split())


def said_of(standing):
    """The line on a bad end, without the name of the block; an empty one where the run is done."""
    words = one_line(standing)
    if words == "AllDone":
        return ""
    clash = re.search(r"InConflict .*epoch = (\d+); clash = record { later = (\w+); later_line = (\d+); earlier = (\w+); earlier_line = (\d+) }", words)
    if clash:
        epoch, later, line, earlier, before = clash.groups()
        return "conflict epoch %s: %s line %s after %s line %s" % (epoch, later.lower(), line, earlier.lower(), before)
    trap = re.search(r"InTrap \(?record { kind = (\w+); line = (\d+);? }\)? (\d+)", words)
    if trap:
        return "trap %s line %s worker %s" % trap.groups()
    return words


def said_by(err):
    return re.sub(r"^conflict \S+", "conflict", err.strip().replace("sip: ", ""))


def main():
    if len(sys.argv) < 3:
        print(__doc__.strip())
        return 2
    defs, runs, names = sys.argv[1], sys.argv[2], sys.argv[3:]
    world = os.path.abspath(os.path.join(os.path.dirname(os.path.abspath(__file__)), "..", ".."))
    names = names or sorted(n for n in os.listdir(runs) if os.path.isdir(os.path.join(runs, n)))
    courses, differ, seen = [], 0, 0
    for name in names:
        folder = os.path.join(runs, name)
        options, choices = asked(folder)
        count = len(entries_of(folder)) + 2
        program = PROGRAMS[name.split(".")[0]]
        courses.append((program, options, "Legal.least_recent_run %s (%s) (Legal.choices_of [%s]) %d" % (program, options, ", ".join(choices), count)))
    records = ["Recorded.record_bytes (%s).entries" % course for _, _, course in courses]
    texts = ["Written.written %s (%s) (%s)" % (program, options, course) for program, options, course in courses]
    standings = ["(%s).standing" % course for _, _, course in courses]
    bytes_of = answers(asked_of(defs, world, "--bytes", records), records)
    texts_of = answers(asked_of(defs, world, "--text", texts), texts)
    ends_of = answers(asked_of(defs, world, "--antt", standings), standings)
    for name, found, text, end in zip(names, bytes_of, texts_of, ends_of):
        folder = os.path.join(runs, name)
        found = bytes(int(b, 16) for b in found.split())
        entries = entries_of(folder)
        wanted = b"".join(FIELDS.pack(*e) for e in entries)
        seen += len(entries)
        if found != wanted:
            differ += 1
            for k in range(max(len(found), len(wanted)) // 32):
                if found[32 * k : 32 * k + 32] != wanted[32 * k : 32 * k + 32]:
                    print("%s: entry %d" % (name, k))
                    print("  recorded   ", " ".join(map(str, entries[k])) if k < len(entries) else "none")
                    print("  definitions", " ".join(map(str, FIELDS.unpack_from(found, 32 * k))) if 32 * k < len(found) else "none")
                    break
        for what, recorded, ours in (
            ("output", text_of(folder, "out").strip("\n"), text.strip("\n")),
            ("end", said_by(text_of(folder, "err")), said_of(end)),
        ):
            if recorded != ours:
                differ += 1
                print("%s: %s" % (name, what))
                print("  recorded   ", repr(recorded))
                print("  definitions", repr(ours))
    print("%d runs of %d entries compared, %d differences" % (len(names), seen, differ))
    return 1 if differ else 0


if __name__ == "__main__":
    sys.exit(main())
