"""What the gate costs, by crate: processor seconds of its proof, of its must-fail edits and of its tests.

    python3 bench/gate.py                  runs `rt ci` at the top of the repository and prints the table
    python3 bench/gate.py -- rt ci NAME    the same of another command
    python3 bench/gate.py --seconds 60     watches what runs on this machine for that long, and starts nothing

It looks at the prover's processes five times a second, so it misses up to 0.2 seconds of each. Of a command it counts only
the processes of that command's session, whatever else runs on the machine. If an earlier run has kept a proof, nothing is
proved again and nothing is counted: `rt ci --anew` proves everything. Standard error has the command's own lines, each with
the seconds since the start.
"""

import argparse
import collections
import os
import subprocess
import sys
import threading
import time

TICKS = os.sysconf("SC_CLK_TCK")


def process_of(number):
    """Returns the words of a process, its session, its folder and its processor seconds so far, or None if it has ended."""
    try:
        with open(f"/proc/{number}/cmdline", "rb") as file:
            words = file.read().decode(errors="replace").split("\0")
        with open(f"/proc/{number}/stat", "rb") as file:
            fields = file.read().rsplit(b")", 1)[1].split()
        return words, int(fields[3]), os.readlink(f"/proc/{number}/cwd"), (int(fields[11]) + int(fields[12])) / TICKS
    except (OSError, IndexError, ValueError):
        return None


def part_of(words, folder):
    """Returns the crate and the part of the gate that a prover's process belongs to, or None for other processes."""
    if not words or os.path.basename(words[0]) != "rattle" or "--crate-name" not in words:
        return None
    crate = words[words.index("--crate-name") + 1]
    if "/rt-edit-" in folder:
        return crate, "edits"
    return crate, "tests" if "--test" in words else "proof"


def watch(is_over, seen, session=None):
    """Keeps the greatest count of processor seconds of each of the prover's processes, of one session or of all, until it
    is over."""
    while not is_over():
        for number in filter(str.isdigit, os.listdir("/proc")):
            found = process_of(number)
            if not found or session not in (None, found[1]):
                continue
            part = part_of(found[0], found[2])
            if part:
                key = (number, *part)
                seen[key] = max(seen.get(key, 0), found[3])
        time.sleep(0.2)


def table_of(seen):
    """Returns the lines of the table: a crate a line, the dearest first."""
    spent = collections.defaultdict(collections.Counter)
    for (_, crate, part), seconds in seen.items():
        spent[crate][part] += seconds
    rows = sorted(spent.items(), key=lambda it: -sum(it[1].values()))
    total = sum((parts for _, parts in rows), collections.Counter())
    lines = ["| Crate | Proof | Edits | Tests | In all |", "|---|---|---|---|---|"]
    for name, parts in [*rows, ("all", total)]:
        cells = [f"{parts[it] / 60:.1f}" for it in ("proof", "edits", "tests")]
        lines.append(f"| {name} | {' | '.join(cells)} | {sum(parts.values()) / 60:.1f} |")
    return lines


def run(command, seen):
    """Runs a command while its proofs are watched, and returns its status."""
    start, over = time.monotonic(), threading.Event()
    with subprocess.Popen(command, stdout=subprocess.PIPE, stderr=subprocess.STDOUT, text=True, errors="replace",
                          start_new_session=True) as made:
        watcher = threading.Thread(target=watch, args=(over.is_set, seen, made.pid))
        watcher.start()
        for line in made.stdout:
            print(f"{time.monotonic() - start:7.0f} {line}", end="", file=sys.stderr, flush=True)
    over.set()
    watcher.join()
    return made.returncode


def main():
    parser = argparse.ArgumentParser(description=__doc__, formatter_class=argparse.RawDescriptionHelpFormatter)
    parser.add_argument("--seconds", type=float, help="watch for so many seconds, and start nothing")
    parser.add_argument("command", nargs="*", help="the command to run (rt ci)")
    given, seen, status = parser.parse_args(), {}, 0
    start = time.monotonic()
    if given.seconds:
        watch(lambda: time.monotonic() - start > given.seconds, seen)
    else:
        status = run(given.command or ["rt", "ci"], seen)
    print("Processor minutes:\n")
    print("\n".join(table_of(seen)))
    print(f"\nIn {(time.monotonic() - start) / 60:.1f} minutes, on {os.cpu_count()} processors.")
    return status


if __name__ == "__main__":
    sys.exit(main())
