#!/usr/bin/env python3
"""What the built program stores in its folder: runs at once, runs that are killed, names that are taken, links, stores that
fail, and modes of files.

    python3 tests/stores.py --netflow crates/netflow/out/netflow

Each case runs in a folder of its own. A store writes a file of its own and renames it, so a whole file stands under the
name whatever else happens, and nothing else stays.
"""
import os
import random
import resource
import signal
import stat
import subprocess
import sys
import tempfile
import time

sys.dont_write_bytecode = True
from cases import Cases, arguments, write_files  # noqa: E402

PROGRAM = b"proc netflow arcdata=arcs nodedata=nodes certout=k; run;"
FILES = {"arcs": b"_FROM_,_TO_,_COST_,_CAPAC_\na,b,2,10\n", "nodes": b"_NODE_,_SUPDEM_\na,5\nb,-5\n"}
LISTING = "OPTIMAL\nTOTAL COST 10\nSTAGE 1 PIVOTS 1\nSTAGE 2 PIVOTS 0\nSAVED CERTOUT k ROWS 4\n"
STORED = b"_ITEM_,_NUMBER_,_VALUE_\nVERDICT,1,OPTIMAL\nCOL,1,5\nROW,1,0\nROW,2,-2\n"
AT_ONCE = 60
PAIRS = 20
KILLED = 60
# the program tries as many names for its new file
MOST_PARTS = 10_000


def contents(folder):
    """The bytes of each file of a folder by name; of a link where it leads, of a folder None."""
    found = {}
    for name in sorted(os.listdir(folder)):
        path = os.path.join(folder, name)
        if os.path.islink(path):
            found[name] = os.readlink(path)
        elif os.path.isdir(path):
            found[name] = None
        else:
            with open(path, "rb") as f:
                found[name] = f.read()
    return found


def due(**more):
    """What the folder holds after a run: its data sets, the certificate, and these."""
    return {"arcs.csv": FILES["arcs"], "nodes.csv": FILES["nodes"], "k.csv": STORED, **more}


def run_in(t, folder):
    return t.run(folder, ["run"], PROGRAM)


def start(t, folder, **more):
    """A run that waits for its program."""
    return subprocess.Popen([*t.command, "run"], stdin=subprocess.PIPE, stdout=subprocess.PIPE, stderr=subprocess.PIPE, cwd=folder, **more)


def give(run, program):
    run.stdin.write(program)
    run.stdin.close()


def end(run):
    """Status, listing and standard error of a run that has its program."""
    listing, error = run.stdout.read().decode(), run.stderr.read().decode()
    run.stdout.close()
    run.stderr.close()
    return run.wait(), listing, error


def many_at_once(t):
    """Each of many runs at once that store one set ends well, and the file is whole."""
    with tempfile.TemporaryDirectory() as folder:
        write_files(folder, FILES)
        runs = [start(t, folder) for _ in range(AT_ONCE)]
        for run in runs:
            give(run, PROGRAM)
        for number, run in enumerate(runs, 1):
            t.expect("run %d of %d at once" % (number, AT_ONCE), end(run), 0, LISTING)
        found = contents(folder)
        t.count(found == due(), "the folder after %d runs at once" % AT_ONCE, found, "the data and one whole file")


def two_at_once(t):
    """Two runs at once that store one set from different data: the file is that of one of them, whole."""
    other = PROGRAM.replace(b"arcdata=arcs", b"arcdata=dear")
    dear, listing = FILES["arcs"].replace(b",2,", b",3,"), LISTING.replace("10", "15")
    stored = STORED.replace(b"-2", b"-3")
    for number in range(1, PAIRS + 1):
        with tempfile.TemporaryDirectory() as folder:
            write_files(folder, {**FILES, "dear": dear})
            one, two = start(t, folder), start(t, folder)
            give(one, PROGRAM)
            give(two, other)
            t.expect("the first of pair %d" % number, end(one), 0, LISTING)
            t.expect("the second of pair %d" % number, end(two), 0, listing)
            found = contents(folder)
            wanted = [due(**{"dear.csv": dear}), due(**{"dear.csv": dear, "k.csv": stored})]
            t.count(found in wanted, "the folder after pair %d" % number, found, "the data and the file of one of them")


def killed(t):
    """A run that is killed leaves the old bytes or the new ones; what it began with a name of its own costs no later run."""
    with tempfile.TemporaryDirectory() as folder:
        write_files(folder, {**FILES, "k": b"old"})
        begin = time.perf_counter()
        t.expect("a run before the kills", run_in(t, folder), 0, LISTING)
        seconds, chance = time.perf_counter() - begin, random.Random(1)
        for number in range(1, KILLED + 1):
            write_files(folder, {"k": b"old"})
            run = start(t, folder)
            give(run, PROGRAM)
            time.sleep(chance.random() * seconds)
            run.kill()
            end(run)
            found = contents(folder)
            begun = {name for name in found if name.startswith("k.csv.part")}
            whole = found["k.csv"] in (b"old", STORED) and set(found) - begun == {"arcs.csv", "nodes.csv", "k.csv"}
            t.count(whole, "the folder after kill %d" % number, found, "the old bytes or the new ones")
        before = {name: content for name, content in contents(folder).items() if name.startswith("k.csv.part")}
        t.expect("a run after the kills", run_in(t, folder), 0, LISTING)
        t.count(contents(folder) == due(**before), "the folder after the kills", contents(folder), "the new bytes, and what was begun as it was")


def stopped(t):
    """A run that is stopped while it waits for its program, and goes on, reads all of it."""
    with tempfile.TemporaryDirectory() as folder:
        write_files(folder, FILES)
        run = start(t, folder)
        for part in (PROGRAM[:20], PROGRAM[20:]):
            run.stdin.write(part)
            run.stdin.flush()
            run.send_signal(signal.SIGSTOP)
            run.send_signal(signal.SIGCONT)
        run.stdin.close()
        t.expect("a run that was stopped twice", end(run), 0, LISTING)


def taken_names(t):
    """Links, files and folders under the names that a store tries stay as they are, and are not written through."""
    with tempfile.TemporaryDirectory() as folder:
        write_files(folder, FILES)
        with open(os.path.join(folder, "precious"), "wb") as f:
            f.write(b"precious")
        os.symlink("precious", os.path.join(folder, "k.csv.part1"))
        os.symlink("nowhere", os.path.join(folder, "k.csv.part2"))
        with open(os.path.join(folder, "k.csv.part3"), "wb") as f:
            f.write(b"of a run that was killed")
        os.mkdir(os.path.join(folder, "k.csv.part4"))
        t.expect("the first names are taken", run_in(t, folder), 0, LISTING)
        found, want = contents(folder), due(precious=b"precious")
        want.update({"k.csv.part1": "precious", "k.csv.part2": "nowhere", "k.csv.part3": b"of a run that was killed", "k.csv.part4": None})
        t.count(found == want, "the folder with names that are taken", found, "all as it was, and the certificate")


def links(t):
    """A link under the name itself gives way to a file; what it leads to stays as it was."""
    for leads_to in ("precious", "nowhere"):
        with tempfile.TemporaryDirectory() as folder:
            write_files(folder, FILES)
            with open(os.path.join(folder, "precious"), "wb") as f:
                f.write(b"precious")
            os.symlink(leads_to, os.path.join(folder, "k.csv"))
            t.expect("a link to %s under the name" % leads_to, run_in(t, folder), 0, LISTING)
            found = contents(folder)
            t.count(found == due(precious=b"precious"), "the folder with a link to %s" % leads_to, found, "the certificate, and what the link led to")


def failed_stores(t):
    """A store that fails leaves the old file, and none of its own."""
    failed = LISTING[:LISTING.index("SAVED")]
    with tempfile.TemporaryDirectory() as folder:
        write_files(folder, FILES)
        os.mkdir(os.path.join(folder, "k.csv"))
        t.expect("a folder stands under the name", run_in(t, folder), 6, failed)
        found = contents(folder)
        t.count(found == due(**{"k.csv": None}), "the folder with a folder under the name", found, "as it was")
    for old in (None, b"old"):
        with tempfile.TemporaryDirectory() as folder:
            write_files(folder, {**FILES, "k": old})
            before = contents(folder)
            # the signal is ignored here, so a write beyond the limit fails with an error
            run = start(t, folder, restore_signals=False, preexec_fn=lambda: resource.setrlimit(resource.RLIMIT_FSIZE, (20, 20)))
            give(run, PROGRAM)
            t.expect("the file has no room after 20 bytes", end(run), 6, failed)
            t.count(contents(folder) == before, "the folder after a write that failed", contents(folder), "as it was")
    with tempfile.TemporaryDirectory() as folder:
        write_files(folder, {**FILES, "k": b"old"})
        for number in range(1, MOST_PARTS + 1):
            os.symlink("nowhere", os.path.join(folder, "k.csv.part%d" % number))
        before = contents(folder)
        t.expect("each name for a new file is taken", run_in(t, folder), 6, failed)
        t.count(contents(folder) == before, "the folder with each name taken", "another", "as it was")
    if os.geteuid():
        with tempfile.TemporaryDirectory() as folder:
            write_files(folder, {**FILES, "k": b"old"})
            before = contents(folder)
            os.chmod(folder, 0o555)
            t.expect("no file may be made in the folder", run_in(t, folder), 6, failed)
            os.chmod(folder, 0o755)
            t.count(contents(folder) == before, "the folder in which no file may be made", contents(folder), "as it was")


def failed_listing(t):
    """A listing that cannot be written ends the run before the store."""
    with tempfile.TemporaryDirectory() as folder, open("/dev/full", "wb") as full:
        write_files(folder, {**FILES, "k": b"old"})
        before = contents(folder)
        t.expect("the listing has no room", t.run(folder, ["run"], PROGRAM, out=full), 6, "")
        t.count(contents(folder) == before, "the folder after a listing that failed", contents(folder), "as it was")


def modes(t):
    """The new file has the mode of the old one; the old one may be read-only."""
    for mode in (0o600, 0o640, 0o444):
        with tempfile.TemporaryDirectory() as folder:
            write_files(folder, {**FILES, "k": b"old"})
            path = os.path.join(folder, "k.csv")
            os.chmod(path, mode)
            t.expect("an old file of mode %o" % mode, run_in(t, folder), 0, LISTING)
            got = stat.S_IMODE(os.stat(path).st_mode)
            t.count(got == mode and contents(folder) == due(), "the mode of the file", "%o" % got, "%o" % mode)


def main():
    t = Cases(arguments("What the built program stores.").parse_args().netflow)
    for part in (many_at_once, two_at_once, killed, stopped, taken_names, links, failed_stores, failed_listing, modes):
        part(t)
    return t.end()


if __name__ == "__main__":
    sys.exit(main())
