"""How a case of the built program is run and compared with what is due, and how random cases are gone through.

Each case runs in a folder of its own. Whoever goes through random cases can do them again: a case depends on the seed and
its number alone.
"""
import argparse
import os
import shutil
import subprocess
import tempfile

DIRECTORY = object()
USAGE = "USAGE netflow run | netflow check | netflow sample SEED NODES ARCS CONS | netflow import | netflow export"


def call(command, words, program, folder, out=subprocess.PIPE):
    """Status, listing and standard error of a command with these words and this program text."""
    done = subprocess.run([*command, *words], input=program, stdout=out, stderr=subprocess.PIPE, cwd=folder, timeout=300)
    return done.returncode, (done.stdout or b"").decode("utf-8", "surrogateescape"), done.stderr.decode("utf-8", "replace")


def write_files(folder, files):
    """Writes data sets by name: bytes, None for one that is not there, or DIRECTORY."""
    for name, content in files.items():
        path = os.path.join(folder, name + ".csv")
        if content is DIRECTORY:
            os.mkdir(path)
        elif content is not None:
            with open(path, "wb") as f:
                f.write(content)


def lines(text, end):
    """The bytes of a data set whose lines end with this mark, and of no data set for None."""
    return None if text is None else text.replace(end, "\n").encode("utf-8", "surrogateescape")


def table(rows):
    """The bytes of a data set with these rows, each cell in quotes."""
    return "".join(",".join('"%s"' % cell for cell in row) + "\n" for row in rows).encode("utf-8")


class Cases:
    """Runs the built program, and counts what was as it should be."""

    def __init__(self, netflow):
        self.command, self.passed, self.failed = [os.path.abspath(netflow)], 0, 0

    def run(self, folder, words, program, out=subprocess.PIPE):
        return call(self.command, words, program, folder, out)

    def run_on(self, files, words, program):
        with tempfile.TemporaryDirectory() as folder:
            write_files(folder, files)
            return self.run(folder, words, program)

    def count(self, is_right, what, got, due):
        if is_right:
            self.passed += 1
        else:
            self.failed += 1
            print("FAILED %s: got %r, due is %s" % (what, got, due))

    def expect(self, what, got, status, listing):
        """This status and this whole listing, with nothing on standard error."""
        listing = listing if listing.endswith("\n") or not listing else listing + "\n"
        self.count(got == (status, listing, ""), what, got, "%d %r" % (status, listing))

    def end(self):
        print("%d passed, %d failed" % (self.passed, self.failed))
        return 1 if self.failed else 0


def arguments(description, **more):
    """A parser for `--netflow`, and for further options by name, with what each is for."""
    parser = argparse.ArgumentParser(description=description)
    parser.add_argument("--netflow", required=True, help="the built program")
    for name, what in more.items():
        parser.add_argument("--" + name, help=what)
    return parser


def random_arguments(description, **more):
    parser = arguments(description, keep="a folder for the files of cases that fail", **more)
    parser.add_argument("--seed", type=int, default=1)
    parser.add_argument("--count", type=int, default=300)
    parser.add_argument("--first", type=int, default=0, help="the number of the first case")
    return parser


def go_through(given, faults_of):
    """How many random cases fail: `faults_of` tells what is wrong with a case by its number, in a folder for its files."""
    failed = 0
    for number in range(given.first, given.first + given.count):
        with tempfile.TemporaryDirectory() as folder:
            faults = faults_of(number, folder)
            if faults:
                failed += 1
                print("FAILED seed %d case %d: %s" % (given.seed, number, "; ".join(faults)), flush=True)
                if given.keep:
                    shutil.copytree(folder, os.path.join(given.keep, "%d-%d" % (given.seed, number)), dirs_exist_ok=True)
    print("%d passed, %d failed" % (given.count - failed, failed))
    return failed


def unmet(kinds, seen, count):
    """Prints how often each kind was met, and answers whether one of them was not in 300 cases or more."""
    for kind in kinds:
        print("%6d  %s" % (seen[kind], kind))
    missing = [kind for kind in kinds if not seen[kind]]
    if missing and count >= 300:
        print("not met: " + ", ".join(missing))
        return True
    return False
