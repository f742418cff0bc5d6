"""The launcher, in a tree of its own with stand-ins for the program and for rt."""

import os
import pty
import shutil
import subprocess

import support
from support import TOP, Failed, equal

# It says its process and its words, and ends with the status that STATUS says.
PROGRAM = '#!/bin/sh\necho $$ "$@"\nexit ${STATUS:-0}\n'

# It notes what it is asked for, and makes the program, unless BROKEN says otherwise.
RT = """\
#!/bin/sh
echo "$@" >>{tree}/asked
echo "rt $1"
[ -z "${{BROKEN:-}}" ] || exit 1
mkdir -p {crate}/out
cp {tree}/stand-in {crate}/out/cache_cli
"""

# What the line for each status has in it, where the directory is there.
TOLD = {
    1: "status 1",
    2: "DIR --at V",
    3: "cache.toml",
    4: "tools/show",
    5: "the disk failed",
    6: "standard input",
    7: "standard output",
    8: "out of memory",
    9: "at their end",
    10: "too long",
    143: "status 143",
}


class Tree:
    """A copy of the launcher, with a crate that has one source and isn't built."""

    def __init__(self, folder):
        self.top = folder / "tree"
        self.crate = self.top / "crates/cache_cli"
        self.source = self.crate / "src/main.rt"
        for part in ("src", "specs", "proofs"):
            (self.crate / part).mkdir(parents=True)
        for part in (".ci", "bin", "tests", "store"):
            (self.top / part).mkdir()
        self.source.write_text("")
        (self.top / "crates.txt").write_text("cache_cli:\n")
        for part in ("cache", ".ci/run"):
            shutil.copy(TOP / part, self.top / part)
        self.write_program("stand-in", PROGRAM)
        self.write_program("bin/rt", RT.format(tree=self.top, crate=self.crate))
        self.write_program("tests/run", "#!/bin/sh\n")

    def write_program(self, name, text):
        (self.top / name).write_text(text)
        (self.top / name).chmod(0o755)

    def surroundings(self, **more):
        return {**os.environ, "PATH": f"{self.top}/bin:{os.environ['PATH']}", **more}

    def started(self, words, command="cache", stderr=subprocess.PIPE, **more):
        return subprocess.Popen(
            [self.top / command, *words],
            stdin=subprocess.DEVNULL,
            stdout=subprocess.PIPE,
            stderr=stderr,
            env=self.surroundings(**more),
        )

    def run(self, words, command="cache", **more):
        """The status, the output, the errors and the process of a run whose streams are pipes."""
        process = self.started(words, command, **more)
        said, errors = process.communicate(timeout=support.LIMIT)
        return process.returncode, said.decode(), errors.decode(), process.pid

    def run_at_terminal(self, words, **more):
        """The status of a run whose standard error is a terminal, and what stands there then."""
        master, slave = pty.openpty()
        process = self.started(words, stderr=slave, **more)
        os.close(slave)
        process.communicate(timeout=support.LIMIT)
        return process.returncode, read_to_end(master)

    def asked(self):
        """What rt was asked for so far."""
        path = self.top / "asked"
        return path.read_text().split() if path.exists() else []


def read_to_end(terminal):
    """What was written to a terminal that nobody has open any more."""
    text = b""
    try:
        while more := os.read(terminal, 65536):
            text += more
    except OSError:
        # The end of a terminal is a failure on some systems.
        pass
    os.close(terminal)
    return text.decode()


def test_launcher_usage(folder):
    """Without words, and with -h or --help alone, a short usage stands on standard error, and the status is 2."""
    tree = Tree(folder)
    for words in ([], ["-h"], ["--help"]):
        status, said, errors, _ = tree.run(words)
        equal((status, said, errors.splitlines()[:1]), (2, "", ["usage: cache DIR --at V < SCRIPT"]), f"{words}")
    equal(tree.asked(), [], "what was built")


def test_launcher_gives_its_place(folder):
    """Where standard error is no terminal the program is the launcher's process, with its words, status and streams."""
    tree = Tree(folder)
    tree.run(["build"])
    for status in range(11):
        words = ["store", "--at", "7", "", "-h"]
        ended, said, errors, process = tree.run(words, STATUS=str(status))
        equal((ended, said, errors), (status, f"{process} store --at 7  -h\n", ""), "status, output and errors")


def test_launcher_tells_statuses(folder):
    """Where standard error is a terminal one line there tells each status other than 0."""
    tree = Tree(folder)
    tree.run(["build"])
    store = tree.top / "store"
    equal(tree.run_at_terminal([store]), (0, ""), "status and line")
    for status, part in TOLD.items():
        ended, told = tree.run_at_terminal([store], STATUS=str(status))
        equal((ended, told.count("\n")), (status, 1), f"the status, and the lines of {told!r}")
        if part not in told:
            raise Failed(f"the line for the status {status} is {told!r}")


def test_launcher_tells_folders(folder):
    """A directory that is missing or is a file is told apart from a disk that fails."""
    tree = Tree(folder)
    tree.run(["build"])
    for name, part in [("missing", "there is no directory"), ("cache", "is no directory")]:
        ended, told = tree.run_at_terminal([tree.top / name], STATUS="5")
        if ended != 5 or part not in told:
            raise Failed(f"the status is {ended}, and the line {told!r}")


def test_launcher_builds(folder):
    """It builds where nothing is built or a source is newer, and says on standard error what that prints."""
    tree = Tree(folder)
    status, said, errors, process = tree.run(["one"])
    equal((status, said, errors), (0, f"{process} one\n", "rt run\n"), "the first run")
    equal(tree.run(["one"])[2], "", "the errors of the second run")
    tree.source.write_text("changed")
    equal(tree.run(["one"])[2], "rt run\n", "the errors behind a change")
    equal(tree.asked(), ["run", "run"], "what was built")


def test_launcher_that_cannot_build(folder):
    """Where the program can't be built the status is 70."""
    tree = Tree(folder)
    status, said, errors, _ = tree.run(["one"], BROKEN="yes")
    equal((status, said), (70, ""), "status and output")
    equal(errors, "rt run\ncache: the program was not built\n", "the errors")


def test_launcher_takes_what_the_checks_built(folder):
    """What .ci/run has built is taken as it is, until a source is newer than its beginning."""
    tree = Tree(folder)
    equal(tree.run([], ".ci/run")[:2], (0, "rt ci\n"), "status and output of the checks")
    equal(tree.run(["one"])[2], "", "the errors of a run")
    equal(tree.asked(), ["ci"], "what was built")
    tree.source.write_text("changed")
    equal(tree.run(["one"])[2], "rt run\n", "the errors behind a change")


def test_launcher_does_not_take_what_failed(folder):
    """Where the checks fail their status is kept, and nothing of theirs is taken."""
    tree = Tree(folder)
    equal(tree.run([], ".ci/run", BROKEN="yes")[0], 1, "the status of the checks")
    equal(tree.run(["one"])[2], "rt run\n", "the errors of a run")
