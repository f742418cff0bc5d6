"""Directories of many data files."""

import resource

import support
from support import DONE, SETTINGS_FILE, check_names, equal, log_name, set_folder

MANY = 10_000

# How many files the program may have open, its streams among them. It keeps 64 open where it may.
FEW, FEWER = 80, 20


def limited(most):
    return lambda: resource.setrlimit(resource.RLIMIT_NOFILE, (most, most))


def write_files(folder, count):
    """So many data files. Each has a key of its own, and a record of one key that all share. No step compacts them."""
    set_folder(folder, "pump = 0\n")
    for number in range(1, count + 1):
        puts = [(b"k%d" % number, b"v%d" % number), (b"all", b"%d" % number), (b"x%d" % number, b"")]
        path = folder / log_name(number)
        path.write_bytes(support.spelled_file(puts, number, first=3 * number - 2))


def check_read(folder, count, most):
    """Opens the folder with few files open, reads every key, and writes the next file."""
    keys = range(count, 0, -1)
    script = b"get all\n" + b"".join(b"get k%d\n" % number for number in keys) + b"size\nput k1 new\nget k1\n"
    said = [f"opened {count}", f"value {count}", *[f"value v{number}" for number in keys]]
    said += [f"size {2 * count + 1}", "ok", "value new", "stopped"]
    text = "".join(f"{line}\n" for line in said).encode()
    got = support.run([folder, "--at", "1"], script, preexec_fn=limited(most))
    equal(got[0], DONE, "the status")
    equal(got[1:], (text, b""), "what is said and the errors")
    check_names(folder, [SETTINGS_FILE, *[log_name(number) for number in range(1, count + 2)]])


def test_many_files(folder):
    """Ten thousand data files are opened and read, though few files may be open at once."""
    write_files(folder, MANY)
    check_read(folder, MANY, FEW)


def test_fewer_open_files(folder):
    """Files are closed for others where fewer may be open than the program would keep."""
    write_files(folder, 100)
    check_read(folder, 100, FEWER)
