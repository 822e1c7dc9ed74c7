"""The command `uisnabar`, as tests/cli.py and the tests/cli_*.py that it calls run it, and what was found."""
import os
import pathlib
import re
import resource
import shutil
import subprocess
import sys

ROOT = pathlib.Path(__file__).resolve().parent.parent
COMMAND = [os.path.abspath(word) if os.path.exists(word) else word for word in sys.argv[1:]]
FILES = ("program", "memory", "exec", "ext")
PATH = os.environ["PATH"]
SENTENCE = re.compile(r"uisnabar: [^\n]+\n")
tried, faults = 0, []


def run(*words, stdin=b"", stdout=subprocess.PIPE, path=PATH, command=None, **how):
    """(status, standard output, standard error)."""
    given = {"input": stdin} if isinstance(stdin, bytes) else {"stdin": stdin}
    done = subprocess.run([*(command or COMMAND), *words], stdout=stdout, stderr=subprocess.PIPE, env={**os.environ, "PATH": path},
                          timeout=120, check=False, **given, **how)
    return done.returncode, done.stdout, done.stderr.decode()


def check(name, found, wanted):
    global tried
    tried += 1
    if found != wanted:
        faults.append(f"{name}: {found}, not {wanted}")


def could_not(name, found, about):
    """Status 2, nothing on standard output, and one sentence that has the words."""
    status, out, said = found
    check(name, (status, out or b"", bool(SENTENCE.fullmatch(said)), about in said), (2, b"", True, True))
    if about not in said:
        faults.append(f"{name}: said {said!r}")


def unwritable(words):
    """Output to a full disk, and output that nobody reads."""
    with open("/dev/full", "wb") as full:
        could_not(f"{words} to a full disk", run(*words, stdout=full), "standard output cannot be written: No space left")
    reading, writing = os.pipe()
    os.close(reading)
    could_not(f"{words} to nobody", run(*words, stdout=writing), "standard output cannot be written: Broken pipe")
    os.close(writing)


def limited(most, what=resource.RLIMIT_FSIZE):
    """For a process whose files may have so many bytes, or its memory; a longer write is an error, and no signal."""
    return {"preexec_fn": lambda: resource.setrlimit(what, (most, most)), "restore_signals": False}


def as_nobody():
    """For a process without root's rights: a copy of the command that it may run; this folder becomes one for all."""
    shutil.copy(COMMAND[-1], "command")
    os.chmod(".", 0o777)
    return {"command": [*COMMAND[:-1], "./command"], **({"user": 65534} if os.geteuid() == 0 else {})}


def write(parts):
    for name, part in zip(FILES, parts):
        pathlib.Path(name).write_bytes(part)
