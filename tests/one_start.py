"""Answers of a program to many documents. With a C compiler the program starts once for many of them (one-start.c), and without one it starts for
each: the answers are the same."""
import contextlib
import os
import pathlib
import shutil
import signal
import struct
import subprocess
import tempfile

SOURCE = pathlib.Path(__file__).with_name("one-start.c")
LENGTH, HEAD = struct.Struct("<I"), struct.Struct("<iII")
LONGEST = 120  # seconds of an answer


@contextlib.contextmanager
def library():
    """The path of one-start.c, compiled; None without a C compiler."""
    with tempfile.TemporaryDirectory() as room:
        place = os.path.join(room, "one-start.so")
        if shutil.which("cc"):
            subprocess.run(["cc", "-O1", "-shared", "-fPIC", "-fno-builtin", "-o", place, SOURCE], check=True)
        yield place if shutil.which("cc") else None


def answer(words, document):
    """The status, standard output and standard error of a program on a document."""
    ran = subprocess.run(words, input=document, capture_output=True, timeout=LONGEST)
    return ran.returncode, ran.stdout, ran.stderr


def answers_in(content):
    """The answers that the library wrote."""
    at = 0
    while at < len(content):
        status, output, error = HEAD.unpack_from(content, at)
        at += HEAD.size
        yield os.waitstatus_to_exitcode(status), content[at : at + output], content[at + output : at + output + error]
        at += output + error


def answered_by_copies(place, words, documents):
    """The answers of copies of one process. There are fewer than documents if one took too long, or if the program didn't get as far as its input."""
    with contextlib.ExitStack() as stack:
        given, found = (stack.enter_context(open(os.memfd_create(name), "w+b")) for name in ("documents", "answers"))
        for document in documents:
            given.write(LENGTH.pack(len(document)) + document)
        given.seek(0)
        numbers = [given.fileno(), found.fileno()]
        environment = os.environ | {"LD_PRELOAD": place, "ONE_START": f"{numbers[0]} {numbers[1]}"}
        streams = dict.fromkeys(("stdin", "stdout", "stderr"), subprocess.DEVNULL)
        with subprocess.Popen(words, env=environment, pass_fds=numbers, start_new_session=True, **streams) as child:
            with contextlib.suppress(subprocess.TimeoutExpired):
                child.wait(LONGEST)
            with contextlib.suppress(ProcessLookupError):
                os.killpg(child.pid, signal.SIGKILL)
        found.seek(0)
        return list(answers_in(found.read()))


def answers_of(place, words, documents):
    """The answers of a program with these words to these documents, and how many times it was started. `place` is the library's path, or None."""
    found = answered_by_copies(place, words, documents) if place else []
    left = documents[len(found) :]
    return [*found, *(answer(words, document) for document in left)], bool(place) + len(left)
