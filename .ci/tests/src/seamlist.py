"""Runs seamlist (its words are the arguments) on inputs at the edge of what it takes, in pieces, without end and unreadable, and on
outputs that cannot be written. What it must print is the listing of tools/cases.py, which is made from the paper alone.
"""
import array
import fcntl
import os
import signal
import subprocess
import sys
import tempfile
import termios
import threading
import time

sys.path.insert(0, "tools")
import cases

SEAMLIST = sys.argv[1:]
TAKEN = 25253  # the paper: "at most 25,253 bytes taken"
LIMIT = 20  # seconds; what has not ended by then hangs
F_SETPIPE_SZ = 1031  # Linux; fcntl has the name since Python 3.10

FILES = dict(cases.files())
CHAIN = FILES["the chain, k = 4"]
LARGEST = FILES["the largest file that is taken"]
assert len(LARGEST) == TAKEN - 1


def fault(what, seen):
    sys.exit("seamlist, %s: %s" % (what, seen))


def text(data):
    return cases.listing(data)[0].encode()


# ---- inputs: an ordinary run prints the listing and nothing else
def judge(what, source, data):
    try:
        ended = subprocess.run(SEAMLIST, stdin=source, capture_output=True, timeout=LIMIT)
    except subprocess.TimeoutExpired:
        fault(what, "it does not end")
    if ended.stdout != text(data):
        fault(what, "printed %r .., wanted %r .." % (ended.stdout[:60], text(data)[:60]))
    if ended.returncode != 0 or ended.stderr:
        fault(what, "status %d, said %r" % (ended.returncode, ended.stderr))


def lent(data):
    """A file with these bytes, at its front."""
    file = tempfile.TemporaryFile()
    file.write(data)
    file.seek(0)
    return file


def from_file(what, data):
    """The position in the file is shared with the program, so it tells how many bytes were taken."""
    with lent(data) as file:
        judge(what, file, data)
        taken = os.lseek(file.fileno(), 0, os.SEEK_CUR)
    if taken != min(len(data), TAKEN):
        fault(what, "%d bytes were taken" % taken)


def from_path(what, path, data):
    source = os.open(path, os.O_RDONLY)
    judge(what, source, data)
    os.close(source)


def piece_sizes():
    """1 to 7 bytes a thousand times, then about as many as a buffer may hold."""
    for turn in range(1000):
        yield 1 + turn % 7
    while True:
        yield from (4095, 4096, 4097, 1, 5000, 2)


def waiting(pipe):
    count = array.array("i", [0])
    fcntl.ioctl(pipe, termios.FIONREAD, count)
    return count[0]


def send(pipe, data):
    """Each piece goes once the one before it was taken, so that every read is a short one."""
    at = 0
    for size in piece_sizes():
        os.write(pipe, data[at : at + size])
        at += size
        while waiting(pipe):
            time.sleep(0.0001)
        if at >= len(data):
            break
    os.close(pipe)


def in_pieces(what, data):
    reader, writer = os.pipe()
    threading.Thread(target=send, args=(writer, data), daemon=True).start()
    judge(what, reader, data)
    os.close(reader)


# ---- outputs that cannot be written. The paper is silent there, so any status will do. What counts is that the program ends by itself and
# by no signal but one: where a pipe's reader has gone the kernel sends SIGPIPE, and a program that does not ignore it ends by it.
def start(output, is_ignoring=False, before=None):
    with lent(LARGEST) as file:
        return subprocess.Popen(
            SEAMLIST, stdin=file, stdout=output, stderr=subprocess.DEVNULL, restore_signals=not is_ignoring, preexec_fn=before
        )


def end(what, program, allowed=()):
    try:
        status = program.wait(LIMIT)
    except subprocess.TimeoutExpired:
        program.kill()
        fault(what, "it does not end")
    if status < 0 and -status not in allowed:
        fault(what, "ended by signal %d" % -status)


def to_path(what, path, flags):
    output = os.open(path, flags)
    end(what, start(output))
    os.close(output)


def to_gone_reader(what, heard, is_ignoring):
    """The reader takes so many bytes and goes; the listing is longer than the pipe."""
    reader, writer = os.pipe()
    fcntl.fcntl(writer, F_SETPIPE_SZ, 4096)
    if heard == 0:
        os.close(reader)
    program = start(writer, is_ignoring)
    os.close(writer)
    if heard > 0:
        if os.read(reader, heard) != text(LARGEST)[:heard]:
            fault(what, "printed something else")
        os.close(reader)
    end(what, program, () if is_ignoring else (signal.SIGPIPE,))


from_file("no input", b"")
from_file("the chain", CHAIN)
from_file("the largest file", LARGEST)
from_file("a byte more", LARGEST + b"\0")
from_file("30,000 bytes more", LARGEST + bytes(30000))
from_path("zeros without end", "/dev/zero", bytes(TAKEN))
from_path("an input that cannot be read", ".", b"")
in_pieces("no input, by a pipe", b"")
in_pieces("the chain in pieces", CHAIN)
in_pieces("the largest file in pieces", LARGEST)
in_pieces("a byte more, in pieces", LARGEST + b"\0")

end("its output closed", start(None, before=lambda: os.close(1)))
to_path("an output not open for writing", "/dev/null", os.O_RDONLY)
to_path("an output that is full", "/dev/full", os.O_WRONLY)
for is_ignoring in False, True:
    to_gone_reader("the reader gone before", 0, is_ignoring)
    to_gone_reader("the reader gone after 100 bytes", 100, is_ignoring)
print("seamlist: %d bytes are taken and no more, at once or in pieces, and it ends where it can't read or write" % TAKEN)
