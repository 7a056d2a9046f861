"""Runs of the program, each a process of its own."""
import os
import re
import signal
from dataclasses import dataclass

LONGEST_SECONDS = 60
# How the program over lines reports the rejection of one text: the message, and where. A hint can follow.
TOLD = re.compile(rb'bson: (?:line [0-9]+: )?(not JSON|bad object id|not Extended JSON)(?: at .*| \(.*)\n(?:bson: standard input .*\n)?')


@dataclass(frozen=True)
class Answer:
    """What a run left: its status, standard output and standard error."""
    status: int
    output: bytes
    error: bytes

    def __str__(self):
        return f'status {self.status}, output {clip(self.output)}, error {clip(self.error)}'


def clip(data):
    """Bytes as they are shown to a reader."""
    return repr(data) if len(data) <= 2000 else f'{data[:1000]!r}..{data[-1000:]!r} ({len(data)} bytes)'


def accepted(text):
    """The answer that is this text and a newline."""
    return Answer(0, text.encode() + b'\n', b'')


def refused(line):
    """The answer that is this line of a fault."""
    return Answer(1, b'', line.encode() + b'\n')


class Program:
    """A program that is handed its mode, other words and, on standard input, bytes."""

    def __init__(self, path, words=()):
        self.path, self.words = path, words

    def answer(self, mode, data):
        """Runs the program once. A run that doesn't end is killed, and its status shows it."""
        input_end, input_start = os.pipe()
        output_end, output_start = os.pipe()
        error_end, error_start = os.pipe()
        process = os.posix_spawn(
            self.path, (self.path, mode, *self.words), {}, setsigdef=(signal.SIGPIPE,),
            file_actions=[(os.POSIX_SPAWN_DUP2, end, at)
                          for at, end in enumerate((input_end, output_start, error_start))])
        for end in (input_end, output_start, error_start):
            os.close(end)
        signal.signal(signal.SIGALRM, lambda *_: os.kill(process, signal.SIGKILL))
        signal.alarm(LONGEST_SECONDS)
        try:
            write_all(input_start, data)
            # (the error is one line or two, which its pipe has room for)
            output, error = read_all(output_end), read_all(error_end)
            status = os.waitstatus_to_exitcode(os.waitpid(process, 0)[1])
        finally:
            signal.alarm(0)
        told = TOLD.fullmatch(error)
        return Answer(status, output, b'bson_cli: ' + told[1] + b'\n' if told else error)


def write_all(end, data):
    """Writes the bytes, as far as they are read, and closes the pipe."""
    try:
        while data:
            data = data[os.write(end, data):]
    except BrokenPipeError:
        pass
    os.close(end)


def read_all(end):
    """Reads to the end, and closes the pipe."""
    parts = []
    while part := os.read(end, 1 << 20):
        parts.append(part)
    os.close(end)
    return b''.join(parts)
