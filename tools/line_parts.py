"""What tools/lines_jobs does once it knows that several jobs run: it cuts files into parts, runs the program over them, and
puts together what the runs left.

Files are cut at ends of lines, and dumps where documents begin. Each run reads one part from memory. Its output and messages
stay in memory until those of all parts before it are written. The lines and documents in messages are counted from the
beginning of their file. No run is further ahead than AHEAD parts for each job.
"""
import os
import re
import signal
import stat
import struct
from collections import deque
from contextlib import suppress

AHEAD = 2
# The bytes of a part: a quarter of a job's share, but at least and at most these.
LEAST, MOST = 64 << 10, 8 << 20
BLOCK = 1 << 20
NO_READER = 141
COUNTS = re.compile(rb"bson: (\d+) (?:lines|documents), (\d+) refused")
HINT = b"bson: standard input "
# What Python ignores, and the program does not.
IGNORED = (signal.SIGPIPE, signal.SIGXFSZ)
STOPPING = (signal.SIGINT, signal.SIGTERM, signal.SIGHUP, signal.SIGQUIT)


class End(Exception):
    """The run ends with this status, or by the signal of this number below zero."""

    def __init__(self, status):
        super().__init__(status)
        self.status = status


def start(words, given, output, told, **environment):
    """Starts a process with these streams, and returns its number."""
    streams = [(os.POSIX_SPAWN_DUP2, it, at) for at, it in enumerate((given, output, told))]
    return os.posix_spawn(words[0], words, {**os.environ, **environment}, file_actions=streams, setsigdef=IGNORED)


def is_accepted(program, request):
    """Whether the program accepts the words, without help: a run over nothing writes nothing."""
    nothing, output = os.open(os.devnull, os.O_RDWR), os.memfd_create("output")
    number = start([program, *request.words, *(["-o/dev/null"] if request.outputs else [])], nothing, output, nothing)
    return os.waitpid(number, 0)[1] == 0 and os.fstat(output).st_size == 0


class Input:
    """A file, and how many of its lines or documents are counted, up to which byte."""

    def __init__(self, name):
        self.name, self.size, self.count, self.counted = name, os.stat(name).st_size, 0, 0

    def count_to(self, end):
        """Counts the lines up to a byte."""
        with open(self.name, "rb") as file:
            file.seek(self.counted)
            while self.counted < end:
                block = file.read(min(BLOCK, end - self.counted))
                self.count += block.count(b"\n")
                self.counted = self.counted + len(block) if block else end

    def count_all(self):
        """Counts all lines, with a last one that no newline ends."""
        self.count_to(self.size)
        with open(self.name, "rb") as file:
            file.seek(max(0, self.size - 1))
            self.count += file.read(1) not in (b"", b"\n")


class Part:
    """Bytes of a file, and how many documents they have; lines are counted if a message needs it. Its run has files of
    memory for its input, output and messages, and a status once it has ended."""

    def __init__(self, file, begin, size, documents=0):
        self.file, self.start, self.size, self.documents = file, begin, size, documents
        self.streams, self.status = (), None


def line_parts(file, least):
    """Cuts a file at ends of lines."""
    start = 0
    with open(file.name, "rb") as content:
        while start < file.size:
            content.seek(start + least)
            end = min(content.tell() + len(content.readline()), file.size) if start + least < file.size else file.size
            yield Part(file, start, end - start)
            start = end


def document_parts(file, least):
    """Cuts a file where documents begin, each with its length in four bytes (bsonspec.org). It is not cut after a length
    that is less than these bytes, or that goes beyond the end: a run ends there."""
    start = count = 0
    for ends in document_ends(file):
        for end in ends:
            count += 1
            if end >= start + least and end < file.size:
                yield Part(file, start, end - start, count)
                start, count = end, 0
    if file.size:
        yield Part(file, start, file.size - start, count)


def document_ends(file):
    """Where the documents of a file end, as lists, up to an impossible length."""
    at, length_at = 0, struct.Struct("<i").unpack_from
    with open(file.name, "rb", buffering=0) as content:
        while True:
            content.seek(at)
            block = content.read(BLOCK)
            if len(block) < 4:
                return
            ends, here, last, length = [], 0, len(block) - 4, 4
            while here <= last and length >= 4:
                (length,) = length_at(block, here)
                here += length
                ends.append(at + here)
            if length < 4 or at + here > file.size:
                yield ends[:-1]
                return
            yield ends
            at += here


def position(file):
    return os.lseek(file, 0, os.SEEK_CUR)


class Runs:
    """The runs of the program that have not ended, by their numbers. Each file of memory is used again for the same kind of
    content, so that it has its pages. The content ends at its offset."""

    def __init__(self, words):
        self.words, self.parts, self.inputs, self.outputs = words, {}, [], []

    def file(self, spare):
        """A file of memory at its beginning."""
        file = spare.pop() if spare else os.memfd_create("part")
        os.lseek(file, 0, os.SEEK_SET)
        return file

    def start(self, part, begin):
        """Starts a run over the bytes of a file from a place on to the end of the part."""
        given, told, output = self.file(self.inputs), self.file(self.outputs), self.file(self.outputs)
        part.streams = given, output, told
        with open(part.file.name, "rb") as content:
            end = part.start + part.size
            while begin < end and (moved := os.sendfile(given, content.fileno(), begin, end - begin)):
                begin += moved
        os.ftruncate(given, position(given))
        os.lseek(given, 0, os.SEEK_SET)
        self.parts[start(self.words, given, output, told, BSON_PART=str(part.start))] = part

    def wait(self):
        """Waits until a run ends."""
        number, status = os.wait()
        if part := self.parts.pop(number, None):
            part.status = os.waitstatus_to_exitcode(status)
            self.inputs.append(part.streams[0])

    def end(self):
        for number in self.parts:
            # (a signal can come between the end of a run and its removal here)
            with suppress(ProcessLookupError):
                os.kill(number, signal.SIGKILL)


class Jobs:
    """What the runs left is put together, in the order of the parts."""

    def __init__(self, program, request):
        self.request, self.jobs, words = request, request.count, request.words
        self.kind = b"documents" if "decode" in request.command else b"lines"
        self.keeps_going = "--keep-going" in words
        # (where standard error is a terminal to which no output goes)
        is_output_apart = request.output != "-" or "check" in request.command or not os.isatty(1)
        self.shows_progress, self.is_shown = os.isatty(2) and is_output_apart, False
        self.runs = Runs([program, *words])
        self.written = self.refused = self.total = 0
        self.hints, self.files, self.part = [], [], ""
        self.block = memoryview(bytearray(BLOCK))

    def cannot(self, what, name, error):
        self.tell(b"bson: cannot %s %s: %s\n" % (what.encode(), os.fsencode(name), os.strerror(error.errno).encode()))
        raise End(1)

    def open_files(self):
        """Asks for the sizes of the files, and opens a part next to the output, with its rights. (A part that exists is
        another run's.)"""
        for name in self.request.files:
            try:
                self.files.append(Input(name))
            except OSError as error:
                self.cannot("read", name, error)
        self.total = sum(it.size for it in self.files)
        if (output := self.request.output) != "-":
            part = f"{output}.{os.getpid()}.part"
            try:
                file = os.open(part, os.O_WRONLY | os.O_CREAT | os.O_EXCL, 0o666)
            except OSError as error:
                self.cannot("write", output, error)
            self.part = part
            os.dup2(file, 1)
            with suppress(OSError):
                old = os.stat(output)
                with suppress(OSError):
                    os.chown(file, old.st_uid, old.st_gid)
                os.chmod(file, stat.S_IMODE(old.st_mode))

    def place_output(self):
        """The file gets the output whole."""
        try:
            if self.part and os.path.exists(self.request.output):
                os.fsync(1)
            if self.part:
                os.replace(self.part, self.request.output)
        except OSError as error:
            self.cannot("write", self.request.output, error)
        self.part = ""

    def parts(self):
        cuts = line_parts if self.kind == b"lines" else document_parts
        least = min(max(self.total // self.jobs // 4, LEAST), MOST)
        for file in self.files:
            try:
                yield from cuts(file, least)
            except OSError as error:
                self.cannot("read", file.name, error)

    def run(self):
        """Returns the status."""
        self.open_files()
        parts, waiting = self.parts(), deque()
        while True:
            while len(self.runs.parts) < self.jobs and len(waiting) < AHEAD * self.jobs and (part := next(parts, None)):
                waiting.append(part)
                self.start(part)
            if not waiting:
                self.place_output()
                return self.last()
            if waiting[0].status is None:
                self.runs.wait()
            else:
                self.put(waiting.popleft())

    def start(self, part):
        """Starts the run over a part. After a blank line, a part does not begin with a byte order mark."""
        try:
            self.runs.start(part, part.start - (self.kind == b"lines" and part.start > 0))
        except OSError as error:
            self.cannot("read", part.file.name, error)

    def put(self, part):
        """Writes what a run left. What ends the run is reported after the output, and what is left out before it."""
        _, output, messages = part.streams
        told, status = os.pread(messages, position(messages), 0), part.status
        if self.keeps_going:
            status = self.report(part, told, status)
        self.write(output)
        if not self.keeps_going:
            status = self.report(part, told, status)
        self.runs.outputs += (output, messages)
        if status < 0:
            name = signal.Signals(-status).name.removeprefix("SIG")
            self.tell(b"bson: a run over %s was ended by signal %s\n" % (os.fsencode(part.file.name), name.encode()))
            raise End(128 - status)
        if status:
            raise End(status)
        self.written += part.size
        part.file.count += part.documents
        self.show()

    def report(self, part, told, status):
        """Writes the messages of a run, with the names of their files, and returns its status: 0 if it came to the end."""
        if not told:
            return status
        if self.kind == b"lines":
            part.file.count_to(part.start)
        lines = told.split(b"\n")[:-1]
        said = [it for it in lines if not it.startswith(HINT)]
        name = os.fsencode(part.file.name)
        for hint in (b"bson: %s %s\n" % (name, it[len(HINT):]) for it in lines if it.startswith(HINT)):
            self.hints += [hint] * (hint not in self.hints)
        self.tell(b"".join(self.named(part, name, it) for it in said if not COUNTS.fullmatch(it)))
        if said and (counts := COUNTS.fullmatch(said[-1])):
            self.refused += int(counts[2])
            # (a document that is cut off before its length ends is not counted by its length)
            part.documents = int(counts[1]) if self.kind == b"documents" else 0
            return 0
        return status

    def named(self, part, name, line):
        """A message with the name of its file, and its line or document counted from the file's beginning."""
        before = part.file.count
        if found := re.match(rb"bson: line (\d+)", line):
            # (each part of lines but the first begins with a blank one)
            line = b"%s:%d" % (name, before + int(found[1]) - (part.start > 0)) + line[found.end():]
        elif found := re.match(rb"bson: document (\d+) at byte (\d+)", line):
            place = (name, before + int(found[1]), part.start + int(found[2]))
            line = b"%s: document %d at byte %d" % place + line[found.end():]
        return line + b"\n"

    def write(self, output):
        at, end = 0, position(output)
        try:
            while at < end:
                # (sendfile would have a pipe refer to memory that the next run writes)
                block = self.block[:min(BLOCK, end - at)]
                at += os.write(1, block[:os.preadv(output, [block], at)])
        except BrokenPipeError:
            raise End(NO_READER) from None
        except OSError as error:
            self.cannot("write", self.request.output if self.part else "standard output", error)

    def tell(self, message):
        self.clear()
        try:
            os.write(2, message) if message else None
        except OSError:
            raise End(1) from None

    def show(self):
        if self.shows_progress:
            megabytes = (self.written // 10**6, self.total // 10**6)
            os.write(2, b"\r%d of %d MB, %d refused\x1b[K" % (*megabytes, self.refused))
            self.is_shown = True

    def clear(self):
        if self.is_shown:
            os.write(2, b"\r\x1b[K")
            self.is_shown = False

    def last(self):
        """Writes the counts of all files if some input was rejected, and returns the status."""
        if not self.refused:
            return 0
        for file in self.files:
            if self.kind == b"lines":
                file.count_all()
        self.tell(b"bson: %d %s, %d refused\n" % (sum(it.count for it in self.files), self.kind, self.refused))
        return 1

    def end(self):
        """Ends all runs, and leaves no part."""
        self.runs.end()
        if self.part:
            # (or after the part replaced the output)
            with suppress(FileNotFoundError):
                os.unlink(self.part)
        with suppress(End):
            self.tell(b"".join(self.hints))


# Filled once the run has ended, or a signal ends it.
ENDED = []


def stop(number, frame):
    """Ends the run at its first signal."""
    if not ENDED:
        ENDED.append(number)
        raise End(-number)


def convert(program, request):
    """Converts the files by several jobs, and ends the process, unless the program does not accept the words."""
    if not is_accepted(program, request):
        return
    work = Jobs(program, request)
    try:
        try:
            for number in STOPPING:
                signal.signal(number, stop)
            status = work.run()
        finally:
            ENDED.append(None)
    except End as end:
        status = end.status
    work.end()
    if status < 0:
        signal.signal(-status, signal.SIG_DFL)
        os.kill(os.getpid(), -status)
    os._exit(status)
