"""Files of a document a line, and dumps of BSON documents, converted by the workers of a Dask cluster.

    >>> from distributed import Client
    >>> convert_files(Client("scheduler:8786"), "s3://exports/*.jsonl", "s3://converted", "relaxed")
    (1000000, 2)
    >>> decode_files(Client("scheduler:8786"), "s3://dumps/*.bson", "s3://decoded", "relaxed")
    (1000000, 0)

Every worker has this module, vbson and the library. Files and folders are paths, or URLs of what fsspec knows. The files
are cut into blocks at ends of lines, or where documents begin. What a block gives is a part, part-0.jsonl and so on (with
as many digits as the last has), so that `cat part-*` is the output of all files in their order. refused.csv is written
when all parts are there. It has each rejected line with its file, its line there and why; or each rejected document with
its file, its number there, the number of bytes before it, and why. A part is written whole or not at all; a block whose
worker is lost is converted again by another, into the same part.
"""
import csv
import io
import os
import uuid
from typing import Any, List, Tuple, Union

import fsspec
import vbson
from fsspec.implementations.local import LocalFileSystem

Urls, Mode = Union[str, List[str]], Union[int, str]
# As much of a dump as is read at once to find where its documents begin.
_CHUNK = 1 << 22


def _put(files, path, content):
    if not isinstance(files, LocalFileSystem):
        files.pipe_file(path, content)
        return
    # (an object store has an object whole or not at all; a file has to be renamed)
    unfinished = f"{os.path.dirname(path)}/.{os.path.basename(path)}.{uuid.uuid4().hex}"
    files.pipe_file(unfinished, content)
    os.replace(unfinished, path)


def _convert(source, path, start, size, how, target, part):
    """Writes the part of one block of lines; returns the number of lines, and the number and the error of each rejected one."""
    with source.open(path) as file:
        block = fsspec.utils.read_block(file, start, size, b"\n")
    lines = block.count(b"\n") + (not block.endswith(b"\n") and block != b"")
    text, refused = vbson.convert_block(block, how[0], start == 0, **how[1])
    _put(target, part, text)
    return lines, [(number, str(error)) for number, error in refused]


def _begins(source, path, block_size):
    """The beginning of each block of a dump, with the number of documents before it; and those of the end.

    After a length that can't be one, or that goes beyond the end, no document can be found. The rest is one block, and counts
    as one document.
    """
    size, at, number, blocks = source.info(path)["size"], 0, 0, []
    chunk, begins = b"", 0
    with source.open(path) as file:
        while at < size:
            if not blocks or at - blocks[-1][0] >= block_size:
                blocks.append((at, number))
            if at + 4 > begins + len(chunk):
                file.seek(at)
                chunk, begins = file.read(_CHUNK), at
            length = int.from_bytes(chunk[at - begins:at - begins + 4], "little", signed=True)
            at, number = (at + length if 5 <= length <= size - at else size), number + 1
    return [*blocks, (size, number)]


def _decode(source, path, start, size, how, target, part):
    """Writes the part of one block of documents; returns the number, the offset and the error of each rejected one."""
    with source.open(path) as file:
        file.seek(start)
        block = file.read(size)
    text, refused = vbson.decode_documents(block, how[0], **how[1])
    _put(target, part, text)
    return [(number, begins, str(error)) for number, begins, error in refused]


def _opened(urls, folder, call, how):
    """The files to read, with where they are, and the empty folder, with where it is."""
    # (raises if an option is not one of the call, before a folder is made)
    call(b"", how[0], **how[1])
    source, _, paths = fsspec.core.get_fs_token_paths(urls)
    target, folder = fsspec.core.url_to_fs(folder)
    target.makedirs(folder, exist_ok=True)
    if target.find(folder):
        raise FileExistsError(f"{folder} is not empty")
    return source, paths, target, folder


def _run(client, work, source, blocks, how, target, folder):
    """What the work on each block gives, in their order: its part is written."""
    digits = len(str(len(blocks)))
    works = [client.submit(work, source, path, start, size, how, target, f"{folder}/part-{part:0{digits}}.jsonl",
                           pure=False, retries=2) for part, (path, start, size) in enumerate(blocks)]
    return client.gather(works)


def _end(target, folder, table):
    for left in target.glob(f"{folder}/.part-*"):
        target.rm(left)
    text = io.StringIO()
    csv.writer(text, lineterminator="\n").writerows(table)
    _put(target, f"{folder}/refused.csv", text.getvalue().encode())


def convert_files(client: Any, urls: Urls, folder: str, mode: Mode = vbson.CANONICAL, block_size: int = 1 << 25,
                  **options: bool) -> Tuple[int, int]:
    """Converts the lines of all files into parts in a folder that is empty or not there.

    The mode and the options are those of `vbson.convert_lines`. Blank lines have no output and count, and a byte order mark at
    the start of a file is skipped. Returns the number of lines, and how many of them were rejected. Raises FileExistsError,
    ValueError or TypeError if the mode or an option is not valid, what a worker raised three times over (MemoryError,
    OSError), and KilledWorker where one block took several with it.
    """
    how = mode, options
    source, paths, target, folder = _opened(urls, folder, vbson.convert_lines, how)
    cuts = [(at, start) for at, path in enumerate(paths) for start in range(0, source.info(path)["size"], block_size)]
    blocks = [(paths[at], start, block_size) for at, start in cuts]
    before, table = [0] * len(paths), []
    for (at, _), (lines, refused) in zip(cuts, _run(client, _convert, source, blocks, how, target, folder)):
        table += [(paths[at], before[at] + number, why) for number, why in refused]
        before[at] += lines
    _end(target, folder, [("file", "line", "fault"), *table])
    return sum(before), len(table)


def decode_files(client: Any, urls: Urls, folder: str, mode: Mode = vbson.CANONICAL, block_size: int = 1 << 25,
                 **options: bool) -> Tuple[int, int]:
    """Writes the documents of dumps as lines of text, into parts in a folder that is empty or not there.

    Each file is BSON documents, one after the other, as mongodump writes them. The mode and the options are those of
    `vbson.decode_documents`. A worker reads each file once more to find where its documents begin. After a rejected document
    the next one begins where its length says; without a valid length the rest of the file is one rejected document. Returns
    the number of documents, and how many of them were rejected. Raises as `convert_files` does.
    """
    how = mode, options
    source, paths, target, folder = _opened(urls, folder, vbson.decode_documents, how)
    works = [client.submit(_begins, source, path, block_size, pure=False, retries=2) for path in paths]
    begins = client.gather(works)
    cuts = [(path, start, before, end - start) for path, its in zip(paths, begins)
            for (start, before), (end, _) in zip(its, its[1:])]
    blocks = [(path, start, size) for path, start, _, size in cuts]
    table = [(path, before + number, start + at, why)
             for (path, start, before, _), refused in zip(cuts, _run(client, _decode, source, blocks, how, target, folder))
             for number, at, why in refused]
    _end(target, folder, [("file", "document", "byte", "fault"), *table])
    return sum(its[-1][1] for its in begins), len(table)
