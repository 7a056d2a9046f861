"""Substitutes for Spark and Ray, which are not installed where the tests run: `sc` and `ray` have the calls that docs/SCALE.md
uses. A URL names the files with its last part in the current folder, and two partitions have the lines of each file.
"""
import glob
import os
from types import SimpleNamespace


def files_of(url):
    return sorted(glob.glob(url.rpartition("/")[2]))


def lines_of(path):
    with open(path, encoding="utf-8") as file:
        return file.read().splitlines()


def folder_of(url):
    """A new folder for the output at a URL."""
    folder = "output-of-" + url.replace("/", "-").replace(":", "")
    os.mkdir(folder)
    return folder


class Partitions:
    """As an RDD of Spark: lists of values, which a function gets one at a time."""

    def __init__(self, parts):
        self.parts = parts

    def mapPartitions(self, function):
        return Partitions([list(function(iter(part))) for part in self.parts])

    def flatMap(self, function):
        return self.mapPartitions(lambda part: (it for value in part for it in function(value)))

    def first(self):
        return next(it for part in self.parts for it in part)

    def saveAsTextFile(self, url):
        folder = folder_of(url)
        for number, part in enumerate(self.parts):
            with open(f"{folder}/part-{number:05}", "w", encoding="utf-8") as file:
                file.writelines(f"{it}\n" for it in part)


class Batches:
    """As a Dataset of Ray: batches of columns."""

    def __init__(self, batches):
        self.batches = batches

    def map_batches(self, function):
        return Batches([function(batch) for batch in self.batches])

    def take(self, count):
        return [{"text": it} for batch in self.batches for it in batch["text"]][:count]

    def write_csv(self, url):
        with open(f"{folder_of(url)}/0.csv", "w", encoding="utf-8") as file:
            file.writelines(f"{it['text']}\n" for it in self.take(None))


def halves(lines):
    return [lines[: len(lines) // 2], lines[len(lines) // 2 :]]


def text_file(url):
    return Partitions([part for path in files_of(url) for part in halves(lines_of(path))])


def binary_files(url):
    found = []
    for path in files_of(url):
        with open(path, "rb") as file:
            found.append([(path, file.read())])
    return Partitions(found)


def read_text(url):
    return Batches([{"text": part} for path in files_of(url + "/*.jsonl") for part in halves(lines_of(path))])


sc = SimpleNamespace(textFile=text_file, binaryFiles=binary_files)
ray = SimpleNamespace(data=SimpleNamespace(read_text=read_text))
