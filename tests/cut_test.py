#!/usr/bin/env python3
"""Watches what `hammerbuff run` does to its file, and opens every file that a power cut could have left on the way.

usage: python3 tests/cut_test.py [--runs N] [--seed S] [--market book|call] [--mirror] [--program PATH]

It needs strace. Each run takes random orders to its end while strace notes what it writes to the file, what it syncs and what
it prints. For each place in this list the power is taken to have failed there: what was synced is in the file, and of the
writes since then none, all, or some by chance. The program opens each such file, and what it prints is checked against all
that had been printed up to there, as kill_test.py checks it. So this test sees a receipt that is printed before its page is
synced, which a killed process does not show. The next run begins with one of these files. With --mirror one half of each pair
is opened alone, too: it must hold as much.

What it cannot show: that the disk keeps what was synced, and what becomes of a sector that can no longer be read (the drill
in memory has those: docs/DRILL.md). Exit status as kill_test.py's.
"""

import collections
import copy
import os
import random
import re
import shutil
import sys
import tempfile

from kill_test import Fault, Life, Reader, Run, SECTORS, options_of, need

CALL = re.compile(r"\d+ +(\w+)\((.*)\) += (-?\d+)")
TEXT = re.compile(r'"((?:\\x[0-9a-f]{2})*)"')
TRACED = "openat,close,pwrite64,fdatasync,fsync,write"
# How many of the ways in which some of the waiting writes are kept are tried at one place.
WAYS = 2
# So many runs are made on one file, and then another is set up.
RUNS_OF_A_FILE = 5

Write = collections.namedtuple("Write", "file place content")
Sync = collections.namedtuple("Sync", "file")
Print = collections.namedtuple("Print", "text")


def text_of(arguments):
    return bytes.fromhex(TEXT.search(arguments).group(1).replace("\\x", ""))


def events_of(trace, files):
    """What was done to the files, and what was printed, in order."""
    open_files = {}
    for line in trace:
        call = CALL.match(line)
        if call is None or int(call.group(3)) < 0:
            continue
        name, arguments, answer = call.group(1), call.group(2), int(call.group(3))
        number = arguments.split(",")[0]
        if name == "openat":
            path = os.fsdecode(text_of(arguments))
            if path in files:
                open_files[str(answer)] = files.index(path)
        elif name == "close":
            open_files.pop(number, None)
        elif name == "write" and number == "1":
            yield Print(text_of(arguments)[:answer].decode())
        elif name == "pwrite64" and number in open_files:
            yield Write(open_files[number], int(arguments.split(",")[-1]), text_of(arguments)[:answer])
        elif name in ("fdatasync", "fsync") and number in open_files:
            yield Sync(open_files[number])


class Disk:
    """What the files hold for sure, and the writes since their last sync."""

    def __init__(self, contents):
        self.contents = [bytearray(content) for content in contents]
        self.waiting = []

    def take(self, event):
        if isinstance(event, Write):
            self.waiting.append(event)
        elif isinstance(event, Sync):
            self.put(self.contents, [write for write in self.waiting if write.file == event.file])
            self.waiting = [write for write in self.waiting if write.file != event.file]

    @staticmethod
    def put(contents, writes):
        for write in writes:
            contents[write.file][write.place : write.place + len(write.content)] = write.content

    def images(self, chance):
        """What a cut may leave now: none of the waiting writes, all of them, some by chance."""
        kept = [[]]
        if self.waiting:
            kept.append(self.waiting)
        if len(self.waiting) > 1:
            kept += [[write for write in self.waiting if chance.random() < 0.5] for _ in range(WAYS)]
        for writes in kept:
            contents = [bytearray(content) for content in self.contents]
            self.put(contents, writes)
            yield contents


class Watched(Life):
    """An exchange whose runs are watched."""

    def __init__(self, options, chance, folder, sectors):
        super().__init__(options, chance, folder, sectors)
        self.copies = [file + "-cut" for file in self.files]
        self.openings = 0

    def watch(self):
        """One run under strace, to its end. Answers what it was sent and what it did."""
        trace = os.path.join(self.folder, "trace")
        words = ["strace", "-f", "-qq", "-xx", "-s", "65536", "-e", "trace=" + TRACED, "-o", trace]
        run = Run(words + self.words("run", self.files) + ["--format", "csv"], os.path.join(self.folder, "stderr"))
        try:
            run.feed(self.traffic.lines(self.record, self.chance.randint(0, 120)))
            run.close()
            run.end(kill=False)
            run.check(copy.deepcopy(self.record))
        finally:
            run.stop()
        with open(trace, encoding="ascii") as lines:
            return run.sent, list(events_of(lines, self.files))

    def open_copy(self, contents, record):
        """The program opens what the cut left, or one half of a mirror alone."""
        self.openings += 1
        for name, content in zip(self.copies, contents):
            with open(name, "wb") as copied:
                copied.write(content)
        record = copy.deepcopy(record)

        def work(run):
            run.close()
            run.end(kill=False)

        self.attempt(work, self.copies[: len(contents)], record)

    def check_image(self, contents):
        self.open_copy(contents, self.record)
        if len(contents) > 1:
            self.open_copy([self.chance.choice(contents)], self.record)

    def cut_everywhere(self):
        """A run, and the cuts at each of its places. One of the files that they left is the next run's."""
        disk = Disk([open(name, "rb").read() for name in self.files])
        sent, events = self.watch()
        need(any(isinstance(event, Write) for event in events), "strace saw no write to the file")
        reader = Reader(self.record, sent)
        rest, left = "", 1
        for place, event in enumerate(events):
            disk.take(event)
            if isinstance(event, Print):
                *lines, rest = (rest + event.text).split("\n")
                for line in lines:
                    reader.take(line)
            for contents in disk.images(self.chance):
                try:
                    self.check_image(contents)
                except Fault as fault:
                    raise Fault(f"a cut after call {place + 1} of {len(events)}: {fault}") from fault
                if self.chance.randrange(left) == 0:
                    chosen = contents, copy.deepcopy(self.record)
                left += 1
        contents, self.record = chosen
        for name, content in zip(self.files, contents):
            with open(name, "wb") as file:
                file.write(content)


def main():
    options = options_of("Opens every file that a power cut could have left of hammerbuff run.", "--runs", 20)
    if options is None:
        return 2
    if shutil.which("strace") is None:
        print("this test needs strace", file=sys.stderr)
        return 2
    chance = random.Random(options.seed)
    runs = openings = pages = faults = files = 0
    while runs < options.runs and not faults:
        folder = tempfile.mkdtemp(prefix="hammerbuff-cut-test-")
        life = Watched(options, chance, folder, SECTORS[files % len(SECTORS)])
        files += 1
        try:
            life.set_up()
            for _ in range(min(RUNS_OF_A_FILE, options.runs - runs)):
                life.cut_everywhere()
                runs += 1
                print(f"{runs} runs, {openings + life.openings} openings", end="\r" if sys.stdout.isatty() else "\n", flush=True)
        except Fault as fault:
            faults += 1
            print(f"fault after {runs} runs, file {files} of {life.sectors} sectors: {fault}")
        finally:
            shutil.rmtree(folder)
        openings += life.openings
        pages += life.record.whole
    print(f"seed {options.seed}: {runs} runs, {openings} openings after a cut, {pages} pages, {faults} faults")
    return 1 if faults else 0


if __name__ == "__main__":
    sys.exit(main())
