#!/usr/bin/env python3
"""Kills `hammerbuff run` at random moments, opens the file again each time, and checks what comes out.

usage: python3 tests/kill_test.py [--kills N] [--seed S] [--market book|call] [--mirror] [--program PATH]

N is 300 if left out. The seed chooses the orders and the moments; how far a run has come at its moment is up to the machine.

The program is fed random orders and killed by SIGKILL: while it opens, while it takes orders, right after a receipt or a
snapshot was read, and at the end of the input. Of all lines that were read, over all runs on one file, it checks that
  - pages, commands and notices are numbered from 1 without a gap, and each number has one content for ever;
  - no opening comes back to less than was printed, and none is refused;
  - the commands of a page are those that were sent, in their order, up to where the input ends a page;
  - a snapshot covers no page whose notices were not all read, and once it was told it is not lost;
  - the notices fit the commands: members, sides and prices agree; an order's lots are filled, dropped, cancelled or rest; a
    cancel gives a notice exactly where lots rest; no buy rests at or above a sell (in a call auction: right after a cross);
    at most 32 orders rest on a side.
With --mirror each half is now and then opened alone, as a copy: it must hold as much.

What it can show: that whatever a process has printed can be read back by the next one, wherever it is killed. What it cannot:
a killed process loses nothing that it has written to the file, synced or not. So it does not see whether a receipt is
printed before the sync, nor anything of power cuts and torn sectors: cut_test.py tries cuts that lose whole writes, and the
drill in memory tears sectors, too (docs/DRILL.md). Two writes in a row lie so near that hardly a kill falls between them. It
has no matching of its own: that the right orders are filled is proved.

Exit status: 0 no fault, 1 a fault was found, 2 it could not be run.
"""

import argparse
import collections
import copy
import os
import random
import select
import shutil
import signal
import subprocess
import sys
import tempfile
import time

HOUSE = 7
PAGE_COMMANDS = 16
SIDE_ORDERS = 32
NOT_A_COMMAND = 4
# Nothing takes so long. A run that says nothing for so many seconds hangs.
PATIENCE = 60
# How many faults are enough.
MOST_FAULTS = 5
# The files in turn have so many sectors: journals of 4, 56, 4 and 1 pages.
SECTORS = (12, 64, 12, 9)
TOP = os.path.dirname(os.path.dirname(os.path.abspath(__file__)))

# How many fields the lines have, with the word in front.
FIELDS = {
    "opened": 4,
    "receipt": 7,
    "fill": 9,
    "dropped": 6,
    "cancelled": 6,
    "refused": 3,
    "snapshot": 2,
    "live": 4,
    "done": 4,
}
NOTICES = ("fill", "dropped", "cancelled")

Receipt = collections.namedtuple("Receipt", "page first commands notice notices")
Enter = collections.namedtuple("Enter", "member side price lots")
Cancel = collections.namedtuple("Cancel", "member order")
Cross = collections.namedtuple("Cross", "")


class Fault(Exception):
    """What came out breaks a promise."""


def need(holds, why):
    if not holds:
        raise Fault(why)


# ---- what is sent


def command_of(line):
    """The command of an input line; none of one that is no good command."""
    words = line.split()
    if words == ["cross"]:
        return Cross()
    if words[:1] == ["enter"]:
        member, price, lots = int(words[1]), int(words[3]), int(words[4])
        return Enter(member, words[2], price, lots) if member and price and lots else None
    if words[:1] == ["cancel"]:
        return Cancel(int(words[1]), int(words[2]))
    return None


class Sent:
    """The lines that one run was fed, as pages of commands and as lines that must be refused."""

    def __init__(self):
        self.lines = 0
        self.pages = []
        self.filling = []
        self.bad = []

    def take(self, line):
        self.lines += 1
        if line.startswith("#"):
            return
        if line in ("", "commit"):
            self.close()
            return
        command = command_of(line)
        if command is None:
            self.bad.append(self.lines)
            return
        self.filling.append(command)
        if len(self.filling) == PAGE_COMMANDS:
            self.close()

    def close(self):
        if self.filling:
            self.pages.append(self.filling)
            self.filling = []


class Traffic:
    """Random input lines. They aim at orders that rest, as far as the record knows them."""

    def __init__(self, chance, market):
        self.chance = chance
        self.crosses = 0.02 if market == "book" else 0.08

    def enter(self):
        side = self.chance.choice(("buy", "sell"))
        lean = 1 if side == "sell" else -1
        price = 100 + self.chance.randint(-6, 6) + lean * self.chance.randint(0, 4)
        return f"enter {self.chance.randint(1, 9)} {side} {price} {self.chance.randint(1, 40)}"

    def cancel(self, record):
        if self.chance.random() < 0.2 or not record.resting:
            return f"cancel {self.chance.randint(1, 9)} {self.chance.randint(1, record.commands + 9)}"
        number = self.chance.choice(sorted(record.resting))
        return f"cancel {record.resting[number].member} {number}"

    def line(self, record):
        roll = self.chance.random()
        if roll < self.crosses:
            return "cross"
        if roll < 0.70:
            return self.enter()
        if roll < 0.90:
            return self.cancel(record)
        return self.chance.choice(("", "commit", "# a note", "enter 0 buy 5 5", "enter 3 sell 0 1", "no command"))

    def lines(self, record, count):
        return [self.line(record) for _ in range(count)]


# ---- what was printed, over all runs on one file


class Order:
    def __init__(self, enter):
        self.member, self.side, self.price, self.open = enter


class Record:
    """All that was read of one exchange, and what must be so of what comes next."""

    def __init__(self, market):
        self.market = market
        self.pages = {0: Receipt(0, 1, 0, 1, 0)}
        self.contents = {}
        self.notices = []
        # The last page, the last one of which everything was read, and the last one that a snapshot was said to cover.
        self.last = 0
        self.whole = 0
        self.covered = 0
        # The pages that the last live run was sent stand behind this one.
        self.base = 0
        self.sent = []
        self.resting = {}
        # Pages that an opening found, and that no receipt had been read of.
        self.found = 0

    @property
    def commands(self):
        return after(self.pages[self.last])[0] - 1

    def receipt(self, receipt):
        known = self.pages.get(receipt.page)
        if known is not None:
            need(receipt == known, f"{receipt} was {known}")
            return
        at = receipt.page - self.base - 1
        need(0 <= at < len(self.sent), f"{receipt} is a page that was not sent")
        page = self.sent[at]
        need(receipt.commands == len(page), f"{receipt} has not the {len(page)} commands that were sent")
        self.pages[receipt.page] = receipt
        self.contents[receipt.page] = page
        self.last = receipt.page

    def notice(self, notice):
        number = notice[1]
        if number <= len(self.notices):
            known = self.notices[number - 1]
            need(notice == known, f"notice {number} is {notice} and was {known}")
            return
        need(number == len(self.notices) + 1, f"notice {number} comes after {len(self.notices)}")
        self.notices.append(notice)

    def finish(self, page):
        """All notices of the page were read."""
        if page <= self.whole:
            return
        need(page == self.whole + 1, f"page {page} comes, and of page {self.whole + 1} not all was read")
        receipt = self.pages[page]
        notices = self.notices[receipt.notice - 1 : receipt.notice + receipt.notices - 1]
        for number, command in enumerate(self.contents.pop(page), receipt.first):
            self.step(number, command, [n for n in notices if n[2] == number])
        self.whole = page

    # What the notices say of the orders.

    def step(self, number, command, notices):
        kinds = [notice[0] for notice in notices]
        if isinstance(command, Cancel):
            self.cancel(command, notices)
        elif isinstance(command, Enter):
            self.enter(number, command, notices)
        else:
            need(self.market == "call" or not kinds, f"a cross of the book gave {notices}")
            need(set(kinds) <= {"fill"}, f"a cross gave {notices}")
            need(len({notice[7] for notice in notices}) <= 1, f"a cross filled at more than one price: {notices}")
            for notice in notices:
                self.fill(notice)
        self.check_sides(number, command)

    def enter(self, number, command, notices):
        self.resting[number] = Order(command)
        for notice in notices:
            need(notice[0] != "cancelled", f"an enter gave {notice}")
            need(number in self.resting, f"{notice} comes after the last lot of order {number}")
            if notice[0] == "dropped":
                need(len(self.prices(command.side)) > SIDE_ORDERS, f"{notice}, and there is room for it")
                self.take_off(notice, number)
            else:
                need(self.market == "book", f"an enter of a call auction gave {notice}")
                need(number == max(notice[3], notice[5]), f"{notice} is not of order {number}")
                other = self.resting.get(min(notice[3], notice[5]))
                need(other and notice[7] == other.price, f"{notice} is not at the price of the order that rested")
                self.fill(notice)

    def cancel(self, command, notices):
        order = self.resting.get(command.order)
        if order is None or order.member != command.member:
            need(not notices, f"{command} gave {notices}, and nothing of it rested")
            return
        need(len(notices) == 1 and notices[0][0] == "cancelled", f"{command} gave {notices}, and {order.open} lots rested")
        self.take_off(notices[0], command.order)

    def take_off(self, notice, number):
        order = self.resting.pop(number)
        wanted = (number, order.member, order.open)
        need(notice[3:] == wanted, f"{notice} is not of order, member and lots {wanted}")

    def fill(self, notice):
        _, _, _, buy, buyer, sell, seller, price, lots = notice
        for number, member, side in ((buy, buyer, "buy"), (sell, seller, "sell")):
            order = self.resting.get(number)
            need(order is not None, f"{notice}: order {number} does not rest")
            need((order.member, order.side) == (member, side), f"{notice}: order {number} is a {order.side} of {order.member}")
            accepts = price <= order.price if side == "buy" else price >= order.price
            need(accepts, f"{notice}: order {number} has price {order.price}")
            need(1 <= lots <= order.open, f"{notice}: order {number} has {order.open} lots left")
            order.open -= lots
            if not order.open:
                del self.resting[number]

    def prices(self, side):
        return [order.price for order in self.resting.values() if order.side == side]

    def check_sides(self, number, command):
        buys, sells = self.prices("buy"), self.prices("sell")
        need(max(len(buys), len(sells)) <= SIDE_ORDERS, f"more than {SIDE_ORDERS} orders of a side rest after command {number}")
        if buys and sells and (self.market == "book" or isinstance(command, Cross)):
            need(max(buys) < min(sells), f"a buy at {max(buys)} and a sell at {min(sells)} rest after command {number}")


def after(receipt):
    """The numbers of the first command and the first notice after a page."""
    return receipt.first + receipt.commands, receipt.notice + receipt.notices


class Reader:
    """Reads the lines of one run into the record."""

    def __init__(self, record, sent):
        self.record = record
        self.sent = sent
        self.phase = "starting"
        self.page = 0
        # The notices of the page that are still to come.
        self.awaited = 0
        self.next_command, self.next_notice = 1, 1
        self.refusals = []
        self.last_caused = 0

    def take(self, text):
        fields = text.split(",")
        word = fields[0]
        need(len(fields) == FIELDS.get(word), f"unknown line {text!r}")
        market = fields.pop(2) if word == "opened" else self.record.market
        need(market == self.record.market, f"{text!r} is of another market")
        need(all(field.isdecimal() for field in fields[1:]), f"unknown line {text!r}")
        line = (word, *map(int, fields[1:]))
        if word in NOTICES:
            self.notice(line)
            return
        need(not self.awaited, f"{text!r} comes before all notices of page {self.page}")
        getattr(self, word)(line)

    def opened(self, line):
        _, house, page = line
        need(self.phase == "starting" and house == HOUSE, f"{line} comes when {self.phase}")
        need(page <= self.record.whole, f"{line}: page {page} is covered, and not all of it had been read")
        need(page >= self.record.covered, f"{line}: a snapshot covered page {self.record.covered}")
        self.record.covered = self.page = page
        self.next_command, self.next_notice = after(self.record.pages[page])
        self.phase = "replaying"

    def receipt(self, line):
        house, receipt = line[1], Receipt(*line[2:])
        need(self.phase in ("replaying", "live"), f"{receipt} comes when {self.phase}")
        need(house == HOUSE, f"{receipt} is of house {house}")
        numbers = (receipt.page, receipt.first, receipt.notice)
        wanted = (self.page + 1, self.next_command, self.next_notice)
        need(numbers == wanted, f"{receipt}, where page, command and notice {wanted} are next")
        self.record.found += self.phase == "replaying" and receipt.page not in self.record.pages
        self.record.receipt(receipt)
        self.page, self.awaited, self.last_caused = receipt.page, receipt.notices, receipt.first
        self.next_command = after(receipt)[0]
        self.end_page()

    def notice(self, notice):
        need(self.awaited, f"{notice} belongs to no receipt")
        number, command = notice[1:3]
        need(number == self.next_notice, f"{notice}, where notice {self.next_notice} is next")
        need(self.last_caused <= command < self.next_command, f"{notice} is of a command out of turn")
        self.record.notice(notice)
        self.awaited -= 1
        self.next_notice += 1
        self.last_caused = command
        self.end_page()

    def end_page(self):
        if not self.awaited:
            self.record.finish(self.page)

    def counts(self, line):
        wanted = (self.page, self.next_command - 1, self.next_notice - 1)
        need(line[1:] == wanted, f"{line}, where pages, commands and notices are {wanted}")

    def live(self, line):
        need(self.phase == "replaying", f"{line} comes when {self.phase}")
        self.counts(line)
        need(self.page >= self.record.last, f"{line}: {self.record.pages[self.record.last]} is lost")
        self.record.base, self.record.sent = self.page, self.sent.pages
        self.phase = "live"

    def refused(self, line):
        need(self.phase == "live", f"{line} comes when {self.phase}")
        at = len(self.refusals)
        wanted = [(number, NOT_A_COMMAND) for number in self.sent.bad[at : at + 1]]
        need([line[1:]] == wanted, f"{line}, where line and reason {wanted} are next")
        self.refusals.append(line[1])

    def snapshot(self, line):
        need(self.phase == "live" and line[1] == self.page, f"{line} comes at page {self.page} when {self.phase}")
        self.record.covered = self.page

    def done(self, line):
        need(self.phase == "live", f"{line} comes when {self.phase}")
        self.counts(line)
        need(self.page == self.record.base + len(self.sent.pages), f"{line}: not all pages that were sent are there")
        need(self.refusals == self.sent.bad, f"{line}: the lines {self.sent.bad[len(self.refusals):]} were not refused")
        self.phase = "done"


# ---- one run of the program


class Run:
    """The program at work: what it is fed, and what it prints."""

    def __init__(self, words, errors):
        self.errors = errors
        with open(errors, "wb") as stderr:
            self.process = subprocess.Popen(words, stdin=subprocess.PIPE, stdout=subprocess.PIPE, stderr=stderr)
        self.output = self.process.stdout.fileno()
        self.text = b""
        self.sent = Sent()
        self.began = time.monotonic()
        self.closed = False
        self.killed = False

    def feed(self, lines):
        for line in lines:
            self.sent.take(line)
        try:
            self.process.stdin.write("".join(line + "\n" for line in lines).encode())
            self.process.stdin.flush()
        except BrokenPipeError:
            pass

    def close(self):
        self.sent.close()
        self.closed = True
        self.hang_up()

    def hang_up(self):
        try:
            self.process.stdin.close()
        except BrokenPipeError:
            pass

    def read(self, seconds):
        """Reads once. False at the end of the output."""
        if not select.select([self.output], [], [], max(seconds, 0))[0]:
            return True
        part = os.read(self.output, 1 << 16)
        self.text += part
        return part != b""

    def wait(self, seconds):
        """Reads for so long."""
        until = time.monotonic() + seconds
        while time.monotonic() < until and self.read(until - time.monotonic()):
            pass

    def wait_for(self, word, count=1):
        """Reads until so many lines with this word were read. False if the output ends before."""
        start = word.encode() + b","
        until = time.monotonic() + PATIENCE
        while sum(line.startswith(start) for line in self.text.split(b"\n")[:-1]) < count:
            need(time.monotonic() < until, f"no line {word!r} came in {PATIENCE} seconds")
            if not self.read(until - time.monotonic()):
                return False
        return True

    def wait_for_page(self, page):
        """Reads until the receipt of this page of the input was read, counted from 1."""
        if self.wait_for("live"):
            replayed = self.text.partition(b"live,")[0].count(b"receipt,")
            self.wait_for("receipt", replayed + page)

    def end(self, kill):
        if kill:
            self.process.send_signal(signal.SIGKILL)
        until = time.monotonic() + PATIENCE
        while self.read(until - time.monotonic()):
            need(time.monotonic() < until, f"the run did not end in {PATIENCE} seconds")
        self.killed = self.process.wait() == -signal.SIGKILL

    def stop(self):
        """Whatever happened, nothing is left behind."""
        self.process.kill()
        self.process.wait()
        self.process.stdout.close()
        self.hang_up()

    def check(self, record):
        """Checks what was printed, and answers the phase that it came to. A last line that was cut short is not read."""
        reader = Reader(record, self.sent)
        for line in self.text.decode(errors="replace").split("\n")[:-1]:
            reader.take(line)
        if not self.killed:
            with open(self.errors, encoding="utf-8", errors="replace") as errors:
                said = errors.read().strip()
            need(self.process.returncode == 0, f"the run ended with status {self.process.returncode}: {said}")
            need(self.closed, "the run ended before its input did")
            need(reader.phase == "done", f"the run ended when {reader.phase}")
        return reader


# ---- many runs on one file


class Life:
    """An exchange on a file of its own, from its set-up on."""

    def __init__(self, options, chance, folder, sectors):
        self.options, self.chance, self.folder, self.sectors = options, chance, folder, sectors
        self.record = Record(options.market)
        self.traffic = Traffic(chance, options.market)
        self.files = [os.path.join(folder, name) for name in ("one", "two")[: 1 + options.mirror]]
        self.moments = collections.Counter()
        # Seconds that an opening takes, and a page.
        self.open_time = self.page_time = 0.01

    def words(self, job, files, *more):
        mirror = ["--mirror", files[1]] if len(files) > 1 else []
        return [self.options.program, job, files[0], "--house", str(HOUSE), "--market", self.options.market, *more, *mirror]

    def start(self, files):
        return Run(self.words("run", files) + ["--format", "csv"], os.path.join(self.folder, "stderr"))

    def set_up(self):
        words = self.words("setup", self.files, "--sectors", str(self.sectors))
        said = subprocess.run(words, capture_output=True, text=True, check=False)
        need(said.returncode == 0, f"the set-up ended with status {said.returncode}: {said.stderr.strip()}")

    def attempt(self, work, files=None, record=None):
        """One run: the work drives it and ends it; then all that it printed is checked."""
        run = self.start(files or self.files)
        try:
            work(run)
            reader = run.check(record or self.record)
        finally:
            run.stop()
        return run, reader

    # What a run may do.

    def whole_run(self, lines):
        def work(run):
            run.wait_for("live")
            live = time.monotonic()
            run.feed(lines)
            run.close()
            run.end(kill=False)
            self.open_time = live - run.began
            self.page_time = (time.monotonic() - live) / (len(run.sent.pages) + 1)

        self.attempt(work)

    def killed_opening(self, run):
        if self.chance.random() < 0.5:
            run.feed(self.traffic.lines(self.record, 40))
        if self.chance.random() < 0.5:
            run.wait(self.chance.uniform(0, 1.3 * self.open_time))
        else:
            run.wait_for("opened")

    def killed_at_work(self, run):
        if self.chance.random() < 0.8:
            run.wait_for("live")
        for _ in range(self.chance.randint(1, 3)):
            run.feed(self.traffic.lines(self.record, self.chance.randint(0, 80)))
            run.wait(self.chance.uniform(0, 2.5 * self.page_time))

    def killed_at_a_receipt(self, run):
        run.feed(self.traffic.lines(self.record, self.chance.randint(20, 160)) + ["commit"])
        if run.sent.pages:
            run.wait_for_page(self.chance.randint(1, len(run.sent.pages)))

    def killed_at_a_snapshot(self, run):
        journal = self.sectors - 8
        for _ in range(self.chance.randint(journal + 1, 2 * journal + 2)):
            run.feed([self.traffic.enter(), "commit"])
        run.wait_for("snapshot")
        run.wait(self.chance.choice((0, 0, self.chance.uniform(0, self.page_time))))

    def killed_at_the_end(self, run):
        run.feed(self.traffic.lines(self.record, self.chance.randint(0, 60)))
        run.close()
        if self.chance.random() < 0.7 and run.sent.pages:
            run.wait_for_page(len(run.sent.pages))
            run.wait(self.chance.uniform(0, 1.5 * self.page_time))
        else:
            run.wait(self.chance.uniform(0, self.open_time + 1.5 * self.page_time * len(run.sent.pages)))

    def killed_run(self):
        """True if it was killed before it ended by itself."""
        moments = (
            self.killed_opening,
            self.killed_at_work,
            self.killed_at_work,
            self.killed_at_a_receipt,
            self.killed_at_a_snapshot,
            self.killed_at_the_end,
        )
        moment = self.chance.choice(moments)

        def work(run):
            moment(run)
            run.end(kill=True)

        run, reader = self.attempt(work)
        if run.killed:
            self.moments[where(run, reader)] += 1
        return run.killed

    def check_half(self):
        """A copy of one half of the mirror holds as much as was printed."""
        half = os.path.join(self.folder, "half")
        shutil.copyfile(self.chance.choice(self.files), half)

        def work(run):
            run.close()
            run.end(kill=False)

        self.attempt(work, [half], copy.deepcopy(self.record))

    def clear(self):
        """Cancels all that rests. The record's check of cancels then tells whether the exchange holds just these orders."""
        self.whole_run([])
        resting = sorted(self.record.resting.items())
        self.whole_run([f"cancel {order.member} {number}" for number, order in resting])
        need(not self.record.resting, "not everything that rests was cancelled")


def where(run, reader):
    """Where the kill came, for the summary."""
    if reader.phase in ("starting", "replaying", "done"):
        return {"starting": "before it was open", "replaying": "in a replay", "done": "after the end"}[reader.phase]
    if reader.awaited:
        return "amid notices"
    return "at the end of the input" if run.closed else "live"


class Test:
    """Lives until there were as many kills as asked for."""

    def __init__(self, options):
        self.options = options
        self.chance = random.Random(options.seed)
        self.kills = self.pages = self.notices = self.found = self.lives = 0
        self.faults = []
        self.moments = collections.Counter()

    def progress(self):
        end = "\r" if sys.stdout.isatty() else "\n"
        print(f"{self.kills} kills, {self.lives} files, {len(self.faults)} faults", end=end, flush=True)

    def live(self, life):
        life.set_up()
        life.whole_run(life.traffic.lines(life.record, 40))
        for _ in range(self.chance.randint(20, 60)):
            if self.kills >= self.options.kills:
                break
            if life.killed_run():
                self.kills += 1
                if self.kills % 10 == 0:
                    self.progress()
            if self.options.mirror and self.chance.random() < 0.2:
                life.check_half()
        life.clear()

    def one_life(self):
        self.lives += 1
        folder = tempfile.mkdtemp(prefix="hammerbuff-kill-test-")
        life = Life(self.options, self.chance, folder, SECTORS[(self.lives - 1) % len(SECTORS)])
        try:
            self.live(life)
        except Fault as fault:
            self.faults.append(fault)
            print(f"fault after {self.kills} kills, file {self.lives} of {life.sectors} sectors: {fault}", flush=True)
        finally:
            shutil.rmtree(folder)
        self.pages += life.record.whole
        self.notices += len(life.record.notices)
        self.found += life.record.found
        self.moments += life.moments

    def run(self):
        while self.kills < self.options.kills and len(self.faults) < MOST_FAULTS:
            self.one_life()
        kinds = ", ".join(f"{count} {moment}" for moment, count in sorted(self.moments.items()))
        print(f"kills came: {kinds}; {self.found} pages were found whose receipt had not been read")
        print(
            f"seed {self.options.seed}: {self.kills} kills, {self.lives} files, {self.pages} pages and "
            f"{self.notices} notices checked, {len(self.faults)} faults"
        )
        return 1 if self.faults else 0


def options_of(what, counted, count):
    """The words on the command line; none where there is no program to run."""
    parser = argparse.ArgumentParser(description=what)
    parser.add_argument(counted, type=int, default=count)
    parser.add_argument("--seed", type=int, default=1)
    parser.add_argument("--market", choices=("book", "call"), default="book")
    parser.add_argument("--mirror", action="store_true", help="a mirror of two files")
    parser.add_argument("--program", default=os.path.join(TOP, "crates", "hammerbuff", "out", "hammerbuff"))
    options = parser.parse_args()
    options.program = os.path.abspath(options.program)
    # So that what was begun is ended and removed.
    signal.signal(signal.SIGTERM, lambda *_: sys.exit(128 + signal.SIGTERM))
    if os.access(options.program, os.X_OK):
        return options
    print(f"there is no program {options.program}: (cd crates/hammerbuff && rt run -- --help) builds it", file=sys.stderr)
    return None


def main():
    options = options_of("Kills hammerbuff run at random moments and checks what it keeps.", "--kills", 300)
    return 2 if options is None else Test(options).run()


if __name__ == "__main__":
    sys.exit(main())
