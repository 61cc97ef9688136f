"""Desks of the built program as processes, which a killer may kill at any moment, and what is read in their texts."""

import collections
import os
import random
import re
import subprocess
import threading
import time

import plain
import processes

PATIENCE = 3600  # seconds for a run, which may only then be killed as one that hangs
DONE, LATER, WORDS, FILE, IN_USE, MET = range(6)  # the statuses
DESK = os.path.join(processes.TOP, "crates/express_desk/out/express_desk")
BEYOND = 1.2  # a kill comes at most so many times as late as a run takes mostly
SLACK = 0.05  # and so many seconds


# -- what a desk prints

HEAD = r"letter from box (\S+), read \d{4}-\d\d-\d\d \d\d:\d\d UTC"
LETTER = re.compile(HEAD + r"\n(.*?)\n\n", re.S)
LETTER_FILE = re.compile(HEAD + r": (\S+)\n")
MET_LINE = re.compile(r"letters met in box (\S+?):")
FATES = {"written": "written: the letter lies in the owner's box", "not": "not written: the letter lies nowhere",
         "maybe": "it may have been written"}
MARGIN = "  "  # before each line of a letter on a screen
QUOTED = 6     # characters of a letter, at least, by which it is named


def letter_in(lines):
    """A letter's text, of the lines that are shown of it."""
    rows = lines.split("\n")
    if all(row.startswith(MARGIN) for row in rows):
        rows = [row[len(MARGIN):] for row in rows]
    return "\n".join(rows)


def letters_in(text):
    """The letters that are shown whole: name and text of each."""
    return [(name, letter_in(lines)) for name, lines in LETTER.findall(text)]


def files_in(text):
    """The files that letters are said to stand in: name and path of each."""
    return LETTER_FILE.findall(text)


def met_in(text):
    """For each time that letters are said to have met, in boxes of which name."""
    return MET_LINE.findall(text)


def fates_in(text):
    """What is told of letters: each time the fate, and what stands before it in its line."""
    return [(fate, line[:line.index(words)]) for line in text.splitlines() for fate, words in FATES.items() if words in line]


def may_mean(label, text):
    """Whether what stands before a fate may mean the letter of this text: where it quotes a letter's first words, it does."""
    quoted = re.search(r'"(.*)"', label)
    return not quoted or quoted.group(1)[:QUOTED] == text[:QUOTED]


def says_none(run):
    """No letter is new."""
    return "no new letters" in run.text


def is_to_be_resumed(run):
    """A server wasn't reached, or had no answer: nothing is lost."""
    return run.status == LATER and "not done yet: " in run.text


def addresses_in(card):
    """The addresses on a card."""
    return [int(digits, 16) for digits in re.findall(r"^address ([0-9a-f]{32})\b", card, re.M)]


class Run:
    """What a process of a desk came to: its words, its status, which is None where it was killed, and its output."""

    def __init__(self, words, status, text):
        self.words, self.status, self.text = words, status, text

    def __str__(self):
        return f"{' '.join(self.words)}: status {self.status}, {self.text!r}"

    def is_over(self):
        """Whether it came to its end, and isn't to be run again."""
        return self.status is not None and not is_to_be_resumed(self)


class Killer:
    """Kills so many runs of desks, each at some moment of it, and counts them by their words."""

    def __init__(self, kills, share):
        self.left, self.share, self.kills = kills, share, collections.Counter()
        self.lock, self.took = threading.Lock(), collections.defaultdict(lambda: 0.1)

    def plan(self, word):
        """The seconds after which a run is to be killed, or None."""
        with self.lock:
            if self.left <= 0 or random.random() >= self.share:
                return None
            self.left -= 1
            return random.uniform(0, BEYOND * self.took[word] + SLACK)

    def note_kill(self, word):
        with self.lock:
            self.kills[word] += 1

    def note_escape(self):
        """A run ended before it could be killed."""
        with self.lock:
            self.left += 1

    def note_time(self, word, seconds):
        with self.lock:
            self.took[word] += (seconds - self.took[word]) / 4

    def count(self):
        return sum(self.kills.values())


class Desk:
    """A desk's folder. Its program has the words of one of the fronts before it, of each in turn."""

    def __init__(self, program, folder, killer, fronts):
        self.words, self.fronts, self.folder, self.killer = [program, "--desk", folder], fronts, folder, killer
        self.runs = 0

    def run(self, *words, text=b"", may_be_killed=True):
        """One process of the desk on these words, with this text on its standard input."""
        self.runs += 1
        moment = self.killer.plan(words[0]) if may_be_killed else None
        begin = time.monotonic()
        front = self.fronts[self.runs % len(self.fronts)]
        process = subprocess.Popen([*front, *self.words, *words], stdin=subprocess.PIPE, stdout=subprocess.PIPE,
                                   stderr=subprocess.STDOUT)
        try:
            out, _ = process.communicate(text, timeout=PATIENCE if moment is None else moment)
        except subprocess.TimeoutExpired:
            process.kill()
            out, _ = process.communicate()
        text = out.decode("utf-8", "replace")
        return self.ended(Run(words, process.returncode, text), moment, time.monotonic() - begin)

    def ended(self, run, moment, seconds):
        """Counts a kill as one; where none was meant, the run hung, or was ended by something else."""
        if run.status < 0 and moment is None:
            raise plain.Differs(f"it was ended by signal {-run.status} after {seconds:.0f} of {PATIENCE} seconds: {run}")
        if run.status < 0:
            self.killer.note_kill(run.words[0])
            run.status = None
        elif moment is not None:
            self.killer.note_escape()
        if run.status is not None:
            self.killer.note_time(run.words[0], seconds)
        return run

    def ledger(self):
        """Which file its ledger is, which `forget` puts a new one in the place of; None where there is none."""
        path = os.path.join(self.folder, "ledger")
        return os.stat(path).st_ino if os.path.exists(path) else None
