"""What must have come of each letter, exactly, by the journals of both servers: where each write went, what each box held when
it was read, and what the owner's runs told of it."""

import collections
import hashlib

import plain
from desks import MET

FRONT = 26  # bytes of a box in front of a letter's text
TOLD = {"written": "is written", "not": "isn't written", "maybe": "may be written"}  # by what a fate is called


def opened(held):
    """The text of the letter that these bytes are (docs/crates/desk_letters.md); None where they are none."""
    length = int.from_bytes(held[:2], "big")
    text = held[FRONT : FRONT + length]
    digest = hashlib.sha256(held[:10] + text).digest()[:16]
    is_letter = length and len(text) == length and held[10:FRONT] == digest and not any(held[FRONT + length:])
    return text if is_letter else None


class Letter:
    """A letter, the name on its card, and what its writer was told of it."""

    def __init__(self, number, name, text):
        self.number, self.name, self.text, self.fates = number, name, text, set()

    def __str__(self):
        return f"letter {self.number} of {self.name}"


class Showing:
    """What a run of the owner's told: letters on the screen, letters in files, as (name, text), and the names of boxes in
    which letters met. `until` is the length of the helper's journal behind it; `forgot` says whether a new ledger was put
    in place."""

    def __init__(self, run, shown, files, met, until, forgot):
        self.words, self.status, self.is_over = run.words, run.status, run.is_over()
        self.shown, self.files, self.met, self.until, self.forgot = shown, files, collections.Counter(met), until, forgot

    def __str__(self):
        return f"{' '.join(self.words)} with status {self.status}"

    def tells_all(self):
        """Whether it tells also what was told before."""
        return "--out" in self.words


class Places:
    """Letters by what boxes hold. A write that is no letter of these, or lies in no box of its letter's card or in two, is
    a fault."""

    def __init__(self, letters, cards, boxes):
        self.letters, self.cards, self.boxes = {letter.text.encode(): letter for letter in letters}, cards, boxes
        self.writes = collections.defaultdict(list)
        for write in boxes.writes:
            letter, box = self.place_of(write)
            self.writes[letter].append(box)

    def letter_of(self, held):
        text = opened(held)
        if text not in self.letters:
            raise plain.Differs(f"nobody wrote {text or held}, which lies in a box")
        return self.letters[text]

    def place_of(self, write):
        if len(write.added) != 1:
            raise plain.Differs(f"the write of lane {write.lane}, serial {write.serial} changed {len(write.added)} boxes")
        (box, added), = write.added.items()
        letter = self.letter_of(added)
        if self.boxes.addresses[box] not in self.cards[letter.name]:
            raise plain.Differs(f"{letter} lies in box {box}, which isn't on its card")
        return letter, box

    def is_met(self, reading):
        return any(reading.held) and opened(reading.held) is None

    def name_of(self, reading):
        return next(name for name, addresses in self.cards.items() if self.boxes.addresses[reading.box] in addresses)


def check_fates(letters, places):
    """A letter is written where its writer was told so, nowhere where he was told that, and never twice into one box."""
    for letter in letters:
        boxes = places.writes[letter]
        if len(set(boxes)) < len(boxes):
            raise plain.Differs(f"{letter} was written twice into one box: {boxes}")
        if len(letter.fates) != 1:
            raise plain.Differs(f"of {letter} its writer was told {letter.fates or 'nothing'}")
        fate, = letter.fates
        if (fate, bool(boxes)) in (("written", False), ("not", True)):
            raise plain.Differs(f"of {letter} its writer was told that it {TOLD[fate]}, and it lies in the boxes {boxes}")


class Telling:
    """What one ledger's runs told, from one `forget` to the next: each letter that was alone in a box when it was read is told
    by the first run that comes to its end, once, and so is each time that letters met."""

    def __init__(self):
        self.read, self.waiting = set(), set()            # letters: those read alone, and those not told yet
        self.shown, self.files = set(), {}                # letters: those that runs which came to their end told
        self.met, self.met_waiting = collections.Counter(), collections.Counter()  # by name, how often letters met
        self.told_half = collections.Counter()            # of these, told since then by runs that didn't come to their end

    def take(self, places, reading):
        if not any(reading.held):
            return
        if places.is_met(reading):
            self.met[places.name_of(reading)] += 1
            self.met_waiting[places.name_of(reading)] += 1
            return
        letter = places.letter_of(reading.held)
        if letter not in self.read:
            self.waiting.add(letter)
        self.read.add(letter)

    def hear(self, showing, letters):
        """Compares what a run told with what was read. Letters are known by their name and text."""
        shown, files = ([self.known(showing, letters, place) for place in places]
                        for places in (showing.shown, showing.files.values()))
        if showing.is_over:
            self.note(showing, shown, files)
        self.waiting -= {*shown, *files}
        self.hear_met(showing)
        if self.waiting and (showing.is_over or showing.forgot):
            raise plain.Differs(f"{min(map(str, self.waiting))} was read, and {showing} doesn't tell it")

    def known(self, showing, letters, place):
        letter = letters.get(place)
        if letter not in self.read:
            raise plain.Differs(f"{showing} tells {place}, which was in no box")
        return letter

    def note(self, showing, shown, files):
        """A letter is shown once, and stands in one file."""
        again = [letter for letter in shown if letter in self.shown or shown.count(letter) > 1]
        if again:
            raise plain.Differs(f"{showing} shows {again[0]} again")
        self.shown.update(shown)
        for path, letter in zip(showing.files, files):
            if self.files.setdefault(letter, path) != path:
                raise plain.Differs(f"{letter} stands in {self.files[letter]} and in {path}")

    def hear_met(self, showing):
        for name in {*showing.met, *self.met_waiting}:
            most = self.met[name] if showing.tells_all() else self.met_waiting[name]
            if showing.met[name] > most:
                raise plain.Differs(f"{showing} tells {showing.met[name]} times of letters that met in {name}: it was {most}")
        self.told_half += showing.met
        if showing.is_over or showing.forgot:
            untold = self.met_waiting - self.told_half
            if untold:
                raise plain.Differs(f"{showing} doesn't tell that letters met: {dict(untold)}")
            self.met_waiting.clear()
            self.told_half.clear()
        if showing.is_over and (showing.status == MET) != bool(showing.met):
            raise plain.Differs(f"{showing} tells of {sum(showing.met.values())} times that letters met")


def check_tellings(letters, places, showings):
    """Each reading is told by the owner's runs as it was; gives how often letters met, and which letters came."""
    known = {(letter.name, letter.text): letter for letter in letters}
    readings, telling, met, came = collections.deque(places.boxes.readings), Telling(), 0, set()
    for showing in showings:
        while readings and readings[0].at < showing.until:
            telling.take(places, readings.popleft())
        telling.hear(showing, known)
        if showing.forgot or showing is showings[-1]:
            met, came = met + sum(telling.met.values()), came | telling.read
            telling = Telling()
    if any(any(reading.held) for reading in readings):
        raise plain.Differs("a box was read behind the last run of the owner")
    return met, came


def judge(letters, cards, boxes, showings):
    """Raises what differs; else gives the counts of what became of the letters. `cards` has the addresses by name."""
    places = Places(letters, cards, boxes)
    check_fates(letters, places)
    met, came = check_tellings(letters, places, showings)
    inside = {letter for letter, _ in map(places.place_of, sum(boxes.inside.values(), []))}
    lost = [letter for letter in letters if places.writes[letter] and letter not in came | inside]
    twice = [letter for letter in letters if len(places.writes[letter]) > 1]
    return {"came": len(came), "in boxes still": len(inside - came), "lost in meetings": len(lost), "meetings": met,
            "written to two boxes": len(twice)}
