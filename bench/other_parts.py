"""The operator of a leader that sends the helper another public part than the client's, and asks so where a
write goes. Of each question it opens, on its own end of the link, what both servers add up to if the answer
is yes; then the helper judges that the write is good, and else that it is bad."""

import random
import tempfile

import audit
import operators
import plain
import processes
from operators import ACCEPTED, AUDITED, DRAW, LINK_AUDIT, LINK_BEGIN, LINK_REPLY, MASKED

RIGHTS = 2048  # bytes of a public part before the right bits
NOTHING = audit.Share(bytes(160))  # a proof share of zeros


class FirstBit:
    """Asks whether the target begins with 0. Another right bit of the first level: each walk through the
    root's right child goes on from another state at the helper, which is the leader's with another bit,
    unless the target is below it."""

    place = 8 * RIGHTS  # the bit of the public part, counted from the lowest of its first byte

    def is_so(self, address):
        return address >> 127 == 0

    def change(self, sight, address, leaf):
        """What the helper's leaf changes by, if the answer is yes, at an address where the leader has this one."""
        if self.is_so(address):
            return 0
        return leaf ^ sight.part.walk(sight.part.walk(sight.root & ~1, address, 0, 1) ^ 1, address, 1)


class OneBox:
    """Asks whether the box at an address is the target. Another right bit of the last level, or another last
    bit of its word, by the side of that address: the leaf's last bit changes where the helper's state above
    has the bit 1, which is the leader's bit everywhere but at the target."""

    def __init__(self, address):
        self.address = int(address, 16)
        self.place = 8 * RIGHTS + 127 if self.address & 1 else 128 * 127

    def is_so(self, address):
        return address == self.address

    def change(self, sight, address, _leaf):
        if (address ^ self.address) & 1:
            return 0
        return sight.part.walk(sight.root & ~1, address, 0, 127) & 1 ^ self.is_so(address)


class Asked:
    """A write with which a question is asked, from its begin on. The answer is whether the helper takes it."""

    def __init__(self, question, begin):
        self.question, self.begin, self.answer = question, begin, None
        self.sight, self.changes, self.shift = None, [], b""

    def begins(self):
        """The begin with one bit of the public part changed."""
        bit = 1 << 8 * DRAW + self.question.place
        return self.begin.with_body(audit.xor(self.begin.body, bit.to_bytes(len(self.begin.body), "little")))

    def opens(self, run, command):
        """The audit, from whose opening is taken off what comes to the helper's by its other leaves."""
        self.sight = operators.Sight(run, self.begin)
        leaves = zip(run.addresses, self.sight.leaves)
        self.changes = [self.question.change(self.sight, int(address, 16), leaf) for address, leaf in leaves]
        sums, point = audit.Sums(self.changes, self.sight.challenges), audit.number(command.body[:16])
        self.shift = b"".join(word.to_bytes(16, "little") for word in sums.open(NOTHING, point))
        return command.with_body(audit.xor(command.body, bytes(16) + self.shift))

    def is_opened(self, reply):
        """The helper's opening as it gives the helper's sums with the one that the leader's program made."""
        return reply.with_body(audit.xor(reply.body, bytes(1) + self.shift + bytes(32)))

    def added(self, box):
        """What the write, if it is accepted, adds to the helper's share of a box beside what it should."""
        part, leaf = self.sight.part, self.sight.leaves[box]
        return audit.xor(part.added(leaf), part.added(leaf ^ self.changes[box]))


class Asker:
    """What the operator does on the link: it asks one question with each write, until there are no more. Of a
    yes neither its program notices anything nor an owner."""

    accomplice = None

    def __init__(self):
        self.questions, self.asked = [], {}

    def change(self, run, frame):
        write = frame.lane, frame.serial
        if frame.kind == LINK_BEGIN and write not in self.asked and self.questions:
            self.asked[write] = Asked(self.questions.pop(0), frame)
        asked = self.asked.get(write)
        if asked and frame.kind == LINK_BEGIN:
            return [asked.begins()]
        return [asked.opens(run, frame) if asked and frame.kind == LINK_AUDIT else frame]

    def answer(self, run, frame):
        asked, tag = self.asked.get((frame.lane, frame.serial)), frame.body[0]
        if frame.kind == LINK_REPLY and tag == MASKED:
            return [self.as_it_should_be(run, frame)]
        if asked and frame.kind == LINK_REPLY and tag == AUDITED:
            return [asked.is_opened(frame)]
        if asked and frame.kind == LINK_REPLY:
            asked.answer = tag == ACCEPTED
        return [frame]

    def as_it_should_be(self, run, reply):
        """The masked share of a box, without what the writes added to it beside what they should."""
        box = int.from_bytes(run.command_of(reply).body, "big")
        for asked in self.asked.values():
            if asked.answer:
                reply = reply.with_body(audit.xor(reply.body, bytes(1) + asked.added(box)))
        return reply


# -- what is asked, and what comes of it


def client_run(programs, room, leader):
    return operators.Run(programs[0], room, 0, leader)


def first_bit(_run):
    return [FirstBit()]


def one_box(run):
    """The target or another box, by lot."""
    others = [address for address in run.addresses if address != run.target]
    return [OneBox(random.choice((run.target, random.choice(others))))]


def four_boxes(run):
    return [OneBox(address) for address in random.sample(run.addresses, 4)]


class Asking:
    """Questions of a leader, in runs of which kind, and what the writer is to be told where none is answered
    with yes, and where one is."""

    def __init__(self, name, questions, run, told):
        self.name, self.questions, self.run, self.told = name, questions, run, told


ASKINGS = [
    Asking("another first right bit at the helper, whether the address begins with 0", first_bit, client_run,
           ("rejected", "accepted")),
    Asking("another bit of the last level at the helper, whether a box is the target", one_box, client_run,
           ("rejected", "accepted")),
    Asking("the same at a letter's first four tries, each for another box", four_boxes, operators.DeskRun,
           ("written", "written")),
]


class Outcome:
    """For each question whether its answer was right; whether one was yes; what the writer was told, and
    whether the owner then read what that says."""

    def __init__(self, asked, run):
        target = int(run.target, 16)
        self.right = [one.answer == one.question.is_so(target) for one in asked]
        self.is_yes = any(one.answer for one in asked)
        self.told, self.is_read_right = run.told(), run.is_read_right()

    def is_as_said(self, asking):
        return all(self.right) and self.is_read_right and self.told == asking.told[self.is_yes]


def play(programs, asking):
    with tempfile.TemporaryDirectory() as room:
        leader = Asker()
        run = asking.run(programs, room, leader)
        try:
            run.start()
            run.register()
            leader.questions = asking.questions(run)
            run.write(processes.PATIENCE)
            return Outcome(leader.asked.values(), run)
        finally:
            run.stop()


def work(programs, runs):
    """Prints a line for each of these, and raises Differs where one came to something else."""
    for asking in ASKINGS:
        outcomes = [play(programs, asking) for _ in range(runs)]
        right = [is_right for outcome in outcomes for is_right in outcome.right]
        told = [outcome.told for outcome in outcomes]
        words = ", ".join(f"{word} in {told.count(word)}" for word in sorted(set(asking.told)))
        yes, read = (sum(flags) for flags in zip(*((one.is_yes, one.is_read_right) for one in outcomes)))
        print(f"leader, {asking.name}: {sum(right)} of {len(right)} answers right, a yes in {yes} of {runs}"
              f" runs; the writer was told {words}; the owner read what that says in {read}", flush=True)
        if not all(outcome.is_as_said(asking) for outcome in outcomes):
            raise plain.Differs("docs/PRIVACY.md says that each question is answered, and what is noticed")


def ask_in_vain(begin, asking):
    """Whether the helper's judgement answered any question, in a pair that this begins: there a proof names its statement,
    and the helper has another one than the client."""
    with tempfile.TemporaryDirectory() as room:
        leader = Asker()
        run = begin(room, 0, leader)
        try:
            run.start()
            run.register()
            leader.questions = asking.questions(run)
            run.write()
            return any(one.answer is not None for one in leader.asked.values()), len(leader.asked)
        finally:
            run.stop()


def work_in_vain(server, begin, runs):
    """Prints a line for each question of a client's write, and raises Differs where one was answered, or none was asked."""
    for asking in (one for one in ASKINGS if one.run is client_run):
        found = [ask_in_vain(begin, asking) for _ in range(runs)]
        answered, asked = sum(one for one, _ in found), sum(count for _, count in found)
        print(f"{server}, leader, {asking.name}: {answered} of {asked} answered", flush=True)
        if answered or not asked:
            raise plain.Differs("docs/PRIVACY.md says that no question is answered there")
