"""Clients' requests and what they must come to by the plain table of mailboxes, for bench/soak and bench/crash."""

import collections
import random

import processes


class Differs(Exception):
    """Something isn't as the plain table gives it."""


class Request:
    """A request, the address that it is about, and how many processes have asked it."""

    def __init__(self, kind, address, pairs, message=None):
        self.kind, self.address, self.pairs, self.message = kind, address, pairs, message
        self.runs = 0


class Client:
    """A client's seed, its next serial, its boxes as (address, box, serial), and its request under way."""

    def __init__(self, lane):
        self.lane, self.seed = lane, processes.digits(32)
        self.serial, self.boxes, self.request = 1, [], None


class Table:
    """The plain table: what each box holds by its address, which boxes are retired, and the numbers that were given."""

    def __init__(self, width):
        self.width, self.held, self.retired, self.numbers = width, {}, set(), set()

    def add(self, address, message):
        if address not in self.retired:
            self.held[address] ^= int(message, 16)

    def take(self, address):
        message, self.held[address] = self.held[address], 0
        return f"message {message:0{2 * self.width}x}"


class Plain:
    """All clients, and the plain table of their boxes. No two requests under way are about one address."""

    def __init__(self, sizes):
        self.sizes, self.table, self.counts = sizes, Table(sizes.width), collections.Counter()
        self.clients = [Client(lane) for lane in range(sizes.lanes)]

    # -- what a client asks for

    def new_request(self, client, kinds, most_boxes):
        """A request of one of these kinds, given with their weights; None where the drawn one has no address."""
        busy = {other.request.address for other in self.clients if other.request}
        own = [place for place, box in enumerate(client.boxes) if box[0] not in busy]
        live = [place for place in own if client.boxes[place][0] not in self.table.retired]
        known = [address for address in self.table.held if address not in busy]
        kind, = random.choices(list(kinds), kinds.values())
        if kind == "register" and self.asked_boxes() < most_boxes:
            address = processes.digits(16)
            return Request(kind, address, processes.register(address))
        if kind == "write" and known:
            return self.write(kind, random.choice(known))
        if kind == "stray":
            return self.write(kind, processes.digits(16))
        if kind == "read" and own:
            return self.read(client, kind, random.choice(own))
        if kind == "retire" and live:
            return self.read(client, kind, random.choice(live))
        return None

    def asked_boxes(self):
        """How many boxes there are, with those whose register is under way."""
        return len(self.table.held) + sum(1 for client in self.clients
                                          if client.request and client.request.kind == "register")

    def write(self, kind, address):
        message = processes.digits(self.sizes.width)
        return Request(kind, address, processes.write(address, message), message)

    def read(self, client, kind, place):
        return Request(kind, client.boxes[place][0], processes.read(place, kind))

    def settings(self, client, leader, helper, requests):
        """The settings of a client's process, with the ports at which it reaches the servers."""
        owned = [(number, serial) for _, number, serial in client.boxes]
        return processes.client_settings(leader, helper, self.sizes, client.lane, client.seed, client.serial, owned,
                                         requests)

    # -- what it comes to

    def judge(self, client, told):
        """Compares the outcome of a client's request with the plain table, which moves on."""
        request = client.request
        wanted = self.outcome(client, request, told)
        if told != wanted:
            raise Differs(f"client {client.lane}, serial {client.serial}, {request.kind}: {told} in place of {wanted}")
        self.counts[request.kind] += 1
        client.serial += 1
        client.request = None

    def accepted_before(self, client, line):
        """A process was stopped for an answer, and nothing happened to its connections. Then it repeats a write that was
        accepted before: the leader gives its last reply again, and a new process doesn't wait for that at this step."""
        if client.request.kind != "write":
            raise Differs(f"client {client.lane}: {line} of a {client.request.kind}")
        if client.request.runs == 1:
            raise Differs(f"client {client.lane}: {line} of a write that was never asked before")
        self.counts["accepted before"] += 1
        self.judge(client, "accepted")

    def outcome(self, client, request, told):
        address = request.address
        if request.kind == "register":
            return self.registered(client, address, told)
        if request.kind == "write":
            self.table.add(address, request.message)
            return "accepted"
        if request.kind == "stray":
            return "rejected"
        if address in self.table.retired:
            number = next(box for own, box, _ in client.boxes if own == address)
            return f"refused nobox {number}"
        if request.kind == "retire":
            self.table.retired.add(address)
        return self.table.take(address)

    def registered(self, client, address, told):
        number = int(told.split()[-1]) if told.startswith("registered ") else None
        if number is None or number in self.table.numbers or number > len(self.table.numbers) + self.sizes.lanes:
            return "the number of a new box"
        self.table.numbers.add(number)
        self.table.held[address] = 0
        client.boxes.append((address, number, client.serial))
        return told

    def read_live(self, client, run):
        """Reads a client's boxes that aren't retired by one process, which `run` starts on requests, and compares."""
        live = [place for place, box in enumerate(client.boxes) if box[0] not in self.table.retired]
        if not live:
            return
        lines, status = run(client, list(map(processes.read, live))).lines()
        wanted = [f"outcome {number} {self.table.take(client.boxes[place][0])}" for number, place in enumerate(live)]
        if status != 0 or lines != wanted + ["end"]:
            raise Differs(f"client {client.lane} read {lines} in place of {wanted}")
        self.counts["read at the end"] += len(live)


def outcome_of(lines, status):
    """The outcome of a process with one request that came to its end, else None."""
    if status == 0 and len(lines) == 2 and lines[0].startswith("outcome 0 ") and lines[1] == "end":
        return lines[0][len("outcome 0 "):]
    return None


def stop_of(lines, status):
    """Why a process was stopped in a way after which the same request may be sent again, else None."""
    if (status, lines) == (6, ["net fault"]):
        return "net fault"
    words = lines[0].split() if status == 0 and len(lines) == 1 else []
    return words[1] if words[:1] == ["stopped"] and words[1] in ("answer", "linkdown", "again") else None


def told(counter):
    return ", ".join(f"{name} {count}" for name, count in sorted(counter.items()))
