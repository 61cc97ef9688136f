"""One write's frames between client, leader and helper, from a replay that shows them. The layout of a frame is
docs/FRAMES.md's."""

from drawing import FAINT, INK, LINE, MONO, Picture

PLACES = {"client": 190, "leader": 540, "helper": 890}
TOP, STEP = 112, 50
CLIENTS, SERVERS = "#1d5fa8", "#0f766e"
NAMES = {1: "Deposit", 3: "Write", 5: "Proof", 6: "Held", 7: "Challenge", 8: "Done", 11: "LinkBegin", 12: "LinkAudit",
         13: "LinkSettle", 15: "LinkReply", 18: "LinkBegun"}
WAYS = {1: "client helper", 3: "client leader", 6: "helper client", 7: "leader client", 8: "leader client",
        11: "leader helper", 12: "leader helper", 13: "leader helper", 15: "helper leader", 18: "helper leader"}
LEGEND = ("Blue: between the client and a server. Green: the numbered link. In front is a frame's number in the pool; "
          "two dots stand for digits that were cut off.")
JOURNAL = {11: "begin", 12: "audit", 13: "settle"}  # what the helper's journal has of a command


class Frame:
    def __init__(self, number, digits):
        self.number, self.bytes = number, bytes.fromhex(digits)
        self.kind, self.body = self.bytes[5], self.bytes[20:]
        self.link = int.from_bytes(self.bytes[12:20], "big")


def short(data):
    return data[:4].hex() + ".."


def told(frame):
    """What a frame brings, in a few words."""
    body = frame.body
    return {
        1: lambda: f"the helper's root {short(body[1:])}",
        3: lambda: f"the leader's root {short(body)}, public part {short(body[16:])}",
        5: lambda: f"ten words of the proof, {short(body)}",
        6: lambda: "the proof is held" if body[0] == 2 else "the deposit is held",
        7: lambda: f"key of the challenges {short(body)}, the sum of both draws",
        8: lambda: "accepted",
        11: lambda: f"the leader's draw {short(body)}, public part {short(body[32:])}",
        12: lambda: f"the proof's point {short(body)}, the leader's d and e",
        13: lambda: f"the leader's closing {short(body)} and {short(body[16:])}",
        15: lambda: "accepted" if body[0] == 4 else f"the helper's d and e, its closing {short(body[33:])}",
        18: lambda: f"{int.from_bytes(body[:4], 'big')} box, the helper's draw {short(body[4:])}",
    }[frame.kind]()


def ways(frames):
    """From whom each frame goes to whom. A client's first proof goes to the helper, its second to the leader."""
    proofs = iter(["client helper", "client leader"])
    return [(next(proofs) if frame.kind == 5 else WAYS[frame.kind]).split() for frame in frames]


def arrow(picture, start, end, y, stroke):
    back = 9 if end > start else -9
    picture.line(start, y, end - back / 2, y, stroke, 1.8)
    picture.path(f"M{end} {y}l{-back} -4.5v9z", stroke, 1, stroke)


def draw_frame(picture, frame, way, y):
    start, end = PLACES[way[0]], PLACES[way[1]]
    stroke = CLIENTS if "client" in way else SERVERS
    arrow(picture, start, end, y, stroke)
    left = min(start, end) + 12
    link = f", command {frame.link}" if frame.link else ""
    title = f"{frame.number} \u00b7 {NAMES[frame.kind]}{link}, {len(frame.bytes)} bytes"
    picture.text(left, y - 20, title, 13.5, stroke, weight="bold")
    picture.text(left, y - 5, told(frame), 11.5, INK)


def note(picture, y, words, is_left=False):
    x, anchor = (PLACES["client"] - 14, "end") if is_left else (PLACES["helper"] + 14, "start")
    picture.text(x, y + 4, words, 11.5, FAINT, anchor, font=MONO)


def draw_sides(picture, height):
    for name, title in (("client", "client"), ("leader", "leader (server 0)"), ("helper", "helper (server 1)")):
        picture.text(PLACES[name], 66, title, 16, INK, "middle", "bold")
        picture.line(PLACES[name], 76, PLACES[name], height - 46, LINE, 2)
    note(picture, 80, "printed journal")
    note(picture, 80, "printed outcome", True)


def journal_note(kind, lines):
    """The line that the helper's journal got of a command, cut short."""
    line = next(line for line in lines if line.startswith("journal 1 ") and JOURNAL[kind] in line)
    words = line.split()
    return " ".join(words[1:5 if JOURNAL[kind] != "audit" else 4] + ([".."] if len(words) > 5 else []))


def draw(output):
    """The picture of what a replay printed."""
    lines = output.splitlines()
    frames = [Frame(int(line.split()[1]), line.split()[2]) for line in lines if line.startswith("frame ")]
    height = TOP + STEP * len(frames) + 34
    picture = Picture(1160, height, "One write's frames between client, leader and helper")
    picture.text(20, 30, "One write's frames, as bin/express replay printed them", 19, weight="bold")
    draw_sides(picture, height)
    for place, (frame, way) in enumerate(zip(frames, ways(frames))):
        y = TOP + STEP * place + 20
        draw_frame(picture, frame, way, y)
        if frame.kind in JOURNAL:
            note(picture, y, journal_note(frame.kind, lines))
    outcome = next(line for line in lines if line.startswith("outcome 1 "))
    note(picture, TOP + STEP * (len(frames) - 1) + 20, " ".join(outcome.split()[1:]), True)
    picture.text(20, height - 14, LEGEND, 12.5, FAINT)
    return picture.svg()
