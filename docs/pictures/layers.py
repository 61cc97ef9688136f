"""The crates as crates.txt has them: each above all that it stands on, joined to those of them that no other one of
them stands on."""

from drawing import FAINT, GROUND, INK, Picture

BASE = "express_words"  # nearly all stand on it, so no line is drawn to it
GROUPS = [
    ("definitions and laws", "#efe3f7", "mailbox_rules token_rules dpf_rules tower_numbers tower_laws audit_rules "
     "frame_rules step_rules step_tokens run_rules known_pieces"),
    ("the point function", "#dbeafe", "chacha_expand dpf_keys dpf_eval"),
    ("the field, the audit, what one server sees", "#dcf5e4", "tower_field field_tables poly_roots write_sketch "
     "snip_proof batch_audit write_hiding run_hiding"),
    ("frames, texts and files", "#fdecc8", "wire_frames schedule_text express_texts settings_text "
     "file_carry desk_letters letter_pieces desk_texts desk_tries subset_search"),
    ("stores", "#e2e8f0", "block_region lane_table link_order share_store box_registry server_boxes"),
    ("servers and client", "#fbdcd3", "helper_core leader_core client_core"),
    ("on sockets and disks", "#cfeff2", "node_journal kept_machine node_restart node_serve node_client client_run"),
]
TALL, DEEP, WIDE, GAP, THIN = 30, 78, 112, 14, 12
SWEEPS, MARGIN, TOP = 40, 24, 62
LEGEND = ("A line goes down to a crate that is named, where no other named one stands on it. "
          f"To {BASE} none is drawn: nearly all name it.")


def read(text):
    """Each crate but those of tests with those of the list that it names, lowest first."""
    lines = [line.split(":") for line in text.splitlines() if line and not line.startswith("#")]
    lines = [(name, rest) for name, rest in lines if not name.endswith("_tests")]
    known = {name for name, _ in lines}
    return {name: [other for other in rest.split() if other in known] for name, rest in lines}


def nearest(names):
    """Each crate with those below it that no other crate below it stands on."""
    below = {}
    for name, others in names.items():
        below[name] = set(others).union(*(below[other] for other in others))
    return {name: [other for other in others if other != BASE and not any(other in below[third] for third in others)]
            for name, others in names.items()}


def depths(names):
    depth = {}
    for name, others in names.items():
        depth[name] = 1 + max((depth[other] for other in others), default=0)
    return depth


class Layers:
    """Rows of places. A place is a crate, or a bend of a line that goes through its row."""

    def __init__(self, names):
        self.depth, self.ways = depths(names), []
        self.rows = [[] for _ in range(max(self.depth.values()))]
        for name in names:
            self.rows[self.depth[name] - 1].append(name)
        for name, others in nearest(names).items():
            for other in others:
                self.ways.append(self.way(name, other))
        self.beside = {place: [] for row in self.rows for place in row}
        for way in self.ways:
            for upper, lower in zip(way, way[1:]):
                self.beside[upper].append(lower)
                self.beside[lower].append(upper)
        self.level = {place: level for level, row in enumerate(self.rows) for place in row}
        self.x = {}

    def way(self, name, other):
        """The places from a crate down to another, with a bend in each row between."""
        bends = [(name, other, level) for level in range(self.depth[name] - 2, self.depth[other] - 1, -1)]
        for bend in bends:
            self.rows[bend[2]].append(bend)
        return [name, *bends, other]

    def middle(self, place, level, position):
        """Where the places of a row that this one is joined to stand on the average; None where there is none."""
        found = [position[other] for other in self.beside[place] if self.level[other] == level]
        return sum(found) / len(found) if found else None

    def sort(self):
        """Puts each row into the order of what it is joined to, upwards and downwards again and again."""
        for sweep in range(SWEEPS):
            up = sweep % 2 == 0
            levels = range(1, len(self.rows)) if up else range(len(self.rows) - 2, -1, -1)
            for level in levels:
                from_level = level - 1 if up else level + 1
                position, own = positions(self.rows[from_level]), positions(self.rows[level])
                middle = {place: self.middle(place, from_level, position) for place in own}
                self.rows[level].sort(key=lambda place: own[place] if middle[place] is None else middle[place])

    def spread(self):
        """Gives each place its x: near the middle of what it is joined to, in its row's order, none too near."""
        for row in self.rows:
            self.x.update((place, (number - len(row) / 2) * WIDE) for number, place in enumerate(row))
        for _ in range(SWEEPS):
            for row in self.rows:
                wanted = {}
                for place in row:
                    beside = [self.x[other] for other in self.beside[place]]
                    wanted[place] = sum(beside) / len(beside) if beside else self.x[place]
                self.settle(row, wanted)
        left = min(self.x[place] - half(place) for place in self.x)
        self.x = {place: x - left + MARGIN for place, x in self.x.items()}

    def settle(self, row, wanted):
        """The row's places at what they want on the average, pushed apart: blocks that touch move as one."""
        blocks = []
        for place in row:
            block = [[place], wanted[place], 0.0]  # places, where the first wants to stand, reach behind the first
            while blocks and blocks[-1][1] + blocks[-1][2] + apart(blocks[-1][0][-1], block[0][0]) > block[1]:
                before = blocks.pop()
                shift = before[2] + apart(before[0][-1], block[0][0])
                weight = len(before[0]), len(block[0])
                start = (before[1] * weight[0] + (block[1] - shift) * weight[1]) / sum(weight)
                block = [before[0] + block[0], start, shift + block[2]]
            blocks.append(block)
        for places, x, _ in blocks:
            for number, place in enumerate(places):
                x += apart(places[number - 1], place) if number else 0
                self.x[place] = x


def positions(row):
    """Where each place stands in its row, as a part of it."""
    return {place: number / len(row) for number, place in enumerate(row)}


def half(place):
    return WIDE / 2 if isinstance(place, str) else THIN / 2


def apart(left, right):
    return half(left) + GAP + half(right)


def line(layers, way, y):
    """A smooth line through the places of a way, from the bottom of the upper crate to the top of the lower one."""
    points = [(layers.x[place], y(layers.level[place])) for place in way]
    path = f"M{points[0][0]:.0f} {points[0][1] + TALL / 2:.0f}"
    for number, (x, at) in enumerate(points[1:], 1):
        x0, at0 = points[number - 1]
        begin = at0 + TALL / 2
        end = at - TALL / 2
        path += f"C{x0:.0f} {begin + (end - begin) * .5:.0f} {x:.0f} {end - (end - begin) * .5:.0f} {x:.0f} {end:.0f}"
        path += f"L{x:.0f} {at + TALL / 2:.0f}" if number < len(points) - 1 else ""
    return path


def draw_legend(picture, y):
    x = MARGIN
    for title, fill, _ in [*GROUPS, ("the runs, and what stands beside", GROUND, "")]:
        picture.box(x, y - 12, 16, 16, fill, FAINT, 3)
        picture.text(x + 23, y + 1, title, 12.5)
        x += 45 + 7.4 * len(title)
        if x > picture.width - 250:
            x, y = MARGIN, y + 26


def draw(text):
    names = read(text)
    layers = Layers(names)
    layers.sort()
    layers.spread()
    fills = {name: fill for _, fill, group in GROUPS for name in group.split()}
    width = max(960, round(max(layers.x[place] + half(place) for place in layers.x)) + MARGIN)
    count = len(layers.rows)
    picture = Picture(width, TOP + DEEP * count + 86, "The crates and what they stand on")
    picture.text(MARGIN, 32, f"{len(names)} crates, each above all that it stands on", 19, weight="bold")

    def y(level):
        return TOP + DEEP * (count - 1 - level) + DEEP / 2

    for way in layers.ways:
        picture.path(line(layers, way, y), "#9aa5b1", 1.3)
    for name in names:
        x, at = layers.x[name], y(layers.level[name])
        picture.box(x - WIDE / 2, at - TALL / 2, WIDE, TALL, fills.get(name, GROUND), FAINT, 5)
        picture.text(x, at + 4.5, name, 12.5, INK, "middle")
    bottom = TOP + DEEP * count
    picture.text(MARGIN, bottom + 8, LEGEND, 12.5, FAINT)
    draw_legend(picture, bottom + 36)
    return picture.svg()
