"""Both servers' shares of three boxes after one write, a point a bit, and their sums."""

from drawing import FAINT, GROUND, INK, LINE, MONO, Picture

WIDE, HIGH = 96, 48  # points of a message: 576 bytes
POINT = 3
LEFT, TOP, ACROSS, DOWN = 100, 92, 312, 176
CAPTIONS = (("the leader's share", "noise"), ("the helper's share", "noise"), ("their sum", "the box"))
WRITTEN = "#a1341c"
ADDRESSES = [f"{digit * 4}{'0' * 28}" for digit in "37c"]
TARGET = 1


def schedule(drawing):
    """A schedule that registers three boxes and writes the drawing of `#` and `.` to the second."""
    bits = drawing.replace("\n", "").replace("#", "1").replace(".", "0")
    message = f"{int(bits, 2):0{WIDE * HIGH // 4}x}"
    lines = [f"express 1 {WIDE * HIGH // 8} 4 2 1 {'0' * 64}"]
    lines += [f"ask 0 register {address}" for address in ADDRESSES]
    lines += ["finish 0", f"ask 1 write {ADDRESSES[TARGET]} {message}", "finish 1"]
    return "\n".join(lines) + "\n"


def rows(value):
    """The rows of points that a share's digits are."""
    bits = f"{value:0{WIDE * HIGH}b}"
    return [bits[start:start + WIDE] for start in range(0, len(bits), WIDE)]


def way(value):
    """The dark points as one path: for each run of a row a move to its start and a line."""
    steps, last_x, last_y = [], 0, 0
    for y, row in enumerate(rows(value)):
        x = row.find("1")
        while x >= 0:
            end = (row + "0").find("0", x)
            steps.append(f"m{x - last_x} {y - last_y}h{end - x}")
            last_x, last_y, x = end, y, row.find("1", end)
    return "".join(steps)


def panel(picture, x, y, value, stroke):
    picture.box(x - 1, y - 1, WIDE * POINT + 2, HIGH * POINT + 2, GROUND, LINE)
    if value:
        picture.put("path", d=way(value), transform=f"translate({x} {y}) scale({POINT}) translate(0 .5)",
                    stroke=stroke, stroke_width=1, fill="none")


def draw(output):
    """The picture of what a replay printed."""
    shares = [line.split()[1:] for line in output.splitlines() if line.startswith("share ")]
    width, height = LEFT + 3 * ACROSS, TOP + DOWN * len(shares) + 30
    picture = Picture(width, height, "One write, as both servers' shares show it")
    picture.text(LEFT, 30, "One write to box 1, as it stands in three boxes of both servers", 19, weight="bold")
    for column, (caption, what) in enumerate(CAPTIONS):
        picture.text(LEFT + column * ACROSS, 62, caption, 16, weight="bold")
        picture.text(LEFT + column * ACROSS, 81, what, 13, FAINT)
    for number, (box, address, leader, helper) in enumerate(shares):
        y = TOP + number * DOWN
        picture.text(8, y + 20, f"box {box}", 16, weight="bold")
        picture.text(8, y + 40, f"{address[:6]}..", 12, FAINT, font=MONO)
        values = int(leader, 16), int(helper, 16)
        for column, value in enumerate((*values, values[0] ^ values[1])):
            panel(picture, LEFT + column * ACROSS, y, value, WRITTEN if column == 2 else INK)
        for column, sign in enumerate("\u2295="):
            picture.text(LEFT + (column + 1) * ACROSS - 12, y + HIGH * POINT / 2 + 8, sign, 20, FAINT, "middle")
    told = "The write changed every share of every box. Only at its target do the two differ, by the message."
    picture.text(LEFT, height - 14, told, 14)
    return picture.svg()
