#!/usr/bin/env python3
"""What `committee rehearse N T PERIODS NUMBER` must print, from an implementation of its own.

    rehearse.py N T PERIODS NUMBER
    rehearse.py --phases N T PERIODS NUMBER
    rehearse.py --check
    rehearse.py --compare PROGRAM

The first form prints the lines. The second prints of each phase who has no share, who is drilled and to what, and who
is exposed in the period that it begins. The third form compares values that were worked out by hand or published, and
says whether they come out. The fourth runs the program `committee` on rehearsals of all sizes, each in an empty folder,
and on words that are none, and compares its status, what it prints, and that no file is left; it takes seconds.

The field, the sharing, the drills and the draws are those of `replay_cases.py`; nothing here is taken from the product.
"""

import os
import subprocess
import sys
import tempfile

from replay_cases import (
    P,
    Seat,
    create_setting,
    drawn_grids,
    error_of,
    fingerprint,
    grids_with,
    is_bound,
    move_setting,
    plain_number,
    play,
    read_drill,
    refresh_setting,
    through,
)

CIRCLE = (4, 5, 7, 10, 13)


class Numbers:
    """The generator: each draw is a step of a linear congruence, and gives its upper 31 bits."""

    def __init__(self, number):
        self.state = number

    def draw(self):
        self.state = (6364136223846793005 * self.state + 1442695040888963407) % 2**64
        return self.state >> 33


class Side:
    """A committee in a phase: who has no share, and who is drilled. Two draws are taken, also where nobody is."""

    def __init__(self, members, bound, shareless, numbers):
        self.members, self.bound, self.shareless = members, bound, set(shareless)
        who, how = numbers.draw(), numbers.draw()
        self.turn, self.drilled = how % 4, None
        if len(self.shareless) < bound:
            circle = [1 + (who + steps) % members for steps in range(members)]
            self.drilled = next(member for member in circle if member not in self.shareless)

    def down(self):
        return self.shareless | ({self.drilled} if self.drilled else set())

    def up(self):
        return [member for member in range(1, self.members + 1) if member not in self.down()]

    def line(self, verbs, shift=0):
        """The line of the drill for who is drilled: none where nobody is."""
        if self.drilled is None:
            return []
        return [f"{shift + self.drilled} {verbs[self.turn].format(self.drilled % self.members + 1)}"]


AMONG = ("1 silent", "1 skew 1", "3 accuse {}", "5 veto")
LEAVING = ("1 silent", "1 skew 1", "1 wrong 1", "4 silent")
COMING = ("1 silent", "2 skew 1", "3 accuse {}", "5 veto")


class Scene:
    """A phase: its kind, the committees that begin and end it, and the text of its drill."""

    def __init__(self, kind, old, new):
        self.kind, self.old, self.new = kind, old, new
        if kind == "move":
            lines = old.line(LEAVING) + new.line(COMING, old.members)
        else:
            lines = old.line(AMONG)
        self.drill = "\n".join(lines)
        self.seats = old.members + (new.members if kind == "move" else 0)


def scenes_of(members, bound, periods, number):
    """The first phase, and so many more."""
    numbers = Numbers(number)
    side = Side(members, bound, (), numbers)
    scenes = [Scene("create", side, side)]
    for phase in range(1, periods + 1):
        old = Side(side.members, side.bound, side.down(), numbers)
        side = old
        if phase % 3 == 0:
            size = CIRCLE[(CIRCLE.index(old.members) + 1) % len(CIRCLE)]
            side = Side(size, (size - 1) // 3, (), numbers)
        scenes.append(Scene("move" if phase % 3 == 0 else "refresh", old, side))
    return scenes


def exposed_in(scenes):
    """Who is exposed, period by period: who is down in the phase that ends it, or in the last one that begins it, and
    the lowest others up to the bound."""
    exposed = []
    for phase, scene in enumerate(scenes):
        holding = scene.new
        seen = scenes[phase + 1].old.down() if phase + 1 < len(scenes) else holding.down()
        others = [member for member in range(1, holding.members + 1) if member not in seen]
        exposed.append(seen | set(others[: holding.bound - len(seen)]))
    return exposed


def seed_of(number, phase, seat):
    return b"".join(value.to_bytes(8, "big") for value in (number, phase, seat, 0))


def play_all(setting, seats, drill):
    """Plays a phase in which nobody speaks late and nobody is cut."""
    play(setting, seats, drill)


class Life:
    """A key through the phases: the shares of those who have one, by member and lane."""

    def __init__(self, number):
        self.number, self.shares, self.key = number, {}, None

    def seed(self, phase, seat):
        return seed_of(self.number, phase, seat)

    def drill_of(self, scene, setting):
        bounds = [(range(1, scene.old.members + 1), scene.old.bound)]
        if scene.kind == "move":
            bounds.append((range(setting.shift + 1, setting.seats + 1), scene.new.bound))
        return read_drill(scene.drill.encode(), setting, bounds)

    def create(self, phase, scene):
        side = scene.new
        setting = create_setting(side.members, side.bound)
        seats = {
            me: Seat(setting, me, drawn_grids(self.seed(phase, me), setting.degree))
            for me in range(1, side.members + 1)
        }
        play_all(setting, seats, self.drill_of(scene, setting))
        self.shares = {me: seats[me].shares() for me in side.up()}
        first = side.up()[: side.bound + 1]
        self.key = [through([(me, self.shares[me][lane]) for me in first])[0] for lane in range(5)]
        return f"create {side.members} {side.bound} faulty {len(side.down())}", seats[side.up()[0]].accepted

    def refresh(self, phase, scene):
        side = scene.new
        setting = refresh_setting(side.members, side.bound)
        seats = {me: Seat(setting, me, drawn_grids(self.seed(phase, me), setting.degree)) for me in self.shares}
        play_all(setting, seats, self.drill_of(scene, setting))
        self.shares = {
            me: [(old + me * dealt) % P for old, dealt in zip(self.shares[me], seats[me].shares())] for me in side.up()
        }
        return f"refresh {side.members} {side.bound} faulty {len(side.down())}", seats[side.up()[0]].accepted

    def move(self, phase, scene):
        old, new = scene.old, scene.new
        setting = move_setting(old.members, old.bound, new.members, new.bound)
        drill = self.drill_of(scene, setting)
        seats = {}
        for me, lanes in self.shares.items():
            verb, *argument = drill.get((me, 1), (None,))
            added = argument[0] if verb == "wrong" else 0
            constants = [(lane + added) % P for lane in lanes]
            seats[me] = Seat(setting, me, grids_with(constants, self.seed(phase, me), setting.degree))
        for seat in range(setting.shift + 1, setting.seats + 1):
            seats[seat] = Seat(setting, seat, None)
        play_all(setting, seats, drill)
        first = seats[setting.shift + new.up()[0]]
        errors = [error_of(first.opened(lane), old.members, old.bound) for lane in range(5)]
        self.shares = {me: self.moved(old, seats[setting.shift + me], errors) for me in new.up()}
        text = f"move {old.members} {old.bound} to {new.members} {new.bound} faulty {len(old.down())} {len(new.down())}"
        return text, first.accepted

    def moved(self, old, seat, errors):
        """What a new member makes of its parts, less the errors."""
        right = [[(part - wrong) % P for part, wrong in zip(seat.parts(lane), errors[lane])] for lane in range(5)]
        return [through(list(enumerate(parts[: old.bound + 1], 1)))[0] for parts in right]


def rehearsed(members, bound, periods, number):
    """The lines of a rehearsal, and the key through the phases."""
    life, lines = Life(number), []
    for phase, scene in enumerate(scenes_of(members, bound, periods, number)):
        text, accepted = getattr(life, scene.kind)(phase, scene)
        lines.append(f"{text} accepted {sum(accepted)} of {len(accepted)}")
    other = [(lane + 1) % P for lane in life.key]
    lines += ["key " + fingerprint(life.key), "other " + fingerprint(other), f"views {periods + 1} same"]
    return lines, life


def phase_lines(members, bound, periods, number):
    scenes = scenes_of(members, bound, periods, number)
    lines = []
    for phase, (scene, exposed) in enumerate(zip(scenes, exposed_in(scenes))):
        sides = [scene.old] if scene.kind != "move" else [scene.old, scene.new]
        shareless = " and ".join(f"{sorted(side.shareless)} of {side.members}" for side in sides)
        drill = scene.drill.replace("\n", ", ") or "nobody"
        lines.append(f"{phase} {scene.kind}: without a share {shareless}; drill {drill}; exposed {sorted(exposed)}")
    return lines


# Checks.


def key_held(life, scenes):
    """The key by the shares of those who are up at the end."""
    first = scenes[-1].new.up()[: scenes[-1].new.bound + 1]
    return [through([(me, life.shares[me][lane]) for me in first])[0] for lane in range(5)]


def worked_small():
    """A create and a refresh of four members, whose draws were worked out apart: 167951807 is 3 modulo 4, so the create
    drills member 4, and 218396424 is 0 modulo 4, so it is silent from the first round on. In the refresh it has no
    share, and nobody more may be down."""
    numbers = Numbers(0)
    yield "draws of 0", [numbers.draw() for _ in range(4)], [167951807, 218396424, 1299921937, 861605236]
    scenes = scenes_of(4, 1, 1, 0)
    yield "drills of 4 1 1 0", [scene.drill for scene in scenes], ["4 1 silent", ""]
    yield "exposed in 4 1 1 0", exposed_in(scenes), [{4}, {4}]
    lines, life = rehearsed(4, 1, 1, 0)
    phases = ["create 4 1 faulty 1 accepted 20 of 20", "refresh 4 1 faulty 1 accepted 20 of 20"]
    yield "phases of 4 1 1 0", lines[:2], phases
    words = [line.split()[0] for line in lines[2:4]], len({line.split()[1] for line in lines[2:4]})
    yield "keys of 4 1 1 0", words, (["key", "other"], 2)
    yield "end of 4 1 1 0", lines[4:], ["views 2 same"]
    yield "key at the end of 4 1 1 0", key_held(life, scenes), life.key


def worked_long():
    """The longest rehearsal of four members."""
    lines, life = rehearsed(4, 1, 64, 0)
    yield "lines of 4 1 64 0", len(lines), 68
    yield "first line", lines[0], "create 4 1 faulty 1 accepted 20 of 20"
    yield "line 64", lines[63].startswith("move 4 1 to 5 1 faulty "), True
    yield "line 65", lines[64].startswith("refresh 5 1 faulty "), True
    yield "line 68", lines[67], "views 65 same"
    yield "key at the end of 4 1 64 0", key_held(life, scenes_of(4, 1, 64, 0)), life.key


def is_same(name, found, wanted):
    if found != wanted:
        print(f"{name}: found {found}, wanted {wanted}")
    return found == wanted


def check_all():
    results = [is_same(*check) for checks in (worked_small, worked_long) for check in checks()]
    print(f"{sum(results)} of {len(results)} checks came out")
    return all(results)


# The program.

REHEARSALS = (
    (4, 1, 1, 0),
    (4, 1, 64, 0),
    (4, 1, 1, 2**32 - 1),
    (4, 1, 5, 1),
    (5, 1, 12, 2),
    (7, 1, 9, 3),
    (7, 2, 10, 4),
    (10, 1, 7, 5),
    (10, 2, 8, 6),
    (10, 3, 13, 7),
    (13, 1, 3, 8),
    (13, 4, 15, 9),
)
NONE = (
    "",
    "4",
    "4 1",
    "4 1 1",
    "4 1 1 0 0",
    "4 1 1 0 d",
    "k1 4 1 1 0",
    "4 1 0 0",
    "4 1 65 0",
    "4 1 4294967297 0",
    "4 1 18446744073709551617 0",
    "4 1 1 4294967296",
    "4 1 1 18446744073709551616",
    "4 1 01 0",
    "4 1 1 00",
    "4 1 1 +1",
    "4 1 1 -1",
    "4 1 1 0x1",
    "4 1 x 0",
    "04 1 1 0",
    "4 0 1 0",
    "4 2 1 0",
    "5 2 1 0",
    "13 5 1 0",
    "6 1 1 0",
    "3 1 1 0",
    "16 5 1 0",
    "0 0 1 0",
    "4 1 1 0 --help",
)
SECONDS = 120


def told(program, words):
    """What the program ends with, all that it prints, and what it leaves for a rehearsal of these words."""
    with tempfile.TemporaryDirectory() as folder:
        words = [program, "rehearse", *words]
        run = subprocess.run(words, cwd=folder, capture_output=True, text=True, check=False, timeout=SECONDS)
        return run.returncode, run.stdout + run.stderr, os.listdir(folder)


def compare_all(program):
    program = os.path.abspath(program)
    results = []
    for values in REHEARSALS:
        lines, _ = rehearsed(*values)
        text = "".join(line + "\n" for line in lines)
        results.append(is_same(f"rehearse {values}", told(program, map(str, values)), (0, text, [])))
    for words in NONE:
        results.append(is_same(f"rehearse {words}", told(program, words.split()), (2, "refused 2 usage\n", [])))
    print(f"{sum(results)} of {len(results)} rehearsals came out")
    return all(results)


# Words.


def words_read(words):
    """The four numbers, or None where the words are no rehearsal."""
    if len(words) != 4:
        return None
    values = [plain_number(word.encode(), 2**32) for word in words]
    if None in values or values[0] not in CIRCLE or not is_bound(*values[:2]) or not 1 <= values[2] <= 64:
        return None
    return values


def main(arguments):
    if arguments == ["--check"]:
        return 0 if check_all() else 1
    if arguments[:1] == ["--compare"] and len(arguments) == 2:
        return 0 if compare_all(arguments[1]) else 1
    phases = arguments[:1] == ["--phases"]
    values = words_read(arguments[1:] if phases else arguments)
    if values is None:
        print("refused 2 usage", file=sys.stderr)
        return 2
    lines = phase_lines(*values) if phases else rehearsed(*values)[0]
    print("\n".join(lines))
    return 0


if __name__ == "__main__":
    sys.exit(main(sys.argv[1:]))
