#!/usr/bin/env python3
"""Cases for the program `replay`, with what it must print, from an implementation of its own.

    replay_cases.py [--without FEATURES] [--only WORD] STDIN STDOUT
    replay_cases.py --shelves FOLDER
    replay_cases.py --check

The first form writes the cases to the file STDIN and what must become of them to the file STDOUT. `--without` leaves
features out, parted by commas, for an implementation that has fewer: `sizes` (create with other sizes than 4 1), `drills`,
`seal` (seal and open), `refresh`, `move`, `rehearse`. `--only WORD` writes the cases whose label has the word in it. The second form
writes the sample shelves whose files are of version 2 into the folder. The third form computes values that others
published or worked out by hand, and says whether they come out.

Nothing here is taken from the product: ChaCha20 is written from RFC 8439, SHA-256 and HMAC are Python's, a decoder tries
the polynomials through each few points, the errors of a move are found by trying each few places, and a phase is played
seat by seat by the rules of the sharing. The same input gives the same output on each machine. A case in which a seat posts
late is left out, and only seats that pass, or that aren't there, are cut: who is heard would hang on how the threads run.
"""

import functools
import hashlib
import hmac
import itertools
import operator
import os
import struct
import sys

# The field: whole numbers below P, arithmetic modulo P.

P = 2**61 - 1


@functools.lru_cache(maxsize=None)
def powers(x):
    """1, x, x^2, .., x^15."""
    return tuple(pow(x, exponent, P) for exponent in range(16))


def product(numbers, others):
    """The sum of the products of numbers in the same place."""
    return sum(map(operator.mul, numbers, others)) % P


def value_at(poly, x):
    """The value of a polynomial, a list of at most 16 numbers with the constant first."""
    return sum(map(operator.mul, poly, powers(x))) % P


class Row:
    """So many numbers beside one another in one, each in a place of 128 bits, so that a step is taken with all at once."""

    def __init__(self, count):
        self.ones = sum(1 << 128 * place for place in range(count))
        self.low, self.high = self.ones * P, self.ones * (2**67 - 1)
        self.places = struct.Struct("<" + "Q8x" * count)

    def of(self, numbers):
        return int.from_bytes(self.places.pack(*numbers), "little")

    def listed(self, row):
        return self.places.unpack(row.to_bytes(self.places.size, "little"))

    def reduced(self, row):
        """Each modulo P, where it is below 2^124: 2^61 is 1, so what is above the low 61 bits is added to them. After
        three times each is at most P; then P alone becomes 0."""
        for _ in range(3):
            row = (row & self.low) + (row >> 61 & self.high)
        return (row + (row + self.ones >> 61 & self.ones)) & self.low


row_of_so_many = functools.lru_cache(maxsize=None)(Row)


class Beside:
    """Polynomials beside one another: for each coefficient a row of numbers, so that all are evaluated at once. At each
    of 1 to 15 a value has at most 124 bits before it is taken modulo P."""

    def __init__(self, polys):
        by_coefficient = list(zip(*polys))
        self.row = row_of_so_many(len(by_coefficient[0]))
        self.coefficients = [self.row.of(those) for those in by_coefficient]

    def at(self, x):
        """The row of their values at one of 1 to 15."""
        return self.row.reduced(sum(map(operator.mul, self.coefficients, powers(x))))


@functools.lru_cache(maxsize=None)
def weights_through(places):
    """How the polynomial of least degree through points at these places follows from their values: for each coefficient
    what it takes of each value."""
    bases = []
    for x in places:
        basis, scale = [1], 1
        for other in places:
            if other != x:
                basis = [(low - other * high) % P for low, high in zip([0] + basis, basis + [0])]
                scale = scale * (x - other) % P
        factor = pow(scale, -1, P)
        bases.append([coefficient * factor % P for coefficient in basis])
    return list(zip(*bases))


def through(points):
    """The polynomial of least degree through points with different first parts."""
    places, values = zip(*points)
    return [product(weights, values) for weights in weights_through(places)]


def nearest(values, degree):
    """The polynomial that is nearest to the values at 1, 2, ..: with s values missing (None) and e wrong, 2e + s is at
    most the number of values less degree + 1. None where there is none."""
    present = [(place, value) for place, value in enumerate(values, 1) if value is not None]
    room = len(values) - degree - 1 - (len(values) - len(present))
    if room < 0:
        return None
    for some in itertools.combinations(present, degree + 1):
        poly = through(some)
        wrong = sum(value_at(poly, place) != value for place, value in present)
        if 2 * wrong <= room:
            return poly
    return None


# The parity check of n points with bound t, and what is wrong by a syndrome.


@functools.lru_cache(maxsize=None)
def check_rows(n, t):
    """H[m][i - 1] = w_i * i^m, where w_i is 1 divided by the product of i - j over the other points j."""
    weights = []
    for i in range(1, n + 1):
        product = 1
        for j in range(1, n + 1):
            if j != i:
                product = product * (i - j) % P
        weights.append(pow(product, -1, P))
    return [[weight * pow(i, m, P) % P for i, weight in enumerate(weights, 1)] for m in range(n - t - 1)]


def syndrome_of(values, t):
    return [product(row, values) for row in check_rows(len(values), t)]


@functools.lru_cache(maxsize=None)
def solver_at(n, t, places):
    """How the entries at these places follow from their syndrome: for each entry what it takes of each part of the
    syndrome, and the sums of such parts that have to be 0. The columns of the check at few places are independent."""
    checks, count = check_rows(n, t), len(places)
    rows = [
        [check[place] for place in places] + [int(at == other) for other in range(len(checks))]
        for at, check in enumerate(checks)
    ]
    for column in range(count):
        pivot = next(at for at in range(column, len(rows)) if rows[at][column])
        rows[column], rows[pivot] = rows[pivot], rows[column]
        scale = pow(rows[column][column], -1, P)
        rows[column] = [value * scale % P for value in rows[column]]
        for at, row in enumerate(rows):
            if at != column:
                rows[at] = [(a - row[column] * b) % P for a, b in zip(row, rows[column])]
    parts = [row[count:] for row in rows]
    return parts[:count], parts[count:]


def error_of(syndrome, n, t):
    """The vector with at most t entries other than 0 that has this syndrome, or None: each t places are tried."""
    for places in itertools.combinations(range(n), t):
        entries, nothing = solver_at(n, t, places)
        if not any(product(parts, syndrome) for parts in nothing):
            error = {place: product(parts, syndrome) for place, parts in zip(places, entries)}
            return [error.get(place, 0) for place in range(n)]
    return None


# ChaCha20 and what is drawn from it.


# A row of the state has four words, and a row of sixteen blocks beside one another is one number here: each word in a
# place of 64 bits, the words of the first block lowest. So each step is taken in all columns of all blocks at once.

BLOCKS = 16


def in_each_block(*places):
    """The words of so many places of four, all bits set, in each block."""
    return sum(0xFFFFFFFF << 64 * (4 * block + place) for block in range(BLOCKS) for place in places)


ALL_WORDS = in_each_block(0, 1, 2, 3)
BELOW = {count: in_each_block(*range(count)) for count in (1, 2, 3)}
ABOVE = {count: in_each_block(*range(4 - count)) for count in (1, 2, 3)}


def rotated(row, count):
    """Each word turned left by so many bits."""
    return ((row << count) | (row >> (32 - count))) & ALL_WORDS


def shifted(row, count):
    """The words of each block moved down by so many places, the lowest to the top."""
    return (row >> 64 * count) & ABOVE[count] | (row & BELOW[count]) << 64 * (4 - count)


def quarter_rounds(a, b, c, d):
    a = (a + b) & ALL_WORDS
    d = rotated(d ^ a, 16)
    c = (c + d) & ALL_WORDS
    b = rotated(b ^ c, 12)
    a = (a + b) & ALL_WORDS
    d = rotated(d ^ a, 8)
    c = (c + d) & ALL_WORDS
    return a, rotated(b ^ c, 7), c, d


def row_of_words(words):
    return int.from_bytes(struct.pack(f"<{4 * BLOCKS}Q", *words), "little")


def chacha_blocks(seed, first, stream):
    """The words of sixteen blocks, the first of them with the counter `first`. The seed is the key; counter and stream
    are the last four words, each low first."""
    key = struct.unpack("<8I", seed)
    ends = [
        part & 0xFFFFFFFF
        for counter in range(first, first + BLOCKS)
        for part in (counter, counter >> 32, stream, stream >> 32)
    ]
    heads = (0x61707865, 0x3320646E, 0x79622D32, 0x6B206574), key[:4], key[4:]
    start = [row_of_words(head * BLOCKS) for head in heads] + [row_of_words(ends)]
    a, b, c, d = start
    for _ in range(10):
        a, b, c, d = quarter_rounds(a, b, c, d)
        a, b, c, d = quarter_rounds(a, shifted(b, 1), shifted(c, 2), shifted(d, 3))
        b, c, d = shifted(b, 3), shifted(c, 2), shifted(d, 1)
    rows = [
        struct.unpack(f"<{4 * BLOCKS}Q", ((row + old) & ALL_WORDS).to_bytes(32 * BLOCKS, "little"))
        for row, old in zip((a, b, c, d), start)
    ]
    return [word for at in range(0, 4 * BLOCKS, 4) for row in rows for word in row[at : at + 4]]


def chacha_words(seed, stream=0):
    """The words of all blocks, one after another."""
    for first in itertools.count(0, BLOCKS):
        yield from chacha_blocks(seed, first, stream)


def drawn(words):
    """The next element: the first of at most four candidates that isn't P, else 0."""
    for _ in range(4):
        low = next(words)
        candidate = (low | next(words) << 32) & (2**61 - 1)
        if candidate != P:
            return candidate
    return 0


# Grids: c[a][b] is the coefficient of x^a * y^b.


@functools.lru_cache(maxsize=1024)
def drawn_grids(seed, degree):
    """The five grids of a member, lane by lane."""
    words = chacha_words(seed)
    size = degree + 1
    return [[[drawn(words) for _ in range(size)] for _ in range(size)] for _ in range(5)]


def grids_with(constants, seed, degree):
    """The five grids with these constants; all other coefficients are drawn."""
    size = degree + 1
    places = [(lane, a, b) for lane in range(5) for a in range(size) for b in range(size) if (a, b) != (0, 0)]
    others = dict(zip(places, drawn_list(seed, len(places))))
    return [
        [[others.get((lane, a, b), constant) for b in range(size)] for a in range(size)]
        for lane, constant in enumerate(constants)
    ]


@functools.lru_cache(maxsize=1024)
def drawn_list(seed, count):
    words = chacha_words(seed)
    return [drawn(words) for _ in range(count)]


def row_of(grid, j):
    """S(x, j)."""
    return [value_at(coefficients, j) for coefficients in grid]


def column_of(grid, j):
    """S(j, y)."""
    return [value_at(coefficients, j) for coefficients in zip(*grid)]


# Files.


def number_bytes(number, size):
    return number.to_bytes(size, "big")


def padded(name):
    return name.encode().ljust(32, b"\0")


def signed(head):
    return head + hashlib.sha256(head).digest()


def committee_digest(name, n, t, period, holders, previous):
    head = bytes([4]) + padded(name) + bytes([n, t]) + number_bytes(period, 4) + number_bytes(holders, 4)
    return hashlib.sha256(head + previous).digest()


def mask_of(indexes):
    """Member i at bit i - 1."""
    return sum(1 << (index - 1) for index in indexes)


class Link:
    """What a now file of version 2 says beside one of version 1."""

    def __init__(self, holders, committee, previous):
        self.holders, self.committee, self.previous = holders, committee, previous

    def bytes(self):
        return number_bytes(self.holders, 4) + self.committee + self.previous


NO_DIGEST = bytes(32)


def link_of(name, n, t, period, holders, previous=NO_DIGEST):
    """The link with these holders and the right digest."""
    return Link(holders, committee_digest(name, n, t, period, holders, previous), previous)


def share_bytes(name, n, t, index, period, lanes, committee=None):
    """A share file: of version 2 where the committee's digest is given, else of version 1."""
    version = 1 if committee is None else 2
    head = b"DKSH" + bytes([version, n, t, index]) + number_bytes(period, 4) + padded(name)
    return signed(head + b"".join(number_bytes(lane, 8) for lane in lanes) + (committee or b""))


def now_bytes(name, n, t, period, next_number, link=None):
    """A now file: of version 2 where a link is given, else of version 1."""
    version = 1 if link is None else 2
    head = b"DKNW" + bytes([version, n, t, 0]) + number_bytes(period, 4) + number_bytes(next_number, 4)
    return signed(head + padded(name) + (link.bytes() if link else b""))


SHORT, MAGIC, VERSION, FIELD, DIGEST, EXTRA = 1, 2, 3, 4, 5, 6
SIZES = (4, 5, 7, 10, 13)
NAME_LETTERS = "abcdefghijklmnopqrstuvwxyz0123456789_"


def is_name(text):
    return 1 <= len(text) <= 32 and all(letter in NAME_LETTERS for letter in text)


def is_bound(n, t):
    return 1 <= t and 3 * t < n


def envelope_fault(magic, size, data):
    """The number of the first fault of a file, as long as its fields aren't looked at, or None. `size` is the length of a
    file of version 1; one of version 2 has 148 bytes."""
    if len(data) < 5:
        return SHORT
    if data[:4] != magic:
        return MAGIC
    if data[4] not in (1, 2):
        return VERSION
    whole = size if data[4] == 1 else 148
    if len(data) != whole:
        return SHORT if len(data) < whole else EXTRA
    if hashlib.sha256(data[:-32]).digest() != data[-32:]:
        return DIGEST
    return None


def name_in(data):
    """The name that stands in 32 bytes, or None."""
    name = data.rstrip(b"\0").decode("latin-1")
    return name if is_name(name) and padded(name) == data else None


def read_link(data, name, n, t, period):
    """The link in the last 68 bytes of a now file's head, or None where it isn't in its range."""
    holders, committee, previous = int.from_bytes(data[:4], "big"), data[4:36], data[36:68]
    if holders >= 1 << n or bin(holders).count("1") < n - t:
        return None
    right = link_of(name, n, t, period, holders, previous)
    return right if right.committee == committee else None


def read_now(data):
    """A fault's number, or what a now file says: name, N, T, period, next document number, and the link or None."""
    fault = envelope_fault(b"DKNW", 80, data)
    if fault:
        return fault
    n, t, zero = data[5], data[6], data[7]
    period, next_number = int.from_bytes(data[8:12], "big"), int.from_bytes(data[12:16], "big")
    name = name_in(data[16:48])
    if n not in SIZES or not is_bound(n, t) or zero or period < 1 or name is None:
        return FIELD
    link = read_link(data[48:116], name, n, t, period) if data[4] == 2 else None
    if data[4] == 2 and link is None:
        return FIELD
    return name, n, t, period, next_number, link


def read_share(data, name, n, t, index, period, committee):
    """The five lanes of a share file of this member in this committee, or None where these aren't its bytes."""
    if envelope_fault(b"DKSH", 116, data):
        return None
    lanes = [int.from_bytes(data[at : at + 8], "big") for at in range(44, 84, 8)]
    if any(lane >= P for lane in lanes):
        return None
    return lanes if data == share_bytes(name, n, t, index, period, lanes, committee) else None


# Keys and boxes.


def key_digest(kind, key):
    return hashlib.sha256(bytes([kind]) + b"".join(number_bytes(lane, 8) for lane in key)).digest()


def fingerprint(key):
    return key_digest(3, key).hex()


def box_bytes(key, name, number, doc):
    stream = b"".join(
        word.to_bytes(4, "little")
        for word in itertools.islice(chacha_words(key_digest(1, key), number), (len(doc) + 3) // 4)
    )
    head = b"DKB1" + number_bytes(number, 4) + number_bytes(len(doc), 8) + padded(name)
    sealed = head + bytes(a ^ b for a, b in zip(doc, stream))
    return sealed + hmac.new(key_digest(2, key), sealed, hashlib.sha256).digest()


def unsealed(key, name, box):
    """A fault's number, or the document's number and its bytes."""
    if len(box) < 80:
        return 1
    if box[:4] != b"DKB1":
        return 2
    if int.from_bytes(box[8:16], "big") != len(box) - 80:
        return 3
    if box[16:48] != padded(name):
        return 4
    if hmac.new(key_digest(2, key), box[:-32], hashlib.sha256).digest() != box[-32:]:
        return 5
    number = int.from_bytes(box[4:8], "big")
    # A box of the sealed bytes has the document in their place.
    return number, box_bytes(key, name, number, box[48:-32])[48:-32]


# Drills.

VERBS = (b"silent", b"late", b"garble", b"skew", b"wrong", b"accuse", b"veto")
PLAIN_VERBS = (b"silent", b"late", b"garble")


class Refused(Exception):
    """A command's refusal: the number and the rest of its line."""

    def __init__(self, code, what):
        super().__init__(f"refused {code} {what}")
        self.code = code


def plain_number(word, above):
    """A decimal number without a zero in front that is below `above`, or None."""
    if not word or any(byte not in b"0123456789" for byte in word):
        return None
    if len(word) > 1 and word[:1] == b"0":
        return None
    return int(word) if int(word) < above else None


class Setting:
    """A phase: who deals and who receives. Dealer i is on seat i, receiver j on seat shift + j."""

    def __init__(self, receivers, bound, degree, dealers, shift=0, checks=0):
        self.receivers, self.bound, self.degree = receivers, bound, degree
        self.dealers, self.shift, self.checks = dealers, shift, checks
        self.seats, self.rounds, self.instances = shift + receivers, 6 if checks else 5, 5 * dealers
        self.beside = row_of_so_many(self.instances)

    def deals(self, seat):
        return seat <= self.dealers

    def receives(self, seat):
        return seat > self.shift


def create_setting(n, t):
    return Setting(n, t, t, n)


def refresh_setting(n, t):
    return Setting(n, t, t - 1, n)


def move_setting(n, t, m, u):
    return Setting(m, u, u, n, n, n - t - 1)


def has_verb(setting, party, round_number, verb):
    """Whether the verb stands in the table for the seat and the round."""
    if verb == b"skew":
        dealing, receiving = round_number in (1, 4), round_number in (2, 6)
        return dealing and setting.deals(party) or receiving and setting.receives(party)
    if verb == b"wrong":
        return round_number == 1 and setting.shift > 0 and setting.deals(party)
    return setting.receives(party) and round_number == {b"accuse": 3, b"veto": 5}[verb]


def argument_of(setting, party, round_number, verb, words):
    """What a verb is given, as a list of at most one number; None where the line isn't one of the table."""
    if verb in PLAIN_VERBS:
        return [] if not words else None
    if not has_verb(setting, party, round_number, verb) or len(words) != (verb != b"veto"):
        return None
    if verb == b"veto":
        return []
    if verb == b"accuse":
        number = plain_number(words[0], setting.receivers + 1)
        return [number] if number and setting.shift + number != party else None
    number = plain_number(words[0], P)
    return None if number is None else [number]


def drill_line(setting, words, drill):
    """Reads a line of a drill into the drill. The answer is None, `line` or the number of a stranger."""
    if len(words) not in (3, 4) or not all(words):
        return "line"
    party, round_number = (plain_number(word, 2**64) for word in words[:2])
    if party is None or round_number is None or words[2] not in VERBS:
        return "line"
    if not 1 <= party <= setting.seats:
        return party
    if not 1 <= round_number <= setting.rounds or (party, round_number) in drill:
        return "line"
    argument = argument_of(setting, party, round_number, words[2], words[3:])
    if argument is None:
        return "line"
    drill[party, round_number] = (words[2].decode(), *argument)
    return None


def read_drill(text, setting, bounds):
    """The verb and its argument by party and round. `bounds` has the seats and the bound of each committee in turn."""
    drill = {}
    lines = text.split(b"\n")
    for number, line in enumerate(lines, 1):
        if line and not line.startswith(b"#"):
            fault = drill_line(setting, line.split(b" "), drill)
            if fault == "line":
                raise Refused(9, f"drill line {number}")
            if fault is not None:
                raise Refused(9, f"drill stranger {fault}")
    for seats, bound in bounds:
        named = len({party for party, _ in drill if party in seats})
        if named > bound:
            raise Refused(9, f"drill named {named} bound {bound}")
    return drill


# What the seats of a phase hear alike, and one seat. A post is None (nothing), or a value of the round's shape; so is a
# ring message. Instances are numbered from 0: the dealer's number less one, times five, plus the lane. A dealer has
# grids, a receiver its number `me`.


class Board:
    """The posts, which all seats hear alike, and what follows from them for each instance."""

    def __init__(self, setting):
        self.setting = setting
        self.complaints = [{} for _ in range(setting.instances)]
        self.revealed = [{} for _ in range(setting.instances)]
        self.accepted = self.syndromes = None

    def of_receivers(self, heard):
        """What is heard by receiver, of what is heard by seat."""
        return {j: heard.get(self.setting.shift + j) for j in range(1, self.setting.receivers + 1)}

    def hear_complaints(self, posts):
        """The pair that a receiver tells, by it and whom it complains of."""
        for j, post in self.of_receivers(posts).items():
            for (instance, k), pair in (post or {}).items():
                self.complaints[instance][j, k] = pair

    def hear_reveals(self, posts):
        """The row and the column, by receiver."""
        for dealer, post in posts.items():
            for (lane, j), pair in (post or {}).items():
                self.revealed[(dealer - 1) * 5 + lane][j] = pair
        self.settled = [self.is_settled(instance) for instance in range(self.setting.instances)]

    def is_settled(self, instance):
        """Whether two receivers that complain of each other tell the same, or one of them is revealed."""
        complaints, revealed = self.complaints[instance], self.revealed[instance]
        for (k, j), (u, v) in complaints.items():
            other = complaints.get((j, k))
            if other not in (None, (v, u)) and k not in revealed and j not in revealed:
                return False
        return True

    def hear_votes(self, posts):
        needed = self.setting.receivers - self.setting.bound
        heard = [votes for votes in self.of_receivers(posts).values() if votes]
        self.accepted = [sum(votes) >= needed for votes in zip([False] * self.setting.instances, *heard)]

    def hear_syndromes(self, posts):
        self.syndromes = self.of_receivers(posts)


class Seat:
    def __init__(self, setting, number, grids):
        self.setting, self.number, self.grids = setting, number, grids
        self.me = number - setting.shift if setting.receives(number) else None
        self.dealt, self.all_parts, self.board = {}, None, None
        if grids:
            self.size = len(grids[0])
            self.row_values = Beside([coefficients for grid in grids for coefficients in grid])
            self.column_values = Beside([coefficients for grid in grids for coefficients in zip(*grid)])

    def receivers(self):
        return range(1, self.setting.receivers + 1)

    # What it says.

    def deal_for(self, j):
        """The row and the column for a receiver, lane by lane."""
        if j not in self.dealt:
            beside, size = self.row_values.row, self.size
            row, column = (list(beside.listed(values.at(j))) for values in (self.row_values, self.column_values))
            self.dealt[j] = [(row[at : at + size], column[at : at + size]) for at in range(0, 5 * size, size)]
        return self.dealt[j]

    def cross_for(self, j):
        """The values at a receiver of all rows that it holds, and of all columns: two rows of numbers."""
        return self.own[j]

    def pairs_for(self, j):
        """The same as pairs, by instance."""
        if j not in self.own_pairs:
            self.own_pairs[j] = list(zip(*map(self.setting.beside.listed, self.own[j])))
        return self.own_pairs[j]

    def complaints(self):
        """The pair of values that it holds, by instance and the receiver that it complains of."""
        found = {}
        for k in self.receivers():
            own = self.own[k]
            told = own if k == self.me else self.crossed[k]
            if told and (told[1], told[0]) == own:
                continue
            rows, columns = map(self.setting.beside.listed, told or (0, 0))
            for instance, pair in enumerate(self.pairs_for(k)):
                if not told or (columns[instance], rows[instance]) != pair:
                    found[instance, k] = pair
        return found

    def reveals(self):
        """The row and the column, by lane and receiver."""
        found = {}
        for lane in range(5):
            for (j, k), told in self.board.complaints[(self.number - 1) * 5 + lane].items():
                row, column = self.deal_for(j)[lane]
                if told != (value_at(row, k), value_at(column, k)):
                    found[lane, j] = (row, column)
        return found

    def votes(self):
        return [self.votes_for(instance) for instance in range(self.setting.instances)]

    def votes_for(self, instance):
        revealed = self.board.revealed[instance]
        if self.me in revealed:
            return False
        for k, (its_row, its_column) in revealed.items():
            fits = (value_at(its_column, self.me), value_at(its_row, self.me))
            if fits != self.pairs_for(k)[instance]:
                return False
        return self.board.settled[instance]

    def syndromes_told(self):
        """Lane by lane the syndrome of what it has of the dealers."""
        bound = self.setting.dealers - self.setting.checks - 1
        return [value for lane in range(5) for value in syndrome_of(self.parts(lane), bound)]

    # What it hears: by seat, of each seat that is heard.

    def hear_deals(self, deals):
        nothing = [([0] * (self.setting.degree + 1),) * 2] * 5
        if self.grids:
            deals[self.number] = self.deal_for(self.me)
        held = [pair for dealer in range(1, self.setting.dealers + 1) for pair in deals.get(dealer) or nothing]
        self.rows, columns = zip(*held)
        row_values, column_values = Beside(self.rows), Beside(columns)
        self.own = {k: (row_values.at(k), column_values.at(k)) for k in self.receivers()}
        self.own_pairs = {}

    def hear_crosses(self, crosses):
        self.crossed = self.board.of_receivers(crosses)

    # What comes of it.

    @property
    def accepted(self):
        return self.board.accepted

    def share_in(self, instance):
        """Its share of an instance: 0 where it isn't accepted."""
        if not self.accepted[instance]:
            return 0
        revealed = self.board.revealed[instance].get(self.me)
        return (revealed[0] if revealed else self.rows[instance])[0]

    def parts(self, lane):
        """Its shares of a lane, by dealer."""
        if self.all_parts is None:
            self.all_parts = [self.share_in(instance) for instance in range(self.setting.instances)]
        return self.all_parts[lane::5]

    def shares(self):
        return [sum(self.parts(lane)) % P for lane in range(5)]

    def opened(self, lane):
        """The opened syndrome of a lane: at each place the value at 0 of what the receivers posted."""
        checks, posts = self.setting.checks, self.board.syndromes.values()
        places = range(lane * checks, (lane + 1) * checks)
        return [nearest([post and post[place] for post in posts], self.setting.degree)[0] for place in places]


# What a seat says in a round: a post, and a message for each other seat.


def honest_word(seat, round_number):
    others = [j for j in seat.receivers() if j != seat.me]
    if round_number == 1:
        return None, {j: seat.deal_for(j) for j in others if seat.grids}
    if round_number == 2:
        return None, {j: seat.cross_for(j) for j in others if seat.me}
    if not (seat.grids if round_number == 4 else seat.me):
        return None, {}
    post = (seat.complaints, seat.reveals, seat.votes, seat.syndromes_told)[round_number - 3]()
    return post, {}


def skewed(word, round_number, lowest, k, beside):
    """The word with k added: to the constants of the rows dealt to the lowest other receiver, to the first values of the
    pairs for it, to the constants of the rows that are revealed, or to all values of the syndromes."""
    post, rings = word
    if round_number == 6:
        return [(value + k) % P for value in post], rings
    if round_number == 1:
        dealt = [([(row[0] + k) % P] + row[1:], column) for row, column in rings[lowest]]
        return post, {**rings, lowest: dealt}
    if round_number == 2:
        firsts, seconds = rings[lowest]
        return post, {**rings, lowest: (beside.reduced(firsts + k * beside.ones), seconds)}
    return {at: ([(row[0] + k) % P] + row[1:], column) for at, (row, column) in post.items()}, rings


def accusing(seat, post, j):
    """The complaints with one against j in each instance, whose first value is one too great."""
    false = {(instance, j): ((u + 1) % P, v) for instance, (u, v) in enumerate(seat.pairs_for(j))}
    return {**post, **false}


def drilled_word(seat, round_number, verb, argument):
    """What a drilled seat says, or None where it passes or speaks too late."""
    if verb in ("silent", "late"):
        return None
    if verb == "garble":
        # An empty list of votes and empty crosses have the right shape in no round.
        return None, {}
    post, rings = honest_word(seat, round_number)
    if verb == "skew":
        return skewed((post, rings), round_number, 2 if seat.me == 1 else 1, argument[0], seat.setting.beside)
    if verb == "accuse":
        return accusing(seat, post, argument[0]), rings
    if verb == "wrong":
        # Its grids are other ones from the start.
        return post, rings
    return [False] * seat.setting.instances, rings


def word_of(seat, round_number, drill):
    """What a seat says, or None where it passes or speaks too late."""
    line = drill.get((seat.number, round_number))
    return drilled_word(seat, round_number, line[0], line[1:]) if line else honest_word(seat, round_number)


class NotAllowed(Exception):
    """Masks that the words of the seats don't allow."""


def heard_words(alive, round_number, drill, mask, cut):
    """The words of the seats that are heard, by seat. Where a mask is given, it tells whether those are that post late
    and those that are cut, and it has to be one that the words allow. Without one they aren't heard."""
    words = {}
    for seat in alive:
        late = drill.get((seat.number, round_number), ("",))[0] == "late"
        free = late or (round_number, seat.number) in cut
        word = honest_word(seat, round_number) if late else word_of(seat, round_number, drill)
        may_be = word is not None
        heard = may_be and not free if mask is None else bool(mask >> (seat.number - 1) & 1)
        if heard and not may_be or may_be and not heard and not free:
            raise NotAllowed
        if heard:
            words[seat.number] = word
    if mask is not None and mask != mask_of(words):
        raise NotAllowed
    return words


def play(setting, seats, drill, given=None, cut=()):
    """Plays the rounds of a phase. A seat that isn't among the seats given passes in every round. The answer is the masks.
    Who isn't in a mask is out from then on. Where masks are given, they tell who is heard of those that post late, and
    of those that are cut, by round and seat."""
    board, masks, alive = Board(setting), [], list(seats.values())
    if given is not None and len(given) != setting.rounds:
        raise NotAllowed
    for seat in alive:
        seat.board = board
    for round_number in range(1, setting.rounds + 1):
        words = heard_words(alive, round_number, drill, given and given[round_number - 1], cut)
        alive = [seats[number] for number in words]
        masks.append(mask_of(words))
        if round_number < 3:
            for seat in seats.values():
                if seat.me is not None:
                    told = {number: word[1].get(seat.me) for number, word in words.items()}
                    (seat.hear_deals if round_number == 1 else seat.hear_crosses)(told)
        else:
            hear = (board.hear_complaints, board.hear_reveals, board.hear_votes, board.hear_syndromes)[round_number - 3]
            hear({number: word[0] for number, word in words.items()})
    return masks


# The outside.


class World:
    """A shelf, an entropy, a crew and a sink, whose calls with listed numbers fail and then change nothing; who is cut,
    by round and seat; and the masks of the command's phase, where they are given."""

    def __init__(self, held, seeds, fails, cut=(), masks=None):
        self.held, self.seeds, self.told = dict(held), list(seeds), ""
        self.cut, self.masks = frozenset(cut), masks
        self.fails = {kind: set(numbers) for kind, numbers in fails.items()}
        self.calls = {"shelf": 0, "entropy": 0, "crew": 0, "sink": 0}
        self.late = False

    def call(self, kind, code):
        number = self.calls[kind]
        self.calls[kind] += 1
        if number in self.fails.get(kind, ()):
            raise Refused(code, "thread" if kind == "crew" else kind)

    def get(self, name):
        self.call("shelf", 10)
        return self.held.get(name)

    def change(self, name, data):
        """Puts the bytes, or removes the name where they are None."""
        self.call("shelf", 10)
        if data is None:
            self.held.pop(name, None)
        else:
            self.held[name] = data

    def seed(self):
        self.call("entropy", 11)
        if not self.seeds:
            raise Refused(11, "entropy")
        return self.seeds.pop(0)

    def phase(self, setting, seats, drill):
        """A phase, with a thread for each seat. Whether a seat is heard that posts late hangs on how they run."""
        for _ in range(setting.seats):
            self.call("crew", 12)
        self.late = any(line[0] == "late" for line in drill.values())
        return play(setting, seats, drill, self.masks, self.cut)

    def put_out(self, text):
        self.call("sink", 13)
        self.told += text


# Commands. Each asks the world, and answers its changes and its text.


def share_name(name, period, index):
    return f"{name}.{period}.{index}.share"


def now_of(world, name):
    data = world.get(name + ".now")
    if data is None:
        raise Refused(3, "nosuch now")
    now = read_now(data)
    if isinstance(now, int):
        raise Refused(15, f"now {now}")
    if now[0] != name:
        raise Refused(15, f"now {FIELD}")
    return now


def shares_held(world, now):
    """The members' share files, and the lanes of each that is valid."""
    name, n, t, period, _, link = now
    committee = link.committee if link else None
    files = [world.get(share_name(name, period, index)) for index in range(1, n + 1)]
    lanes_of = [
        data and read_share(data, name, n, t, index, period, committee) for index, data in enumerate(files, 1)
    ]
    return files, lanes_of


def recovered(world, now):
    """The key and the states of the members."""
    _, _, t, _, _, _ = now
    files, lanes_of = shares_held(world, now)
    polys = []
    for lane in range(5):
        poly = nearest([lanes[lane] if lanes else None for lanes in lanes_of], t)
        if poly is None:
            raise Refused(6, f"lane {lane}")
        polys.append(poly)
    states = []
    for index, (data, lanes) in enumerate(zip(files, lanes_of), 1):
        if data is None:
            states.append("missing")
        elif not lanes:
            states.append("damaged")
        else:
            right = [value_at(poly, index) for poly in polys]
            states.append("ok" if lanes == right else "wrong")
    return [poly[0] for poly in polys], states


def lines(texts):
    return "".join(text + "\n" for text in texts)


def recover(world, name, word="recover"):
    now = now_of(world, name)
    key, states = recovered(world, now)
    texts = [f"{word} {name} {now[1]} {now[2]} period {now[3]}"]
    texts += [f"member {index} {state}" for index, state in enumerate(states, 1)]
    if word == "recover":
        texts.append("key " + fingerprint(key))
    return [], lines(texts)


def check(world, name):
    return recover(world, name, "check")


def drill_held(world, drill_name, setting, bounds):
    """The drill that is named, where one is."""
    if drill_name is None:
        return {}
    text = world.get(drill_name)
    if text is None:
        raise Refused(3, "nosuch drill")
    return read_drill(text, setting, bounds)


def undrilled(drill, seats):
    named = {party for party, _ in drill}
    return [seat for seat in seats if seat not in named]


def in_time(masks, seats, needed):
    """Those of the seats that are in each mask of a phase. It is refused where they are too few."""
    heard = functools.reduce(operator.and_, masks)
    found = [seat for seat in seats if heard >> (seat - 1) & 1]
    if len(found) < needed:
        raise Refused(5, f"sound {len(found)} needed {needed}")
    return found


def removals(name, period):
    return [(share_name(name, period, index), None) for index in range(1, 16)]


def files_of(now, shares):
    """The puts of a period: the share file of each index that has shares, then the now file."""
    name, n, t, period, _, link = now
    puts = [
        (share_name(name, period, index), share_bytes(name, n, t, index, period, lanes, link.committee))
        for index, lanes in shares.items()
    ]
    return puts + [(name + ".now", now_bytes(*now))]


def phase_texts(masks, accepted):
    texts = [f"round {number} mask {mask}" for number, mask in enumerate(masks, 1)]
    return texts + [f"accepted {sum(accepted)} of {len(accepted)}"]


def indexes_text(word, indexes):
    return " ".join([word, *map(str, indexes)])


def create(world, name, n, t, drill_name=None):
    if world.get(name + ".now") is not None:
        raise Refused(4, "exists")
    setting = create_setting(n, t)
    drill = drill_held(world, drill_name, setting, [(range(1, n + 1), t)])
    seats = {me: Seat(setting, me, drawn_grids(world.seed(), t)) for me in range(1, n + 1)}
    masks = world.phase(setting, seats, drill)
    sound = in_time(masks, undrilled(drill, seats), n - t)
    now = name, n, t, 1, 0, link_of(name, n, t, 1, mask_of(sound))
    changes = removals(name, 1) + files_of(now, {me: seats[me].shares() for me in sound})
    texts = [f"create {name} {n} {t} period 1", *phase_texts(masks, seats[sound[0]].accepted)]
    return changes, lines(texts + [indexes_text("shares", sound)])


class Before:
    """What a refresh and a move find: the now file, the drill and the valid share files, by index."""

    def __init__(self, world, name, drill_name, setting_of, new=None):
        self.now = now_of(world, name)
        self.name, self.n, self.t, self.period, self.next_number, self.link = self.now
        _, lanes_of = shares_held(world, self.now)
        self.lanes = {index: lanes for index, lanes in enumerate(lanes_of, 1) if lanes}
        self.setting = setting_of(self.n, self.t)
        bounds = [(range(1, self.n + 1), self.t)]
        if new:
            bounds.append((range(self.n + 1, self.setting.seats + 1), new[1]))
        self.drill = drill_held(world, drill_name, self.setting, bounds)
        self.sound = undrilled(self.drill, self.lanes)
        if len(self.sound) < self.n - self.t:
            raise Refused(5, f"sound {len(self.sound)} needed {self.n - self.t}")
        if self.period == 2**32 - 1:
            raise Refused(8, f"full {self.period}")
        self.seeds = {index: world.seed() for index in self.lanes}

    def changes(self, n, t, shares):
        """To the next period, with these members and shares."""
        name, period = self.name, self.period
        previous = self.link.committee if self.link else NO_DIGEST
        link = link_of(name, n, t, period + 1, mask_of(shares), previous)
        puts = files_of((name, n, t, period + 1, self.next_number, link), shares)
        return removals(name, period - 1) + removals(name, period + 1) + puts + removals(name, period)


def refresh(world, name, drill_name=None):
    before = Before(world, name, drill_name, refresh_setting)
    seats = {
        me: Seat(before.setting, me, drawn_grids(seed, before.setting.degree)) for me, seed in before.seeds.items()
    }
    masks = world.phase(before.setting, seats, before.drill)
    sound = in_time(masks, before.sound, before.n - before.t)
    shares = {me: [(old + me * dealt) % P for old, dealt in zip(before.lanes[me], seats[me].shares())] for me in sound}
    changes = before.changes(before.n, before.t, shares)
    texts = [f"refresh {name} {before.n} {before.t} period {before.period + 1}"]
    texts += phase_texts(masks, seats[sound[0]].accepted)
    return changes, lines(texts + [indexes_text("shares", shares)])


def moved_seats(before):
    """The seats of a move: who has a share deals it, and all new members receive."""
    setting, seats = before.setting, {}
    for me, seed in before.seeds.items():
        verb, *argument = before.drill.get((me, 1), (None,))
        added = argument[0] if verb == "wrong" else 0
        constants = [(lane + added) % P for lane in before.lanes[me]]
        seats[me] = Seat(setting, me, grids_with(constants, seed, setting.degree))
    for seat in range(setting.shift + 1, setting.seats + 1):
        seats[seat] = Seat(setting, seat, None)
    return seats


def moved_shares(before, seat, errors):
    """What a new member makes of its parts, less the errors: the value at 0 through the first T + 1 of them."""
    right = [[(part - wrong) % P for part, wrong in zip(seat.parts(lane), errors[lane])] for lane in range(5)]
    return [through(list(enumerate(parts[: before.t + 1], 1)))[0] for parts in right]


def move(world, name, m, u, drill_name=None):
    before = Before(world, name, drill_name, lambda n, t: move_setting(n, t, m, u), (m, u))
    n, seats = before.n, moved_seats(before)
    masks = world.phase(before.setting, seats, before.drill)
    in_time(masks, before.sound, n - before.t)
    sound = in_time(masks, undrilled(before.drill, range(n + 1, n + m + 1)), m - u)
    first, errors = seats[sound[0]], []
    for lane in range(5):
        syndrome = first.opened(lane)
        errors.append(error_of(syndrome, n, before.t))
        if errors[lane] is None:
            raise Refused(6, indexes_text(f"lane {lane} syndrome", syndrome))
    shares = {seat - n: moved_shares(before, seats[seat], errors) for seat in sound}
    corrected = [index for index in range(1, n + 1) if any(error[index - 1] for error in errors)]
    texts = [f"move {name} {n} {before.t} to {m} {u} period {before.period + 1}"]
    texts += phase_texts(masks, first.accepted)
    texts.append(indexes_text("corrected", corrected or ["none"]))
    return before.changes(m, u, shares), lines(texts + [indexes_text("shares", shares)])


def seal(world, name, doc_name, box_name):
    now = now_of(world, name)
    if world.get(box_name) is not None:
        raise Refused(4, "exists")
    doc = world.get(doc_name)
    if doc is None:
        raise Refused(3, "nosuch document")
    number = now[4]
    if number == 2**32 - 1:
        raise Refused(8, f"full {number}")
    if len(doc) > 2**26:
        raise Refused(16, f"length {len(doc)}")
    key, _ = recovered(world, now)
    changes = [(name + ".now", now_bytes(*now[:4], number + 1, now[5])), (box_name, box_bytes(key, name, number, doc))]
    return changes, lines([f"seal {name} number {number} bytes {len(doc)}"])


def open_box(world, name, box_name, doc_name):
    now = now_of(world, name)
    if world.get(doc_name) is not None:
        raise Refused(4, "exists")
    box = world.get(box_name)
    if box is None:
        raise Refused(3, "nosuch box")
    key, _ = recovered(world, now)
    found = unsealed(key, name, box)
    if isinstance(found, int):
        raise Refused(7, f"box {found}")
    number, doc = found
    return [(doc_name, doc)], lines([f"open {name} number {number} bytes {len(doc)}"])


def rehearse(world, *values):
    """A key's whole life, over no shelf and no entropy: in each phase a thread is started for each seat."""
    from rehearse import rehearsed, scenes_of

    for scene in scenes_of(*values):
        for _ in range(scene.seats):
            world.call("crew", 12)
    return [], lines(rehearsed(*values)[0])


def rehearse_words(rest):
    """A size, a bound, how many periods come after the first, and the number that all is drawn from."""
    from rehearse import words_read

    values = words_read(rest)
    return values and (lambda world: rehearse(world, *values))


def is_file_word(word):
    data = word.encode()
    ends = word.endswith(".now") or word.endswith(".share")
    return 1 <= len(data) <= 255 and not word.startswith("-") and "\0" not in word and not ends


def sized_words(command, rest):
    """A create or a move: a name, a size and a bound, and perhaps a drill."""
    if len(rest) not in (3, 4) or not is_name(rest[0]):
        return None
    n, t = (plain_number(word.encode(), 100) for word in rest[1:3])
    if n not in SIZES or t is None or not is_bound(n, t) or not all(map(is_file_word, rest[3:])):
        return None
    return lambda world: command(world, rest[0], n, t, *rest[3:])


def command_of(words):
    """The command that these words are, or None."""
    first, rest = (words[0], words[1:]) if words else ("", [])
    if first in ("create", "move"):
        return sized_words({"create": create, "move": move}[first], rest)
    if first == "rehearse":
        return rehearse_words(rest)
    if not rest or not is_name(rest[0]):
        return None
    if first == "refresh" and len(rest) <= 2 and all(map(is_file_word, rest[1:])):
        return lambda world: refresh(world, *rest)
    if first in ("recover", "check") and len(rest) == 1:
        return lambda world: {"recover": recover, "check": check}[first](world, rest[0])
    if first in ("seal", "open") and len(rest) == 3 and all(map(is_file_word, rest[1:])):
        return lambda world: {"seal": seal, "open": open_box}[first](world, *rest)
    return None


def run(world, words):
    """Runs a command. The answer is the status' number and its line."""
    try:
        command = command_of(words)
        if command is None:
            raise Refused(2, "usage")
        changes, text = command(world)
        for name, data in changes:
            world.change(name, data)
        world.put_out(text)
    except Refused as refused:
        return refused.code, str(refused)
    return 0, ""


# Cases, their lines and the lines of what becomes of them.


def digits(data):
    return data.hex() if data else "-"


class Case:
    def __init__(self, label, words, held=None, seeds=(), cut=(), masks=None, **fails):
        self.label, self.words, self.cut, self.masks = label, words.split(), cut, masks
        self.held, self.seeds, self.fails = dict(held or {}), list(seeds), fails

    def under(self, masks):
        """The same case, where these are the masks of its phase."""
        return Case(self.label, " ".join(self.words), self.held, self.seeds, self.cut, masks, **self.fails)

    def where_missing(self, pairs):
        """The same case, where of those that may be heard or not just these aren't, by round and seat, and those that
        post late."""
        return Case(self.label, " ".join(self.words), self.held, self.seeds, pairs, **self.fails)

    def features(self):
        """What has to be built for this case."""
        found, words = {word for word in ("refresh", "move", "rehearse") if self.label.startswith(word)}, self.words
        if command_of(words) is not None:
            if words[0] == "create" and words[2:4] != ["4", "1"]:
                found.add("sizes")
            if words[0] == "create" and len(words) == 5:
                found.add("drills")
            if words[0] in ("seal", "open"):
                found.add("seal")
        return found

    def given(self):
        texts = [f"case {self.label}", " ".join(["words"] + self.words)]
        texts += [f"seed {seed.hex()}" for seed in self.seeds]
        texts += [f"held {name} {digits(data)}" for name, data in self.held.items()]
        for kind in ("shelf", "entropy", "crew", "sink"):
            if kind in self.fails:
                texts.append(" ".join([kind + "_fails"] + [str(number) for number in self.fails[kind]]))
        texts += [f"cut {round_number} {seat}" for round_number, seat in self.cut]
        return texts + ["end"]

    @functools.cached_property
    def outcome(self):
        """The world after the command, the status' number and its line."""
        world = World(self.held, self.seeds, self.fails, self.cut, self.masks)
        return world, *run(world, self.words)

    def ending(self):
        world, code, line = self.outcome
        texts = [f"case {self.label}", f"code {code}", f"line {line}".rstrip()]
        texts += ["text " + text for text in world.told.splitlines()]
        texts += [f"held {name} {digits(world.held[name])}" for name in sorted(world.held, key=str.encode)]
        return texts + [f"left {len(world.seeds)}", "end"]

    def hangs_on_the_schedule(self):
        """Whether a seat posts late in its phase: who is heard may then differ from run to run."""
        return self.outcome[0].late

    def after(self):
        """What is held after the command."""
        return dict(self.outcome[0].held)


# Material for cases: everything follows from labels by SHA-256.


def numbers_of(label):
    for count in itertools.count():
        data = hashlib.sha256(f"{label} {count}".encode()).digest()
        yield int.from_bytes(data[:8], "big")


def elements(label, count):
    return [number % P for number in itertools.islice(numbers_of(label), count)]


def seeds_for(label, count):
    return [hashlib.sha256(f"seed {label} {member}".encode()).digest() for member in range(count)]


def polynomials(label, t):
    coefficients = elements(label, 5 * (t + 1))
    return [coefficients[lane * (t + 1) : (lane + 1) * (t + 1)] for lane in range(5)]


def lanes_at(polys, index):
    return [value_at(poly, index) for poly in polys]


class Key:
    """The files of a key, of version 1 or 2, and ways to spoil them."""

    def __init__(self, n, t, name="k1", period=1, next_number=0, label=None, version=1, holders=None, previous=NO_DIGEST):
        self.n, self.t, self.name, self.period, self.next_number = n, t, name, period, next_number
        self.polys = polynomials(label or f"{name} {n} {t} {period}", t)
        self.link = None
        if version == 2:
            mask = mask_of(range(1, n + 1)) if holders is None else holders
            self.link = link_of(name, n, t, period, mask, previous)
        self.files = {name + ".now": now_bytes(name, n, t, period, next_number, self.link)}
        for index in range(1, n + 1):
            if holders is None or holders >> (index - 1) & 1:
                self.put(index, lanes_at(self.polys, index))

    def file(self, index):
        return share_name(self.name, self.period, index)

    def put(self, index, lanes):
        committee = self.link.committee if self.link else None
        data = share_bytes(self.name, self.n, self.t, index, self.period, lanes, committee)
        self.files[self.file(index)] = data
        return self

    def without(self, *indexes):
        for index in indexes:
            del self.files[self.file(index)]
        return self

    def wrong(self, *indexes, lane=0, by=1):
        for index in indexes:
            lanes = lanes_at(self.polys, index)
            lanes[lane] = (lanes[lane] + by) % P
            self.put(index, lanes)
        return self

    def agreeing(self, *indexes):
        """These files lie on polynomials of another key."""
        others = polynomials("another key", self.t)
        for index in indexes:
            self.put(index, lanes_at(others, index))
        return self

    def damaged(self, index, data):
        self.files[self.file(index)] = data
        return self

    def now(self, data):
        self.files[self.name + ".now"] = data
        return self

    def plus(self, **files):
        self.files.update({name.replace("__", "."): data for name, data in files.items()})
        return self


def resigned(data, place, byte):
    """A file with another byte and a right digest."""
    return signed(data[:place] + bytes([byte]) + data[place + 1 : -32])


def recover_cases():
    """Keys that recover and check find, and keys that they don't."""
    for n, t in ((4, 1), (5, 1), (7, 2), (7, 1), (10, 3), (10, 2), (13, 4), (13, 1)):
        yield Case(f"recover_whole_{n}_{t}", "recover k1", Key(n, t).files)
    yield Case("check_whole_13", "check k1", Key(13, 4).files)
    yield Case("recover_other_period", "recover k1", Key(4, 1, period=12).files)
    yield Case("recover_last_period", "recover k1", Key(4, 1, period=2**32 - 1, next_number=2**32 - 1).files)
    long_name = "abcdefghijklmnopqrstuvwxyz_01234"
    yield Case("recover_long_name", f"recover {long_name}", Key(4, 1, name=long_name).files)
    yield Case("check_name_of_one_digit", "check 7", Key(5, 1, name="7").files)
    yield Case("recover_beside_another_key", "recover k1", {**Key(4, 1).files, **Key(4, 1, name="k2").files})
    yield Case("recover_with_the_files_of_two_periods", "recover k1", {**Key(4, 1, period=2).files, **Key(4, 1).files})
    yield Case("recover_zero_key", "recover k1", Key(4, 1).put(1, [0] * 5).put(2, [0] * 5).put(3, [0] * 5).put(4, [0] * 5).files)
    for index in range(1, 5):
        yield Case(f"recover_missing_{index}", "recover k1", Key(4, 1).without(index).files)
        yield Case(f"check_wrong_{index}", "check k1", Key(4, 1).wrong(index, lane=index).files)
    yield Case("recover_two_missing_of_4", "recover k1", Key(4, 1).without(2, 4).files)
    yield Case("recover_three_missing_of_4", "recover k1", Key(4, 1).without(1, 2, 4).files)
    yield Case("recover_all_missing", "recover k1", Key(4, 1).without(1, 2, 3, 4).files)
    yield Case("check_all_missing", "check k1", Key(4, 1).without(1, 2, 3, 4).files)
    yield Case("recover_two_wrong_of_4", "recover k1", Key(4, 1).wrong(1, 2).files)
    yield Case("check_two_wrong_of_4_in_the_last_lane", "check k1", Key(4, 1).wrong(1, 2, lane=4).files)
    yield Case("recover_one_missing_one_wrong_of_4", "recover k1", Key(4, 1).without(1).wrong(3).files)
    yield Case("recover_wrong_in_two_lanes", "recover k1", Key(4, 1).wrong(2, lane=0).wrong(2, lane=3, by=P - 1).files)
    yield Case("recover_two_wrong_in_different_lanes", "recover k1", Key(4, 1).wrong(1, lane=0).wrong(4, lane=2).files)
    yield Case("recover_three_agree_on_another_key", "recover k1", Key(4, 1).agreeing(1, 3, 4).files)
    yield Case("recover_two_wrong_of_7", "recover k1", Key(7, 2).wrong(1, 7).files)
    yield Case("recover_three_wrong_of_7", "recover k1", Key(7, 2).wrong(1, 4, 7).files)
    yield Case("recover_two_missing_one_wrong_of_7", "recover k1", Key(7, 2).without(2, 3).wrong(6, lane=1).files)
    yield Case("recover_three_missing_one_wrong_of_7", "recover k1", Key(7, 2).without(2, 3, 5).wrong(6, lane=1).files)
    yield Case("recover_four_missing_of_7", "recover k1", Key(7, 2).without(1, 2, 3, 4).files)
    yield Case("recover_five_missing_of_7", "recover k1", Key(7, 2).without(1, 2, 3, 4, 5).files)
    yield Case("recover_two_wrong_of_7_1", "recover k1", Key(7, 1).wrong(3, 5).files)
    yield Case("recover_two_wrong_one_missing_of_7_1", "recover k1", Key(7, 1).wrong(3, 5).without(1).files)
    yield Case("recover_three_wrong_of_10", "recover k1", Key(10, 3).wrong(2, 5, 9, lane=2).files)
    yield Case("recover_four_wrong_of_13", "recover k1", Key(13, 4).wrong(1, 2, 12, 13).files)
    yield Case("recover_five_wrong_of_13", "recover k1", Key(13, 4).wrong(1, 2, 3, 12, 13, lane=1).files)
    yield Case("check_eight_missing_of_13", "check k1", Key(13, 4).without(1, 2, 3, 5, 6, 7, 9, 11).files)
    yield Case("check_nine_missing_of_13", "check k1", Key(13, 4).without(1, 2, 3, 5, 6, 7, 9, 11, 13).files)


def damaged_cases():
    """Share files that are none of their member."""
    share = Key(4, 1).files["k1.1.3.share"]
    lanes = lanes_at(Key(4, 1).polys, 3)
    spoiled = {
        "empty": b"",
        "four_bytes": share[:4],
        "one_byte_less": share[:-1],
        "one_byte_more": share + b"\0",
        "magic": b"DKNW" + share[4:],
        "version": resigned(share, 4, 3),
        "digest": share[:-1] + bytes([share[-1] ^ 1]),
        "byte_before_the_digest": share[:83] + bytes([share[83] ^ 128]) + share[84:],
        "another_size": share_bytes("k1", 5, 1, 3, 1, lanes),
        "bound_0": resigned(share, 6, 0),
        "bound_2": resigned(share, 6, 2),
        "index_4": share_bytes("k1", 4, 1, 4, 1, lanes),
        "index_0": resigned(share, 7, 0),
        "index_5": resigned(share, 7, 5),
        "period_0": share_bytes("k1", 4, 1, 3, 0, lanes),
        "period_2": share_bytes("k1", 4, 1, 3, 2, lanes),
        "another_name": share_bytes("k2", 4, 1, 3, 1, lanes),
        "capital_in_name": resigned(share, 12, ord("K")),
        "byte_behind_the_name": resigned(share, 43, 1),
        "lane_p": share_bytes("k1", 4, 1, 3, 1, lanes[:4] + [P]),
        "lane_p_and_the_share": share_bytes("k1", 4, 1, 3, 1, [lanes[0] + P] + lanes[1:]),
        "lane_of_64_bits": share_bytes("k1", 4, 1, 3, 1, [2**64 - 1] + lanes[1:]),
        "now_file": now_bytes("k1", 4, 1, 1, 0),
    }
    for what, data in spoiled.items():
        yield Case(f"check_damaged_{what}", "check k1", Key(4, 1).damaged(3, data).files)
    swapped = Key(4, 1)
    swapped.files["k1.1.1.share"], swapped.files["k1.1.2.share"] = (
        swapped.files["k1.1.2.share"],
        swapped.files["k1.1.1.share"],
    )
    yield Case("recover_swapped_files", "recover k1", swapped.files)


def now_cases():
    """Now files that are none of the key."""
    now = now_bytes("k1", 4, 1, 1, 0)
    spoiled = {
        "empty": b"",
        "four_bytes": now[:4],
        "four_bytes_of_another_kind": b"DKSH",
        "five_bytes": now[:5],
        "five_bytes_of_another_kind": b"DKSH\x01",
        "five_bytes_of_another_version": b"DKNW\x07",
        "one_byte_less": now[:-1],
        "one_byte_more": now + b"\0",
        "magic": b"DKN" + bytes([0]) + now[4:],
        "version": resigned(now, 4, 3),
        "version_and_length": resigned(now, 4, 0)[:-2],
        "digest": now[:47] + b"\1" + now[48:],
        "digest_and_field": now[:5] + b"\6" + now[6:],
        "size_6": resigned(now, 5, 6),
        "size_0": resigned(now, 5, 0),
        "size_15": resigned(now, 5, 15),
        "bound_0": resigned(now, 6, 0),
        "bound_2": resigned(now, 6, 2),
        "byte_7": resigned(now, 7, 1),
        "period_0": resigned(now, 11, 0),
        "another_name": now_bytes("k2", 4, 1, 1, 0),
        "longer_name": now_bytes("k11", 4, 1, 1, 0),
        "no_name": now_bytes("", 4, 1, 1, 0),
        "capital_in_name": resigned(now, 16, ord("K")),
        "byte_behind_the_name": resigned(now, 47, ord("a")),
        "share_file": Key(4, 1).files["k1.1.1.share"],
    }
    for what, data in spoiled.items():
        yield Case(f"recover_now_{what}", "recover k1", Key(4, 1).now(data).files)
    yield Case("check_now_foreign", "check k1", Key(4, 1).now(now_bytes("k2", 4, 1, 1, 0)).files)
    yield Case("recover_now_says_another_bound", "recover k1", Key(7, 2).now(now_bytes("k1", 7, 1, 1, 0)).files)
    yield Case("recover_now_says_another_period", "recover k1", Key(4, 1).now(now_bytes("k1", 4, 1, 2, 0)).files)
    yield Case("recover_nothing_held", "recover k9")
    yield Case("check_nothing_held", "check k9")
    only_shares = {name: data for name, data in Key(4, 1).files.items() if name != "k1.now"}
    yield Case("recover_no_now", "recover k1", only_shares)


def tied_cases():
    """Files of version 2: whole, and with files that aren't of the committee."""
    for n, t in ((4, 1), (5, 1), (7, 2), (10, 3), (13, 4)):
        key = Key(n, t, period=3, next_number=9, version=2, previous=committee_digest("k1", n, t, 2, 2**n - 1, NO_DIGEST))
        yield Case(f"tied_recover_{n}", "recover k1", key.files)
        yield Case(f"tied_seal_{n}", "seal k1 doc box", key.plus(doc=b"x").files)
    yield Case("tied_recover_holders_but_one", "recover k1", Key(4, 1, version=2, holders=0b1011).files)
    yield Case("tied_check_a_member_mended_later", "check k1", Key(4, 1, version=2, holders=0b1011).put(3, lanes_at(Key(4, 1).polys, 3)).files)
    yield Case("tied_recover_one_missing_one_wrong_of_7", "recover k1", Key(7, 2, version=2).without(1).wrong(3).files)
    yield Case("tied_recover_two_wrong_of_4", "recover k1", Key(4, 1, version=2).wrong(1, 2).files)
    yield Case("tied_seal_full", "seal k1 doc box", Key(4, 1, next_number=2**32 - 1, version=2).plus(doc=b"x").files)
    for number in (6, 7, 8):
        files = Key(4, 1, version=2).plus(doc=b"x").files
        yield Case(f"tied_seal_shelf_fails_{number}", "seal k1 doc box", files, shelf=[number])
    sealed = Case("", "seal k1 doc box", Key(4, 1, version=2).plus(doc=b"Meet at noon.\n").files).after()
    yield Case("tied_seal_again", "seal k1 doc box2", sealed)
    yield Case("tied_open", "open k1 box out", sealed)
    created_files = Case("", "create k1 4 1 d", {"d": b"2 1 skew 5\n"}, seeds_for("tied", 4)).after()
    yield Case("tied_check_created_with_a_drill", "check k1", created_files)
    yield Case("tied_seal_created_with_a_drill", "seal k1 d box", created_files)


def tied_share_cases():
    """Share files beside a now file of version 2, or of version 1, that aren't of its committee."""
    key = Key(4, 1, version=2)
    share, committee = key.files["k1.1.3.share"], key.link.committee
    lanes = lanes_at(key.polys, 3)

    def other(n=4, t=1, period=1, holders=15, previous=NO_DIGEST, name="k1"):
        return share_bytes("k1", 4, 1, 3, 1, lanes, committee_digest(name, n, t, period, holders, previous))

    spoiled = {
        "version_1": share_bytes("k1", 4, 1, 3, 1, lanes),
        "one_bit_of_the_committee": resigned(share, 84, committee[0] ^ 1),
        "last_bit_of_the_committee": resigned(share, 115, committee[31] ^ 128),
        "zeros_for_the_committee": share_bytes("k1", 4, 1, 3, 1, lanes, NO_DIGEST),
        "other_holders": other(holders=7),
        "a_committee_before": other(previous=committee),
        "the_committee_of_another_name": other(name="k2"),
        "the_committee_of_another_size": other(n=5),
        "the_committee_of_another_period": other(period=2),
        "another_member": share_bytes("k1", 4, 1, 4, 1, lanes, committee),
        "another_period": share_bytes("k1", 4, 1, 3, 2, lanes, committee),
        "digest": share[:-1] + bytes([share[-1] ^ 1]),
        "116_bytes": signed(share[:84]),
        "one_byte_less": share[:-1],
        "one_byte_more": share + b"\0",
        "version_3": resigned(share, 4, 3),
        "version_1_with_a_committee": resigned(share, 4, 1),
        "lane_p": share_bytes("k1", 4, 1, 3, 1, lanes[:4] + [P], committee),
    }
    for what, data in spoiled.items():
        yield Case(f"tied_check_damaged_{what}", "check k1", Key(4, 1, version=2).damaged(3, data).files)
    yield Case("check_damaged_version_2", "check k1", Key(4, 1).damaged(3, share).files)
    yield Case("check_all_of_version_2", "check k1", {**key.files, "k1.now": now_bytes("k1", 4, 1, 1, 0)})
    yield Case("tied_check_all_of_version_1", "check k1", {**Key(4, 1).files, "k1.now": key.files["k1.now"]})


def tied_now_cases():
    """Now files of version 2 that are none of the key."""
    now = Key(4, 1, version=2).files["k1.now"]
    right = link_of("k1", 4, 1, 1, 15)

    def with_link(holders, committee, previous=NO_DIGEST):
        return now_bytes("k1", 4, 1, 1, 0, Link(holders, committee, previous))

    spoiled = {
        "one_bit_of_the_digest": resigned(now, 52, now[52] ^ 1),
        "last_bit_of_the_digest": resigned(now, 83, now[83] ^ 128),
        "one_bit_of_the_digest_before": resigned(now, 115, 1),
        "zeros_for_the_digest": with_link(15, NO_DIGEST),
        "the_digest_of_other_holders": with_link(15, link_of("k1", 4, 1, 1, 7).committee),
        "the_digest_of_another_name": with_link(15, link_of("k2", 4, 1, 1, 15).committee),
        "the_digest_of_another_bound": with_link(15, link_of("k1", 4, 2, 1, 15).committee),
        "the_digest_of_another_period": with_link(15, link_of("k1", 4, 1, 2, 15).committee),
        "a_holder_above": with_link(31, link_of("k1", 4, 1, 1, 31).committee),
        "a_holder_above_for_one_below": with_link(0b10111, link_of("k1", 4, 1, 1, 0b10111).committee),
        "the_highest_bit": with_link(2**31 + 15, link_of("k1", 4, 1, 1, 2**31 + 15).committee),
        "two_holders": with_link(3, link_of("k1", 4, 1, 1, 3).committee),
        "no_holders": with_link(0, link_of("k1", 4, 1, 1, 0).committee),
        "80_bytes": signed(now[:48]),
        "one_byte_less": now[:-1],
        "one_byte_more": now + b"\0",
        "version_1_and_148_bytes": resigned(now, 4, 1),
        "version_3": resigned(now, 4, 3),
        "digest": now[:-1] + bytes([now[-1] ^ 1]),
        "another_name": now_bytes("k2", 4, 1, 1, 0, link_of("k2", 4, 1, 1, 15)),
        "size_6": resigned(now, 5, 6),
        "period_0": now_bytes("k1", 4, 1, 0, 0, link_of("k1", 4, 1, 0, 15)),
        "another_period": resigned(now, 11, 2),
        "another_size": resigned(now, 5, 5),
    }
    for what, data in spoiled.items():
        yield Case(f"tied_recover_now_{what}", "recover k1", Key(4, 1, version=2).now(data).files)
    least = now_bytes("k1", 4, 1, 1, 0, link_of("k1", 4, 1, 1, 7))
    yield Case("tied_recover_now_of_three_holders", "recover k1", Key(4, 1, version=2, holders=7).now(least).files)
    later = now_bytes("k1", 4, 1, 1, 0, link_of("k1", 4, 1, 1, 15, right.committee))
    yield Case("tied_check_now_of_another_history", "check k1", Key(4, 1, version=2).now(later).files)


def usage_cases():
    """Words that are no command, now or later."""
    spoiled = [
        "",
        "help",
        "--help",
        "Recover k1",
        "recover",
        "recover K1",
        "recover k1 k1",
        "recover k1 --help",
        "recover k-1",
        "recover k1.now",
        "recover abcdefghijklmnopqrstuvwxyz_012345",
        "recover \u00e9",
        "check",
        "check k1 4",
        "check -k1",
        "create",
        "create k1",
        "create k1 4",
        "create k1 4 1 --help",
        "create k1 4 1 d d",
        "create k1 4 1 d.now",
        "create k1 4 1 .share",
        "create k1 4 1 " + 256 * "d",
        "create K1 4 1",
        "create k1 6 1",
        "create k1 4 2",
        "create k1 4 0",
        "create k1 7 3",
        "create k1 13 5",
        "create k1 15 1",
        "create k1 04 1",
        "create k1 4 01",
        "create k1 +4 1",
        "create k1 4294967300 1",
        "create k1 4 4294967297",
        "create k1 1 4",
        "create 4 1 k1",
        "seal k1 doc",
        "seal k1 doc box more",
        "seal k1 -doc box",
        "seal k1 doc k1.now",
        "seal K1 doc box",
        "open k1 box",
        "open k1 box k1.1.1.share",
        "open k1 box --",
        "recover_key k1",
    ]
    for number, words in enumerate(spoiled):
        yield Case(f"usage_{number}", words, Key(4, 1).files if number % 8 == 4 else None, seeds_for("usage", number % 2))


def fault_cases():
    """Recover and check over an outside that fails."""
    for number in (0, 1, 4, 5, 6):
        yield Case(f"recover_shelf_fails_{number}", "recover k1", Key(4, 1).files, shelf=[number])
    yield Case("check_shelf_fails_13", "check k1", Key(13, 4).files, shelf=[13])
    yield Case("recover_shelf_fails_late", "recover k1", Key(4, 1).files, shelf=[5, 6, 7, 8, 9, 18446744073709551615])
    yield Case("recover_sink_fails_0", "recover k1", Key(4, 1).files, sink=[0])
    yield Case("recover_sink_fails_1", "recover k1", Key(4, 1).files, sink=[1])
    yield Case("recover_all_fail", "recover k1", Key(4, 1).files, shelf=[0], sink=[0], entropy=[0])
    yield Case("recover_refused_before_the_sink", "recover k1", Key(4, 1).wrong(1, 2).files, sink=[0])
    yield Case("recover_bad_now_before_the_shelf", "recover k1", Key(4, 1).now(b"").files, shelf=[1])
    yield Case("recover_takes_no_seed", "recover k1", Key(4, 1).files, seeds_for("none", 2), entropy=[0, 1])
    yield Case("usage_before_all_faults", "recover", Key(4, 1).files, shelf=[0], sink=[0], entropy=[0])


def create_cases():
    """Creates of 4 members without a drill."""
    words, seeds = "create k1 4 1", seeds_for("create", 4)
    repeated = [bytes([byte]) * 32 for byte in (1, 2, 3, 4)]
    yield Case("create", words, None, seeds)
    yield Case("create_repeated_bytes", words, None, repeated)
    yield Case("recover_created_of_repeated_bytes", "recover k1", Case("", words, None, repeated).after())
    yield Case("create_zero_seeds", words, None, [bytes(32)] * 4)
    yield Case("create_one_seed_for_all", words, None, [seeds[2]] * 4)
    yield Case("create_seeds_left", words, None, seeds_for("create", 6))
    yield Case("create_another_name", "create the_key_of_2026 4 1", Key(4, 1).files, seeds)
    yield Case("recover_created", "recover k1", Case("", words, None, seeds).after())
    left = {
        "k1.1.1.share": b"left",
        "k1.1.9.share": b"left",
        "k1.1.15.share": b"",
        "k1.1.16.share": b"kept",
        "k1.1.01.share": b"kept",
        "k1.2.1.share": b"kept",
        "k1.10.1.share": b"kept",
        "k2.now": b"kept",
        "k2.1.1.share": b"",
        "K1.now": b"kept",
        "letter.txt": b"kept\n",
    }
    yield Case("create_removes_what_was_left", words, left, seeds)
    yield Case("create_exists", words, Key(4, 1).files, seeds)
    yield Case("create_exists_whatever_it_is", words, {"k1.now": b""}, seeds)
    yield Case("create_exists_without_seeds", words, {"k1.now": b"x"})
    yield Case("create_no_seeds", words)
    yield Case("create_three_seeds", words, left, seeds[:3])
    for number in (0, 1, 2, 3, 4):
        yield Case(f"create_entropy_fails_{number}", words, None, seeds, entropy=[number])
    yield Case("create_exists_where_entropy_fails", words, {"k1.now": b"x"}, seeds, entropy=[0, 1])
    yield Case("create_entropy_fails_later", words, None, seeds + seeds, entropy=[4, 5, 7])
    for number in (0, 1, 7, 15, 16, 17, 19, 20, 21):
        yield Case(f"create_shelf_fails_{number}", words, left, seeds, shelf=[number])
    for number in range(5):
        yield Case(f"create_crew_fails_{number}", words, left, seeds, crew=[number])
    yield Case("create_entropy_and_crew_fail", words, None, seeds, entropy=[3], crew=[0])
    yield Case("create_crew_and_shelf_fail", words, None, seeds, shelf=[1], crew=[2])
    yield Case("create_cut_of_no_seat", words, None, seeds, cut=[(1, 0), (1, 5), (6, 1), (0, 1), (2**32 - 1, 2**32 - 1)])
    yield Case("create_exists_where_crew_fails", words, {"k1.now": b"x"}, seeds, crew=[0])
    yield Case("create_sink_fails_0", words, left, seeds, sink=[0])
    yield Case("create_sink_fails_1", words, None, seeds, sink=[1])
    yield Case("create_shelf_and_sink_fail", words, None, seeds, shelf=[20], sink=[0])
    yield Case("create_entropy_and_shelf_fail", words, None, seeds, shelf=[1], entropy=[0])
    stopped = Case("", words, left, seeds, shelf=[19]).after()
    yield Case("create_after_a_stopped_create", words, stopped, seeds_for("again", 4))
    yield Case("recover_after_a_stopped_create", "recover k1", stopped)


def size_cases():
    """Creates of all sizes without a drill."""
    for n, t in ((5, 1), (7, 1), (7, 2), (10, 1), (10, 2), (10, 3), (13, 1), (13, 4)):
        seeds = seeds_for(f"create {n} {t}", n + 1)
        case = Case(f"create_{n}_{t}", f"create k1 {n} {t}", None, seeds)
        yield case
        yield Case(f"check_created_{n}_{t}", "check k1", case.after())
    yield Case("create_7_entropy_fails_6", "create k1 7 2", None, seeds_for("7", 7), entropy=[6])
    yield Case("create_7_six_seeds", "create k1 7 2", None, seeds_for("7", 6))
    yield Case("create_7_shelf_fails_22", "create k1 7 2", None, seeds_for("7", 7), shelf=[22])
    yield Case("create_7_shelf_fails_23", "create k1 7 2", None, seeds_for("7", 7), shelf=[23])
    yield Case("create_7_shelf_fails_24", "create k1 7 2", None, seeds_for("7", 7), shelf=[24])


def drilled(label, n, t, *drill, **fails):
    """A create with a drill of these lines."""
    held = {"d": lines(drill).encode()}
    return Case(f"drill_{label}", f"create k1 {n} {t} d", held, seeds_for(f"drill {n} {t}", n), **fails)


def drill_cases():
    """Creates with a drill: each verb in each round where it has one, and mixtures."""
    for round_number in range(1, 6):
        for verb in ("silent", "late", "garble"):
            yield drilled(f"{verb}_{round_number}", 4, 1, f"2 {round_number} {verb}")
    for round_number in (1, 2, 4):
        for party in (1, 3):
            yield drilled(f"skew_{round_number}_by_{party}", 4, 1, f"{party} {round_number} skew 5")
    for k in (0, 1, P - 1):
        yield drilled(f"skew_{k}", 4, 1, f"4 1 skew {k}")
    yield drilled("accuse", 4, 1, "3 3 accuse 1")
    yield drilled("accuse_upwards", 4, 1, "3 3 accuse 4")
    yield drilled("veto", 4, 1, "1 5 veto")
    yield drilled("empty", 4, 1)
    yield drilled("remarks_alone", 4, 1, "# nobody", "", "#")
    yield drilled("remarks_between", 4, 1, "", "# 9 9 silent", "2 5 veto", "")
    yield drilled("skew_then_silent", 4, 1, "2 1 skew 5", "2 4 silent")
    yield drilled("skew_then_late", 4, 1, "2 1 skew 5", "2 4 late")
    yield drilled("skew_then_garble", 4, 1, "2 1 skew 5", "2 4 garble")
    yield drilled("skew_then_skewed_reveal", 4, 1, "2 1 skew 5", "2 4 skew 9")
    yield drilled("skew_then_skewed_reveal_that_undoes_it", 4, 1, "2 1 skew 5", "2 4 skew 5")
    yield drilled("skew_then_no_complaint", 4, 1, "2 1 skew 5", "2 3 garble", "2 5 veto")
    yield drilled("accuse_then_skewed_reveal", 4, 1, "3 3 accuse 1", "3 4 skew 2")
    yield drilled("accuse_and_skewed_cross", 4, 1, "1 2 skew 3", "1 3 accuse 2")
    yield drilled("accuse_another_than_the_skewed", 4, 1, "1 2 skew 3", "1 3 accuse 4")
    yield drilled("garbled_deal_then_accuse", 4, 1, "4 1 garble", "4 3 accuse 2", "4 5 veto")
    yield drilled("every_round", 4, 1, "2 1 skew 1", "2 2 skew 2", "2 3 accuse 4", "2 4 skew 3", "2 5 veto")
    yield drilled("out_of_the_order_of_rounds", 4, 1, "2 5 veto", "2 1 skew 7")
    yield drilled("after_it_is_out", 4, 1, "2 2 silent", "2 3 accuse 1", "2 5 veto")
    yield drilled("7_silent_and_veto", 7, 2, "3 1 silent", "5 5 veto")
    yield drilled("7_skews_against_one", 7, 2, "2 1 skew 5", "3 2 skew 5")
    yield drilled("7_accuse_each_other", 7, 2, "2 3 accuse 6", "6 3 accuse 2")
    yield drilled("7_skewed_deal_and_veto", 7, 2, "2 1 skew 5", "4 5 veto")
    yield drilled("7_skewed_deal_and_silent_reveal", 7, 2, "2 1 skew 5", "2 4 silent", "1 5 veto")
    yield drilled("7_one_accuses_at_bound_1", 7, 1, "7 3 accuse 1")
    yield drilled("5_skewed_cross", 5, 1, "5 2 skew 1")
    yield drilled("10_three", 10, 3, "1 1 skew 2", "1 4 skew 2", "5 3 accuse 1", "10 4 late")
    yield drilled("13_four_garbled_crosses", 13, 4, "1 2 garble", "2 2 garble", "3 2 garble", "4 2 garble")
    yield drilled("13_four", 13, 4, "1 1 skew 3", "4 3 accuse 1", "8 5 veto", "12 2 garble", "12 4 silent")
    words, held = "create k1 4 1 d", {"d": b"2 1 skew 5\n"}
    seeds = seeds_for("drill 4 1", 4)
    yield Case("drill_cut_where_it_is_silent", words, {"d": b"2 1 skew 5\n2 4 silent\n"}, seeds, cut=[(4, 2), (5, 2)])
    yield Case("drill_no_last_line_feed", words, {"d": b"3 5 veto"}, seeds)
    yield Case("drill_check_after_skew", "check k1", Case("", words, held, seeds).after())
    yield Case("drill_recover_after_skew", "recover k1", Case("", words, held, seeds).after())
    yield Case("drill_entropy_fails_3", words, held, seeds, entropy=[3])
    yield Case("drill_missing_where_entropy_fails", "create k1 4 1 e", held, seeds, entropy=[0, 1])
    yield Case("drill_line_where_entropy_fails", words, {"d": b"2 1 skew 5\n2 6 silent\n"}, seeds, entropy=[0, 1])
    for number in (0, 1, 2, 16, 17, 19, 20, 21):
        yield Case(f"drill_shelf_fails_{number}", words, held, seeds, shelf=[number])
    yield Case("drill_sink_fails_0", words, held, seeds, sink=[0])
    yield Case("drill_file_is_a_removed_share_name_of_another_key", "create k1 4 1 k1.1.3.shares", {"k1.1.3.shares": b""}, seeds)


def random_drill(numbers, n, t):
    """Some lines for at most t members."""
    parties = sorted(range(1, n + 1), key=lambda _: next(numbers))[: 1 + next(numbers) % t]
    drill = []
    for party in parties:
        for round_number in range(1, 6):
            if next(numbers) % 5 < 3:
                drill.append(random_line(numbers, n, party, round_number))
    return drill


def random_line(numbers, n, party, round_number):
    if next(numbers) % 8 == 0:
        return f"{party} {round_number} " + ("silent", "late", "garble")[next(numbers) % 3]
    if round_number == 3:
        other = 1 + (party + next(numbers) % (n - 1)) % n
        return f"{party} 3 accuse {other}"
    if round_number == 5:
        return f"{party} 5 veto"
    return f"{party} {round_number} skew {next(numbers) % 3}"


def random_drill_cases():
    numbers = numbers_of("drills")
    for count in range(48):
        n, t = ((4, 1), (5, 1), (7, 2), (7, 2), (7, 1), (10, 3))[count % 6]
        yield drilled(f"random_{count}", n, t, *random_drill(numbers, n, t))


def refused_drill_cases():
    """Drills that are refused."""
    spoiled = [
        b"2 5 skew 1",
        b"2 3 skew 1",
        b"2 1 accuse 1",
        b"2 4 veto",
        b"2 1 wrong 1",
        b"2 6 silent",
        b"2 6 skew 1",
        b"2 0 silent",
        b"2 18446744073709551615 silent",
        b"2 18446744073709551616 silent",
        b"2 1 skew",
        b"2 1 skew 1 1",
        b"2 1 silent 1",
        b"2 5 veto 1",
        b"2 3 accuse",
        b"2 3 accuse 2",
        b"2 3 accuse 0",
        b"2 3 accuse 5",
        b"2 3 accuse 01",
        b"2 1 skew 2305843009213693951",
        b"2 1 skew 2305843009213693950",
        b"2 1 skew -1",
        b"2 1 skew 01",
        b"02 1 silent",
        b"2 01 silent",
        b"+2 1 silent",
        b"2 1 Silent",
        b"2 1 mute",
        b"2 1",
        b"2",
        b" ",
        b" 2 1 silent",
        b"2 1 silent ",
        b"2  1 silent",
        b"2 1 silent\r",
        b"2\t1\tsilent",
        b"2 1 silent\x00",
        b"\xff",
        b" # no remark",
        b"5 1 silent",
        b"0 1 silent",
        b"5 0 silent",
        b"5 9 skew",
        b"5 1 silent \xff\xfe",
        b"5 3 accuse 9",
        b"5 1 veto 1 1",
        b"5 1 silent ",
        b"5 1 mute",
        b"5 18446744073709551615 wrong 1",
        b"5 18446744073709551616 wrong 1",
        b"18446744073709551615 1 silent",
        b"18446744073709551616 1 silent",
        b"99999999999999999999999999 1 silent",
        b"05 1 silent",
        b"2 1 silent\n2 1 silent",
        b"2 1 skew 1\n# remark\n\n2 1 silent",
        b"2 1 silent\n2 2 late\n2 1 garble\n9 1 silent",
        b"# remark\n\n9 1 silent\n2 9 silent",
        b"# remark\n\n2 9 silent\n9 1 silent",
        b"2 1 silent\n3 1 silent",
        b"2 1 silent\n3 1 silent\n4 1 silent\n1 1 silent",
        b"2 1 silent\n3 1 silent\n3 1 late",
        b"2 1 silent\n3 1 silent\n9 1 late",
    ]
    seeds = seeds_for("refused", 4)
    for number, text in enumerate(spoiled):
        yield Case(f"drill_refused_{number}", "create k1 4 1 d", {"d": text}, seeds)
    yield drilled("three_of_bound_2", 7, 2, "1 1 silent", "2 1 silent", "7 1 silent")
    yield drilled("stranger_8_of_7", 7, 2, "8 1 silent")
    yield Case("drill_missing", "create k1 4 1 d", None, seeds)
    yield Case("drill_missing_and_no_seeds", "create k1 4 1 d")
    yield Case("drill_exists_before_missing", "create k1 4 1 d", {"k1.now": b""}, seeds)
    yield Case("drill_exists_before_refused", "create k1 4 1 d", {"k1.now": b"", "d": b"x"}, seeds)
    yield Case("drill_refused_before_seeds", "create k1 4 1 d", {"d": b"x"})
    yield Case("drill_refused_before_the_shelf", "create k1 4 1 d", {"d": b"x"}, seeds, shelf=[2])


def seal_cases():
    """Sealed documents."""
    letter = b"Meet at noon.\n"
    files = Key(4, 1).plus(letter__txt=letter).files
    yield Case("seal", "seal k1 letter.txt letter.box", files)
    for size in (0, 1, 63, 64, 65, 200):
        doc = b"".join(number_bytes(number % 256, 1) for number in itertools.islice(numbers_of(f"doc {size}"), size))
        yield Case(f"seal_{size}_bytes", "seal k1 doc box", Key(5, 1, next_number=size).plus(doc=doc).files)
    yield Case("seal_last_number", "seal k1 doc box", Key(4, 1, next_number=2**32 - 2).plus(doc=b"x").files)
    yield Case("seal_full", "seal k1 doc box", Key(4, 1, next_number=2**32 - 1).plus(doc=b"x").files)
    yield Case("seal_full_before_key", "seal k1 doc box", Key(4, 1, next_number=2**32 - 1).plus(doc=b"x").wrong(1, 2).files)
    yield Case("seal_of_13_with_four_wrong", "seal k1 doc box", Key(13, 4, period=3).plus(doc=b"x").wrong(1, 2, 3, 4).files)
    yield Case("seal_no_key", "seal k1 doc box", Key(4, 1).plus(doc=b"x").wrong(2, 3, lane=2).files)
    yield Case("seal_no_document", "seal k1 doc box", Key(4, 1).files)
    yield Case("seal_no_document_before_full", "seal k1 doc box", Key(4, 1, next_number=2**32 - 1).files)
    yield Case("seal_box_exists", "seal k1 doc box", Key(4, 1).plus(doc=b"x", box=b"").files)
    yield Case("seal_box_exists_before_no_document", "seal k1 doc box", Key(4, 1).plus(box=b"").files)
    yield Case("seal_into_itself", "seal k1 doc doc", Key(4, 1).plus(doc=b"x").files)
    yield Case("seal_nothing_into_itself", "seal k1 doc doc", Key(4, 1).files)
    yield Case("seal_no_now", "seal k1 doc box", {"doc": b"x", "box": b""})
    yield Case("seal_bad_now", "seal k1 doc box", Key(4, 1).now(b"DKNW").plus(doc=b"x", box=b"").files)
    yield Case("seal_now_itself_is_no_word", "seal k1 k1.now box", Key(4, 1).files)
    for number in range(9):
        yield Case(f"seal_shelf_fails_{number}", "seal k1 letter.txt letter.box", files, shelf=[number])
    yield Case("seal_shelf_fails_9", "seal k1 letter.txt letter.box", files, shelf=[9])
    yield Case("seal_sink_fails_0", "seal k1 letter.txt letter.box", files, sink=[0])
    yield Case("seal_takes_no_seed", "seal k1 letter.txt letter.box", files, seeds_for("none", 2), entropy=[0, 1])


def open_cases():
    """Opened boxes, and bytes that are no box."""
    key = Key(4, 1)
    lanes = [poly[0] for poly in key.polys]
    doc = b"Meet at noon.\n"
    box = box_bytes(lanes, "k1", 7, doc)
    sealed = Case("", "seal k1 doc box", Key(4, 1).plus(doc=doc).files).after()
    yield Case("open_sealed", "open k1 box out", sealed)
    yield Case("open_takes_no_seed", "open k1 box out", sealed, seeds_for("none", 2), entropy=[0, 1])
    yield Case("open_sealed_twice", "open k1 box out", Case("", "open k1 box out", sealed).after())
    yield Case("open", "open k1 box out", Key(4, 1).plus(box=box).files)
    yield Case("open_with_one_wrong", "open k1 box out", Key(4, 1).plus(box=box).wrong(4, lane=1).files)
    yield Case("open_empty", "open k1 box out", Key(4, 1).plus(box=box_bytes(lanes, "k1", 2**32 - 1, b"")).files)
    yield Case("open_long", "open k1 box out", Key(4, 1).plus(box=box_bytes(lanes, "k1", 258, doc * 20)).files)
    spoiled = {
        "empty": b"",
        "79_bytes": box[:79],
        "79_bytes_of_another_kind": b"X" + box[1:79],
        "80_bytes": box[:80],
        "magic": b"DKB2" + box[4:],
        "one_byte_less": box[:-1],
        "one_byte_more": box + b"\0",
        "length": box[:15] + b"\x0f" + box[16:],
        "large_length": box[:8] + b"\xff" * 8 + box[16:],
        "length_and_name": box[:15] + b"\x0f" + b"K" + box[17:],
        "another_name": box_bytes(lanes, "k2", 7, doc),
        "byte_behind_the_name": box[:47] + b"\1" + box[48:],
        "number": box[:7] + b"\x08" + box[8:],
        "sealed_byte": box[:50] + bytes([box[50] ^ 1]) + box[51:],
        "tag": box[:-1] + bytes([box[-1] ^ 1]),
        "another_key": box_bytes([lane + 1 for lane in lanes], "k1", 7, doc),
    }
    for what, data in spoiled.items():
        yield Case(f"open_bad_{what}", "open k1 box out", Key(4, 1).plus(box=data).files)
    yield Case("open_no_box", "open k1 box out", Key(4, 1).files)
    yield Case("open_exists", "open k1 box out", Key(4, 1).plus(box=box, out=b"").files)
    yield Case("open_exists_before_no_box", "open k1 box out", Key(4, 1).plus(out=b"").files)
    yield Case("open_into_itself", "open k1 box box", Key(4, 1).plus(box=box).files)
    yield Case("open_no_key_before_bad_box", "open k1 box out", Key(4, 1).plus(box=b"").without(1).wrong(2).files)
    yield Case("open_no_now", "open k1 box out", {"box": box})
    yield Case("open_bad_now", "open k1 box out", Key(4, 1).now(now_bytes("k2", 4, 1, 1, 0)).plus(box=box).files)
    for number in range(9):
        yield Case(f"open_shelf_fails_{number}", "open k1 box out", Key(4, 1).plus(box=box).files, shelf=[number])
    yield Case("open_sink_fails_0", "open k1 box out", Key(4, 1).plus(box=box).files, sink=[0])


def tied_key(n, t, period=3, next_number=7, **more):
    """A key whose files are of version 2, with a committee before."""
    before = committee_digest("k1", n, t, period - 1, 2**n - 1, NO_DIGEST)
    return Key(n, t, period=period, next_number=next_number, version=2, previous=before, **more)


def stray_files(period):
    """Files beside a key of this period: those that a step to the next period removes, and those that it keeps."""
    names = []
    for at in (period - 1, period, period + 1):
        names += [share_name("k1", at, index) for index in (2, 9, 15, 16)] + [f"k1.{at}.03.share"]
    names += [share_name("k1", period - 2, 1), share_name("k1", period + 2, 1), share_name("k2", period, 1)]
    return {name: b"left" for name in [*names, "k2.now", "k1.now2", "letter.txt"]}


def step_cases(words, label, rounds):
    """What a refresh and a move of 4 members have in common: refusals, what is left, and an outside that fails."""
    key, seeds = tied_key(4, 1), seeds_for(label, 4)
    yield Case(f"{label}_nothing_held", words, None, seeds)
    yield Case(f"{label}_no_now", words, {name: data for name, data in key.files.items() if name != "k1.now"}, seeds)
    yield Case(f"{label}_bad_now", words, tied_key(4, 1).now(b"DKNW").files, seeds)
    yield Case(f"{label}_now_of_another_name", words, tied_key(4, 1).now(now_bytes("k2", 4, 1, 3, 7)).files, seeds)
    yield Case(f"{label}_two_missing", words, tied_key(4, 1).without(1, 3).files, seeds)
    yield Case(f"{label}_all_missing", words, tied_key(4, 1).without(1, 2, 3, 4).files)
    yield Case(f"{label}_missing_and_drilled", words + " d", tied_key(4, 1).without(2).plus(d=b"4 1 silent").files, seeds)
    yield Case(f"{label}_missing_is_drilled", words + " d", tied_key(4, 1).without(2).plus(d=b"2 1 silent\n2 5 garble").files, seeds)
    yield Case(f"{label}_full", words, Key(4, 1, period=2**32 - 1).files, seeds)
    yield Case(f"{label}_full_without_seeds", words, Key(4, 1, period=2**32 - 1).files)
    yield Case(f"{label}_too_few_before_full", words, Key(4, 1, period=2**32 - 1).without(2, 4).files)
    yield Case(f"{label}_to_the_last_period", words, Key(4, 1, period=2**32 - 2, next_number=2**32 - 1).files, seeds)
    yield Case(f"{label}_drill_missing", words + " d", key.files, seeds)
    yield Case(f"{label}_drill_missing_before_too_few", words + " d", tied_key(4, 1).without(1, 2).files)
    yield Case(f"{label}_drill_refused_before_too_few", words + " d", tied_key(4, 1).without(1, 2).plus(d=b"x").files)
    yield Case(f"{label}_too_few_before_seeds", words + " d", tied_key(4, 1).without(1).plus(d=b"2 2 late").files)
    yield Case(f"{label}_three_seeds", words, key.files, seeds[:3])
    yield Case(f"{label}_three_seeds_for_three_files", words, tied_key(4, 1).without(1).files, seeds[:3])
    yield Case(f"{label}_seeds_left", words, key.files, seeds_for(label, 6))
    yield Case(f"{label}_one_seed_for_all", words, key.files, [seeds[1]] * 4)
    for number in (0, 3, 4):
        yield Case(f"{label}_entropy_fails_{number}", words, key.files, seeds, entropy=[number])
    held = {**stray_files(3), **key.files}
    yield Case(f"{label}_removes_what_was_left", words, held, seeds)
    yield Case(f"{label}_sink_fails_0", words, held, seeds, sink=[0])
    for number in (0, 3, 30):
        yield Case(f"{label}_crew_fails_{number}", words, held, seeds, crew=[number])
    # The calls: the now file, four share files, 30 removals, four puts, the now file, 15 removals.
    for number in (0, 1, 4, 5, 19, 20, 34, 35, 38, 39, 40, 54, 55):
        yield Case(f"{label}_shelf_fails_{number}", words, held, seeds, shelf=[number])
    for number in (12, 37, 39, 40, 47):
        stopped = Case("", words, held, seeds, shelf=[number]).after()
        yield Case(f"{label}_recover_after_a_stop_at_{number}", "recover k1", stopped)
        yield Case(f"{label}_again_after_a_stop_at_{number}", words, stopped, seeds_for("again", 5))
    yield Case(f"{label}_one_wrong_share", words, tied_key(4, 1).wrong(2).files, seeds)
    for what, data in {
        "empty": b"",
        "version_1": Key(4, 1, period=3).files["k1.3.2.share"],
        "another_committee": tied_key(4, 1, holders=7).files["k1.3.2.share"],
        "another_member": key.files["k1.3.3.share"],
    }.items():
        yield Case(f"{label}_damaged_{what}", words, tied_key(4, 1).damaged(2, data).files, seeds)
    for text in ("5 9 silent", f"1 {rounds + 1} silent", "1 1 silent\n2 1 silent", "3 5 accuse 1", "1 4 veto", "2 2 wrong 1"):
        name = "_".join(text.split())
        yield Case(f"{label}_drill_{name}", words + " d", tied_key(4, 1).plus(d=text.encode()).files, seeds)


def refreshed(label, n, t, *drill, without=()):
    """A refresh with a drill of these lines."""
    files = tied_key(n, t).without(*without).plus(d=lines(drill).encode()).files
    return Case(f"refresh_drill_{label}", "refresh k1 d", files, seeds_for(f"refresh {n} {t}", n))


def refresh_cases():
    """Refreshes of all sizes, with files that are none, and with drills."""
    for words in ("refresh", "refresh K1", "refresh k1 d d", "refresh k1 -d", "refresh k1 d.now", "refresh k1 4 1 d"):
        yield Case("refresh_usage_" + "_".join(words.split()), words, Key(4, 1).files)
    for n, t in ((4, 1), (5, 1), (7, 1), (7, 2), (10, 1), (10, 3), (13, 2), (13, 4)):
        case = Case(f"refresh_{n}_{t}", "refresh k1", tied_key(n, t).files, seeds_for("refresh", n + 1))
        yield case
        yield Case(f"refresh_{n}_{t}_then_recover", "recover k1", case.after())
    plain = Case("refresh_of_version_1", "refresh k1", Key(4, 1).files, seeds_for("refresh", 4))
    yield plain
    yield Case("refresh_of_version_1_then_recover", "recover k1", plain.after())
    yield Case("refresh_again", "refresh k1", plain.after(), seeds_for("again", 4))
    files = Case("", "create k1 4 1", None, seeds_for("create", 4)).after()
    yield Case("refresh_created", "refresh k1", files, seeds_for("refresh", 4))
    files = Case("", "create k1 4 1 d", {"d": b"2 1 skew 5\n"}, seeds_for("create", 4)).after()
    yield Case("refresh_created_with_a_drill", "refresh k1", files, seeds_for("refresh", 4))
    yield Case("refresh_created_with_a_drill_and_another", "refresh k1 e", {**files, "e": b"4 1 silent\n"}, seeds_for("refresh", 4))
    yield Case("refresh_zero_key", "refresh k1", Key(4, 1).put(1, [0] * 5).put(2, [0] * 5).put(3, [0] * 5).put(4, [0] * 5).files, seeds_for("refresh", 4))
    yield from step_cases("refresh k1", "refresh", 5)
    held = {**tied_key(4, 1).files, "k1.2.3.share": b"left", "k1.4.2.share": b"left"}
    for number in range(57):
        yield Case(f"refresh_drilled_shelf_fails_{number}", "refresh k1 d", {**held, "d": b"2 1 skew 5"}, seeds_for("refresh", 4), shelf=[number])
    yield Case("refresh_7_two_missing", "refresh k1", tied_key(7, 2).without(1, 6).files, seeds_for("refresh", 5))
    yield Case("refresh_7_three_missing", "refresh k1", tied_key(7, 2).without(1, 2, 6).files, seeds_for("refresh", 7))
    yield Case("refresh_13_four_missing", "refresh k1", tied_key(13, 4).without(1, 5, 9, 13).files, seeds_for("refresh", 9))
    yield refreshed("empty", 4, 1)
    for verb in ("silent", "late", "garble"):
        for round_number in (1, 2, 3, 4, 5):
            yield refreshed(f"{verb}_{round_number}", 4, 1, f"3 {round_number} {verb}")
    for round_number in (1, 2, 4):
        yield refreshed(f"skew_{round_number}", 4, 1, f"1 {round_number} skew 5")
    yield refreshed("accuse", 4, 1, "3 3 accuse 1")
    yield refreshed("veto", 4, 1, "1 5 veto")
    yield refreshed("skew_then_silent", 4, 1, "2 1 skew 5", "2 4 silent")
    yield refreshed("skew_then_skewed_reveal", 4, 1, "2 1 skew 5", "2 4 skew 9")
    yield refreshed("7_one_away_and_one_skewed", 7, 2, "3 1 skew 2", "3 4 garble", without=(5,))
    yield refreshed("7_one_away_and_one_accuses_it", 7, 2, "2 3 accuse 5", without=(5,))
    yield refreshed("13_two_away_and_two_drilled", 13, 4, "1 1 skew 3", "12 2 garble", without=(4, 13))
    numbers = numbers_of("refresh drills")
    for count in range(12):
        n, t = ((4, 1), (7, 2), (10, 3))[count % 3]
        away = (1 + next(numbers) % n,) if t > 1 else ()
        drill = random_drill(numbers, n, t - len(away))
        yield refreshed(f"random_{count}", n, t, *drill, without=away)


def moved(label, n, t, m, u, *drill, without=(), wrong=()):
    """A move with a drill of these lines."""
    files = tied_key(n, t).wrong(*wrong, lane=2).without(*without).plus(d=lines(drill).encode()).files
    return Case(f"move_drill_{label}", f"move k1 {m} {u} d", files, seeds_for(f"move {n} {t}", n))


def random_move_line(numbers, n, m, seat, round_number):
    if next(numbers) % 8 == 0:
        return f"{seat} {round_number} " + ("silent", "late", "garble")[next(numbers) % 3]
    k, other = next(numbers) % 3, 1 + next(numbers) % m
    verb = {1: "wrong", 4: "skew"} if seat <= n else {2: "skew", 3: "accuse", 5: "veto", 6: "skew"}
    if round_number not in verb:
        return f"{seat} {round_number} garble"
    if verb[round_number] == "accuse":
        return f"{seat} 3 accuse {other if n + other != seat else 1 + other % m}"
    return f"{seat} {round_number} " + (f"{verb[round_number]} {k}" if round_number != 5 else "veto")


def random_move_drill(numbers, n, t, m, u):
    """Some lines for at most t old and u new members."""
    drill = []
    for first, size, bound in ((1, n, t), (n + 1, m, u)):
        seats = sorted(range(first, first + size), key=lambda _: next(numbers))[: next(numbers) % (bound + 1)]
        for seat in seats:
            for round_number in range(1, 7):
                if next(numbers) % 5 < 2:
                    drill.append(random_move_line(numbers, n, m, seat, round_number))
    return drill


def move_drill_cases():
    """Moves with a drill: seats 1 to 4 are the old members, 5 to 8 the new ones."""
    yield moved("empty", 4, 1, 4, 1)
    for verb in ("silent", "late", "garble"):
        for seat, round_number in ((2, 1), (2, 2), (2, 4), (2, 6), (6, 1), (6, 2), (6, 3), (6, 4), (6, 5), (6, 6)):
            yield moved(f"{verb}_{round_number}_by_{seat}", 4, 1, 4, 1, f"{seat} {round_number} {verb}")
    for line in ("1 1 skew 5", "5 2 skew 5", "8 2 skew 5", "3 4 skew 5", "5 6 skew 5", "8 6 skew 0", "3 1 wrong 7", "3 1 wrong 0", "6 3 accuse 1", "6 3 accuse 4", "7 5 veto"):
        yield moved("_".join(line.split()), 4, 1, 4, 1, line)
    yield moved("wrong_and_skewed_values", 4, 1, 4, 1, "2 1 wrong 3", "8 6 skew 1")
    yield moved("wrong_and_skewed_reveal", 4, 1, 4, 1, "2 1 wrong 3", "2 4 skew 1", "7 3 accuse 1")
    yield moved("skew_then_silent", 4, 1, 7, 2, "2 1 skew 5", "2 4 silent", "9 5 veto", "11 6 silent")
    yield moved("two_skewed_values", 4, 1, 7, 2, "5 6 skew 1", "11 6 skew 1")
    yield moved("skewed_values_and_none", 4, 1, 7, 2, "5 6 skew 7", "9 6 garble")
    yield moved("wrong_by_both_of_7", 7, 2, 7, 2, "1 1 wrong 1", "2 1 wrong 2305843009213693950", "8 6 skew 3", "14 6 skew 3")
    yield moved("wrong_and_late", 4, 1, 5, 1, "3 1 wrong 2", "3 5 late", "9 6 late")
    yield moved("silent_where_another_share_is_wrong", 4, 1, 4, 1, "4 1 late", wrong=(1,))
    yield moved("silent_later_where_another_share_is_wrong", 4, 1, 4, 1, "4 5 silent", wrong=(1,))
    yield moved("7_wrong_and_away", 7, 2, 5, 1, "3 1 wrong 9", "10 6 skew 4", without=(6,))
    yield moved("7_one_share_wrong_and_one_away", 7, 2, 4, 1, without=(6,), wrong=(1,))
    yield moved("7_wrong_and_away_and_a_wrong_share", 7, 2, 4, 1, "3 1 wrong 9", without=(6,), wrong=(1,))
    yield moved("13_to_13_eight", 13, 4, 13, 4, "1 1 wrong 1", "5 1 silent", "13 4 skew 2", "14 2 garble", "20 3 accuse 13", "26 6 skew 1", without=(9,))
    for text in ("3 6 skew 1", "7 1 skew 1", "7 4 skew 1", "7 1 wrong 1", "2 2 skew 1", "2 3 accuse 1", "2 5 veto", "6 3 accuse 2", "6 3 accuse 5", "9 1 silent"):
        yield moved("refused_" + "_".join(text.split()), 4, 1, 4, 1, text)
    yield moved("two_old", 4, 1, 4, 1, "1 1 silent", "4 1 silent")
    yield moved("two_new", 4, 1, 4, 1, "5 1 silent", "8 1 silent")
    yield moved("two_of_each", 4, 1, 7, 2, "1 1 silent", "2 1 silent", "5 1 silent", "6 1 silent", "7 1 silent")
    yield moved("three_new_of_bound_2", 4, 1, 7, 2, "5 1 silent", "6 1 silent", "7 1 silent", "1 1 silent")
    numbers = numbers_of("move drills")
    for count in range(16):
        n, t, m, u = ((4, 1, 4, 1), (7, 2, 4, 1), (4, 1, 7, 2), (7, 2, 5, 1))[count % 4]
        away = (1 + next(numbers) % n,) if t > 1 else ()
        yield moved(f"random_{count}", n, t, m, u, *random_move_drill(numbers, n, t - len(away), m, u), without=away)


def move_cases():
    """Moves between all sizes, with shares that are wrong or missing, and with drills."""
    for words in ("move", "move k1", "move k1 4", "move k1 6 1", "move k1 4 2", "move k1 7 3", "move K1 4 1", "move k1 4 1 d d", "move k1 4 1 -d", "move k1 05 1", "move k1 15 4"):
        yield Case("move_usage_" + "_".join(words.split()), words, Key(4, 1).files)
    largest = ((4, 1), (5, 1), (7, 2), (10, 3), (13, 4))
    for (n, t), (m, u) in [*itertools.product(largest, largest), ((7, 1), (10, 2)), ((13, 2), (7, 1)), ((10, 1), (13, 3))]:
        case = Case(f"move_{n}_{t}_to_{m}_{u}", f"move k1 {m} {u}", tied_key(n, t).files, seeds_for("move", n + 1))
        yield case
        yield Case(f"move_{n}_{t}_to_{m}_{u}_then_recover", "recover k1", case.after())
    plain = Case("move_of_version_1", "move k1 5 1", Key(4, 1).files, seeds_for("move", 4))
    yield plain
    yield Case("move_of_version_1_then_recover", "recover k1", plain.after())
    yield Case("move_again", "move k1 4 1", plain.after(), seeds_for("again", 5))
    yield Case("move_then_refresh", "refresh k1", plain.after(), seeds_for("again", 5))
    files = Case("", "create k1 4 1 d", {"d": b"2 1 skew 5\n"}, seeds_for("create", 4)).after()
    yield Case("move_created_with_a_drill", "move k1 4 1", files, seeds_for("move", 4))
    yield from step_cases("move k1 4 1", "move", 6)
    yield Case("move_wrong_in_two_lanes", "move k1 5 1", Key(4, 1).wrong(2, lane=0).wrong(2, lane=3, by=P - 1).files, seeds_for("move", 4))
    yield Case("move_wrong_in_different_lanes", "move k1 5 1", Key(4, 1).wrong(1, lane=0).wrong(4, lane=2).files, seeds_for("move", 4))
    yield Case("move_two_wrong", "move k1 5 1", Key(4, 1).wrong(1, 2).files, seeds_for("move", 4))
    yield Case("move_two_wrong_in_the_last_lane", "move k1 7 2", Key(4, 1).wrong(1, 2, lane=4).files, seeds_for("move", 4))
    yield Case("move_one_missing_one_wrong", "move k1 4 1", Key(4, 1).wrong(1, lane=1).without(2).files, seeds_for("move", 4))
    yield Case("move_7_two_wrong", "move k1 5 1", Key(7, 2).wrong(1, 7).files, seeds_for("move", 7))
    yield Case("move_7_three_wrong", "move k1 5 1", Key(7, 2).wrong(1, 3, 7).files, seeds_for("move", 7))
    yield Case("move_7_two_wrong_at_bound_1", "move k1 5 1", Key(7, 1).wrong(1, 7).files, seeds_for("move", 7))
    yield Case("move_7_two_missing", "move k1 13 4", Key(7, 2).without(1, 2).files, seeds_for("move", 7))
    yield Case("move_three_agree_on_another_key", "move k1 4 1", Key(4, 1).agreeing(1, 3, 4).files, seeds_for("move", 4))
    yield Case("move_10_three_wrong", "move k1 4 1", Key(10, 3).wrong(2, 5, 9, lane=2).files, seeds_for("move", 10))
    yield Case("move_13_four_wrong", "move k1 4 1", Key(13, 4).wrong(1, 2, 12, 13).files, seeds_for("move", 13))
    yield Case("move_13_five_wrong", "move k1 4 1", Key(13, 4).wrong(1, 2, 3, 12, 13, lane=1).files, seeds_for("move", 13))
    yield Case("move_two_wrong_before_the_shelf", "move k1 5 1", Key(4, 1).wrong(1, 2).files, seeds_for("move", 4), shelf=[5], sink=[0])
    yield Case("move_zero_key", "move k1 5 1", Key(4, 1).put(1, [0] * 5).put(2, [0] * 5).put(3, [0] * 5).put(4, [0] * 5).files, seeds_for("move", 4))
    yield from worked_moves()
    yield from move_fault_cases()
    yield from move_life_cases()
    yield from move_drill_cases()


def worked_moves():
    """The moves of 7 + 3x whose every number was worked out by hand: a dealer of another share, and two wrong shares."""
    held = {**sample_key(10, 13, 16, 19).files, "d": b"1 1 wrong 1\n"}
    wrong = Case("move_worked_one_wrong", "move k1 7 2 d", held, seeds_for("worked", 4))
    yield wrong
    yield Case("move_worked_one_wrong_then_recover", "recover k1", wrong.after())
    yield Case("move_worked_two_wrong", "move k1 7 2", sample_key(11, 14, 16, 19).files, seeds_for("worked", 4))
    late = {**sample_key(11, 13, 16, 19).files, "d": b"4 1 late\n"}
    yield Case("move_worked_one_wrong_and_one_late", "move k1 4 1 d", late, seeds_for("worked", 4))


def move_fault_cases():
    """A move of 4 members to 5 with a drill, whose every call of the shelf fails once: the now file, four share files, the
    drill, 30 removals, four puts, the now file, 15 removals. And an entropy, a crew and a sink that fail."""
    held = {**tied_key(4, 1).files, "k1.2.3.share": b"left", "k1.4.5.share": b"left", "d": b"2 1 wrong 5\n9 6 skew 1\n"}
    words, seeds = "move k1 5 1 d", seeds_for("move", 4)
    for number in range(57):
        yield Case(f"move_drilled_shelf_fails_{number}", words, held, seeds, shelf=[number])
    for number in range(5):
        yield Case(f"move_drilled_entropy_fails_{number}", words, held, seeds, entropy=[number])
    for number in (0, 4, 8, 9):
        yield Case(f"move_drilled_crew_fails_{number}", words, held, seeds, crew=[number])
    for number in range(2):
        yield Case(f"move_drilled_sink_fails_{number}", words, held, seeds, sink=[number])
    yield Case("move_no_seeds", "move k1 5 1", tied_key(4, 1).files)


def move_life_cases():
    """Moves behind a refresh and before one, and a document that goes along."""
    doc = b"Meet at noon.\n"
    sealed = Case("", "seal k1 doc box", tied_key(4, 1).plus(doc=doc).files).after()
    first = Case("move_sealed", "move k1 7 2", sealed, seeds_for("life", 4))
    yield first
    yield Case("move_then_open", "open k1 box out", first.after())
    yield Case("move_then_seal", "seal k1 doc box2", first.after())
    refreshed_files = Case("", "refresh k1", first.after(), seeds_for("life", 7)).after()
    lost = {name: data for name, data in refreshed_files.items() if name not in ("k1.5.2.share", "k1.5.7.share")}
    second = Case("move_after_refresh", "move k1 4 1", lost, seeds_for("life", 5))
    yield second
    yield Case("move_after_refresh_then_recover", "recover k1", second.after())
    third = Case("move_then_refresh_again", "refresh k1", second.after(), seeds_for("life", 4))
    yield third
    yield Case("move_life_then_open", "open k1 box out", third.after())
    yield Case("move_life_then_check", "check k1", third.after())


def rehearse_cases():
    """Lives of keys from a number, with nothing on the shelf, something there, and an outside that fails."""
    lives = ("4 1 1 0", "4 1 1 4294967295", "4 1 8 1", "4 1 5 123456789", "5 1 4 2", "7 1 3 3", "7 2 7 4", "10 1 3 5")
    lives += ("10 2 4 6", "10 3 3 7", "13 1 2 8", "13 4 6 9")
    for number, words in enumerate(lives):
        yield Case(f"rehearse_{number}", "rehearse " + words)
    for number, words in enumerate(("4 1 0 0", "4 1 65 0", "4 1 1 4294967296", "4 2 1 0", "6 1 1 0", "4 1 1", "k1 4 1 1 0")):
        yield Case(f"rehearse_usage_{number}", "rehearse " + words)
    words = "rehearse 4 1 3 2"
    yield Case("rehearse_beside_a_key", words, Key(4, 1).files, seeds_for("rehearse", 4), shelf=[0], entropy=[0])
    yield Case("rehearse_sink_fails", words, sink=[0])
    for number in (0, 3, 4, 20, 21):
        yield Case(f"rehearse_crew_fails_{number}", words, Key(4, 1).files if number == 4 else None, crew=[number])


def all_cases():
    for cases in (
        recover_cases,
        damaged_cases,
        now_cases,
        tied_cases,
        tied_share_cases,
        tied_now_cases,
        usage_cases,
        fault_cases,
        create_cases,
        size_cases,
        drill_cases,
        random_drill_cases,
        refused_drill_cases,
        seal_cases,
        open_cases,
        refresh_cases,
        move_cases,
        rehearse_cases,
    ):
        yield from cases()


# Sample shelves of version 2: folders of files, and what the program must write over them.


def shelf_cases():
    key = Key(4, 1, period=3, version=2, previous=committee_digest("k1", 4, 1, 2, 15, NO_DIGEST))
    yield Case("tied", "recover k1", key.files)
    yield Case("tied_thirteen_check", "check k1", Key(13, 4, version=2).wrong(2, 9).without(5, 13).files)
    stray = Key(7, 2, version=2)
    other = Key(7, 2, version=2, holders=0b1011111).files["k1.1.4.share"]
    yield Case("tied_share_of_another_committee_check", "check k1", stray.damaged(4, other).files)
    yield Case("tied_and_share_of_version_1_check", "check k1", stray.damaged(4, Key(7, 2).files["k1.1.4.share"]).files)
    now = Key(4, 1, version=2).files["k1.now"]
    yield Case("tied_now_of_another_committee", "recover k1", Key(4, 1, version=2).now(resigned(now, 52, now[52] ^ 1)).files)


def write_shelves(folder):
    for case in shelf_cases():
        world = World(case.held, case.seeds, case.fails)
        code, line = run(world, case.words)
        shelf = os.path.join(folder, case.label, "shelf")
        os.makedirs(shelf, exist_ok=True)
        written = {"args": lines(case.words), "status": lines([str(code)]), "stdout": world.told, "stderr": lines([line]) if code else ""}
        for name, text in written.items():
            with open(os.path.join(folder, case.label, name), "w", encoding="utf-8", newline="\n") as out:
                out.write(text)
        for name, data in case.held.items():
            with open(os.path.join(shelf, name), "wb") as out:
                out.write(data)
    return 0


# Values that others published or worked out by hand.


def created(n, t, *drill):
    """The lines that a create prints, without the first."""
    return Case("", f"create k1 {n} {t} d", {"d": lines(drill).encode()}, seeds_for("any", n)).ending()[4:12]


def round_lines(*masks):
    return [f"text round {number} mask {mask}" for number, mask in enumerate(masks, 1)]


def sample_key(*first_lane):
    key = Key(4, 1)
    for index, share in enumerate(first_lane, 1):
        key.put(index, [share, 0, 0, 0, 0])
    return key


def endings(case):
    return case.ending()[1:-2]


def checks():
    """Pairs of what is checked and whether it comes out."""
    words = list(itertools.islice(chacha_words(bytes(32)), 4))
    yield "RFC 8439, appendix A.1, first words", words == [0xADE0B876, 0x903DF1A0, 0xE56A5D40, 0x28BD8653]
    source = chacha_words(bytes(32))
    yield "the first two draws", [drawn(source), drawn(source)] == [0x103DF1A0ADE0B876, 0x08BD8653E56A5D40]
    grid = [[5, 2], [1, 3]]
    yield "5 + x + 2y + 3xy", row_of(grid, 1) == [7, 4] and column_of(grid, 2) == [7, 8]
    yield "7 + 3x", through([(1, 10), (2, 13)]) == [7, 3]
    yield "7 + 3x with one wrong", nearest([10, 13, 99, 19], 1) == [7, 3]
    yield "7 + 3x with two missing", nearest([None, None, 16, 19], 1) == [7, 3]
    yield "one missing, one wrong", nearest([None, 13, 99, 19], 1) is None
    yield "three missing", nearest([None, None, None, 19], 1) is None
    share = share_bytes("k1", 4, 1, 1, 1, [10, 0, 0, 0, 0])
    front = bytes.fromhex("444b53480104010100000001" + "6b31") + bytes(30) + bytes(7) + b"\x0a" + bytes(32)
    yield "a share file", share[:84] == front and len(share) == 116
    yield "a share file less a byte", envelope_fault(b"DKSH", 116, share[:115]) == SHORT
    yield "a share file and a byte", envelope_fault(b"DKSH", 116, share + b"\0") == EXTRA
    yield "a now file reads back", read_now(now_bytes("k1", 4, 1, 1, 0)) == ("k1", 4, 1, 1, 0, None)
    yield from tied_checks()
    tag = hmac.new(b"Jefe", b"what do ya want for nothing?", hashlib.sha256).hexdigest()
    yield "RFC 4231, case 2", tag == "5bdcc146bf60754e6a042426089575c75a003f089d2739839dec58b964ec3843"
    empty = box_bytes([1, 2, 3, 4, 5], "k1", 0, b"")
    yield "an empty document's box", len(empty) == 80 and unsealed([1, 2, 3, 4, 5], "k1", empty) == (0, b"")
    key = "text key 133e7f97ad4b6a1fc1bebc9e6a35d495f3de8d4df7615d75d074b69f4d1ec0c3"
    ok = [f"text member {index} ok" for index in range(1, 5)]
    whole = endings(Case("", "recover k1", sample_key(10, 13, 16, 19).files))
    yield "the key 7, 0, 0, 0, 0", [key] + ok == [whole[7]] + whole[3:7]
    wrong = endings(Case("", "recover k1", sample_key(10, 13, 99, 19).files))
    yield "the same with a wrong share", wrong[3:8] == ok[:2] + ["text member 3 wrong", ok[3], key]
    lost = endings(Case("", "recover k1", sample_key(10, 13, 99, 19).without(1).files))
    yield "and one missing as well", lost[:2] == ["code 6", "line refused 6 lane 0"]
    repeated = [bytes([byte]) * 32 for byte in (1, 2, 3, 4)]
    after = Case("", "create k1 4 1", None, repeated).after()
    made = Case("", "recover k1", after).ending()
    found = "text key e39a69c229a5f7107d42fc6b86e467b611279a1c57d1dfa4befdb8b2ee23bd95" in made
    yield "the key of seeds of repeated bytes", found
    yield from drill_checks()
    yield from refresh_checks()
    yield from move_checks()


def tied_checks():
    """Files of version 2."""
    seeds = seeds_for("any", 4)
    made = Case("", "create k1 4 1", None, seeds).after()
    now = made["k1.now"]
    yield "five files of 148 bytes", len(made) == 5 and all(len(data) == 148 for data in made.values())
    yield "all four hold a share file", now[48:52] == bytes([0, 0, 0, 15]) and now[84:116] == bytes(32)
    whole = b"\4k1" + bytes(30) + b"\4\1" + bytes([0, 0, 0, 1]) + bytes([0, 0, 0, 15]) + bytes(32)
    yield "the committee's digest", now[52:84] == hashlib.sha256(whole).digest() == made["k1.1.2.share"][84:116]
    strayed = dict(made)
    strayed["k1.1.3.share"] = resigned(made["k1.1.3.share"], 90, made["k1.1.3.share"][90] ^ 4)
    checked = Case("", "check k1", strayed).ending()
    yield "a share file of another committee", "text member 3 damaged" in checked and "text member 4 ok" in checked
    strayed = {**made, "k1.now": resigned(now, 52, now[52] ^ 1)}
    yield "a now file with another digest", endings(Case("", "recover k1", strayed))[:2] == ["code 15", "line refused 15 now 4"]


def drill_checks():
    """Drills worked out by hand."""
    plain = created(4, 1)
    yield "honest members", plain[:7] == round_lines(15, 15, 15, 15, 15) + ["text accepted 20 of 20", "text shares 1 2 3 4"]
    skew = created(4, 1, "2 1 skew 5")
    yield "a skewed deal is revealed", skew[:7] == round_lines(15, 15, 15, 15, 15) + ["text accepted 20 of 20", "text shares 1 3 4"]
    silent = created(4, 1, "2 1 skew 5", "2 4 silent")
    yield "a skewed deal and no reveal", silent[:7] == round_lines(15, 15, 15, 13, 13) + ["text accepted 15 of 20", "text shares 1 3 4"]
    accuse = created(4, 1, "3 3 accuse 1")
    yield "a false complaint", accuse[:7] == round_lines(15, 15, 15, 15, 15) + ["text accepted 20 of 20", "text shares 1 2 4"]
    two = created(7, 2, "3 1 silent", "5 5 veto")
    yield "one silent, one veto", two[:7] == round_lines(123, 123, 123, 123, 123) + ["text accepted 35 of 35", "text shares 1 2 4 6 7"]
    for text, line in (
        ("2 1 silent\n3 1 silent\n", "drill named 2 bound 1"),
        ("2 5 skew 1\n", "drill line 1"),
        ("5 1 silent\n", "drill stranger 5"),
    ):
        case = Case("", "create k1 4 1 d", {"d": text.encode()}, seeds_for("any", 4))
        yield line, endings(case)[:2] == ["code 9", f"line refused 9 {line}"]
    for words in ("", "create K1 4 1", "create k1 6 1", "create k1 4 2", "create k1 04 1", "create k1 4 1 --help"):
        yield f"usage: {words}", endings(Case("", words))[:2] == ["code 2", "line refused 2 usage"]


def key_line(files):
    """The line that recover prints of the key."""
    return [text for text in Case("", "recover k1", files).ending() if text.startswith("text key ")]


def dealt_refresh(*numbers):
    """The shares of 4 members after a refresh, in the first lane: their grids are these numbers, their shares 7 + 3j."""
    setting = refresh_setting(4, 1)
    seats = {me: Seat(setting, me, [[[number]]] * 5) for me, number in enumerate(numbers, 1)}
    play(setting, seats, {})
    return [7 + 3 * me + me * seat.shares()[0] for me, seat in seats.items()]


def refresh_checks():
    """Refreshes worked out by hand."""
    yield "grids that add up to 4", dealt_refresh(1, 1, 1, 1) == [14, 21, 28, 35] == dealt_refresh(0, 4, 0, 0)
    made = Case("", "create k1 4 1", None, seeds_for("any", 4)).after()
    step = Case("", "refresh k1", made, seeds_for("other", 4))
    texts = ["text refresh k1 4 1 period 2", *round_lines(15, 15, 15, 15, 15), "text accepted 20 of 20", "text shares 1 2 3 4"]
    yield "a refresh after a create", step.ending()[3:11] == texts
    names = ["k1.2.1.share", "k1.2.2.share", "k1.2.3.share", "k1.2.4.share", "k1.now"]
    yield "the files of the new period alone", sorted(step.after()) == names
    yield "the same key", len(key_line(made)) == 1 and key_line(made) == key_line(step.after())
    yield "other shares", made["k1.1.2.share"][44:84] != step.after()["k1.2.2.share"][44:84]
    yield "55 calls of the shelf", endings(Case("", "refresh k1", made, seeds_for("other", 4), shelf=[54]))[1] == "line refused 10 shelf" and endings(Case("", "refresh k1", made, seeds_for("other", 4), shelf=[55]))[0] == "code 0"
    now, before = step.after()["k1.now"], made["k1.now"]
    yield "the committee before", now[84:116] == before[52:84] and now[48:52] == bytes([0, 0, 0, 15])
    first = Case("", "refresh k1", sample_key(10, 13, 16, 19).files, seeds_for("other", 4)).after()
    yield "of version 1 to version 2", all(len(data) == 148 for data in first.values()) and first["k1.now"][84:116] == bytes(32)
    known = ["text key 133e7f97ad4b6a1fc1bebc9e6a35d495f3de8d4df7615d75d074b69f4d1ec0c3"]
    yield "the key 7, 0, 0, 0, 0 after it", key_line(first) == known
    skewed_create = Case("", "create k1 4 1 d", {"d": b"2 1 skew 5\n"}, seeds_for("any", 4)).after()
    held = {**skewed_create, "d": b"4 1 silent\n"}
    yield "two sound members", endings(Case("", "refresh k1 d", held, seeds_for("other", 3)))[1] == "line refused 5 sound 2 needed 3"
    last = Key(4, 1, period=2**32 - 1)
    yield "the last period", endings(Case("", "refresh k1", last.files, seeds_for("other", 4)))[1] == "line refused 8 full 4294967295"
    stopped = Case("", "refresh k1", made, seeds_for("other", 4), shelf=[39])
    yield "a stop at the now file", endings(stopped)[1] == "line refused 10 shelf" and stopped.after()["k1.now"] == before and key_line(stopped.after()) == key_line(made)
    again = Case("", "refresh k1", stopped.after(), seeds_for("third", 4))
    yield "again after it", sorted(again.after()) == names and key_line(again.after()) == key_line(made)
    late = Case("", "refresh k1", made, seeds_for("other", 4), sink=[0])
    yield "a sink that fails", endings(late)[:2] == ["code 13", "line refused 13 sink"] and sorted(late.after()) == names


def move_checks():
    """Moves worked out by hand."""
    sixth, third = pow(6, P - 2, P), pow(3, P - 2, P)
    yield "syndrome of 11, 13, 16, 19", syndrome_of([11, 13, 16, 19], 1) == [384307168202282325] * 2 == [P - sixth] * 2
    yield "its error", error_of([384307168202282325] * 2, 4, 1) == [1, 0, 0, 0]
    far = syndrome_of([11, 14, 16, 19], 1)
    yield "syndrome of 11, 14, 16, 19", far == [1537228672809129301, 384307168202282326] == [third, 5 * sixth % P]
    yield "it has no error", error_of(far, 4, 1) is None
    held = {**sample_key(10, 13, 16, 19).files, "d": b"1 1 wrong 1\n"}
    step = Case("", "move k1 7 2 d", held, seeds_for("any", 4))
    texts = ["text move k1 4 1 to 7 2 period 2", *round_lines(*[2047] * 6), "text accepted 20 of 20", "text corrected 1"]
    yield "a dealer of another share", step.ending()[3:13] == texts + ["text shares 1 2 3 4 5 6 7"]
    known = ["text key 133e7f97ad4b6a1fc1bebc9e6a35d495f3de8d4df7615d75d074b69f4d1ec0c3"]
    yield "the same key", key_line(step.after()) == known
    two = Case("", "move k1 7 2", sample_key(11, 14, 16, 19).files, seeds_for("any", 4))
    yield "two wrong shares", two.ending()[1:4] == [
        "code 6",
        "line refused 6 lane 0 syndrome 1537228672809129301 384307168202282326",
        "held k1.1.1.share " + two.held["k1.1.1.share"].hex(),
    ]
    yield "nothing has changed, and the seeds are taken", two.after() == two.held and two.ending()[-2] == "left 0"
    late = Case("", "move k1 4 1 d", {**sample_key(11, 13, 16, 19).files, "d": b"4 1 late"}, seeds_for("any", 4))
    yield "one wrong and one that is out", endings(late)[0] == "code 6"
    in_time = Case("", "move k1 4 1", sample_key(11, 13, 16, 19).files, seeds_for("any", 4))
    yield "and without the drill", endings(in_time)[0] == "code 0" and "text corrected 1" in in_time.ending()
    yield "the weights 2 and -1", through([(1, 11 - 1), (2, 13)])[0] == 2 * (11 - 1) - 13 == 7
    yield from stopped_move_checks()
    yield from pair_checks()
    yield from session_checks()


def stopped_move_checks():
    """A move of 4 members to 5 that is stopped: its calls are those of a refresh, with a put for each new member."""
    held, seeds = sample_key(10, 13, 16, 19).files, seeds_for("any", 4)
    known = ["text key 133e7f97ad4b6a1fc1bebc9e6a35d495f3de8d4df7615d75d074b69f4d1ec0c3"]
    names = [f"k1.2.{index}.share" for index in range(1, 6)] + ["k1.now"]

    def stop(number):
        return Case("", "move k1 5 1", held, seeds, shelf=[number])

    yield "56 calls of the shelf", endings(stop(55))[0] == "code 10" and endings(stop(56))[0] == "code 0"
    before, after = stop(40), stop(41)
    yield "a move stopped at the now file", before.after()["k1.now"] == held["k1.now"] and key_line(before.after()) == known
    yield "and behind it", after.after()["k1.now"][5:12] == bytes([5, 1, 0, 0, 0, 0, 2]) and key_line(after.after()) == known
    again = Case("", "move k1 5 1", before.after(), seeds_for("third", 4)).after()
    yield "again after the first", sorted(again) == names and key_line(again) == known
    healed = Case("", "refresh k1", after.after(), seeds_for("third", 5)).after()
    yield "a refresh after the second", sorted(healed) == [name.replace(".2.", ".3.") for name in names] and key_line(healed) == known


def pair_checks():
    """Moves between all pairs of sizes: the key is the one that was dealt from the start."""
    largest = [(n, (n - 1) // 3) for n in SIZES]
    for (n, t), (m, u) in itertools.product(largest, largest):
        key = tied_key(n, t)
        known = ["text key " + fingerprint([poly[0] for poly in key.polys])]
        after = Case("", f"move k1 {m} {u}", key.files, seeds_for("pair", n)).after()
        yield f"the key from {n} to {m}", key_line(after) == known and len(after) == m + 1


def session_checks():
    """A session: create, seal, refresh, move, refresh, open, check."""
    letter, held, told = b"Meet at noon.\n", {"letter.txt": b"Meet at noon.\n"}, []
    for words, count in (
        ("create k1 4 1", 4),
        ("seal k1 letter.txt letter.box", 0),
        ("refresh k1", 4),
        ("move k1 5 1", 4),
        ("refresh k1", 5),
        ("open k1 letter.box out.txt", 0),
        ("check k1", 0),
    ):
        case = Case("", words, held, seeds_for(f"{words} {len(told)}", count))
        held = case.after()
        told.append([text for text in case.ending() if text.startswith("text ")])
    yield "sealed", told[1] == ["text seal k1 number 0 bytes 14"] and len(held["letter.box"]) == 94
    yield "moved", told[3][1:7] == round_lines(*[511] * 6) and told[3][8] == "text corrected none"
    yield "refreshed by five", told[4][1:6] == round_lines(*[31] * 5)
    yield "opened", told[5] == ["text open k1 number 0 bytes 14"] and held["out.txt"] == letter
    yield "five members", told[6] == ["text check k1 5 1 period 4"] + [f"text member {index} ok" for index in range(1, 6)]
    shares = [f"k1.4.{index}.share" for index in range(1, 6)]
    yield "the files of the last period", sorted(name for name in held if name.startswith("k1.")) == [*shares, "k1.now"]


# What may be left out.
FEATURES = {"sizes", "drills", "seal", "refresh", "move", "rehearse"}


def check_all():
    failed = 0
    for what, holds in checks():
        print(("ok     " if holds else "FAILED ") + what)
        failed += not holds
    return 1 if failed else 0


def main(arguments):
    if arguments == ["--check"]:
        return check_all()
    if len(arguments) == 2 and arguments[0] == "--shelves":
        return write_shelves(arguments[1])
    without, only = set(), ""
    while len(arguments) > 2 and arguments[0] in ("--without", "--only"):
        if arguments[0] == "--only":
            only = arguments[1]
        else:
            without |= set(arguments[1].split(","))
        arguments = arguments[2:]
    if len(arguments) != 2 or not without <= FEATURES:
        print(__doc__, file=sys.stderr)
        return 2
    wanted = (case for case in all_cases() if not case.features() & without and only in case.label)
    cases = [case for case in wanted if not case.hangs_on_the_schedule()]
    for path, part in zip(arguments, (Case.given, Case.ending)):
        with open(path, "w", encoding="utf-8", newline="\n") as out:
            out.write("".join(lines(part(case)) for case in cases))
    print(f"{len(cases)} cases")
    return 0


if __name__ == "__main__":
    sys.exit(main(sys.argv[1:]))
