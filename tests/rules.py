"""The rules of docs/FORMAT.md, docs/REFUSALS.md and docs/RULES.md once more, for the scripts in this folder.

A reader and a writer of states and archives; and gates, projections, intersections and overlaps string by string, for states whose
space has few strings. Plain and slow, and made apart from the library, so that the two can be compared.
"""
import functools
from typing import NamedTuple


class Fault(Exception):
    """Bytes that are no state or no archive: layer, number, sheet, field, place."""

    def line(self):
        return "fault %d %d %d %d %d" % self.args


class Refused(Exception):
    """A refusal: its number."""

    def line(self):
        return "refused %d" % self.args


class State(NamedTuple):
    qubits: int
    loss: int  # the weight without its sign
    phase: int
    rows: tuple
    shift: int
    turns: tuple
    partners: tuple  # of the rows 1 2, 1 3, ..., 2 3, ...


def opened(qubits):
    if not 1 <= qubits <= 48:
        raise Refused(2)
    return State(qubits, 0, 0, (), 0, (), ())


# Reading

class Bits:
    """Takes the fields of a run of bytes, one after another."""

    def __init__(self, data):
        self.value = int.from_bytes(data, "big")
        self.size = 8 * len(data)
        self.sheet = 0
        self.place = 0  # of the next field
        self.start = 0  # of the last field

    def take(self, field, width):
        self.start = self.place
        if self.place + width > self.size:
            raise Fault(1, 1, self.sheet, field, self.place)
        self.place += width
        return self.value >> (self.size - self.place) & ((1 << width) - 1)

    def keep(self, rule, number, field):
        """Blames the last field unless the rule is kept."""
        if not rule:
            raise Fault(2, number, self.sheet, field, self.start)


def next_state(bits):
    """The state that begins at the next bit."""
    n = bits.take(1, 6)
    bits.keep(1 <= n <= 48, 2, 1)
    k = bits.take(2, 6)
    bits.keep(k <= n, 3, 2)
    loss = bits.take(3, 13)
    bits.keep(loss <= 4096, 4, 3)
    phase = bits.take(4, 3)
    rows, pivots = next_rows(bits, n, k)
    shift = bits.take(6, n)
    bits.keep(shift & pivots == 0, 5, 6)
    turns = tuple([2 * bits.take(7, 2) for _ in range(k)])
    partners = tuple([4 * bits.take(8, 1) for _ in range(k * (k - 1) // 2)])
    fill = bits.take(9, -bits.place % 8)
    bits.keep(fill == 0, 6, 9)
    return State(n, loss, phase, rows, shift, turns, partners)


def next_rows(bits, n, k):
    """The rows, and a word with a 1 at each pivot."""
    rows, pivots, earlier = [], 0, 0
    last = 1 << n
    for _ in range(k):
        row = bits.take(5, n)
        pivot = 1 << row.bit_length() >> 1  # 0 for a row of zeros
        bits.keep(0 < pivot < last and earlier & pivot == 0, 5, 5)
        rows.append(row)
        pivots |= pivot
        earlier |= row
        last = pivot
    return tuple(rows), pivots


def read_state(data):
    """The state that these bytes hold."""
    bits = Bits(data)
    state = next_state(bits)
    if bits.place < bits.size:
        raise Fault(2, 8, 0, 10, bits.place)
    return state


def read_archive(data):
    """The states of an archive, each with its bytes."""
    bits = Bits(data)
    count = bits.take(0, 8)
    if count > 100:
        raise Fault(3, 7, 0, 0, 0)
    states = []
    for sheet in range(1, count + 1):
        bits.sheet = sheet
        first = bits.place // 8
        state = next_state(bits)
        states.append((state, data[first:bits.place // 8]))
    if bits.place < bits.size:
        raise Fault(3, 8, 0, 10, bits.place)
    return states


def state_at(data, index):
    """State number `index` of an archive, with its bytes."""
    states = read_archive(data)
    if not 1 <= index <= len(states):
        raise Refused(15)
    return states[index - 1]


# Writing

def write_state(state):
    """The bytes of a state."""
    n, k = state.qubits, len(state.rows)
    fields = [(n, 6), (k, 6), (state.loss, 13), (state.phase, 3)]
    fields += [(row, n) for row in state.rows] + [(state.shift, n)]
    fields += [(turn // 2, 2) for turn in state.turns] + [(partner // 4, 1) for partner in state.partners]
    word = size = 0
    for value, width in fields:
        word = word << width | value
        size += width
    fill = -size % 8
    return (word << fill).to_bytes((size + fill) // 8, "big")


def hex_of(data):
    return data.hex() or "-"


def joined(parts):
    return ",".join(map(str, parts)) or "-"


def space_text(state):
    """Phase, rows, shift, turns and partners as they are printed."""
    def string(value):
        return format(value, "0%db" % state.qubits)
    rows = joined(map(string, state.rows))
    return "%d %s %s %s %s" % (state.phase, rows, string(state.shift), joined(state.turns), joined(state.partners))


def fields_text(state):
    return "%d %d %d %s" % (state.qubits, len(state.rows), -state.loss, space_text(state))


# Amplitudes, string by string

@functools.lru_cache(maxsize=4096)
def phases(state):
    """The phase of each string of a state's space. All amplitudes have the power -loss - dimension."""
    found = {state.shift: state.phase}
    index = {}
    k = len(state.rows)
    for number, pair in enumerate((a, b) for a in range(k) for b in range(a + 1, k)):
        index[pair] = state.partners[number]
    chosen = {state.shift: ()}
    for a, row in enumerate(state.rows):
        for y in list(found):
            extra = state.turns[a] + sum(index[b, a] for b in chosen[y])
            found[y ^ row] = (found[y] + extra) % 8
            chosen[y ^ row] = chosen[y] + (a,)
    return found


def state_of(qubits, loss, found):
    """The state with these phases: its space in reduced echelon form, and the fields of its form."""
    shift = min(found)
    rows = echelon(y ^ shift for y in found)
    phase = found[shift]
    single = [found[shift ^ row] for row in rows]
    turns = tuple((value - phase) % 8 for value in single)
    partners = tuple(
        (found[shift ^ rows[a] ^ rows[b]] - single[a] - single[b] + phase) % 8
        for a in range(len(rows)) for b in range(a + 1, len(rows)))
    return State(qubits, loss, phase, rows, shift, turns, partners)


def echelon(strings):
    """The reduced rows of the space that these strings span."""
    rows = []
    for y in strings:
        for row in rows:
            y = min(y, y ^ row)
        if y:
            pivot = 1 << y.bit_length() >> 1
            rows = [row ^ y if row & pivot else row for row in rows] + [y]
    return tuple(sorted(rows, reverse=True))


def amplitude(state, string):
    if string >= 1 << state.qubits:
        raise Refused(14)
    rest, chosen = string ^ state.shift, []
    for a, row in enumerate(state.rows):
        if min(rest, rest ^ row) != rest:
            rest ^= row
            chosen.append(a)
    if rest:
        return 0, 0, 0
    k = len(state.rows)
    pairs = [(a, b) for a in range(k) for b in range(a + 1, k)]
    coupled = sum(partner for (a, b), partner in zip(pairs, state.partners) if a in chosen and b in chosen)
    return 1, -state.loss - k, (state.phase + sum(state.turns[a] for a in chosen) + coupled) % 8


# Gates and projections

def check_gate(qubits, kind, j, l):
    if not 1 <= kind <= 6:
        raise Refused(9)
    second = l == 0 if kind < 5 else 1 <= l <= qubits and l != j
    if not (1 <= j <= qubits and second):
        raise Refused(10)


def gate(state, kind, j, l):
    check_gate(state.qubits, kind, j, l)
    n, old, new = state.qubits, phases(state), {}

    def bit(y, qubit):
        return y >> (n - qubit) & 1
    for y, phase in old.items():
        if kind == 1:
            y ^= 1 << (n - j)
        elif kind == 5:
            y ^= bit(y, j) << (n - l)
        elif kind == 6:
            phase += 4 * bit(y, j) * bit(y, l)
        else:
            phase += {2: 4, 3: 2, 4: 6}[kind] * bit(y, j)
        new[y] = phase % 8
    return state_of(n, state.loss, new)


def check_text(qubits, text):
    if len(text) != qubits + 1:
        raise Refused(11)
    if text[:1] not in (b"+", b"-") or set(text[1:]) - set(b"IXYZ"):
        raise Refused(12)


def applied(text, y, phase):
    """Where a Pauli operator takes a string, and its phase there."""
    phase += 4 * (text[:1] == b"-")
    n = len(text) - 1
    for place, letter in enumerate(text[1:].decode()):
        turned = 1 << (n - 1 - place)
        one = y & turned != 0
        if letter == "Z":
            phase += 4 * one
        elif letter == "Y":
            phase += 6 if one else 2
        if letter in "XY":
            y ^= turned
    return y, phase % 8


def project(state, text):
    check_text(state.qubits, text)
    old = phases(state)
    image = dict(applied(text, y, phase) for y, phase in old.items())
    new = {}
    for y in old.keys() | image.keys():
        # half the sum of two powers of ω is a power of ω, times √2^0, √2^-1 or √2^-2, or 0
        if y in old and y in image:
            turn = (image[y] - old[y]) % 8
            if turn != 4:
                new[y] = (old[y] + {0: 0, 2: 1, 6: 7}[turn]) % 8
        else:
            new[y] = old[y] if y in old else image[y]
    if not new:
        raise Refused(21)
    if new == old:
        return state
    if state.loss == 4096:
        raise Refused(22)
    return state_of(state.qubits, state.loss + 1, new)


def split(s, t, place, calls):
    """The value of a division of calls, or None where it is set aside."""
    if s.qubits != t.qubits:
        raise Refused(23)
    backward = [("gate", {3: 4, 4: 3}.get(call[1], call[1])) + call[2:] if call[0] == "gate" else call for call in calls[place:]]
    s, refused = called(s, calls[:place])
    t, others = called(t, reversed(backward))
    if 22 in refused | others:
        return None
    if 21 in refused | others:
        return 0, 0, 0
    return overlap(t, s)


def called(state, calls):
    """The state after these calls, and the numbers of those that were refused."""
    refused = set()
    for call in calls:
        try:
            state = gate(state, *call[1:]) if call[0] == "gate" else project(state, call[1])
        except Refused as refusal:
            refused.add(refusal.args[0])
    return state, refused


# Two states

def intersect(t, s):
    """The intersection as a state without a weight, or None where it is empty."""
    if t.qubits != s.qubits:
        raise Refused(23)
    first, second = phases(t), phases(s)
    both = {y: (second[y] - first[y]) % 8 for y in first.keys() & second.keys()}
    return state_of(t.qubits, 0, both) if both else None


def coordinates(both):
    """The sum of ω^q over an intersection, as its four coordinates."""
    total = [0, 0, 0, 0]
    for phase in phases(both).values() if both else ():
        total[phase % 4] += 1 if phase < 4 else -1
    return tuple(total)


def exponential_sum(both):
    return scalar_of(coordinates(both))


def scalar_of(total):
    """The scalar with these coordinates."""
    size = sum(a * a for a in total)  # its squared size, since it is a scalar
    if size == 0:
        return 0, 0, 0
    power = size.bit_length() - 1
    for turn in range(8):
        if embed_quad((1, power, turn)) == total:
            return 1, power, turn
    raise ValueError("no scalar has the coordinates %r" % (total,))


@functools.lru_cache(maxsize=None)
def embed_quad(scalar):
    """The four coordinates of a scalar whose power is not negative; √2 is ω - ω³."""
    epsilon, power, turn = scalar
    total = [0, 0, 0, 0]
    terms = [(turn + 1, 1), (turn + 3, -1)] if power % 2 else [(turn, 1)]
    for exponent, sign in terms:
        total[exponent % 4] += epsilon * sign * 2 ** (power // 2) * (-1 if exponent % 8 > 3 else 1)
    return tuple(total)


def mod17_text(total):
    return "%02x" % (sum(a << i for i, a in enumerate(total)) % 17)


def quad_text(total):
    return "".join("%016x" % (a % 2 ** 64) for a in total)


def overlap(t, s):
    epsilon, power, turn = exponential_sum(intersect(t, s))
    if epsilon == 0:
        return 0, 0, 0
    return 1, power - t.loss - len(t.rows) - s.loss - len(s.rows), turn


def packed(scalar):
    """A scalar in the four bytes of the C entry."""
    epsilon, power, turn = scalar
    return (((epsilon << 14 | -power) << 3 | turn) << 14).to_bytes(4, "big")


def host(t, s, answer):
    """The C entry's number, and the buffer afterwards."""
    if len(answer) < 4:
        return 13, answer
    try:
        return 0, packed(overlap(read_state(t), read_state(s))) + answer[4:]
    except Fault as fault:
        return fault.args[1], answer
    except Refused as refusal:
        return refusal.args[0], answer


# Archives as they are printed

def listing(data):
    return printed(data, lambda states: [], pair_text)


def description(data):
    return printed(data, lambda states: ["%d: %s" % (i, fields_text(x)) for i, x in enumerate(states, 1)], overlap_text)


def printed(data, head, pair):
    try:
        states = [state for state, _ in read_archive(data)]
    except Fault as fault:
        return fault.line() + "\n"
    lines = ["sheets %d" % len(states)] + head(states)
    for i, t in enumerate(states, 1):
        for j, s in enumerate(states[i:], i + 1):
            text = pair(t, s) if t.qubits == s.qubits else "refused 23"
            lines.append("%d %d %s" % (i, j, text))
    return "\n".join(lines) + "\n"


def overlap_text(t, s):
    return "%d %d %d" % overlap(t, s)


def pair_text(t, s):
    both = intersect(t, s)
    columns = "-- --"
    if both is None or len(both.rows) <= 12:
        total = coordinates(both)
        columns = mod17_text(total) + " " + quad_text(total)
    return "%s %s %s" % (overlap_text(t, s), columns, "=" if t == s else ".")
