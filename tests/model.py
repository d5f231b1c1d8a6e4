"""What the console has to answer, by docs/CONSOLE.md and the rules.

A model takes lines and says of each what its answer has to be: a text, or a pattern where the states are too large for rules.py to
go over their strings. It then knows a state again when its bytes are written.
"""
import re

import rules

SMALL = 5  # dimensions of a space whose strings are gone over

SCALAR = re.compile(r"0 0 0|1 -?[0-9]+ [0-7]")
BYTES = re.compile(r"-|([0-9a-f]{2})+")
GRANTED = re.compile(r"ok")
PROJECTED = re.compile(r"ok|refused 2[12]")
DIVIDED = re.compile(r"aside|0 0 0|1 -?[0-9]+ [0-7]")
MARK = re.compile(r"[=.]")
LISTS = r"[0-7] (-|[01,]+) [01]+ (-|[0246,]+) (-|[04,]+)"
FIELDS = re.compile(r"[0-9]+ [0-9]+ (0|-[0-9]+) " + LISTS)
COMMON = re.compile(r"empty|[0-9]+ " + LISTS)
COORDINATES = re.compile(r"-?[0-9]+( -?[0-9]+){3}")
LENGTH = re.compile(r"[0-9]+ [0-9a-f]+|refused 13")
HOSTED = re.compile(r"0 [0-9a-f]{8,}")
TOTALS = {"mod17": re.compile(r"(0|24) [0-9]+ [01][0-9a-f]"), "quad": re.compile(r"(0|24) [0-9]+ [0-9a-f]{64}")}
HELP = re.compile(r"open STATE N \| .*")
UNREADABLE = re.compile(r"\? [ -~]+")

UNKNOWN = object()


class Unreadable(Exception):
    """A line that is no command."""


def number(word):
    if not re.fullmatch(rb"0*[0-9]{1,20}", word) or int(word[-20:]) >= 2 ** 64:
        raise Unreadable
    return int(word[-20:])


def signed(word):
    value = -number(word[1:]) if word.startswith(b"-") else number(word)
    if not -2 ** 63 <= value < 2 ** 63:
        raise Unreadable
    return value


def data(word):
    if word == b"-":
        return b""
    if not re.fullmatch(rb"([0-9a-fA-F]{2})+", word):
        raise Unreadable
    return bytes.fromhex(word.decode())


def one_of(*names):
    def parse(word):
        if word.decode("latin-1") not in names:
            raise Unreadable
        return word.decode()
    return parse


def text(word):
    return data(word[2:]) if word.startswith(b"x:") else word


def calls(word):
    return [] if word == b"-" else [call(part) for part in word.split(b";")]


def call(word):
    if word.startswith(b"p:"):
        return "project", text(word[2:])
    # what stands after the second colon is the last number
    numbers = word[2:].split(b":", 2)
    if not word.startswith(b"g:") or len(numbers) != 3:
        raise Unreadable
    return ("gate", *map(number, numbers))


STATE = one_of("s", "t")
RING = one_of("mod17", "quad")
WORDS = {
    b"help": [], b"open": [STATE, number], b"read": [STATE, data], b"take": [STATE, data, number], b"write": [STATE],
    b"fields": [STATE], b"amplitude": [STATE, number], b"gate": [STATE, number, number, number], b"project": [STATE, text],
    b"split": [number, calls], b"overlap": [], b"same": [], b"intersect": [], b"sum": [], b"coordinates": [], b"total": [RING, number],
    b"embed": [RING, number, signed, number], b"check": [data], b"view": [data, number], b"host": [data, data, data],
}


def is_asked(line):
    """Whether a line gets an answer."""
    return without_return(line)[:1] not in (b"", b"#")


def without_return(line):
    return line[:-1] if line.endswith(b"\r") else line


def parsed(line):
    """The command of a line, and its words."""
    first, *rest = [word for word in without_return(line).split(b" ") if word] or [b""]
    kinds = WORDS.get(first)
    if first == b"write" and len(rest) == 2:
        kinds = [STATE, data]
    if kinds is None or len(kinds) != len(rest):
        raise Unreadable
    return first.decode(), [kind(word) for kind, word in zip(kinds, rest)]


def few(*states):
    """Whether the strings of these states can be gone over."""
    return all(state is not UNKNOWN and len(state.rows) <= SMALL for state in states)


def triple(scalar):
    return "%d %d %d" % scalar


class Model:
    def __init__(self):
        self.states = {"s": rules.opened(1), "t": rules.opened(1)}
        self.qubits = {"s": 1, "t": 1}  # known of each state
        self.last = None  # the intersection

    def answer(self, line):
        """The answer to a line: a text or a pattern."""
        try:
            verb, words = parsed(line)
            return getattr(self, verb)(*words)
        except Unreadable:
            return UNREADABLE
        except (rules.Fault, rules.Refused) as denied:
            return denied.line()

    def learn(self, line, answer):
        """Takes a state's bytes from an answer that only a pattern was known of. Answers whether they are such a state's."""
        verb, words = parsed(line)
        if verb == "project" and answer != "ok":
            self.states[words[0]] = self.before
        if verb != "write" or len(words) == 2:
            return True
        state = rules.read_state(bytes.fromhex(answer))
        self.states[words[0]] = state
        return state.qubits == self.qubits[words[0]]

    def put(self, name, state):
        self.states[name] = state
        self.qubits[name] = state.qubits
        return "ok"

    def help(self):
        return HELP

    def open(self, name, qubits):
        return self.put(name, rules.opened(qubits))

    def read(self, name, run):
        return self.put(name, rules.read_state(run))

    def take(self, name, run, index):
        return self.put(name, rules.state_at(run, index)[0])

    def write(self, name, buffer=None):
        state = self.states[name]
        if state is UNKNOWN:
            return BYTES if buffer is None else LENGTH
        run = rules.write_state(state)
        if buffer is None:
            return run.hex()
        if len(buffer) < len(run):
            raise rules.Refused(13)
        return "%d %s" % (len(run), (run + buffer[len(run):]).hex())

    def fields(self, name):
        state = self.states[name]
        return FIELDS if state is UNKNOWN else rules.fields_text(state)

    def amplitude(self, name, string):
        if string >= 1 << self.qubits[name]:
            raise rules.Refused(14)
        state = self.states[name]
        return SCALAR if state is UNKNOWN else triple(rules.amplitude(state, string))

    def gate(self, name, kind, j, l):
        rules.check_gate(self.qubits[name], kind, j, l)
        state = self.states[name]
        if few(state):
            return self.put(name, rules.gate(state, kind, j, l))
        self.states[name] = UNKNOWN
        return GRANTED

    def project(self, name, run):
        rules.check_text(self.qubits[name], run)
        self.before = state = self.states[name]
        if few(state):
            return self.put(name, rules.project(state, run))
        self.states[name] = UNKNOWN
        return PROJECTED

    def split(self, place, made):
        self.same_sizes()
        if self.qubits["s"] > SMALL or not few(*self.states.values()):
            return DIVIDED
        value = rules.split(self.states["s"], self.states["t"], place, made)
        return "aside" if value is None else triple(value)

    def same_sizes(self):
        if self.qubits["s"] != self.qubits["t"]:
            raise rules.Refused(23)

    def overlap(self):
        self.same_sizes()
        t, s = self.states["t"], self.states["s"]
        return triple(rules.overlap(t, s)) if few(t, s) else SCALAR

    def same(self):
        t, s = self.states["t"], self.states["s"]
        if self.qubits["s"] != self.qubits["t"]:
            return "."
        if UNKNOWN in (t, s):
            return MARK
        return "=" if t == s else "."

    def intersect(self):
        self.same_sizes()
        t, s = self.states["t"], self.states["s"]
        if not few(t, s):
            self.last = UNKNOWN
            return COMMON
        self.last = rules.intersect(t, s)
        return "empty" if self.last is None else "%d %s" % (len(self.last.rows), rules.space_text(self.last))

    def sum(self):
        return SCALAR if self.last is UNKNOWN else triple(rules.exponential_sum(self.last))

    def coordinates(self):
        return COORDINATES if self.last is UNKNOWN else "%d %d %d %d" % rules.coordinates(self.last)

    def total(self, ring, times):
        if self.last is UNKNOWN:
            return TOTALS[ring]
        # row 1 changes at every step, and so it does in `phases`
        values = list(rules.phases(self.last).values()) if self.last else []
        total = [0, 0, 0, 0]
        for phase in values[:times]:
            total[phase % 4] += 1 if phase < 4 else -1
        shown = rules.mod17_text(total) if ring == "mod17" else rules.quad_text(total)
        return "%d %d %s" % (24 if times > len(values) else 0, min(times, len(values)), shown)

    def embed(self, ring, epsilon, power, turn):
        if (epsilon, power, turn) != (0, 0, 0) and not (epsilon == 1 and turn <= 7):
            raise Unreadable
        if power < 0:
            raise rules.Refused(25)
        if ring == "mod17":
            return "%02x" % (epsilon * pow(11, power, 17) * 2 ** turn % 17)
        # √2^power is √2^(power % 2) times a power of 2
        unit = rules.embed_quad((epsilon, power % 2, turn))
        return rules.quad_text([a * pow(2, power // 2, 2 ** 64) for a in unit])

    def check(self, run):
        return str(len(rules.read_archive(run)))

    def view(self, run, index):
        return rules.state_at(run, index)[1].hex()

    def host(self, t, s, buffer):
        number, after = 13, buffer
        if len(buffer) >= 4:
            number, after = self.hosted(t, s, buffer)
        return HOSTED if after is None else "%d %s" % (number, rules.hex_of(after))

    def hosted(self, t, s, buffer):
        try:
            states = rules.read_state(t), rules.read_state(s)
        except rules.Fault as fault:
            return fault.args[1], buffer
        if few(*states) or states[0].qubits != states[1].qubits:
            return rules.host(t, s, buffer)
        return 0, None
