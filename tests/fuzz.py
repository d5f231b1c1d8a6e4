"""fuzz.py [--seed N] [--lines N] [--archives N]: hands the programs random and damaged input, and checks each answer.

The console gets all lines in one process: commands on random states, damaged bytes, damaged lines, and lines of random bytes. `list` and
`describe` get random and damaged archives, a process for each. It fails on an exit status other than 0, two minutes without an end, an
answer that is not the one of model.py and rules.py (or not of its documented shape, where the states are too large for them), and on
memory that grows with the number of lines. The same seed gives the same input. Needs the programs (`make programs`).
"""
import argparse
import collections
import pathlib
import random
import re
import subprocess
import sys
import threading
import time

import make
import model
import rules

PROGRAMS = pathlib.Path(__file__).resolve().parents[1] / "target" / "bin"
BATCH = 1000
LONGEST = 8000  # bytes of a line
SLACK = 256  # kilobytes by which the console's memory may differ
PATIENCE = 120  # seconds that a batch of lines, or an archive, may take

PAIR = re.compile(r"[0-9]+ [0-9]+ (refused 23|(0 0 0|1 -?[0-9]+ [0-7]) (-- --|[01][0-9a-f] [0-9a-f]{64}) [=.])")
OVERLAP = re.compile(r"[0-9]+ [0-9]+ (refused 23|0 0 0|1 -?[0-9]+ [0-7])")
SHEET = re.compile(r"[0-9]+: " + model.FIELDS.pattern)


class Source:
    """Makes the inputs."""

    def __init__(self, seed):
        self.chance = random.Random(seed)
        self.large = [rules.write_state(make.state(self.chance, n, k, loss))
                      for n, k, loss in ((48, 48, 0), (48, 30, 4096), (48, 7, 5), (30, 30, 77), (20, 9, 4095), (13, 13, 1))]
        self.qubits = 3

    def number(self):
        """A number of any size, most often a small one."""
        pick = self.chance.random()
        if pick < 0.8:
            return self.chance.randrange(8)
        if pick < 0.9:
            return self.chance.randrange(100)
        return self.chance.choice((2 ** 32, 2 ** 63, 2 ** 64 - 1, 2 ** 64, 10 ** 30, self.chance.getrandbits(64)))

    def state(self):
        """The bytes of a state."""
        if self.chance.random() < 0.02:
            return self.chance.choice(self.large)
        small = make.small_state(self.chance)
        if self.chance.random() < 0.7:
            small = make.state(self.chance, self.qubits, self.chance.randint(0, self.qubits), small.loss)
        return rules.write_state(small)

    def archive(self):
        count = self.chance.choice((0, 1, 1, 2, 2, 3, 4, 6))
        return bytes([count]) + b"".join(self.state() for _ in range(count))

    def damaged(self, data):
        """Bytes with one to three changes."""
        data = bytearray(data)
        for _ in range(self.chance.randint(1, 3)):
            at = self.chance.randint(0, len(data))
            pick = self.chance.randrange(6)
            if pick == 0:
                del data[at:]
            elif pick == 1:
                del data[at:at + 1]
            elif pick == 2:
                data[at:at] = self.chance.randbytes(self.chance.randint(1, 4))
            elif pick == 3:
                data[at:at + 1] = self.chance.randbytes(1)
            elif data and pick == 4:
                data[at - 1] ^= 1 << self.chance.randrange(8)
            elif data:
                data[0] ^= 1 << self.chance.randrange(8)
        return bytes(data)

    def run(self, good):
        """Good bytes, damaged ones, or any."""
        pick = self.chance.random()
        if pick < 0.45:
            return good()
        if pick < 0.95:
            return self.damaged(good())
        return self.chance.randbytes(self.chance.randint(0, 24))

    def hex(self, good):
        return rules.hex_of(self.run(good))

    def text(self):
        letters = self.chance.choice("+-") + "".join(self.chance.choice("IXYZ") for _ in range(self.qubits))
        pick = self.chance.random()
        if pick < 0.7:
            return letters
        if pick < 0.85:
            return "x:" + letters.encode().hex()
        return "x:" + rules.hex_of(self.damaged(letters.encode()))

    def gate(self, parting):
        n = self.qubits
        kind, j, l = self.chance.randint(1, 6), self.chance.randint(1, n), self.chance.randint(1, n)
        if kind < 5:
            l = 0
        if self.chance.random() < 0.15:
            kind, j, l = self.number(), self.number(), self.number()
        return parting.join(map(str, (kind, j, l)))

    def calls(self):
        made = ["g:" + self.gate(":") if self.chance.random() < 0.6 else "p:" + self.text()
                for _ in range(self.chance.randrange(7))]
        return ";".join(made) or "-"

    def command(self):
        """A line that can be read, most often."""
        name = self.chance.choice("st")
        verb = self.chance.choice(list(model.WORDS)).decode()
        words = {
            "open": lambda: "%s %d" % (name, self.qubits if self.chance.random() < 0.8 else self.number()),
            "read": lambda: "%s %s" % (name, self.hex(self.state)),
            "take": lambda: "%s %s %d" % (name, self.hex(self.archive), self.number()),
            "write": lambda: name if self.chance.random() < 0.6 else "%s %s" % (name, self.hex(self.state)),
            "fields": lambda: name,
            "amplitude": lambda: "%s %d" % (name, self.number()),
            "gate": lambda: "%s %s" % (name, self.gate(" ")),
            "project": lambda: "%s %s" % (name, self.text()),
            "split": lambda: "%d %s" % (self.number(), self.calls()),
            "total": lambda: "%s %d" % (self.chance.choice(("mod17", "quad")), self.chance.randrange(70)),
            "embed": lambda: "%s %d %d %d" % (self.chance.choice(("mod17", "quad")), self.chance.choice((1, 1, 1, 0, 2)),
                                              self.chance.choice((1, 1, 1, -1)) * self.number(), self.chance.randrange(9)),
            "check": lambda: self.hex(self.archive),
            "view": lambda: "%s %d" % (self.hex(self.archive), self.number()),
            "host": lambda: " ".join((self.hex(self.state), self.hex(self.state), self.hex(self.state))),
        }
        return (verb + " " + words[verb]() if verb in words else verb).encode()

    def spoilt(self):
        """A line with some of its bytes or words changed."""
        line = self.command()
        pick = self.chance.randrange(5)
        if pick == 0:
            words = line.split(b" ")
            self.chance.shuffle(words)
            return b" ".join(words)
        if pick == 1:
            words = line.split(b" ")
            del words[self.chance.randrange(len(words))]
            return b" ".join(words)
        if pick == 2:
            return line + b" " + self.command()
        if pick == 3:
            return line.replace(b" ", b"  ").upper() if self.chance.random() < 0.5 else b" " + line + b" \r"
        return self.damaged(line)

    def line(self):
        """What kind of line it is, and the line."""
        if self.chance.random() < 0.02:
            self.qubits = self.chance.randint(1, 5)
        pick = self.chance.random()
        if pick < 0.62:
            return "commands", self.command()
        if pick < 0.8:
            return "archives and states", self.bytes_line()
        if pick < 0.95:
            return "spoilt commands", self.spoilt()
        return "random bytes", self.chance.randbytes(self.chance.randint(0, 40))

    def bytes_line(self):
        name = self.chance.choice("st")
        good = self.archive
        return self.chance.choice((
            lambda: "check " + self.hex(good),
            lambda: "take %s %s %d" % (name, self.hex(good), self.number()),
            lambda: "view %s %d" % (self.hex(good), self.number()),
            lambda: "read %s %s" % (name, self.hex(self.state)),
        ))().encode()

    def lines(self, count):
        """So many lines that end where they should, none of them over the longest."""
        made = []
        while len(made) < count:
            kind, line = self.line()
            line = line.replace(b"\n", b"")[:LONGEST]
            if not is_slow(line):
                made.append((kind, line))
        return made


def is_slow(line):
    """Whether a line asks for a running sum of many calls, which takes as long as it says."""
    try:
        verb, words = model.parsed(line)
        return verb == "total" and words[1] > 10000
    except model.Unreadable:
        return False


class Console:
    """The console as a process that is asked many lines at a time."""

    def __init__(self):
        self.process = subprocess.Popen([PROGRAMS / "console"], stdin=subprocess.PIPE, stdout=subprocess.PIPE)

    def ask(self, lines):
        """The answers to these lines; fewer where the console ended."""
        text = b"".join(line + b"\n" for line in lines)
        writer = threading.Thread(target=self.send, args=(text,))
        watch = threading.Timer(PATIENCE, self.process.kill)
        writer.start()
        watch.start()
        answers = []
        for _ in filter(model.is_asked, lines):
            answer = self.process.stdout.readline()
            if not answer.endswith(b"\n"):
                break
            answers.append(answer[:-1].decode("latin-1"))
        writer.join()
        watch.cancel()
        return answers

    def send(self, text):
        try:
            self.process.stdin.write(text)
            self.process.stdin.flush()
        except BrokenPipeError:
            pass

    def memory(self):
        """VmRSS and VmHWM in kilobytes."""
        status = pathlib.Path("/proc/%d/status" % self.process.pid).read_text()
        return tuple(int(re.search(name + r":\s+([0-9]+)", status)[1]) for name in ("VmRSS", "VmHWM"))

    def end(self):
        """What it still writes, and its exit status."""
        self.process.stdin.close()
        rest = self.process.stdout.read()
        return rest, self.process.wait()


class Tally:
    """Counts what was asked and what was wrong."""

    def __init__(self):
        self.asked = collections.Counter()
        self.answered = collections.Counter()
        self.exact = 0
        self.wrong = 0

    def fail(self, what):
        self.wrong += 1
        if self.wrong <= 10:
            print(what)


def fits(answer, wanted):
    return answer == wanted if isinstance(wanted, str) else wanted.fullmatch(answer) is not None


def kind_of(answer):
    first = answer.split(" ")[0]
    return first if first in ("ok", "refused", "fault", "?", "aside") else "values"


def check_batch(tally, mirror, lines, answers):
    """Compares a batch of answers with the model's."""
    asked = [line for line in lines if model.is_asked(line)]
    if len(answers) != len(asked):
        tally.fail("%d answers to %d lines" % (len(answers), len(asked)))
    for line, answer in zip(asked, answers):
        wanted = mirror.answer(line)
        right = fits(answer, wanted)
        if right and isinstance(wanted, str):
            tally.exact += 1
        elif right and wanted is not model.UNREADABLE:
            right = learnt(mirror, line, answer)
        if not right:
            tally.fail("%.200r\n  wanted   %.200s\n  answered %.200s" % (line, wanted, answer))
        tally.answered[kind_of(answer)] += 1


def learnt(mirror, line, answer):
    try:
        return mirror.learn(line, answer)
    except rules.Fault:
        return False


def longest_lines():
    """The longest lines, asked first, so that what the console keeps for a line does not grow later."""
    digits = b"00" * (LONGEST // 2)
    return [b"check " + digits, b"host %b %b %b" % (digits, digits, digits), b"write s " + digits,
            b"split 0 " + b";".join([b"g:1:1:0"] * (LONGEST // 8)), b"project s " + digits, digits]


def fuzz_console(source, count, tally):
    """Asks the console so many lines, in one process. Answers its memory after some of them."""
    console, mirror, memory = Console(), model.Model(), {}
    check_batch(tally, mirror, longest_lines(), console.ask(longest_lines()))
    done = 0
    while done < count and tally.wrong == 0:
        made = source.lines(min(BATCH, count - done))
        tally.asked.update("console: " + kind for kind, _ in made)
        lines = [line for _, line in made]
        check_batch(tally, mirror, lines, console.ask(lines))
        done += len(lines)
        if done in (10000, 100000, 500000, count):
            memory[done] = console.memory()
    rest, status = console.end()
    if rest or status != 0:
        tally.fail("the console ended with status %d, and wrote %.100r more" % (status, rest))
    compare_memory(memory, tally)
    return memory


def compare_memory(memory, tally):
    first = memory.get(10000)
    for done, now in memory.items():
        if first and (now[0] > first[0] + SLACK or now[1] > first[1] + SLACK):
            tally.fail("memory grew from %r to %r after %d lines" % (first, now, done))


def is_shaped(output, head, pair):
    """Whether the lines are those of a good archive."""
    lines = output.split("\n")[:-1]
    return re.fullmatch("sheets [0-9]+", lines[0]) and all(head.fullmatch(x) or pair.fullmatch(x) for x in lines[1:])


def fuzz_archive(program, archive, tally):
    """Hands an archive to `list` or `describe`."""
    tally.asked[program + ": archives"] += 1
    run = subprocess.run([PROGRAMS / program], input=archive, capture_output=True, timeout=PATIENCE)
    output = run.stdout.decode("latin-1")
    try:
        known = model.few(*(state for state, _ in rules.read_archive(archive)))
    except rules.Fault:
        known = True
    if known:
        tally.exact += 1
        right = output == (rules.listing if program == "list" else rules.description)(archive)
    elif program == "list":
        right = is_shaped(output, PAIR, PAIR)
    else:
        right = is_shaped(output, SHEET, OVERLAP)
    tally.answered["fault" if output.startswith("fault") else "values"] += 1
    if not right or run.returncode != 0 or run.stderr:
        tally.fail("%s %s\n  status %d, wrote %.200s" % (program, archive.hex(), run.returncode, output))


def main():
    parser = argparse.ArgumentParser()
    parser.add_argument("--seed", type=int, default=1)
    parser.add_argument("--lines", type=int, default=990000, help="for the console")
    parser.add_argument("--archives", type=int, default=5000, help="for list, and as many for describe")
    asked = parser.parse_args()
    tally, source = Tally(), Source(asked.seed)
    start = time.monotonic()
    for _ in range(asked.archives):
        archive = source.run(source.archive)
        for program in ("list", "describe"):
            fuzz_archive(program, archive, tally)
    memory = fuzz_console(source, asked.lines, tally)
    print("seed %d, %d inputs in %d s" % (asked.seed, sum(tally.asked.values()), time.monotonic() - start))
    for name, counter in (("inputs", tally.asked), ("answers", tally.answered)):
        print("%s: %s" % (name, ", ".join("%s %d" % item for item in sorted(counter.items()))))
    print("answers known in full: %d" % tally.exact)
    for done, (resident, most) in memory.items():
        print("console after %d lines: VmRSS %d kB, VmHWM %d kB" % (done, resident, most))
    print("wrong: %d" % tally.wrong)
    sys.exit(tally.wrong > 0)


if __name__ == "__main__":
    main()
