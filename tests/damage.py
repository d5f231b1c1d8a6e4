"""damage.py: hands the console damaged states and archives, and checks each answer.

For a state of the full size, and for small ones: every truncation, every change of a single bit, and one byte too many, by `read`. After a
fault `write` has to give the old bytes, after `ok` the bytes that were read. For a small archive: the same by `check`, and by `take` of
the last state. What the answer has to be is found by rules.py. Needs target/bin/console (`make programs`).
"""
import pathlib
import random
import subprocess
import sys

import make
import rules

CONSOLE = pathlib.Path(__file__).resolve().parents[1] / "target" / "bin" / "console"


class Lines:
    """Lines for the console, and the answers that they have to get."""

    def __init__(self):
        self.asked, self.wanted = [], []

    def ask(self, line, answer):
        self.asked.append(line)
        self.wanted.append(answer)

    def compare(self):
        """Runs the console; answers how many answers are wrong, and prints the first few of those."""
        text = "".join(line + "\n" for line in self.asked)
        run = subprocess.run([CONSOLE], input=text, capture_output=True, text=True)
        answers = run.stdout.split("\n")[:-1]
        if run.returncode != 0 or len(answers) != len(self.asked):
            sys.exit("the console ended with status %d after %d of %d answers" % (run.returncode, len(answers), len(self.asked)))
        wrong = [x for x in zip(self.asked, self.wanted, answers) if x[1] != x[2]]
        for line, wanted, answer in wrong[:5]:
            print("%.80s\n  wanted   %.80s\n  answered %.80s" % (line, wanted, answer))
        return len(wrong)


def damaged(data):
    return make.truncations(data) + make.bit_changes(data) + [data + b"\0", data + b"\xff"]


def answer_of(read, *words):
    """What a call of the rules answers, or the line of its fault or refusal."""
    try:
        return read(*words)
    except (rules.Fault, rules.Refused) as denied:
        return denied.line()


def damage_state(lines, data):
    """Every damage to a state; s holds the old state before each."""
    old = rules.hex_of(data)
    lines.ask("read s " + old, "ok")
    for run in damaged(data):
        answer = answer_of(rules.read_state, run)
        granted = not isinstance(answer, str)
        lines.ask("read s " + rules.hex_of(run), "ok" if granted else answer)
        lines.ask("write s", rules.hex_of(run) if granted else old)
        if granted:
            lines.ask("read s " + old, "ok")


def damage_archive(lines, data, count):
    """Every damage to an archive; s holds the built-in state before each."""
    for run in damaged(data):
        answer = answer_of(rules.read_archive, run)
        lines.ask("check " + rules.hex_of(run), answer if isinstance(answer, str) else str(len(answer)))
        answer = answer_of(rules.state_at, run, count)
        lines.ask("open s 1", "ok")
        lines.ask("take s %s %d" % (rules.hex_of(run), count), answer if isinstance(answer, str) else "ok")
        lines.ask("write s", "04000000" if isinstance(answer, str) else rules.hex_of(answer[1]))


def main():
    chance = random.Random(1)
    states = [make.state(chance, 48, 48, 4096), make.state(chance, 48, 20, 17), make.state(chance, 1, 0, 0)]
    states += [make.small_state(chance, 9) for _ in range(40)]
    small = [make.small_state(chance) for _ in range(5)]
    lines = Lines()
    for state in states:
        damage_state(lines, rules.write_state(state))
    damage_archive(lines, make.archive(small), len(small))
    damage_archive(lines, make.archive([]), 1)
    wrong = lines.compare()
    for verb in ("read", "check", "take"):
        wanted = [answer for line, answer in zip(lines.asked, lines.wanted) if line.startswith(verb)]
        faults = sum(answer.startswith("fault") for answer in wanted)
        print("%s: %d lines, %d of them faults" % (verb, len(wanted), faults))
    print("%d lines in all, %d wrong answers" % (len(lines.asked), wrong))
    sys.exit(wrong > 0)


if __name__ == "__main__":
    main()
