"""Writing of set-ups: the text that fills the bank, runs steps and reads registers."""

from __future__ import annotations

from random import Random

from program import Program

LONGEST_RUN = 65_536


def write_line(address: int, word: int) -> str:
    """The line that writes a word."""
    return f"w,{address:08X},{word:08X}\n"


def run_line(rng: Random, steps: int) -> str:
    """The line that runs so many steps, sometimes with leading zeros."""
    if rng.random() < 0.1:
        return f"g,{steps:0{rng.randint(1, 9)}d}\n"
    return f"g,{steps}\n"


def read_all() -> list[str]:
    """The lines that read every general register."""
    return [f"r,{number}\n" for number in range(32)]


def write_lines(rng: Random, words: dict[int, int]) -> list[str]:
    """The lines that write the words of a program, in an order that leaves them so."""
    lines = [write_line(*item) for item in sorted(words.items()) if item[1]]
    draw = rng.random()
    if draw < 0.2:
        rng.shuffle(lines)
    elif draw < 0.3:
        lines.reverse()
    if rng.random() < 0.1 and words:
        address = rng.choice(sorted(words))
        lines.insert(0, write_line(address, rng.getrandbits(32)))
        lines.append(write_line(address, words[address]))
    return lines


def run_lines(rng: Random, program: Program) -> list[str]:
    """The lines that run the program, with reads between the runs and behind them."""
    lines: list[str] = []
    for run in program.runs:
        steps = run.steps
        while steps > LONGEST_RUN:
            lines.append(run_line(rng, LONGEST_RUN))
            steps -= LONGEST_RUN
        lines.append(run_line(rng, steps))
        draw = rng.random()
        if draw < 0.2:
            lines.extend(read_all())
        elif draw < 0.5:
            numbers = [rng.randrange(32) for _ in range(rng.randint(1, 4))]
            lines.extend(f"r,{number}\n" for number in numbers)
    return lines + read_all()


def setup_text(rng: Random, program: Program) -> bytes:
    """The set-up of a program."""
    lines = write_lines(rng, program.words) + run_lines(rng, program)
    return "".join(lines).encode("ascii")
