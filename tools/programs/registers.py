"""The general registers of a test program: those with a role, and those that it may change."""

from __future__ import annotations

from dataclasses import dataclass, replace
from random import Random


@dataclass(frozen=True)
class Roles:
    """General registers that have a fixed use in a program."""

    hash: int
    mix: int
    factor: int
    value: int
    count: int
    service: int
    link: int
    pointer: int
    handler: tuple[int, int, int, int]
    free: tuple[int, ...]


def draw_roles(rng: Random) -> Roles:
    """Roles for registers in random order; bl writes r1, so r1 has none but link."""
    numbers = list(range(2, 32))
    rng.shuffle(numbers)
    link = 1 if rng.random() < 0.3 else numbers.pop()
    fixed = [numbers.pop() for _ in range(11)]
    free = sorted(numbers if link == 1 else [*numbers, 1])
    return Roles(
        hash=fixed[0], mix=fixed[1], factor=fixed[2], value=fixed[3], count=fixed[4],
        service=fixed[5], link=link, pointer=fixed[6],
        handler=(fixed[7], fixed[8], fixed[9], fixed[10]), free=tuple(free),
    )


class Registers:
    """The roles of a program, and random registers for its instructions."""

    def __init__(self, rng: Random) -> None:
        self._rng = rng
        self.roles = draw_roles(rng)

    def free(self) -> int:
        """A random register that the program may change."""
        return self._rng.choice(self.roles.free)

    def some(self, count: int) -> list[int]:
        """So many different registers that the program may change."""
        return self._rng.sample(self.roles.free, count)

    def take(self, registers: list[int]) -> None:
        """Keeps registers from being changed by random instructions from here on."""
        left = tuple(number for number in self.roles.free if number not in registers)
        self.roles = replace(self.roles, free=left)

    def source(self) -> int:
        """A random register to read; sometimes r0, seldom one that has a role."""
        draw = self._rng.random()
        if draw < 0.06:
            return 0
        return self._rng.randrange(32) if draw < 0.1 else self.free()

    def target(self) -> int:
        """A random register to write; sometimes r0."""
        return 0 if self._rng.random() < 0.05 else self.free()
