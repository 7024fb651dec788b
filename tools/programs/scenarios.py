"""The scenarios by kind and name, each as a function that writes a text."""

from __future__ import annotations

from collections.abc import Callable
from random import Random

import boards
import odd_texts
import scenarios_boards
import scenarios_exceptions
import scenarios_integer
import scenarios_interrupts
import scenarios_random
import scenarios_translation
import scenarios_windows
import setups
from program import SETUP_LAYOUT, Builder, Program, until_it_fits

Scenario = Callable[[Builder], Program]

COMMON: dict[str, Scenario] = {
    "alu_corners": scenarios_integer.alu_corners,
    "random_code": scenarios_random.random_code,
    "random_mapped": scenarios_random.random_mapped,
    "every_instruction": scenarios_random.every_instruction,
    "branches": scenarios_integer.branches,
    "memory": scenarios_integer.memory,
    "ll_sc": scenarios_integer.ll_sc,
    "counters": scenarios_integer.counters,
    "exceptions_and_return": scenarios_exceptions.exceptions_and_return,
    "undefined_words": scenarios_exceptions.undefined_words,
    "csr_masks": scenarios_exceptions.csr_masks,
    "software_interrupts": scenarios_interrupts.software_interrupts,
    "timer": scenarios_interrupts.timer,
    "idle": scenarios_interrupts.idle,
    "tlb_refill": scenarios_translation.tlb_refill,
    "tlb_faults": scenarios_translation.tlb_faults,
    "tlb_operations": scenarios_translation.tlb_operations,
    "invtlb_ops": scenarios_translation.invtlb_ops,
    "windows": scenarios_windows.windows,
    "user_mode": scenarios_windows.user_mode,
    "page_edges": scenarios_translation.page_edges,
    "cacop_kinds": scenarios_translation.cacop_kinds,
}


def setup_of(scenario: Scenario) -> Callable[[Random], bytes]:
    """Writes a scenario's program as a set-up."""
    def text(rng: Random) -> bytes:
        program = until_it_fits(lambda: scenario(Builder(rng, SETUP_LAYOUT)))
        return setups.setup_text(rng, program)
    return text


def board_of(scenario: Scenario) -> Callable[[Random], bytes]:
    """Writes a scenario's program as a board text, on a board that is drawn for it."""
    def draw(rng: Random) -> bytes:
        board, layout = boards.draw_board(rng)
        return boards.board_text(rng, scenario(Builder(rng, layout)), board)
    return lambda rng: until_it_fits(lambda: draw(rng))


def odd_board_texts(rng: Random) -> bytes:
    """A board text of a random scenario, with lines that have no form."""
    scenario = rng.choice(tuple(COMMON.values()))
    return odd_texts.odd_board_text(rng, board_of(scenario)(rng))


BOARDS_ONLY: dict[str, Callable[[Random], bytes]] = {
    "physical_edge": scenarios_boards.physical_edge,
    "bus_only": scenarios_boards.bus_only,
    "top_of_memory": scenarios_boards.top_of_memory,
    "lines": scenarios_boards.hardware_lines,
    "refused_steps": scenarios_boards.refused_steps,
    "resets": scenarios_boards.resets,
    "odd_board_texts": odd_board_texts,
}

TEXTS: dict[str, dict[str, Callable[[Random], bytes]]] = {
    "setups": {
        **{name: setup_of(scenario) for name, scenario in COMMON.items()},
        "odd_lines": odd_texts.odd_lines,
        "odd_order": odd_texts.odd_order,
        "odd_texts": odd_texts.odd_texts,
        "odd_lengths": odd_texts.odd_lengths,
    },
    "boards": {
        **{name: board_of(scenario) for name, scenario in COMMON.items()},
        **BOARDS_ONLY,
    },
}
