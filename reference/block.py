"""A block of passes for a host: up to so many passes, each followed by an update with the commands still
left, and chosen DACs after each as signed numbers, as far as there is room for whole frames."""

from typing import NamedTuple

from reference import layout
from reference.faults import faults
from reference.machine import run_pass, zero_memory
from reference.ring import updated
from reference.text import OF_1978
from reference.words import signed


class Block(NamedTuple):
    """What a block answers and leaves: the number of the refusal or 0, passes done, commands taken."""

    number: int
    done: int
    taken: int
    machine: list
    memory: list
    frames: list


def ordered(order, machine, first_t):
    """By which order a pass goes: by number where none is given."""
    if order and not faults.block_order_ignored:
        return order
    if len(machine) <= layout.T:
        return []
    return range(first_t if faults.block_order_of_first_t else machine[layout.T])


def frame_of(machine, dacs):
    """The chosen DACs of a machine; of each number the low 4 bits count."""
    dac_of = (lambda dac: min(dac, 15)) if faults.block_dac_by_its_number else (lambda dac: dac % 16)
    sample = (lambda word: word) if faults.block_sign_lost else (lambda word: signed(word, 20))
    return [sample(machine[layout.DACS_AT + dac_of(dac)]) for dac in dacs]


def room_for(done, width, frames):
    """Whether there is room for one more whole frame."""
    return (done + (0 if faults.block_part_frame and width else 1)) * width <= len(frames)


def ring_block(machine, memory, commands, order, passes, dacs, frames, text=OF_1978):
    """Rings a block; what it was handed stays as it is."""
    machine, memory, frames = list(machine), list(memory), list(frames)
    done, taken, width = 0, 0, len(dacs)
    first_t = machine[layout.T] if len(machine) > layout.T else 0
    while done < passes and room_for(done, width, frames):
        passed = run_pass(machine, ordered(order, machine, first_t), [], [], memory, text)
        if passed.number:
            return Block(passed.number, done, taken, machine, memory, frames)
        left = commands if faults.block_commands_again else commands[taken:]
        number, count, machine = updated(passed.machine, left, text)
        memory = zero_memory() if faults.block_memory_anew else passed.memory
        taken += count
        if number and not faults.block_refused_update_goes_on:
            counted = done + 1 if faults.block_refused_pass_counted else done
            return Block(number, counted, taken, machine, memory, frames)
        frames[done * width:(done + 1) * width] = frame_of(machine, dacs)[:len(frames) - done * width]
        done += 1
    return Block(0, done, taken, machine, memory, frames)
