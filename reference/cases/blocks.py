"""Blocks of passes, worked by hand: generator 0 feeds DAC 0 from generator-last word 1, which holds 5, then nothing."""

from reference import layout
from reference.block import ring_block
from reference.machine import fresh_machine, put_update_ticks, zero_memory
from reference.old import OLD
from reference.words import low

# GFM word 1, run mode 0010; the word of generator-last, and of generator-this, which the next pass finds there.
FEEDER = {layout.GFM: 1, layout.GMODE: 0b0010 << 6}
NOT_BUILT, LINGER_3 = 0x000000E0, 0x00003110
TICKS_1, TICKS_2 = 0x00000180, 0x00001180


def feeding(first, second, dac=0):
    """A machine that plays first after one pass, second after two, then 0, on a DAC."""
    machine = fresh_machine()
    for register, word in FEEDER.items():
        machine[register] = word
    machine[layout.GO] = dac
    machine[layout.GENERATOR_LAST + 1] = low(first, 20)
    machine[layout.GENERATOR_THIS + 1] = low(second, 20)
    put_update_ticks(machine)
    return machine


def heard(machine, passes, dacs, room, commands=(), order=(), text=None):
    """What a block over a delay memory of zeros answers and plays."""
    more = () if text is None else (text,)
    block = ring_block(machine, zero_memory(), list(commands), list(order), passes, list(dacs), [9] * room, *more)
    return block.number, block.done, block.taken, block.frames


def blocks():
    """Frames, room and refusals."""
    machine = feeding(5, -7)
    yield "one DAC", heard(machine, 3, (0,), 4), (0, 3, 0, [5, -7, 0, 9])
    yield "two DACs", heard(machine, 2, (1, 0), 4), (0, 2, 0, [0, 5, 0, -7])
    yield "a full run", heard(machine, 3, (0, 1), 5), (0, 2, 0, [5, 0, -7, 0, 9])
    yield "no room", heard(machine, 3, (0, 1), 1), (0, 0, 0, [9])
    yield "no DACs", heard(machine, 3, (), 1), (0, 3, 0, [9])
    yield "no passes, nothing asked", heard([0], 0, (0,), 1), (0, 0, 0, [9])
    yield "of a number the low 4 bits", heard(feeding(5, 6, 3), 2, (19, 0), 4), (0, 2, 0, [5, 0, 6, 0])
    yield "another length", heard([0], 1, (0,), 1), (1, 0, 0, [9])
    yield "a command not built", heard(machine, 3, (0,), 3, (LINGER_3, NOT_BUILT)), (3, 2, 1, [5, -7, 9])
    yield "at once", heard(machine, 3, (0,), 3, (NOT_BUILT,)), (3, 0, 0, [9, 9, 9])
    yield "an order", heard(machine, 1, (0,), 1, (), (0,)), (0, 1, 0, [5])
    yield "an order of another length", heard(machine, 1, (0,), 1, (), (0, 1)), (5, 0, 0, [9])
    yield "an order, T rises", heard(machine, 3, (0,), 3, (TICKS_2,), (0,)), (5, 1, 1, [5, 9, 9])
    yield "by number, T rises", heard(machine, 3, (0,), 3, (TICKS_2,)), (0, 3, 1, [5, -7, 0])
    yield "commands are taken once", heard(machine, 2, (0,), 2, (TICKS_2, TICKS_1)), (0, 2, 2, [5, -7])
    yield "an old block takes none", heard(fresh_machine(), 2, (0,), 2, (NOT_BUILT,), (), OLD), (0, 2, 0, [0, 0])


def order_matters():
    """Generators 0 and 1 feed DAC 0 from words 1 and 2: the last one taken holds."""
    machine = feeding(5, 6)
    machine[layout.GENERATOR_WORDS + layout.GFM] = 2
    machine[layout.GENERATOR_WORDS + layout.GMODE] = 0b0010 << 6
    machine[layout.GENERATOR_LAST + 2] = 7
    machine[layout.T] = 2
    put_update_ticks(machine)
    yield "by number", heard(machine, 1, (0,), 1), (0, 1, 0, [7])
    yield "backwards", heard(machine, 1, (0,), 1, (), (1, 0)), (0, 1, 0, [5])


def joined():
    """Blocks of one pass each leave what one block leaves, delay memory too."""
    machine = feeding(5, -7)
    memory = zero_memory()
    memory[3] = 11
    whole = ring_block(machine, memory, [LINGER_3, TICKS_2], [], 4, [0], [0] * 4)
    frames, taken, commands = [], 0, [LINGER_3, TICKS_2]
    for _ in range(4):
        block = ring_block(machine, memory, commands[taken:], [], 1, [0], [0])
        machine, memory, taken, frames = block.machine, block.memory, taken + block.taken, frames + block.frames
    yield "frames", frames, whole.frames
    yield "commands", taken, whole.taken
    yield "machine", machine, whole.machine
    yield "memory", memory, whole.memory
    yield "memory stays", memory[3], 11


GROUPS = [("blocks of passes", blocks), ("blocks by an order", order_matters), ("blocks that join", joined)]
