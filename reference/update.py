"""Commands and the update, by "Commands" of the 1978 text as document 01 condenses it.

Bit b of the 1978 text (4 to 35, from the left) is bit 35-b of the 32-bit word.
"""

from reference import layout
from reference.delay import delay_mode_built
from reference.faults import faults
from reference.machine import (function_built, oscillator_mode_built, put_update_ticks, refusal,
                               run_mode_built, source_built)
from reference.words import extended, low

BEHIND_MOST = 4096


def field(command, first, last):
    """The bits first to last of a command, numbered as in the 1978 text."""
    return low(command >> 35 - last, last - first + 1)


def data(command):
    """The left 20 bits."""
    return field(command, 4, 23)


def generator_word(command, register):
    """The place of a register of the generator that a command addresses."""
    return layout.generator_at(field(command, 28, 35)) + register


def modifier_word(command, register):
    """The place of a register of the modifier that a command addresses."""
    return layout.modifier_at(field(command, 29, 35)) + register


def delay_unit_word(command, register):
    """The place of a register of the delay unit that a command addresses."""
    return layout.delay_unit_at(field(command, 31, 35)) + register


def load_left(machine, place, command, width):
    """A left-adjusted load: data, then low bits from DX's left; clears DX."""
    missing = width - 20
    machine[place] = data(command) << missing | machine[layout.DX] >> 20 - missing
    machine[layout.DX] = 0


def load_right(machine, place, command, width):
    """A right-adjusted load with sign extended."""
    machine[place] = extended(data(command), 20, width)


# MISC, TIMER and TICKS

def change_all(machine, old, new):
    """Every generator in one run mode goes to another."""
    for g in range(layout.GENERATORS):
        place = layout.generator_at(g) + layout.GMODE
        if layout.run_mode(machine[place]) == old:
            machine[place] = layout.with_run_mode(machine[place], new)


def misc_refusal(command):
    """RR 10 and 11, and S, are not built."""
    stop = field(command, 35, 35)
    return 3 if field(command, 29, 30) >= 0b10 or stop else 0


def misc(machine, command):
    """RR 01 loads DX; W clears all wait bits, P all pause bits."""
    if field(command, 29, 30) == 0b01:
        machine[layout.DX] = data(command)
    if field(command, 33, 33):
        change_all(machine, layout.WAIT, layout.RUNNING_A)
    if field(command, 34, 34):
        change_all(machine, layout.PAUSE, layout.RUNNING_A)


def low_20(counter):
    """What a Linger is compared with."""
    return low(counter, layout.LINGER_WIDTH)


def linger(machine, number):
    """A Linger to a pass number, by the counter's low 20 bits; says whether it waits."""
    counter = machine[layout.COUNTER]
    behind = low(counter - number, 32 if faults.behind_by_32_bits else layout.LINGER_WIDTH)
    here = counter == number if faults.linger_by_32_bits else low_20(counter) == number
    if here:
        return False
    if 0 < behind <= BEHIND_MOST:
        machine[layout.OVERRUN] = 1
        return False
    machine[layout.LINGERING] = 1
    machine[layout.LINGER_PASS] = number
    return True


def timer(machine, command):
    """TT 01 sets the counter and clears its high bits, 10 is a Linger, 11 clears it and is one."""
    kind = field(command, 31, 32)
    high = machine[layout.COUNTER] - low_20(machine[layout.COUNTER])
    if kind == 0b01:
        machine[layout.COUNTER] = data(command) + (high if faults.timer_keeps_high_bits else 0)
    if kind == 0b11:
        machine[layout.COUNTER] = high if faults.clear_keeps_high_bits else 0
    if kind in (0b10, 0b11):
        return linger(machine, data(command))
    return False


def ticks_refusal(command):
    """Bit 31 is 0 in the built code; a Q 0 number is at most 255."""
    if field(command, 31, 31):
        return 3
    return 4 if not field(command, 32, 32) and field(command, 14, 23) > 255 else 0


def ticks(machine, command):
    """Q 0 sets T = data+1, Q 1 sets N = data+2; each sets the count too."""
    number, q = field(command, 14, 23), field(command, 32, 32)
    if q:
        machine[layout.N] = number + 2
    else:
        machine[layout.T] = number + 1
    if not (faults.n_forgets_count if q else faults.t_forgets_count):
        put_update_ticks(machine)


# Generators

def gq(machine, command):
    """GQ, right- or left-adjusted by E."""
    load = load_left if field(command, 27, 27) else load_right
    load(machine, generator_word(command, layout.GQ), command, 24)


def gj(machine, command):
    """GJ, right- or left-adjusted by E."""
    load = load_left if field(command, 27, 27) else load_right
    load(machine, generator_word(command, layout.GJ), command, 28)


def whole(register):
    """The load of a 20-bit generator register from the data."""
    def load(machine, command):
        machine[generator_word(command, register)] = data(command)
    return load


def gn_gm(machine, command):
    """GN unless N, GM unless M."""
    if not field(command, 4, 4):
        machine[generator_word(command, layout.GN)] = field(command, 9, 19)
    if not field(command, 5, 5):
        machine[generator_word(command, layout.GM)] = field(command, 20, 23)


def gl_gsum(machine, command):
    """GL unless L, GSUM unless S."""
    if not field(command, 4, 4):
        machine[generator_word(command, layout.GL)] = field(command, 6, 17)
    if not field(command, 5, 5):
        machine[generator_word(command, layout.GSUM)] = field(command, 18, 23)


def gmode_gfm_refusal(command):
    """An enabled GMODE has a built run mode and oscillator mode."""
    gmode = field(command, 7, 16)
    enabled = not field(command, 4, 4)
    return 3 if enabled and not (run_mode_built(gmode) and oscillator_mode_built(gmode)) else 0


def gmode_gfm(machine, command):
    """GMODE unless M, GFM unless F; C clears GK."""
    if not field(command, 4, 4):
        machine[generator_word(command, layout.GMODE)] = field(command, 7, 16)
    if not field(command, 5, 5):
        machine[generator_word(command, layout.GFM)] = field(command, 17, 23)
    if field(command, 6, 6):
        machine[generator_word(command, layout.GK)] = 0


# Modifiers

def mm(machine, command):
    """VV: 00 M0 right, 01 M1 right, 10 M0 left, 11 M1 left."""
    left, m1 = field(command, 27, 27), field(command, 28, 28)
    place = modifier_word(command, layout.M1 if m1 else layout.M0)
    load = load_left if left else load_right
    load(machine, place, command, 30)


def ml(machine, command):
    """N: 0 L0, 1 L1."""
    register = layout.L1 if field(command, 28, 28) else layout.L0
    machine[modifier_word(command, register)] = data(command)


def mmode_msum_refusal(command):
    """An enabled function is built."""
    enabled = not field(command, 4, 4)
    return 3 if enabled and not function_built(field(command, 8, 16)) else 0


def mmode_msum(machine, command):
    """The function unless M, AABB unless H, MSUM unless S; C clears L0."""
    place = modifier_word(command, layout.MMODE)
    if not field(command, 4, 4):
        machine[place] = field(command, 8, 12) << 4 | low(machine[place], 4)
    if not field(command, 7, 7):
        machine[place] = layout.function(machine[place]) << 4 | field(command, 13, 16)
    if not field(command, 5, 5):
        machine[modifier_word(command, layout.MSUM)] = field(command, 17, 23)
    if field(command, 6, 6):
        machine[modifier_word(command, layout.L0)] = 0


def mrm_min_refusal(command):
    """An enabled MRM or MIN has top bits other than 11."""
    mrm_good = field(command, 4, 4) or source_built(field(command, 8, 15))
    min_good = field(command, 5, 5) or source_built(field(command, 16, 23))
    return 0 if mrm_good and min_good else 3


def mrm_min(machine, command):
    """MRM unless R, MIN unless I; C clears L1."""
    if not field(command, 4, 4):
        machine[modifier_word(command, layout.MRM)] = field(command, 8, 15)
    if not field(command, 5, 5):
        machine[modifier_word(command, layout.MIN)] = field(command, 16, 23)
    if field(command, 6, 6):
        machine[modifier_word(command, layout.L1)] = 0


# Delay units

def dly_refusal(command):
    """UU 11 is unused; a P is built."""
    uu = field(command, 29, 30)
    unbuilt = uu == 0b10 and not delay_mode_built(field(command, 20, 23))
    return 3 if uu == 0b11 or unbuilt else 0


def dly(machine, command):
    """UU 00 loads X and clears Y, 01 loads Y from its one's complement, 10 loads Z and P."""
    uu, number = field(command, 29, 30), field(command, 4, 19)
    if uu == 0b00:
        machine[delay_unit_word(command, layout.X)] = number
        machine[delay_unit_word(command, layout.Y)] = 0
    if uu == 0b01:
        complement = number if faults.y_not_complemented else 65535 - number
        machine[delay_unit_word(command, layout.Y)] = complement
    if uu == 0b10:
        machine[delay_unit_word(command, layout.Z)] = number
        machine[delay_unit_word(command, layout.P)] = field(command, 20, 23)


# The codes

def always(command):
    """The question of a command that every data is good for."""
    return 0


# By the code's bits from bit 24 on: its question and what it does.
CODES = {
    "00000": (misc_refusal, misc),
    "00001": (dly_refusal, dly),
    "00010": (always, timer),
    "00011": (ticks_refusal, ticks),
    "001": (always, gq),
    "010": (always, gj),
    "0110": (always, whole(layout.GP)),
    "0111": (always, gn_gm),
    "1000": (always, gl_gsum),
    "1001": (always, whole(layout.GK)),
    "1010": (gmode_gfm_refusal, gmode_gfm),
    "1011": (always, whole(layout.GO)),
    "110": (always, mm),
    "1110": (always, ml),
    "11110": (mmode_msum_refusal, mmode_msum),
    "11111": (mrm_min_refusal, mrm_min),
}


def decoded(command):
    """The question and the action of a command, by its code."""
    bits = format(field(command, 24, 28), "05b")
    for length in (3, 4, 5):
        if bits[:length] in CODES:
            return CODES[bits[:length]]
    raise AssertionError("every five bits have a code")


def command_refusal(command):
    """Questions 3 and 4 of a command: 0, 3 or 4."""
    question, _ = decoded(command)
    return question(command)


def take_command(machine, command):
    """Does a command in place; says whether it is a Linger that waits."""
    _, action = decoded(command)
    return bool(action(machine, command))


# The update

def limit(machine):
    """The most commands that an update may take."""
    return max(machine[layout.N] - machine[layout.T] - layout.OVERHEAD_TICKS, 0)


def still_lingering(machine):
    """Whether the machine waits for a pass that is not this one."""
    counter = machine[layout.COUNTER]
    number = counter if faults.lingering_by_32_bits else low_20(counter)
    return machine[layout.LINGERING] == 1 and number != machine[layout.LINGER_PASS]


def run_update(machine, commands):
    """An update: its number, how many commands it took, and the machine afterwards."""
    number = refusal(machine)
    if number or still_lingering(machine):
        return number, 0, list(machine)
    after = list(machine)
    after[layout.LINGERING] = 0
    taken = 0
    for command in commands[:limit(machine)]:
        number = command_refusal(command)
        if number:
            return number, taken, after
        taken += 1
        if take_command(after, command):
            break
    return 0, taken, after
