"""cycles.py IMAGE.elf TRACE SAID: puts behind each line of a call that the board said its cycles and its deepest stack.

TRACE is QEMU's log with one instruction to a line. Measured is the one call between two calls of board_mark, from the
bl to the return; what loads its arguments is not. The cycles of an instruction are those of the table in the manual of
the Cortex-M0, with no wait states and a multiplier of one cycle. The stack is followed by the instructions that move
its pointer.
"""

import re
import struct
import subprocess
import sys

image, trace, said = sys.argv[1:4]


def place(name):
    """The address of a function."""
    text = subprocess.run(["arm-none-eabi-nm", image], capture_output=True, text=True, check=True).stdout
    for parts in map(str.split, text.splitlines()):
        if parts[-1] == name:
            return int(parts[0], 16) & ~1
    sys.exit("cycles.py: %s has no %s" % (image, name))


def code():
    """The halfwords of the loaded segments, by address."""
    data = open(image, "rb").read()
    offset = struct.unpack_from("<I", data, 28)[0]
    size, count = struct.unpack_from("<HH", data, 42)
    halfwords = {}
    for i in range(count):
        kind, at, _, address, length = struct.unpack_from("<IIIII", data, offset + i * size)
        if kind == 1:
            for k in range(0, length & ~1, 2):
                halfwords[address + k] = struct.unpack_from("<H", data, at + k)[0]
    return halfwords


def ones(bits):
    return bin(bits).count("1")


def cost(op, at, after):
    """The cycles of the instruction op at `at`, when the next one is at `after`."""
    if op >> 11 >= 0b11101:  # 32 bits: bl, msr, mrs, barriers
        return 4
    if op >> 11 == 0b11100:  # b
        return 3
    if op >> 12 == 0b1101:  # b<cond>
        return 1 if after == at + 2 else 3
    if op >> 12 == 0b1100:  # ldm, stm
        return 1 + ones(op & 0xFF)
    if op >> 9 == 0b1011010:  # push
        return 1 + ones(op & 0x1FF)
    if op >> 9 == 0b1011110:  # pop
        return (4 if op & 0x100 else 1) + ones(op & 0x1FF)
    if op >> 8 == 0b01000111:  # bx, blx
        return 3
    if op >> 8 in (0b01000100, 0b01000110) and op & 0x87 == 0x87:  # add pc, mov pc
        return 3
    if op >> 11 == 0b01001 or 0b0101 <= op >> 12 <= 0b1001:  # ldr, str of every kind
        return 2
    return 1


class Stack:
    """The stack pointer, in bytes below where the call began; None once it cannot be told."""

    def __init__(self):
        self.now, self.deepest, self.literal = 0, 0, {}

    def step(self, op, at):
        if op >> 11 == 0b01001:  # ldr rd, [pc, #..]: a frame too large for sub sp
            address = (at + 4 & ~3) + (op & 0xFF) * 4
            word = memory.get(address, 0) | memory.get(address + 2, 0) << 16
            self.literal[op >> 8 & 7] = word - (word >> 31 << 32)
        if self.now is None:
            return
        if op >> 9 == 0b1011010:
            self.now += 4 * ones(op & 0x1FF)
        elif op >> 9 == 0b1011110:
            self.now -= 4 * ones(op & 0x1FF)
        elif op >> 8 == 0b10110000:  # add, sub sp, #..
            self.now += (op & 0x7F) * 4 * (1 if op & 0x80 else -1)
        elif op & 0xFF87 == 0x4485:  # add sp, rm
            value = self.literal.get(op >> 3 & 15)
            self.now = None if value is None else self.now - value
        elif op & 0xFF87 == 0x4685:  # mov sp, rm
            self.now = None
        if self.now is not None and self.now > self.deepest:
            self.deepest = self.now


def measurements():
    """The cycles and the deepest stack of the call between each two marks."""
    mark = place("board_mark")
    line = re.compile(r"^Trace .*\[[0-9a-f]+/([0-9a-f]+)/")
    found, between, pc, back = [], False, None, None
    for text in open(trace):
        if text.startswith("Stopped execution"):  # before the instruction of the line above, which comes once more
            pc = None
            continue
        match = line.search(text)
        if not match:
            continue
        after = int(match.group(1), 16)
        if pc == mark:
            between = not between
            if between:
                found.append([])
        elif between and pc is not None:
            op = memory[pc]
            if back is None and op >> 11 == 0b11110 and after != mark:  # bl
                back, cycles, stack = pc + 4, 0, Stack()
            if back is not None:
                cycles += cost(op, pc, after)
                stack.step(op, pc)
            if after == back:
                found[-1].append((cycles, stack.deepest if stack.now == 0 else None))
                back = None
        pc = after
    return found


memory = code()
found = measurements()
lines = open(said).read().splitlines()
if sum(text.startswith("call\t") for text in lines) != len(found):
    sys.exit("cycles.py: the trace has not two marks for each call that the board said")
for text in lines:
    if text.startswith("call\t"):
        measured = found.pop(0)
        if len(measured) != 1:
            sys.exit("cycles.py: %d calls between two marks: %s" % (len(measured), text))
        if measured[0][1] is None:
            sys.exit("cycles.py: the stack pointer was lost: " + text)
        text += "\t%d\t%d" % measured[0]
    print(text)
