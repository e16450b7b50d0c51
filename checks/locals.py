"""Run by gdb, for the check `locals`: steps a program under qemu from its first state to its last, and compares at
each state that begins a line the local variables in scope with what omni says of that state.

So that addresses in the stack are the same, the log is told of a stack that ends in qemu's, and qemu's stack pointer
begins there. A variable is left out, and counted, where its place is of a form that omni doesn't read: a list of
locations, a constant, or an expression of other or more operations.
"""
import os
import re
import struct
import subprocess

import gdb

OMNI, PROGRAM, LOG, SOCKET, WHAT = (os.environ[name] for name in ("OMNI", "PROGRAM", "LOG", "SOCKET", "WHAT"))
READ = re.compile(r"DW_OP_(addr|fbreg|b?reg\d+)\b")
PAGE = 4096


def omni(*words):
    """What omni prints for these words."""
    return subprocess.run([OMNI, *words], stdout=subprocess.PIPE, check=True).stdout.decode()


def moved(log, end):
    """A log whose stack ends at another address: so do the addresses in it that its calls name. It has no marks."""
    low, size = struct.unpack_from("<II", log, 4)
    by = end - low - size

    def word(at):
        number = struct.unpack_from("<I", log, at)[0]
        return struct.pack("<I", number + by if low <= number <= low + size else number)

    made = log[:4] + struct.pack("<I", low + by) + log[8:20]
    at = 20
    while log[at] == 1:
        made += log[at : at + 13] + b"".join(word(at + 13 + 4 * k) for k in range(7)) + log[at + 41 : at + 45]
        writes = struct.unpack_from("<I", log, at + 41)[0]
        at += 45
        for _ in range(writes):
            length = struct.unpack_from("<I", log, at + 4)[0]
            made += word(at) + log[at + 4 : at + 8 + length]
            at += 8 + length
    return made + log[at:]


def names():
    """The local variables that have numbers."""
    told = (line.split() for line in omni("info", PROGRAM).splitlines())
    return [line[1] for line in told if line[0] == "variable" and len(line) == 4 and "." in line[1]]


def rows(columns):
    """The pc and these variables at each state."""
    items = ", ".join(["pc"] + ['"%s"' % column for column in columns])
    lines = omni("query", PROGRAM, LOG, "SELECT %s FROM states" % items).splitlines()[1:-1]
    return [[None if word == "NULL" else int(word) for word in line.split()] for line in lines]


def frame():
    """The frame of the function itself, whatever was inlined into it at this state."""
    at = gdb.newest_frame()
    while at.type() == gdb.INLINE_FRAME:
        at = at.older()
    return at


def in_scope(at):
    """The variables of a frame, each name's innermost one."""
    found = {}
    try:
        block = at.block()
    except RuntimeError:
        return []
    while block is not None and not block.is_global and not block.is_static:
        for symbol in block:
            if (symbol.is_variable or symbol.is_argument) and symbol.name not in found:
                found[symbol.name] = symbol
        if block.function is not None:
            break
        block = block.superblock
    return found.values()


def is_read(symbol):
    """Whether the place of a variable is of a form that omni reads."""
    text = gdb.execute("info address %s" % symbol.name, to_string=True)
    if "multi-location" in text or "constant" in text:
        return False
    operations = re.findall(r"DW_OP_\w+", text)
    return not operations or len(operations) == 1 and READ.match(operations[0]) is not None


def number(value):
    """What gdb reads, if it reads a number; modulo 2^64."""
    if value.is_optimized_out:
        return None
    try:
        return int(value)
    except gdb.MemoryError:
        return None


def main():
    for command in ("set pagination off", "set confirm off", "file " + PROGRAM, "target remote " + SOCKET):
        gdb.execute(command, to_string=True)
    end = int(gdb.parse_and_eval("(unsigned) $sp")) // PAGE * PAGE
    gdb.execute("set $sp = %d" % (end - 16))  # where a run begins
    with open(LOG, "rb") as file:
        log = moved(file.read(), end)
    with open(LOG, "wb") as file:
        file.write(log)
    columns = names()
    passed = left = failed = 0
    for step, row in enumerate(rows(columns)[:-1]):  # at the last one the program has exited
        pc = int(gdb.parse_and_eval("(unsigned) $pc"))
        if pc != row[0]:
            print("locals: %s: step %d is at %d here, and at %d in gdb" % (WHAT, step, row[0], pc))
            failed += 1
            break
        line = gdb.find_pc_line(pc)
        at = frame()
        if line.symtab is not None and line.pc == pc and at.function() is not None:
            at.select()
            for symbol in in_scope(at):
                column = "%s.%s" % (at.function().name, symbol.name)
                if column not in columns:
                    continue
                if not is_read(symbol):
                    left += 1
                    continue
                ours, theirs = row[1 + columns.index(column)], number(symbol.value(at))
                if ours == theirs:
                    passed += 1
                else:
                    place = "step %d, line %d" % (step, line.line)
                    print("locals: %s: %s: %s is %s here, and %s in gdb" % (WHAT, place, column, ours, theirs))
                    failed += 1
        gdb.execute("stepi", to_string=True)
    print("counts %d %d %d" % (passed, left, failed))


main()
