#!/usr/bin/env python3
"""The most stack that each exported function can use, read from the archive's code.

Standard input is `objdump -dr --no-show-raw-insn` of the archive. Along the jumps of a function its depth is followed:
what it pushes, pops and subtracts from the stack pointer, and what it keeps below it (the red zone). A call adds its
return address and what the called function can use; what is not in the archive, memcpy and memset, adds nothing.
Refused, with a sentence: a stack pointer that is changed in another way, a place that is reached at two depths, a
return at another depth than 0, a function that calls itself and is not listed here.

Prints NAME BYTES: with the function's own return address, and with the arguments that its caller puts on the stack,
which are those behind the sixth, 8 bytes each, rounded up to 16; the header, the one argument here, says how many.
"""
import re
import sys

# How deep a function calls itself: a list of at most 64 is halved down to two, 64, 32, 16, 8, 4, 2.
AGAIN = {"sorted_merge::sort": 6}


def fail(sentence):
    sys.exit("frames: " + sentence)


def functions(lines):
    """NAME: list of (address, operation, operands, called), one for each instruction."""
    found, body = {}, None
    for line in lines:
        if head := re.match(r"[0-9a-f]+ <(.*)>:$", line):
            body = found.setdefault(head[1], [])
        elif code := re.match(r" *([0-9a-f]+):\t(\S+) *(.*)", line):
            body.append((code[1], code[2], code[3].split("#")[0].strip(), None))
        elif reloc := re.match(r"\t+[0-9a-f]+: R_X86_64_\S+\t(\S+)", line):
            target = re.sub(r"[-+]0x[0-9a-f]+$", "", reloc[1])
            body[-1] = body[-1][:3] + (re.sub(r"^\.text\.", "", target),)
    return found


def moved(name, operation, operands):
    """By how much an instruction makes the stack deeper."""
    if operation in ("push", "pop"):
        return 8 if operation == "push" else -8
    if not operands.endswith(",%rsp") or operation.startswith(("cmp", "test")):
        return 0
    number = re.match(r"\$(-?0x[0-9a-f]+),", operands)
    if not number or operation not in ("sub", "add"):
        fail(f"{name}: {operation} {operands} changes the stack pointer")
    return int(number[1], 16) * (1 if operation == "sub" else -1)


def steps(name, body, start, depth, depths, tabled):
    """Follows the code from a place on, at this depth; depths has the depth before each instruction reached."""
    work = [(start, depth)]
    while work:
        at, depth = work.pop()
        while at < len(body):
            address, operation, operands, called = body[at]
            if at in depths:
                if depths[at] != depth:
                    fail(f"{name}: {address} is reached at depths {depths[at]} and {depth}")
                break
            depths[at] = depth
            if operation == "ret" and depth:
                fail(f"{name} returns at depth {depth}")
            if operation.startswith("j") and operands.startswith("*"):
                tabled.add(depth)
            elif operation.startswith("j") and not called:
                work.append((place(name, body, operands.split()[0]), depth))
            if operation in ("jmp", "ret", "ud2"):
                break
            depth += moved(name, operation, operands)
            at += 1


def place(name, body, address):
    for at, instruction in enumerate(body):
        if instruction[0] == address:
            return at
    return fail(f"{name}: it jumps to {address}, which is not in it")


def all_depths(name, body):
    """The depth before each instruction. What only a table of jumps leads to is at the depth of the jump by it."""
    depths, tabled = {}, set()
    steps(name, body, 0, 0, depths, tabled)
    for at, (address, operation, _, _) in enumerate(body):
        if at in depths or operation in ("nop", "nopw", "nopl", "cs", "data16", "xchg", "int3"):
            continue
        if len(tabled) != 1:
            fail(f"{name}: nothing leads to {address}, or tables at two depths")
        steps(name, body, at, next(iter(tabled)), depths, tabled)
    return depths


def frame(name, body):
    """The depth of the function itself, and (called function, depth at the call) of each call and jump out of it."""
    deepest, calls = 0, []
    for at, depth in all_depths(name, body).items():
        _, operation, operands, called = body[at]
        if operation == "call" and not called and operands.endswith(f"<{name}>"):
            called = name
        if operation == "call" and not called:
            fail(f"{name}: it is not known what {operands} calls")
        if called and operation.startswith(("call", "j")):
            calls.append((called, depth + (8 if operation == "call" else 0)))
        below = re.search(r"-(0x[0-9a-f]+)\(%rsp", operands)
        kept = depth + int(below[1], 16) if below and operation != "lea" else 0
        deepest = max(deepest, kept, depth + moved(name, operation, operands))
    return deepest, calls


def most(name, frames, within=()):
    """The deepest chain of calls from a function on."""
    if name not in frames:
        return 0
    if name in within:
        fail(f"{name} calls itself")
    own, calls = frames[name]
    again = max([depth for called, depth in calls if called == name], default=0)
    if again and name not in AGAIN:
        fail(f"{name} calls itself")
    others = [depth + most(called, frames, within + (name,)) for called, depth in calls if called != name]
    return again * (AGAIN.get(name, 1) - 1) + max([own] + others)


def arguments(header):
    """NAME: the bytes of its arguments on the stack."""
    with open(header, encoding="utf-8") as text:
        found = re.findall(r"^void (skid_\w+)\(([^)]*)\);", text.read(), re.M)
    return {name: max(0, (listed.count(",") + 1 - 6 + 1) // 2 * 16) for name, listed in found}


def main():
    lent = arguments(sys.argv[1])
    found = functions(line.rstrip("\n") for line in sys.stdin)
    frames = {name: frame(name, body) for name, body in found.items()}
    for name in sorted(frames):
        if re.fullmatch(r"skid_(?!interface_)[a-z_]+", name):
            print(name, most(name, frames) + 8 + lent[name])


main()
