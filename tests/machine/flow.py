#!/usr/bin/env python3
"""What decides the addresses and the jumps of a compiled function.

OBJECT is an object file or an archive for x86-64. An ARGUMENT is the name of one of the function's arguments, in their order;
`*name` is a pointer to bytes that are secret, and every other is a number that is not. `name=8` is a number that is 8. The code is
followed from its entry, along all ways at once, through the functions of the same object that it calls, and for each register, flag
and byte of the stack it is kept what its value comes from:

    an address     a fixed distance from the stack pointer at the entry; or some distance from a pointer argument, fixed or by the way
                   that was taken, which the jumps decide, or by that pointer itself: where it is null, as a caller may pass for no
                   bytes, an exported function has another address in its place
    a number       arguments, and bytes read through pointers, that it was worked out from; none of them for a constant

Prints a line for each conditional jump, with the arguments that decide it. Refused, each with a line that starts with the word:

    - a memory operand that is not at such an address
    - a jump that depends on a secret byte, or on something whose origin is not known
    - anything that is not listed here as understood: an instruction, an operand, a jump or a call out of the object. Of these calls
      that of memcpy is understood, where it copies a number of bytes that is known

The exit status is 1 where anything is refused. What the code reads through a pointer argument is taken to be secret, all of it, and
what it writes through one not to touch its own stack, which is the caller's side of include/limpetnook.h.
"""
import argparse
import re
import subprocess
import sys

WIDE = ["rax", "rcx", "rdx", "rbx", "rsp", "rbp", "rsi", "rdi"] + ["r%d" % i for i in range(8, 16)]
REGISTERS = {}  # name: (the whole register, bytes; 1 for the lowest byte, -1 for the second)
for wide in WIDE:
    if wide[1].isdigit():
        names = (wide + "d", wide + "w", wide + "b")
    elif wide[2] == "x":
        names = ("e" + wide[1:], wide[1:], wide[1] + "l")
        REGISTERS[wide[1] + "h"] = (wide, -1)
    else:
        names = ("e" + wide[1:], wide[1:], wide[1:] + "l")
    for name, size in zip((wide,) + names, (8, 4, 2, 1)):
        REGISTERS[name] = (wide, size)
for i in range(16):
    REGISTERS["xmm%d" % i] = ("xmm%d" % i, 16)

ARGUMENTS = ["rdi", "rsi", "rdx", "rcx", "r8", "r9"]
FLAGS = "czsop"
CONDITIONS = {
    "e": "z", "ne": "z", "b": "c", "ae": "c", "be": "cz", "a": "cz", "s": "s", "ns": "s",
    "l": "so", "ge": "so", "le": "zso", "g": "zso", "o": "o", "no": "o", "p": "p", "np": "p",
}
SIZES = {"b": 1, "w": 2, "l": 4, "q": 8}
# Two operands, the second of which is worked out from both; the flags that each sets.
COMBINING = {"and": FLAGS, "or": FLAGS, "xor": FLAGS, "add": FLAGS, "sub": FLAGS, "imul": FLAGS}
# By a fixed number of bits.
SHIFTING = {"shl": FLAGS, "shr": FLAGS, "sar": FLAGS, "rol": "co", "ror": "co", "shld": FLAGS, "shrd": FLAGS}
SINGLE = {"inc": "zsop", "dec": "zsop", "neg": FLAGS, "not": ""}
# On whole registers of 16 bytes, the last operand worked out from all. They set no flags.
PACKED = ["pand", "pandn", "por", "pxor", "xorps", "pshufd", "psllq", "pslldq", "psrlq", "psrldq", "punpcklbw", "punpcklwd", "punpckldq"]
CHANGED_BY_CALLS = ["rax", "rcx", "rdx", "rsi", "rdi", "r8", "r9", "r10", "r11"] + ["xmm%d" % i for i in range(16)]


class Refused(Exception):
    pass


def number(*origins):
    return ("number", frozenset(origins))


def known(name, value):
    """An argument that has this value, as long as nothing is worked out from it."""
    return ("number", frozenset([name]), value)


CONSTANT = number()
RETURN = number("?where to return to")


def origins(value):
    """What a number that is worked out from the value comes from."""
    if value[0] == "number":
        return value[1]
    return frozenset(["?the address " + value[1]])


def combined(*values):
    return ("number", frozenset().union(*map(origins, values)))


def joined(a, b):
    """A value that is either a or b, by the way that led there."""
    if a[0] == b[0] == "address" and a[1] == b[1] != "stack" and a[2] != b[2]:
        return ("address", a[1], None)
    return a if a == b else combined(a, b)


def secret(names):
    """Those that are secret; where none is, those that are not known."""
    return [name for name in names if name[0] == "*"] or [name for name in names if name[0] == "?"]


def told(names):
    words = []
    for name in sorted(names):
        words.append("bytes of " + name[1:] if name[0] == "*" else name.lstrip("?"))
    return ", ".join(words) if words else "constants"


def moved(address, by):
    """The address so many bytes further on. Where it is by the way taken, so it is there."""
    return (*address[:2], None if address[2] is None else address[2] + by)


def further(address, by):
    """The address by a number further on that the pointer itself decides, and nothing else does; None where it is not so."""
    if address[0] == "address" and address[1] != "stack" and by == number("?the address " + address[1]):
        return (*address[:2], None)
    return None


class State:
    """Registers and flags by name, and the stack by the byte: (the value, which of its bytes this is, how many it has)."""

    def __init__(self):
        self.registers = {whole: number("?" + whole) for whole, _ in REGISTERS.values()}
        self.lowest = {}  # of a register whose lowest byte was set by itself
        self.flags = {flag: number("?flags") for flag in FLAGS}
        self.stack = {}

    def copy(self):
        new = State.__new__(State)
        new.registers, new.lowest, new.flags, new.stack = map(dict, (self.registers, self.lowest, self.flags, self.stack))
        return new

    def join(self, other):
        new = State.__new__(State)
        new.registers = {name: joined(value, other.registers[name]) for name, value in self.registers.items()}
        new.lowest = {
            name: joined(self.low(name), other.low(name)) for name in set(self.lowest) | set(other.lowest)
        }
        new.flags = {flag: joined(value, other.flags[flag]) for flag, value in self.flags.items()}
        new.stack = {}
        for place in set(self.stack) & set(other.stack):
            mine, its = self.stack[place], other.stack[place]
            new.stack[place] = mine if mine == its else (combined(mine[0], its[0]), 0, 0)
        return new

    def __eq__(self, other):
        return vars(self) == vars(other)

    def low(self, name):
        return self.lowest.get(name, self.registers[name])

    def read(self, register):
        name, size = REGISTERS[register]
        if size == 1:
            value = self.low(name)
            return value if value[0] == "number" else combined(value)
        value = self.registers[name]
        return value if size in (8, 16) or value[0] == "number" else combined(value)

    def write(self, register, value):
        name, size = REGISTERS[register]
        if size in (4, 8, 16):
            self.registers[name] = value if size != 4 else combined(value)
            self.lowest.pop(name, None)
        else:
            rest = self.low(name)
            self.registers[name] = combined(self.registers[name], value)
            self.lowest[name] = combined(value) if size == 1 else combined(rest, value)
            if size == -1:
                self.lowest[name] = rest

    def load(self, place, size):
        found = [self.stack.get(place + i) for i in range(size)]
        if found[0] and found == [(found[0][0], i, size) for i in range(size)]:
            return found[0][0]
        return combined(*(entry[0] if entry else number("?the stack") for entry in found))

    def store(self, place, size, value):
        for i in range(size):
            self.stack[place + i] = (value, i, size)


class Code:
    """The instructions of an object, by function and place: (mnemonic, operands, where the next one is, relocation)."""

    def __init__(self, path):
        command = ["x86_64-linux-gnu-objdump", "-dr", "--no-show-raw-insn", path]
        self.functions = {}
        function = None
        last = None
        for line in subprocess.run(command, check=True, capture_output=True, text=True).stdout.splitlines():
            if match := re.match(r"[0-9a-f]+ <(.*)>:$", line):
                function = self.functions.setdefault(plain(match[1]), {})
                last = None
            elif match := re.match(r"\s+([0-9a-f]+):\s+R_X86_64_\w+\s+(.*)$", line):
                last[3] = match[2]
            elif match := re.match(r"\s+([0-9a-f]+):\t(.*)$", line):
                place = int(match[1], 16)
                if last:
                    last[2] = place
                words = re.sub(r"\s*(#.*|<.*>)$", "", match[2]).split(None, 1)
                last = [words[0], words[1] if len(words) > 1 else "", None, None]
                function[place] = last


def plain(symbol):
    return re.sub(r"^\.text\.|[-+]0x[0-9a-f]+$", "", symbol)


def operands(text):
    return re.findall(r"(?:[^,(]|\([^)]*\))+", text)


class Walk:
    def __init__(self, code):
        self.code = code
        self.jumps = {}  # (function, place): what decides it
        self.refusals = {}
        self.memory = set()
        self.seen = set()

    def refuse(self, function, place, why):
        mnemonic, text, _, _ = self.code.functions[function][place]
        self.refusals[function, place] = "refused: %s+%x: %s %s: %s" % (function, place, mnemonic, text, why)

    def call(self, function, state, callers):
        """The state at the function's end, from the one at its entry; None where it never ends."""
        if function not in self.code.functions:
            raise Refused("a call out of the object, of %s" % function)
        if function in callers:
            raise Refused("a function that calls itself")
        code = self.code.functions[function]
        first = min(code)
        states = {first: state}
        waiting = [first]
        end = None
        while waiting:
            place = waiting.pop()
            after = states[place].copy()
            self.seen.add((function, place))
            try:
                ways = self.step(function, place, code[place], after, callers + [function])
            except Refused as why:
                self.refuse(function, place, why)
                continue
            for way in ways:
                if way == "end":
                    end = after.copy() if end is None else end.join(after)
                elif way not in code:
                    self.refuse(function, place, "a way out of the function")
                else:
                    new = states[way].join(after) if way in states else after
                    if way not in states or new != states[way]:
                        states[way] = new
                        waiting.append(way)
        return end

    def address(self, text, state):
        """The address that a memory operand names, as a value."""
        match = re.fullmatch(r"(-?0x[0-9a-f]+)?\((%\w+)?(?:,(%\w+),(\d))?\)", text)
        if not match:
            raise Refused("this operand is not understood")
        displacement = int(match[1] or "0", 16)
        if match[2] == "%rip":
            return ("address", "constants", 0)
        parts = [state.read(register[1:]) for register in match.group(2, 3) if register]
        if len(parts) == 1 and match[2] and parts[0][0] == "address":
            return moved(parts[0], displacement)
        if len(parts) == 2 and match[4] == "1" and (found := further(*parts) or further(*reversed(parts))):
            return found
        return combined(*parts)

    def at(self, function, place, text, state):
        """The address of a memory operand, also of one that is refused, so that the code can be followed further."""
        address = self.address(text, state)
        self.memory.add((function, place))
        if address[0] != "address":
            self.refuse(function, place, "its address depends on %s" % told(secret(address[1]) or address[1]))
        return address

    def get(self, function, place, text, size, state):
        if text.startswith("$"):
            return CONSTANT
        if text.startswith("%"):
            if text[1:] not in REGISTERS:
                raise Refused("this register is not understood")
            return state.read(text[1:])
        address = self.at(function, place, text, state)
        if address[0] != "address":
            return address
        _, base, offset = address
        if base == "constants":
            return CONSTANT
        return state.load(offset, size) if base == "stack" else number("*" + base)

    def put(self, function, place, text, size, value, state):
        if text.startswith("%"):
            if text[1:] not in REGISTERS:
                raise Refused("this register is not understood")
            state.write(text[1:], value)
            return
        address = self.at(function, place, text, state)
        if address[:2] == ("address", "constants"):
            raise Refused("it writes where constants are")
        if address[:2] == ("address", "stack"):
            state.store(address[2], size, value)

    def step(self, function, place, instruction, state, callers):
        """Does one instruction to the state, and gives the places that may come next."""
        mnemonic, text, after, relocation = instruction
        args = operands(text)
        ways = [] if after is None else [after]

        # The nop of two bytes is shown as an exchange of a register with itself.
        if mnemonic == "endbr64" or re.match(r"((data16|cs) )*nop[wl]?\b|xchg +%ax,%ax$", mnemonic + " " + text):
            return ways
        if mnemonic == "ret":
            at = state.registers["rsp"]
            if at[0] != "address" or at[1] != "stack" or state.load(at[2], 8) != RETURN:
                raise Refused("it does not return to its caller")
            state.registers["rsp"] = ("address", "stack", at[2] + 8)
            return ["end"]
        if mnemonic in ("jmp", "call") and (relocation or re.fullmatch(r"[0-9a-f]+", text)):
            if mnemonic == "jmp":
                if relocation:
                    raise Refused("a jump out of the function")
                return [int(text, 16)]
            if relocation and plain(relocation) == "memcpy":
                self.copy(state)
                return ways
            self.push(state, RETURN)
            if relocation:
                callee = plain(relocation)
            else:
                callee = next((name for name, code in self.code.functions.items() if int(text, 16) == min(code)), text)
            end = self.call(callee, state.copy(), callers)
            if end is None:
                return []
            state.__dict__.update(vars(end))
            return ways
        if mnemonic[0] == "j" and mnemonic[1:] in CONDITIONS and not relocation:
            decided = combined(*(state.flags[flag] for flag in CONDITIONS[mnemonic[1:]]))[1]
            self.jumps[function, place] = self.jumps.get((function, place), frozenset()) | decided
            if secret(decided):
                self.refuse(function, place, "it depends on %s" % told(secret(decided)))
            return ways + [int(text, 16)]
        if relocation and "(%rip)" not in text:
            self.refuse(function, place, "the linker puts an operand in")

        if mnemonic == "push" and args[0].startswith("%"):
            self.push(state, state.read(args[0][1:]))
            return ways
        if mnemonic == "pop" and args[0].startswith("%"):
            at = state.registers["rsp"]
            if at[0] != "address" or at[1] != "stack":
                raise Refused("the stack pointer is not known")
            state.registers["rsp"] = ("address", "stack", at[2] + 8)
            state.write(args[0][1:], state.load(at[2], 8))
            return ways
        if mnemonic.startswith("set") and mnemonic[3:] in CONDITIONS:
            self.put(function, place, args[0], 1, combined(*(state.flags[f] for f in CONDITIONS[mnemonic[3:]])), state)
            return ways
        if mnemonic == "lea" and args[1].startswith("%"):
            state.write(args[1][1:], self.address(args[0], state))
            return ways
        if mnemonic == "movabs":
            state.write(args[1][1:], CONSTANT)
            return ways
        if match := re.fullmatch(r"mov[zs]([bw])([wlq])", mnemonic):
            state.write(args[1][1:], combined(self.get(function, place, args[0], SIZES[match[1]], state)))
            return ways

        # What is left has a suffix only where no operand is a register that tells the size.
        name, size = mnemonic, None
        for known in ("mov", "cmp", "test", *COMBINING, *SHIFTING, *SINGLE):
            if mnemonic == known or (mnemonic[:-1] == known and mnemonic[-1] in SIZES):
                name, size = known, SIZES.get(mnemonic[len(known):])
        for arg in args:
            if arg.startswith("%") and arg[1:] in REGISTERS:
                size = abs(REGISTERS[arg[1:]][1])
        if mnemonic in ("movq", "movd"):
            name, size = "mov", 8 if mnemonic == "movq" else 4
        if mnemonic in PACKED and args[-1].startswith("%xmm"):
            name, size = "packed", 16
        if mnemonic in ("movaps", "movups", "movdqa", "movdqu"):
            name, size = "mov", 16
        if size is None:
            raise Refused("this instruction is not understood")

        if name == "packed":
            state.write(args[-1][1:], self.combine(function, place, "xor", args, size, state) if mnemonic in ("pxor", "xorps")
                        else combined(*(self.get(function, place, arg, size, state) for arg in args)))
        elif name == "mov":
            self.put(function, place, args[1], size, self.get(function, place, args[0], size, state), state)
        elif name in ("cmp", "test"):
            value = combined(*(self.get(function, place, arg, size, state) for arg in args))
            state.flags = dict.fromkeys(FLAGS, value)
        elif name == "bt" and args[1].startswith("%"):  # a bit of a register; what is left in s, o and p is not said
            value = combined(*(self.get(function, place, arg, size, state) for arg in args))
            state.flags.update(dict.fromkeys("csop", value))
        elif name in COMBINING and len(args) in (2, 3):
            value = self.combine(function, place, name, args, size, state)
            self.put(function, place, args[-1], size, value, state)
            state.flags.update(dict.fromkeys(COMBINING[name], combined(value)))
        elif name in SHIFTING:
            if len(args) > 1 and not args[0].startswith("$"):
                raise Refused("it shifts by a number that is not fixed")
            value = combined(*(self.get(function, place, arg, size, state) for arg in args))
            self.put(function, place, args[-1], size, value, state)
            state.flags.update(dict.fromkeys(SHIFTING[name], value))
        elif name in SINGLE and len(args) == 1:
            value = combined(self.get(function, place, args[0], size, state))
            self.put(function, place, args[0], size, value, state)
            state.flags.update(dict.fromkeys(SINGLE[name], value))
        else:
            raise Refused("this instruction is not understood")
        return ways

    def combine(self, function, place, name, args, size, state):
        first, second = args[0], args[-1]
        if name in ("xor", "sub") and first == second:
            return CONSTANT
        value = self.get(function, place, second, size, state)
        if name in ("add", "sub") and value[0] == "address" and first.startswith("$") and size == 8:
            by = int(first[1:], 16)
            by -= 2 ** 64 if by >= 2 ** 63 else 0
            return moved(value, by if name == "add" else -by)
        if name == "add" and size == 8 and len(args) == 2:
            other = self.get(function, place, first, size, state)
            if found := further(value, other) or further(other, value):
                return found
        return combined(value, *(self.get(function, place, arg, size, state) for arg in args[:-1]))

    def copy(self, state):
        """memcpy(rdi, rsi, rdx), of which only the arguments decide what it does."""
        to, source, count = (state.registers[name] for name in ("rdi", "rsi", "rdx"))
        if to[0] != "address" or source[0] != "address" or len(count) < 3:
            raise Refused("memcpy at an address, or of a number of bytes, that is not known")
        for i in range(count[2]):
            byte = state.load(source[2] + i, 1) if source[1] == "stack" else number("*" + source[1])
            if to[1] == "stack":
                state.store(to[2] + i, 1, byte)
        for name in CHANGED_BY_CALLS:
            state.write(name, to if name == "rax" else number("?" + name))
        state.flags = {flag: number("?flags") for flag in FLAGS}

    def push(self, state, value):
        at = state.registers["rsp"]
        if at[0] != "address" or at[1] != "stack":
            raise Refused("the stack pointer is not known")
        state.registers["rsp"] = ("address", "stack", at[2] - 8)
        state.store(at[2] - 8, 8, value)


def main():
    parser = argparse.ArgumentParser(
        prog="tests/machine/flow.py", description=__doc__, formatter_class=argparse.RawDescriptionHelpFormatter)
    parser.add_argument("path", metavar="OBJECT")
    parser.add_argument("function", metavar="FUNCTION")
    parser.add_argument("arguments", metavar="ARGUMENT", nargs="*")
    asked = parser.parse_args()
    path, function, arguments = asked.path, asked.function, asked.arguments
    state = State()
    for i, name in enumerate(arguments):
        if name.startswith("*"):
            value = ("address", name[1:], 0)
        elif "=" in name:
            value = known(name.split("=")[0], int(name.split("=")[1]))
        else:
            value = number(name)
        if i < len(ARGUMENTS):
            state.registers[ARGUMENTS[i]] = value
        else:
            state.store(8 * (1 + i - len(ARGUMENTS)), 8, value)
    state.registers["rsp"] = ("address", "stack", 0)
    state.store(0, 8, RETURN)

    walk = Walk(Code(path))
    if function not in walk.code.functions:
        sys.exit("refused: %s has no function %s" % (path, function))
    end = walk.call(function, state, [])
    if end is None or end.registers["rsp"] != ("address", "stack", 8):
        walk.refusals["", 0] = "refused: %s does not return with the stack as it was" % function
    for (name, place), decided in sorted(walk.jumps.items()):
        print("%s: a jump decided by %s" % (name, told(decided)))
    for key in sorted(walk.refusals):
        print(walk.refusals[key])
    print("%d instructions, %d of them with an address, %d jumps, %d refused"
          % (len(walk.seen), len(walk.memory), len(walk.jumps), len(walk.refusals)))
    sys.exit(bool(walk.refusals))


main()
