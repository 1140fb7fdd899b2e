#!/usr/bin/env python3
"""What decides the addresses and the jumps of a compiled function for Arm, with arguments of given lengths.

OBJECT is an object file for aarch64 or for thumb. The function is run here, instruction by instruction, and for each register, flag and
byte of memory it is kept from which secret bytes its value was worked out. An ARGUMENT is `name=8`, a number, or `*name=HEX`, a pointer
to these bytes, which are secret; `*name=:16` is one to 16 bytes that are not written yet.

Numbers and pointers are fixed, so where no jump and no address depends on a secret byte, other secret bytes run the same instructions
at the same addresses. Refused, each with a line that starts with the word:

    - a memory operand whose address depends on a secret byte, or is outside of the arguments and the stack
    - a jump that does, or an instruction that is run or not by such a condition
    - a shift by a number that does, and anything that is not listed here as understood: an instruction, an operand, or a call out of the
      object. Of these calls those of memcpy and memset are understood

Prints what the bytes of each pointer are at the end, so that they can be held to a known answer, and how much was run. The exit status
is 1 where anything is refused.
"""
import argparse
import re
import subprocess
import sys

TOOLS = {"AArch64": "aarch64-linux-gnu-objdump", "ARM": "arm-none-eabi-objdump"}
BASES = range(0x10000000, 0x60000000, 0x08000000)  # of pointer arguments
STACK = 0x70000000
ENDED = 0x7FFFFFF0  # where the function returns to
NOTHING = frozenset()
CONDITIONS = {
    "eq": "z", "ne": "z", "cs": "c", "hs": "c", "cc": "c", "lo": "c", "mi": "n", "pl": "n", "vs": "v", "vc": "v",
    "hi": "cz", "ls": "cz", "ge": "nv", "lt": "nv", "gt": "nzv", "le": "nzv",
}


class Refused(Exception):
    pass


def met(condition, n, z, c, v):
    return {
        "eq": z, "ne": not z, "cs": c, "hs": c, "cc": not c, "lo": not c, "mi": n, "pl": not n, "vs": v, "vc": not v,
        "hi": c and not z, "ls": not c or z, "ge": n == v, "lt": n != v, "gt": not z and n == v, "le": z or n != v,
    }[condition]


def signed(value, bits):
    return value - (1 << bits) if value >> bits - 1 else value


def shifted(kind, value, by, bits):
    """The value moved by so many bits, and the last bit that went out; None where none did."""
    mask = (1 << bits) - 1
    if by == 0:
        return value, None
    if kind == "lsl":
        return value << by & mask, value >> bits - by & 1 if by <= bits else 0
    if kind == "lsr":
        return value >> by, value >> by - 1 & 1
    if kind == "asr":
        return signed(value, bits) >> by & mask, signed(value, bits) >> by - 1 & 1
    by %= bits
    return (value >> by | value << bits - by) & mask, value >> (by - 1) % bits & 1


class Code:
    """The instructions of an object, by function and place: [mnemonic, operands, the next place, relocation]."""

    def __init__(self, path):
        header = subprocess.run(["readelf", "-h", path], check=True, capture_output=True, text=True, env={"PATH": "/usr/bin:/bin", "LC_ALL": "C"}).stdout
        self.machine = re.search(r"Machine: +(\S+)", header)[1]
        if self.machine not in TOOLS:
            sys.exit("%s is for another processor" % path)
        listed = subprocess.run([TOOLS[self.machine], "-dr", "--no-show-raw-insn", path], check=True, capture_output=True, text=True).stdout
        self.functions = {}
        function = last = None
        for line in listed.splitlines():
            if match := re.match(r"[0-9a-f]+ <(.*)>:$", line):
                function = self.functions.setdefault(plain(match[1]), {})
                last = None
            elif match := re.match(r"\s+([0-9a-f]+):\s+R_\w+\s+(.*)$", line):
                last[3] = plain(match[2])
            elif match := re.match(r"\s+([0-9a-f]+):\t(.*)$", line):
                place = int(match[1], 16)
                if last:
                    last[2] = place
                words = re.sub(r"\s*(//|@|;).*$", "", match[2]).split(None, 1)
                last = [words[0], re.sub(r"\s*<.*>$", "", words[1]) if len(words) > 1 else "", None, None]
                function[place] = last


def plain(symbol):
    return re.sub(r"^\.text\.|[-+]0x[0-9a-f]+$", "", symbol)


def operands(text):
    """Parted by commas that are in no bracket."""
    return [part.strip() for part in re.findall(r"(?:[^,\[{]|\[[^]]*\]|\{[^}]*\})+", text)]


class Machine:
    """What both processors share. A value is a number and the arguments whose secret bytes it was worked out from."""

    def __init__(self, code):
        self.code = code
        self.registers = {}
        self.flags = dict.fromkeys("nzcv", (0, NOTHING))
        self.memory = {}  # by the byte
        self.writable = []  # ranges
        self.returns = {}  # by number: a function and the place in it
        self.refusals = {}
        self.ran = self.reached = self.jumped = 0
        self.where = None

    def refuse(self, why):
        function, place = self.where
        mnemonic, text = self.code.functions[function][place][:2]
        self.refusals.setdefault(self.where, "refused: %s+%x: %s %s: %s" % (function, place, mnemonic, text, why))

    def decide(self, origins, what):
        if origins:
            self.refuse("%s depends on bytes of %s" % (what, ", ".join(sorted(origins))))

    def fixed(self, by):
        if by[1]:
            self.refuse("it shifts by a number that is not fixed")

    def load(self, address, size):
        at, origins = address
        self.reached += 1
        self.decide(origins, "its address")
        found = [self.memory.get(at + i) for i in range(size)]
        if None in found:
            raise Refused("it reads where nothing is known")
        return int.from_bytes(bytes(byte for byte, _ in found), "little"), NOTHING.union(*(of for _, of in found))

    def store(self, address, size, value):
        at, origins = address
        self.reached += 1
        self.decide(origins, "its address")
        if not any(first <= at and at + size <= last for first, last in self.writable):
            raise Refused("it writes outside of the arguments and the stack")
        for i in range(size):
            self.memory[at + i] = (value[0] >> 8 * i & 255, value[1])

    def condition(self, name):
        """Whether the flags meet it, and what they come from."""
        if name in ("al", ""):
            return True, NOTHING
        return (bool(met(name, *(self.flags[flag][0] for flag in "nzcv"))), NOTHING.union(*(self.flags[flag][1] for flag in CONDITIONS[name])))

    def set_flags(self, origins, **values):
        for flag, value in values.items():
            if value is not None:
                self.flags[flag] = (int(bool(value)), origins)

    def added(self, a, b, carry, bits):
        """The sum of two values, and the flags that it sets. A subtraction adds the other's complement."""
        mask, origins = (1 << bits) - 1, a[1] | b[1] | carry[1]
        whole = a[0] + b[0] + carry[0]
        result = whole & mask
        sign = signed(a[0], bits) + signed(b[0], bits) + carry[0]
        return (result, origins), dict(n=result >> bits - 1, z=result == 0, c=whole > mask, v=sign != signed(result, bits))

    def outside(self, name, to, what, count):
        """memcpy and memset, of which only the pointers and the number decide what they do."""
        self.decide(to[1] | count[1] | (what[1] if name == "memcpy" else NOTHING), name)
        for i in range(count[0]):
            byte = self.load((what[0] + i, NOTHING), 1) if name == "memcpy" else (what[0] & 255, what[1])
            self.store((to[0] + i, NOTHING), 1, byte)

    def jump(self, target, taken, origins, after):
        self.jumped += 1
        self.decide(origins, "it")
        return int(target, 16) if taken else after

    def led(self, mnemonic, text, after, relocation, condition):
        """Where an instruction leads that does nothing but lead somewhere; None for any other. condition: by which it is a jump, or ""."""
        function, _ = self.where
        args = operands(text)
        if mnemonic == "nop":
            return function, after
        if mnemonic == "bl" and relocation:
            return self.called(relocation, after)
        if relocation:
            raise Refused("it leads out of the function, or the linker puts an operand in")
        if mnemonic == "b":
            return function, int(text, 16)
        if condition in CONDITIONS:
            return function, self.jump(text, *self.condition(condition), after)
        if mnemonic in ("cbz", "cbnz"):
            value = self.get(args[0])
            return function, self.jump(args[1], (value[0] == 0) == (mnemonic == "cbz"), value[1], after)
        return None

    def called(self, callee, after):
        """Where a call leads. memcpy and memset are done here; the caller's registers are lost to them."""
        function, _ = self.where
        if callee in ("memcpy", "memset"):
            self.outside(callee, *(self.get(name) for name in self.ARGUMENTS[:3]))
            for name in self.LOST:
                self.registers[name] = (0xDEAD, frozenset(["what " + callee + " leaves"]))
            return function, after
        if callee not in self.code.functions:
            raise Refused("a call out of the object, of %s" % callee)
        number = 0x7F000000 + 4 * len(self.returns)
        self.returns[number] = (function, after)
        self.put(self.LINK, (number, NOTHING))
        return callee, min(self.code.functions[callee])

    def returned(self, value):
        self.decide(value[1], "where it returns to")
        if value[0] == ENDED:
            return None
        if value[0] not in self.returns:
            raise Refused("it does not return to its caller")
        return self.returns[value[0]]

    def run(self, function):
        at = (function, min(self.code.functions[function]))
        while at is not None:
            self.where = at
            self.ran += 1
            if self.ran > 3000000:
                raise Refused("it does not end")
            if at[1] not in self.code.functions[at[0]]:
                raise Refused("a way out of the function")
            at = self.step(*self.code.functions[at[0]][at[1]])


class Arm64(Machine):
    LINK, POINTER = "x30", 8
    ARGUMENTS = ["x%d" % i for i in range(8)]
    LOST = ["x%d" % i for i in range(19)] + ["q%d" % i for i in range(8)] + ["q%d" % i for i in range(16, 32)]
    LOGIC = {"and": lambda a, b: a & b, "orr": lambda a, b: a | b, "eor": lambda a, b: a ^ b, "bic": lambda a, b: a & ~b,
             "orn": lambda a, b: a | ~b, "eon": lambda a, b: a ^ ~b}

    def take(self, values):
        for name, value in zip(self.ARGUMENTS, values):
            self.registers[name] = (value, NOTHING)
        if len(values) > len(self.ARGUMENTS):
            sys.exit("more arguments than registers")
        self.registers.update({"sp": (STACK, NOTHING), "x30": (ENDED, NOTHING)})

    def get(self, name):
        if name in ("wzr", "xzr"):
            return 0, NOTHING
        whole = self.registers.get("x" + name[1:] if name[0] == "w" else name, (0, NOTHING))
        return (whole[0] & 0xFFFFFFFF, whole[1]) if name[0] == "w" else whole

    def put(self, name, value):
        if name not in ("wzr", "xzr"):
            self.registers["x" + name[1:] if name[0] == "w" else name] = (value[0] & (1 << self.bits(name)) - 1, value[1])

    @staticmethod
    def bits(name):
        if not re.fullmatch(r"[wx]([0-9]+|zr)|sp|[qds][0-9]+", name):
            raise Refused("this register is not understood")
        return {"w": 32, "q": 128, "d": 64, "s": 32}.get(name[0], 64) if name != "sp" else 64

    def value(self, words, bits):
        """An operand, and behind it how it is shifted or widened."""
        if words[0].startswith("#"):
            value = (int(words[0][1:], 0) & (1 << bits) - 1, NOTHING)
        else:
            value = self.get(words[0])
        if len(words) == 1:
            return value
        kind, _, by = words[1].partition(" ")
        by = int(by[1:] or "0", 0)
        if kind in ("uxtb", "uxth", "uxtw"):
            value = (value[0] & {"b": 0xFF, "h": 0xFFFF, "w": 0xFFFFFFFF}[kind[3]], value[1])
            kind = "lsl"
        if kind not in ("lsl", "lsr", "asr", "ror"):
            raise Refused("this operand is not understood")
        return shifted(kind, value[0], by, bits)[0], value[1]

    def address(self, args):
        """Of [base, offset], [base, offset]! and [base], offset."""
        match = re.fullmatch(r"\[(\w+)(?:, (#[^,]+|\w+)(?:, (.*))?)?\](!?)", args[0])
        if not match:
            raise Refused("this operand is not understood")
        base = self.get(match[1])
        by = self.value([match[2]] + ([match[3]] if match[3] else []), 64) if match[2] else (0, NOTHING)
        at = (base[0] + by[0] & 2 ** 64 - 1, base[1] | by[1])
        if match[4]:
            self.put(match[1], at)
        if len(args) > 1:
            self.put(match[1], (base[0] + int(args[1][1:], 0), base[1]))
        return at

    def step(self, mnemonic, text, after, relocation):
        function, _ = self.where
        args = operands(text)
        onward = (function, after)
        if mnemonic == "ret" and not args:
            return self.returned(self.get("x30"))
        if to := self.led(mnemonic, text, after, relocation, mnemonic[2:] if mnemonic.startswith("b.") else ""):
            return to
        if mnemonic in ("tbz", "tbnz"):
            value = self.get(args[0])
            return function, self.jump(args[2], (value[0] >> int(args[1][1:], 0) & 1 == 0) == (mnemonic == "tbz"), value[1], after)
        if match := re.fullmatch(r"(ld|st)u?r(s?)([bh]?)", mnemonic):
            bits = self.bits(args[0])
            size = {"b": 1, "h": 2}.get(match[3], bits // 8)
            at = self.address(args[1:])
            if match[1] == "st":
                self.store(at, size, self.get(args[0]))
            else:
                value = self.load(at, size)
                self.put(args[0], (signed(value[0], 8 * size), value[1]) if match[2] else value)
            return onward
        if mnemonic in ("ldp", "stp"):
            size, at = self.bits(args[0]) // 8, self.address(args[2:])
            for i in range(2):
                place = (at[0] + i * size, at[1])
                if mnemonic == "stp":
                    self.store(place, size, self.get(args[i]))
                else:
                    self.put(args[i], self.load(place, size))
            return onward
        self.work(mnemonic, args)
        return onward

    def work(self, mnemonic, args):
        """What is worked out in registers."""
        if mnemonic in ("ccmp", "ccmn"):
            taken, origins = self.condition(args[3])
            bits = self.bits(args[0])
            a, b = self.get(args[0]), self.value([args[1]], bits)
            if taken:
                _, flags = self.added(a, ((~b[0] if mnemonic == "ccmp" else b[0]) & (1 << bits) - 1, b[1]), (mnemonic == "ccmp", NOTHING), bits)
            else:
                number = int(args[2][1:], 0)
                flags = dict(n=number & 8, z=number & 4, c=number & 2, v=number & 1)
            self.set_flags(a[1] | b[1] | origins, **flags)
            return
        if mnemonic in ("cmp", "cmn", "tst"):
            mnemonic, args = {"cmp": "subs", "cmn": "adds", "tst": "ands"}[mnemonic], [self.bits(args[0]) == 32 and "wzr" or "xzr"] + args
        if mnemonic in ("neg", "negs", "mvn"):
            zero = "wzr" if self.bits(args[0]) == 32 else "xzr"
            mnemonic, args = {"neg": "sub", "negs": "subs", "mvn": "orn"}[mnemonic], [args[0], zero] + args[1:]
        to, bits = args[0], self.bits(args[0])
        mask = (1 << bits) - 1
        if mnemonic in ("mov", "movz"):
            self.put(to, self.value(args[1:], bits))
        elif mnemonic == "movk":
            by = int(args[2].split("#")[1], 0) if len(args) > 2 else 0
            old = self.get(to)
            self.put(to, (old[0] & ~(0xFFFF << by) | int(args[1][1:], 0) << by, old[1]))
        elif mnemonic == "movn":
            self.put(to, (~self.value(args[1:], bits)[0] & mask, NOTHING))
        elif mnemonic in ("add", "adds", "sub", "subs"):
            a, b = self.get(args[1]), self.value(args[2:], bits)
            less = mnemonic.startswith("sub")
            value, flags = self.added(a, ((~b[0] if less else b[0]) & mask, b[1]), (int(less), NOTHING), bits)
            self.put(to, value)
            if mnemonic.endswith("s"):
                self.set_flags(value[1], **flags)
        elif mnemonic.rstrip("s") in self.LOGIC or mnemonic in self.LOGIC:
            a, b = self.get(args[1]), self.value(args[2:], bits)
            name = mnemonic if mnemonic in self.LOGIC else mnemonic[:-1]
            value = (self.LOGIC[name](a[0], b[0]) & mask, a[1] | b[1])
            self.put(to, value)
            if name != mnemonic:
                self.set_flags(value[1], n=value[0] >> bits - 1, z=value[0] == 0, c=0, v=0)
        elif mnemonic in ("lsl", "lsr", "asr", "ror"):
            a, by = self.get(args[1]), self.value(args[2:], bits)
            self.fixed(by)
            self.put(to, (shifted(mnemonic, a[0], by[0] % bits, bits)[0], a[1] | by[1]))
        elif mnemonic == "extr":
            a, b, by = self.get(args[1]), self.get(args[2]), int(args[3][1:], 0)
            self.put(to, ((a[0] << bits | b[0]) >> by & mask, a[1] | b[1]))
        elif mnemonic in ("ubfx", "sbfx", "ubfiz", "bfi", "bfxil"):
            a, low, width = self.get(args[1]), int(args[2][1:], 0), int(args[3][1:], 0)
            field = (1 << width) - 1
            if mnemonic in ("ubfx", "sbfx"):
                found = a[0] >> low & field
                self.put(to, (signed(found, width) if mnemonic == "sbfx" else found, a[1]))
            elif mnemonic == "ubfiz":
                self.put(to, ((a[0] & field) << low, a[1]))
            else:
                old, at = self.get(to), low if mnemonic == "bfi" else 0
                found = (a[0] if mnemonic == "bfi" else a[0] >> low) & field
                self.put(to, (old[0] & ~(field << at) | found << at, old[1] | a[1]))
        elif mnemonic in ("sxtb", "sxth", "sxtw", "uxtb", "uxth"):
            a, width = self.get(args[1]), {"b": 8, "h": 16, "w": 32}[mnemonic[3]]
            found = a[0] & (1 << width) - 1
            self.put(to, (signed(found, width) if mnemonic[0] == "s" else found, a[1]))
        elif mnemonic == "rev":
            a = self.get(args[1])
            self.put(to, (int.from_bytes(a[0].to_bytes(bits // 8, "little"), "big"), a[1]))
        elif mnemonic == "mul":
            a, b = self.get(args[1]), self.get(args[2])
            self.put(to, (a[0] * b[0], a[1] | b[1]))
        elif mnemonic in ("cset", "csetm"):
            taken, origins = self.condition(args[1])
            self.put(to, ((1 if mnemonic == "cset" else -1) * taken, origins))
        elif mnemonic in ("csel", "csinc", "csinv", "csneg"):
            taken, origins = self.condition(args[3])
            a, b = self.get(args[1]), self.get(args[2])
            other = {"csel": b[0], "csinc": b[0] + 1, "csinv": ~b[0], "csneg": -b[0]}[mnemonic]
            self.put(to, (a[0] if taken else other, a[1] | b[1] | origins))
        else:
            raise Refused("this instruction is not understood")


class Thumb(Machine):
    LINK, POINTER = "lr", 4
    ARGUMENTS = ["r0", "r1", "r2", "r3"]
    LOST = ["r0", "r1", "r2", "r3", "ip"]
    NAMES = {"r10": "sl", "r11": "fp", "r12": "ip", "r13": "sp", "r14": "lr", "r15": "pc"}
    LOGIC = {"and": lambda a, b: a & b, "orr": lambda a, b: a | b, "eor": lambda a, b: a ^ b, "bic": lambda a, b: a & ~b,
             "orn": lambda a, b: a | ~b}
    MASK = 0xFFFFFFFF

    def __init__(self, code):
        super().__init__(code)
        self.waiting = []  # conditions of the instructions behind an `it`

    def take(self, values):
        """A pointer is one register or word, a number two from an even one on."""
        used, at = 0, STACK
        for value in values:
            wide = value not in BASES
            used += used % 2 if wide else 0
            if used + 1 + wide <= 4:
                for i in range(1 + wide):
                    self.registers[self.ARGUMENTS[used + i]] = (value >> 32 * i & self.MASK, NOTHING)
                used += 1 + wide
            else:
                used = 4
                at += at % 8 if wide else 0
                self.writable.append((at, at + 4 + 4 * wide))
                self.store((at, NOTHING), 4 + 4 * wide, (value, NOTHING))
                at += 4 + 4 * wide
        self.reached = 0
        self.registers.update(sp=(STACK, NOTHING), lr=(ENDED, NOTHING))

    def get(self, name):
        name = self.NAMES.get(name, name)
        if not re.fullmatch(r"r[0-9]|sl|fp|ip|sp|lr", name):
            raise Refused("this register is not understood")
        return self.registers.get(name, (0, NOTHING))

    def put(self, name, value):
        name = self.NAMES.get(name, name)
        if not re.fullmatch(r"r[0-9]|sl|fp|ip|sp|lr", name):
            raise Refused("this register is not understood")
        self.registers[name] = (value[0] & self.MASK, value[1])

    def value(self, words):
        """An operand, behind it how it is shifted, and the bit that went out."""
        if words[0].startswith("#"):
            return (int(words[0][1:], 0) & self.MASK, NOTHING), None
        value = self.get(words[0])
        if len(words) == 1:
            return value, None
        if words[1] == "rrx":
            carry = self.flags["c"]
            return (value[0] >> 1 | carry[0] << 31, value[1] | carry[1]), value[0] & 1
        match = re.fullmatch(r"(lsl|lsr|asr|ror) #(\d+)", words[1])
        if not match:
            raise Refused("this operand is not understood")
        found, out = shifted(match[1], value[0], int(match[2]), 32)
        return (found, value[1]), out

    def address(self, args):
        match = re.fullmatch(r"\[(\w+)(?:, (#[^,]+|\w+)(?:, (lsl #\d+))?)?\](!?)", args[0])
        if not match:
            raise Refused("this operand is not understood")
        base = self.get(match[1])
        by = self.value([match[2]] + ([match[3]] if match[3] else []))[0] if match[2] else (0, NOTHING)
        at = (base[0] + by[0] & self.MASK, base[1] | by[1])
        if match[4]:
            self.put(match[1], at)
        if len(args) > 1:
            self.put(match[1], (base[0] + int(args[1][1:], 0), base[1]))
        return at

    def many(self, mnemonic, args):
        """Registers to and from memory, the lowest at the lowest address. Gives what was loaded into pc."""
        if mnemonic in ("push", "pop"):
            base, names, back = "sp", args[0], True
            mnemonic = {"push": "stmdb", "pop": "ldmia"}[mnemonic]
        else:
            base, names, back = args[0].rstrip("!"), args[1], args[0].endswith("!")
        names = names.strip("{}").split(", ")
        if any("-" in name for name in names):
            raise Refused("this operand is not understood")
        start = self.get(base)
        size = 4 * len(names)
        at = start[0] - size if mnemonic.endswith("db") else start[0]
        to = None
        if back:
            self.put(base, (at if mnemonic.endswith("db") else at + size, start[1]))
        for i, name in enumerate(names):
            place = (at + 4 * i, start[1])
            if mnemonic.startswith("st"):
                self.store(place, 4, self.get(name))
            elif name == "pc":
                to = self.load(place, 4)
            else:
                self.put(name, self.load(place, 4))
        return to

    def step(self, mnemonic, text, after, relocation):
        function, _ = self.where
        mnemonic = re.sub(r"\.[wn]$", "", mnemonic)
        args = operands(text)
        onward = (function, after)
        if self.waiting:
            condition = self.waiting.pop(0)
            taken, origins = self.condition(condition)
            self.jumped += 1
            self.decide(origins, "it")
            if not mnemonic.endswith(condition):
                raise Refused("this instruction is not understood")
            mnemonic = mnemonic[:-len(condition)]
            if not taken:
                return onward
        if match := re.fullmatch(r"i(t[te]{0,3})", mnemonic):
            pairs = {"eq": "ne", "cs": "cc", "mi": "pl", "vs": "vc", "hi": "ls", "ge": "lt", "gt": "le"}
            other = {**pairs, **{b: a for a, b in pairs.items()}}[args[0]]
            self.waiting = [args[0] if letter == "t" else other for letter in match[1]]
            return onward
        if mnemonic == "bx" and args == ["lr"]:
            return self.returned(self.get("lr"))
        if to := self.led(mnemonic, text, after, relocation, mnemonic[1:] if mnemonic[0] == "b" else ""):
            return to
        if mnemonic in ("push", "pop", "ldmia", "stmia", "stmdb", "ldmdb"):
            to = self.many(mnemonic, args)
            return onward if to is None else self.returned(to)
        if mnemonic in ("ldrd", "strd"):
            at = self.address(args[2:])
            for i in range(2):
                place = (at[0] + 4 * i, at[1])
                if mnemonic == "strd":
                    self.store(place, 4, self.get(args[i]))
                else:
                    self.put(args[i], self.load(place, 4))
            return onward
        if match := re.fullmatch(r"(ld|st)r(s?)([bh]?)", mnemonic):
            size = {"b": 1, "h": 2, "": 4}[match[3]]
            at = self.address(args[1:])
            if match[1] == "st":
                self.store(at, size, self.get(args[0]))
            else:
                value = self.load(at, size)
                self.put(args[0], (signed(value[0], 8 * size), value[1]) if match[2] else value)
            return onward
        self.work(mnemonic, args)
        return onward

    def work(self, mnemonic, args):
        if mnemonic in ("cmp", "cmn", "tst", "teq"):
            mnemonic, args = {"cmp": "subs", "cmn": "adds", "tst": "ands", "teq": "eors"}[mnemonic], [None] + args
        to = args[0]
        name, sets = (mnemonic[:-1], True) if mnemonic.endswith("s") else (mnemonic, False)

        def done(value, **flags):
            if to is not None:
                self.put(to, value)
            if sets:
                self.set_flags(value[1], n=value[0] >> 31, z=value[0] == 0, **flags)

        if name in ("mov", "movw", "mvn"):
            value, out = self.value(args[1:])
            done((~value[0] & self.MASK if name == "mvn" else value[0], value[1]), c=out)
        elif name == "movt":
            old = self.get(to)
            self.put(to, (old[0] & 0xFFFF | int(args[1][1:], 0) << 16, old[1]))
        elif name in self.LOGIC or name in ("add", "sub", "adc", "sbc", "rsb"):
            # With two operands the first is also the result.
            if to is not None and (len(args) == 2 or re.match(r"(lsl|lsr|asr|ror) #", args[2])):
                args = [to] + args
            a, (b, out) = self.get(args[1]), self.value(args[2:])
            if name in self.LOGIC:
                done((self.LOGIC[name](a[0], b[0]) & self.MASK, a[1] | b[1]), c=out)
                return
            if name == "rsb":
                a, b = b, a
            less = name in ("sub", "sbc", "rsb")
            carry = self.flags["c"] if name in ("adc", "sbc") else (int(less), NOTHING)
            value, flags = self.added(a, ((~b[0] if less else b[0]) & self.MASK, b[1]), carry, 32)
            done(value, c=flags["c"], v=flags["v"])
        elif name in ("lsl", "lsr", "asr", "ror"):
            if len(args) == 2:
                args = [to] + args
            a, by = self.get(args[1]), self.value(args[2:])[0]
            self.fixed(by)
            found, out = shifted(name, a[0], by[0] & 255, 32)
            done((found, a[1] | by[1]), c=out)
        elif name in ("uxtb", "uxth", "sxtb", "sxth"):
            a, width = self.value(args[1:])[0], 8 if name[3] == "b" else 16
            found = a[0] & (1 << width) - 1
            self.put(to, (signed(found, width) if name[0] == "s" else found, a[1]))
        elif name == "uxtb16":
            a = self.value(args[1:])[0]
            self.put(to, (a[0] & 0x00FF00FF, a[1]))
        elif name in ("bfc", "bfi", "ubfx"):
            low, width = (int(word[1:], 0) for word in args[-2:])
            field, old = (1 << width) - 1, self.get(to)
            a = self.get(args[1]) if name != "bfc" else (0, NOTHING)
            if name == "ubfx":
                self.put(to, (a[0] >> low & field, a[1]))
            else:
                self.put(to, (old[0] & ~(field << low) | (a[0] & field) << low, old[1] | a[1]))
        elif name == "mul":
            a, b = self.get(args[-2]), self.get(args[-1])
            self.put(to, (a[0] * b[0], a[1] | b[1]))
        elif name == "clz":
            a = self.get(args[1])
            self.put(to, (32 - a[0].bit_length(), a[1]))
        elif name == "rev":
            a = self.get(args[1])
            self.put(to, (int.from_bytes(a[0].to_bytes(4, "little"), "big"), a[1]))
        else:
            raise Refused("this instruction is not understood")


def main():
    parser = argparse.ArgumentParser(
        prog="tests/machine/arm.py", description=__doc__, formatter_class=argparse.RawDescriptionHelpFormatter)
    parser.add_argument("path", metavar="OBJECT")
    parser.add_argument("function", metavar="FUNCTION")
    parser.add_argument("arguments", metavar="ARGUMENT", nargs="*")
    asked = parser.parse_args()
    code = Code(asked.path)
    machine = (Arm64 if code.machine == "AArch64" else Thumb)(code)
    machine.writable.append((STACK - 0x10000, STACK))
    values, pointers = [], []
    for base, argument in zip(BASES, asked.arguments):
        name, given = argument.split("=")
        if not name.startswith("*"):
            values.append(int(given))
            continue
        values.append(base)
        if given.startswith(":"):
            size = int(given[1:])
            machine.writable.append((base, base + size))
        else:
            size = len(given) // 2
            machine.memory.update({base + i: (byte, frozenset([name[1:]])) for i, byte in enumerate(bytes.fromhex(given))})
        pointers.append((name[1:], base, size))
    machine.take(values)
    if asked.function not in code.functions:
        sys.exit("refused: %s has no function %s" % (asked.path, asked.function))
    try:
        machine.run(asked.function)
    except Refused as why:
        machine.refuse(why)
    for name, base, size in pointers:
        print(name, "".join("%02X" % machine.memory[base + i][0] if base + i in machine.memory else "--" for i in range(size)))
    for key in sorted(machine.refusals):
        print(machine.refusals[key])
    print("%d instructions, %d reads and writes, %d jumps, %d refused" % (machine.ran, machine.reached, machine.jumped, len(machine.refusals)))
    sys.exit(bool(machine.refusals))


main()
