"""The code at the end of a coded command, as docs/COMMANDS.md has it, for tools/pcsc. It has an AES-128 of its own, written from
FIPS 197: a key that is handed to openssl would stand in the list of processes."""

BLOCK = 16
CODE_SIZE = 4


def times_2(byte):
    return byte << 1 ^ (0x11B if byte & 0x80 else 0)


def substitution_box():
    """5.1.1 of FIPS 197: the inverse, and then each bit with four others. The powers of 3 are all bytes but 0."""
    powers = [1]
    while len(powers) < 255:
        powers.append(powers[-1] ^ times_2(powers[-1]))
    inverse = {0: 0, **{power: powers[-at % 255] for at, power in enumerate(powers)}}

    def mapped(byte):
        twice = byte * 0x101  # so that a shift to the right turns it
        return (twice ^ twice >> 4 ^ twice >> 5 ^ twice >> 6 ^ twice >> 7) & 0xFF ^ 0x63

    return bytes(mapped(inverse[byte]) for byte in range(256))


BOX = substitution_box()


def xor(one, other):
    return bytes(a ^ b for a, b in zip(one, other))


def round_keys(key):
    words, constant = [key[at : at + 4] for at in range(0, BLOCK, 4)], 1
    while len(words) < 44:
        word = words[-1]
        if len(words) % 4 == 0:
            word = xor((word[1:] + word[:1]).translate(BOX), bytes([constant, 0, 0, 0]))
            constant = times_2(constant)
        words.append(xor(words[-4], word))
    return [b"".join(words[at : at + 4]) for at in range(0, 44, 4)]


def rows_shifted(state):
    return bytes(state[(at + at % 4 * 4) % BLOCK] for at in range(BLOCK))


def columns_mixed(state):
    columns = [state[at : at + 4] for at in range(0, BLOCK, 4)]
    return bytes(times_2(a[at]) ^ times_2(a[at - 3]) ^ a[at - 3] ^ a[at - 2] ^ a[at - 1] for a in columns for at in range(4))


def aes128(key, block):
    first, *middle, last = round_keys(key)
    state = xor(block, first)
    for round_key in middle:
        state = xor(columns_mixed(rows_shifted(state.translate(BOX))), round_key)
    return xor(rows_shifted(state.translate(BOX)), last)


def code(key, challenge, message):
    """Of what stands before it in the command."""
    padded = message + b"\x80" + bytes(-(len(message) + 1) % BLOCK)
    chained = challenge.ljust(BLOCK, b"\0")
    for at in range(0, len(padded), BLOCK):
        chained = aes128(key, xor(chained, padded[at : at + BLOCK]))
    return chained[:CODE_SIZE]
