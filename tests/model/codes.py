"""Codes of R-9 by the openssl command line, which shares nothing with the model: what a right code is, is not for the model to say."""

import subprocess
from functools import lru_cache


@lru_cache(maxsize=None)
def last_block(key, start, blocks):
    """The last block of a CBC encryption of whole blocks, as bytes. Key, initial value and blocks are hex."""
    done = subprocess.run(["openssl", "enc", "-aes-128-cbc", "-nopad", "-K", key, "-iv", start],
                          input=bytes.fromhex(blocks), stdout=subprocess.PIPE, check=True)
    return done.stdout[-16:]


def code(key, challenge, message):
    """The code of a message, all in hex: 80 behind it and 00 to a block's end, and 00 behind the challenge."""
    blocks = message + "80"
    while len(blocks) % 32:
        blocks += "00"
    return last_block(key, challenge + "0" * (32 - len(challenge)), blocks)[:4].hex().upper()
