"""The bytes that names of directives begin with which all have one hash under the fixed seed of the map.

The hasher multiplies `a ^ state` by another number, where `a` are the first 8 of 16 bytes. So if `a` is the state, the
product is 0 whatever the other 8 bytes are. The first 16 bytes are searched such that the state after them is text."""
import random
import sys

MASK = (1 << 64) - 1
MULTIPLIER = 0x9E3779B97F4A7C15
SEED = 0x243F6A8885A308D3
LETTERS = b"abcdefghijklmnopqrstuvwxyz0123456789!#$%&'*+-.^_`|~"


def fold(a, b):
    product = a * b
    return (product & MASK) ^ (product >> 64)


def state_of_variant(number, width):
    bytes_ = number.to_bytes(width, "little")
    if width >= 4:
        short = int.from_bytes(bytes_[:4], "little") | int.from_bytes(bytes_[-4:], "little") << 32
    else:
        short = bytes_[0] | bytes_[width // 2] << 8 | bytes_[-1] << 16
    return fold(SEED ^ short, MULTIPLIER ^ (2 * width))


def prefix(number, width, length=32):
    state = (state_of_variant(number, width) + length) & MASK
    chosen = random.Random(1)
    while True:
        first = bytes(chosen.choices(LETTERS, k=16))
        after = fold(int.from_bytes(first[:8], "little") ^ state, int.from_bytes(first[8:], "little") ^ MULTIPLIER)
        rest = after.to_bytes(8, "little")
        if all(byte in LETTERS for byte in rest):
            return first + rest


if __name__ == "__main__":
    print(prefix(int(sys.argv[1]), int(sys.argv[2])).decode())
