#!/usr/bin/env python3
"""A second program, by the rules under docs/.

It works on a list of 257 single bits and follows the documents' words, not
any other program. Other tools may import it: chi, iota, theta and pi are
functions on such a list, a Duplex is a state with the suite's operations, and
a Session seals and opens.
"""

import sys
from typing import BinaryIO, Iterator

USAGE = """\
usage: second.py < script     run a bench script (docs/BENCH.md)
       second.py --figures    check the figures of docs/SUITE.md and docs/SESSION.md
       second.py --help       print this
"""

Bits = list[int]

SIZE = 257
POSITIONS = [pow(176, j, SIZE) for j in range(33)]
PAIRS = [(j, p, SIZE - p) for j, p in enumerate(POSITIONS[:32])]
SOURCES = [12 * i % SIZE for i in range(SIZE)]


# --- The round -------------------------------------------------------------

def ahead(s: Bits, n: int) -> Bits:
    """The list whose item i is s(i+n), the index taken modulo 257."""
    return s[n:] + s[:n]


def chi(s: Bits) -> Bits:
    """The new bit i is s(i) + (s(i+1) + 1) * s(i+2)."""
    return [a ^ ((b ^ 1) & c) for a, b, c in zip(s, ahead(s, 1), ahead(s, 2))]


def iota(s: Bits) -> Bits:
    """Bit 0 is flipped; the others stay."""
    return [s[0] ^ 1] + s[1:]


def theta(s: Bits) -> Bits:
    """The new bit i is s(i) + s(i+3) + s(i+8)."""
    return [a ^ b ^ c for a, b, c in zip(s, ahead(s, 3), ahead(s, 8))]


def pi(s: Bits) -> Bits:
    """The new bit i is s(12 * i)."""
    return [s[i] for i in SOURCES]


# --- Blocks ----------------------------------------------------------------

def padded(block: bytes) -> int:
    """A block of 0 to 4 bytes as a number of 33 bits: its bits, a 1, zeros."""
    if len(block) > 4:
        raise ValueError("a block has at most 4 bytes")
    return int.from_bytes(block, "little") + (1 << 8 * len(block))


def keyed_blocks(string: bytes) -> list[bytes]:
    """Blocks of four bytes, then a last one of the 0 to 3 that are left."""
    return [string[i:i + 4] for i in range(0, len(string) + 1, 4)]


def unkeyed_blocks(string: bytes) -> list[bytes]:
    """Blocks of one byte, then a last, empty one."""
    return [string[i:i + 1] for i in range(len(string) + 1)]


def add(block: bytes, reading: bytes) -> bytes:
    """The block with as many bytes of the reading added, the lowest first."""
    return bytes(a ^ b for a, b in zip(block, reading))


# --- The state and its operations ------------------------------------------

class Duplex:
    """A state of 257 bits, at first all zero, and a count of its steps."""

    def __init__(self) -> None:
        self.bits: Bits = [0] * SIZE
        self.steps = 0

    def bits_set(self) -> list[int]:
        """The numbers of the bits that are 1, in rising order."""
        return [i for i, bit in enumerate(self.bits) if bit]

    def step_number(self, number: int) -> None:
        """A step with a padded block as a number; its lowest 33 bits count."""
        self.bits = pi(theta(iota(chi(self.bits))))
        for j, position in enumerate(POSITIONS):
            self.bits[position] ^= number >> j & 1
        self.steps += 1

    def step(self, block: bytes = b"") -> None:
        """A step with a block of 0 to 4 bytes: a round, then the block."""
        self.step_number(padded(block))

    def reading(self) -> int:
        """The reading as a number of 32 bits; the state is left alone."""
        s = self.bits
        return sum((s[p] ^ s[q]) << j for j, p, q in PAIRS)

    def reading_bytes(self) -> bytes:
        """The reading as four bytes, the lowest first."""
        return self.reading().to_bytes(4, "little")

    def absorb(self, string: bytes) -> None:
        """Absorb a keyed string."""
        for block in keyed_blocks(string):
            self.step(block)

    def absorb_unkeyed(self, string: bytes) -> None:
        """Absorb an unkeyed string."""
        for block in unkeyed_blocks(string):
            self.step(block)
            self.step()

    def encrypt(self, text: bytes) -> bytes:
        """Encrypt a text and return its ciphertext."""
        result = b""
        for block in keyed_blocks(text):
            result += add(block, self.reading_bytes())
            self.step(block)
        return result

    def decrypt(self, ciphertext: bytes) -> bytes:
        """Decrypt a ciphertext and return its text."""
        result = b""
        for block in keyed_blocks(ciphertext):
            text_block = add(block, self.reading_bytes())
            result += text_block
            self.step(text_block)
        return result

    def blank(self, times: int) -> None:
        """Do so many empty steps."""
        for _ in range(times):
            self.step()

    def squeeze(self, count: int) -> bytes:
        """Return so many bytes of readings, an empty step after each."""
        result = b""
        while len(result) < count:
            result += self.reading_bytes()
            self.step()
        return result[:count]


# --- Sessions --------------------------------------------------------------

VALUE_BYTES = 16
BLANKS = 8


class TagDiffers(Exception):
    """A ciphertext is not opened: its tag is another one."""


class Session:
    """A state that absorbed a key and a nonce, of 16 bytes each."""

    def __init__(self, key: bytes, nonce: bytes) -> None:
        if len(key) != VALUE_BYTES or len(nonce) != VALUE_BYTES:
            raise ValueError("a key and a nonce have 16 bytes each")
        self.duplex = Duplex()
        self.duplex.absorb(key)
        self.duplex.absorb(nonce)
        self.duplex.blank(BLANKS)

    def tag(self) -> bytes:
        """The tag of all that was absorbed."""
        self.duplex.blank(BLANKS)
        return self.duplex.squeeze(VALUE_BYTES)

    def seal(self, ad: bytes, text: bytes) -> tuple[bytes, bytes]:
        """Return the ciphertext of a text, and its tag."""
        self.duplex.absorb(ad)
        ciphertext = self.duplex.encrypt(text)
        return ciphertext, self.tag()

    def open(self, ad: bytes, ciphertext: bytes, tag: bytes) -> bytes:
        """Return the text of a ciphertext, or raise TagDiffers."""
        self.duplex.absorb(ad)
        text = self.duplex.decrypt(ciphertext)
        if self.tag() != tag:
            raise TagDiffers
        return text


# --- Digest and deck -------------------------------------------------------

def digest(strings: list[bytes], count: int) -> bytes:
    """So many bytes of the digest of a list of strings."""
    duplex = Duplex()
    for string in strings:
        duplex.absorb_unkeyed(string)
    duplex.blank(8)
    return duplex.squeeze(count)


def deck(key: bytes, strings: list[bytes], count: int) -> bytes:
    """So many bytes that the deck function gives for a key and strings."""
    duplex = Duplex()
    for string in [key, *strings]:
        duplex.absorb(string)
    duplex.blank(8)
    return duplex.squeeze(count)


# --- The bench program -----------------------------------------------------

MOST_LINES = 9_999
MOST_BYTES = 130
DECIMAL = b"0123456789"
HEX = b"0123456789abcdef"


class Refusal(Exception):
    """A line is not a command."""

    def __init__(self, number: int, column: int) -> None:
        super().__init__(number, column)
        self.number = number
        self.column = column


def parse(line: bytes) -> tuple[str, bytes, int]:
    """Return a line's letter, its string and its count, or raise a Refusal.

    What the letter does not use is an empty string or 0.
    """
    if len(line) > MOST_BYTES:
        raise Refusal(12, MOST_BYTES + 1)
    if not line or line[0] not in b"ZAUCPBS":
        raise Refusal(9, 1)
    letter, second, digits = chr(line[0]), line[1:2], line[2:]
    if letter == "Z":
        if second:
            raise Refusal(9, 2)
        return letter, b"", 0
    if letter in "AUCP" and not second:
        return letter, b"", 0
    if second != b" ":
        raise Refusal(9, 2)
    if letter in "BS":
        return letter, b"", parse_count(digits)
    return letter, parse_hex(digits), 0


def parse_count(digits: bytes) -> int:
    """A number up to 64, one digit or two, from column 3 on."""
    if len(digits) not in (1, 2) or any(d not in DECIMAL for d in digits):
        raise Refusal(11, 3)
    if int(digits) > 64:
        raise Refusal(11, 3)
    return int(digits)


def parse_hex(digits: bytes) -> bytes:
    """A string of one or more pairs of digits, from column 3 on."""
    if not digits:
        raise Refusal(10, 3)
    for column, digit in enumerate(digits, 3):
        if digit not in HEX:
            raise Refusal(10, column)
    if len(digits) % 2:
        raise Refusal(10, 3 + len(digits))
    return bytes.fromhex(digits.decode("ascii"))


class Bench:
    """One run of the bench program: a state and a line number."""

    def __init__(self) -> None:
        self.duplex = Duplex()
        self.number = 0

    def answer(self, line: bytes) -> str:
        """What is printed for the next line; neither has its line feed."""
        self.number += 1
        try:
            letter, string, count = parse(line)
        except Refusal as refusal:
            return f"? {refusal.number} {self.number} {refusal.column}"
        match letter:
            case "Z":
                self.duplex = Duplex()
            case "A":
                self.duplex.absorb(string)
            case "U":
                self.duplex.absorb_unkeyed(string)
            case "C":
                return self.duplex.encrypt(string).hex()
            case "P":
                return self.duplex.decrypt(string).hex()
            case "B":
                self.duplex.blank(count)
            case "S":
                return self.duplex.squeeze(count).hex()
        return "ok"


def script_lines(script: BinaryIO) -> Iterator[bytes]:
    """The script's lines, at most 9,999, of each its first 131 bytes."""
    for _ in range(MOST_LINES):
        piece = script.readline(MOST_BYTES + 2)
        if not piece:
            return
        rest = piece
        while rest and not rest.endswith(b"\n"):
            rest = script.readline(65_536)
        yield piece.removesuffix(b"\n")[:MOST_BYTES + 1]


def answers(script: BinaryIO) -> Iterator[bytes]:
    """What the bench program prints for a script, a line at a time."""
    bench = Bench()
    for line in script_lines(script):
        yield bench.answer(line).encode("ascii") + b"\n"


def run_bench() -> int:
    """Be the bench program; return its exit status."""
    try:
        with open(0, "rb", closefd=False) as script, \
                open(1, "wb", closefd=False) as out:
            out.writelines(answers(script))
    except OSError as error:
        print(f"second.py: {error}", file=sys.stderr)
        return 1
    return 0


# --- The figures of SUITE.md and SESSION.md --------------------------------

KEY, NONCE = bytes(range(16)), bytes(range(16, 32))

LISTED_POSITIONS = """
    1 176 136 35 249 134 197 234 64 213 223 184 2 95 15 70 241 11 137 211 128
    169 189 111 4 190 30 140 225 22 17 165 256"""

# The blocks of the steps, the bits set afterwards, and the reading.
WORKED: list[tuple[list[str], str, int]] = [
    ([], "", 0),
    ([""], "0 1 64 85", 257),
    (["", ""], "1 21 42 48 91 112 114 133 150 155 157 176 178 199 221 235 242",
     536_887_299),
    (["00"], "0 85", 0),
    (["ff"], "0 1 35 85 134 136 176 197 234 249", 255),
    (["00 00 00"], "0 4 64 85", 16_777_472),
    (["00 00 00 00"], "0 64 85 256", 257),
    (["01 00 00 00"], "0 1 64 85 256", 256),
]


def numbers(text: str) -> list[int]:
    return [int(word) for word in text.split()]


def figures() -> Iterator[tuple[str, object, object]]:
    """Everything checked: its name, what we compute, what the documents say."""
    yield "positions", POSITIONS, numbers(LISTED_POSITIONS)
    for block, number in ("", 1), ("ff", 511), ("00000000", 2**32):
        yield f"block '{block}' padded", padded(bytes.fromhex(block)), number

    for blocks, bits, reading in WORKED:
        duplex = Duplex()
        for block in blocks:
            duplex.step(bytes.fromhex(block))
        yield f"bits after steps with {blocks}", duplex.bits_set(), numbers(bits)
        yield f"reading after steps with {blocks}", duplex.reading(), reading

    squeezed = Duplex().squeeze(12).hex(" ")
    yield "squeezing 12", squeezed, "00 00 00 00 01 01 00 00 03 40 00 20"
    duplex = Duplex()
    yield "squeezing 5", duplex.squeeze(5).hex(" "), "00 00 00 00 01"
    yield "bits after squeezing 5", duplex.bits_set(), numbers(WORKED[2][1])

    low, high = Duplex(), Duplex()
    low.step(b"\xff")
    high.step_number(511 + (2**31 - 1 << 33))
    yield "step with a number over 33 bits", high.bits, low.bits

    for n, count in (0, 1), (15, 4), (16, 5):
        yield f"steps absorbing {n}", steps(Duplex.absorb, bytes(n)), count
    yield "steps absorbing 3 unkeyed", steps(Duplex.absorb_unkeyed, bytes(3)), 8
    steps_begun = Session(bytes(16), bytes(16)).duplex.steps
    yield "steps beginning a session", steps_begun, 18
    for n in range(65):
        text = bytes(37 * n + 101 * i & 255 for i in range(n))
        keyed, sender, receiver = Duplex(), Duplex(), Duplex()
        keyed.absorb(text)
        yield f"steps absorbing {n}", keyed.steps, n // 4 + 1
        ciphertext = sender.encrypt(text)
        yield f"steps encrypting {n}", sender.steps, n // 4 + 1
        yield f"bits after encrypting {n}", sender.bits, keyed.bits
        yield f"decrypting {n}", receiver.decrypt(ciphertext), text
        yield f"steps decrypting {n}", receiver.steps, n // 4 + 1
        yield f"bits after decrypting {n}", receiver.bits, sender.bits
        sealer, opener = Session(KEY, NONCE), Session(KEY, NONCE)
        yield f"opening what sealing {n} gives", opener.open(text[:n // 2], *sealer.seal(text[:n // 2], text)), text
        yield f"bits after opening {n}", opener.duplex.bits, sealer.duplex.bits
        unkeyed = steps(Duplex.absorb_unkeyed, text)
        yield f"steps absorbing {n} unkeyed", unkeyed, 2 * n + 2
        yield f"steps blanking {n} times", steps(Duplex.blank, n), n
        yield f"steps squeezing {n}", steps(Duplex.squeeze, n), (n + 3) // 4
        yield f"bytes squeezing {n}", len(Duplex().squeeze(n)), n


def steps(operation, argument) -> int:
    """The steps that an operation of Duplex really does from zero."""
    duplex = Duplex()
    operation(duplex, argument)
    return duplex.steps


def run_figures() -> int:
    """Check the figures; return the exit status."""
    passed = failed = 0
    for name, computed, written in figures():
        if computed == written:
            passed += 1
        else:
            failed += 1
            print(f"figures: {name}: computed {computed}, written {written}")
    print(f"figures: {failed} failed" if failed else f"figures: {passed} passed")
    return 1 if failed else 0


def main(arguments: list[str]) -> int:
    match arguments:
        case []:
            return run_bench()
        case ["--figures"]:
            return run_figures()
        case ["--help"]:
            print(USAGE, end="")
            return 0
    print(USAGE, end="", file=sys.stderr)
    return 2


if __name__ == "__main__":
    sys.exit(main(sys.argv[1:]))
