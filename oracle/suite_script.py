"""The script language itself: lines, words, numbers, hexadecimal and mistakes."""

from __future__ import annotations

from random import Random
from typing import Iterator

from oracle.cases import Case, Suite, script_of
from oracle.generate import any_table, ask_size, load_line, random_table
from oracle.tables import empty_table, share_table, write_image

NO_COMMANDS = [
    b"foo", b"Share", b"SHARE", b"shares", b"shar", b"s", b"load00", b"LOAD 00", b"nexts 1 2", b"nex 1 2",
    b"Next 1 2", b"labels 1", b"tables", b"state", b"0", b"7 8 9", b"-", b"->", b"share->", b"share;",
    b"'share'", b"share#", b"next,1,2", b"next\0 1 2", b"\0", b"\0share", b"\x7f", b"\x0b", b"\x0c",
    b"share\x0b", b"\x0cshare", b"share\x0btable", b"share\xa0", b"\xc2\xa0share", b"\xc3\xa9", b"\xff\xfe",
    b"\xef\xbb\xbfshare", b"\x80" * 40, bytes(range(128, 256)), b"caf\xc3\xa9 1 2", b"x" * 17_200,
    b"ok", b"line 1: no such command", b"table\x85", b"foo #", b"; share", b"// share", b"\\share", b"Open 1",
    b"opens 1", b"ope 1", b"searches 1 2", b"searc 1 2", b"FIND", b"finds", b"fin",
]  # fmt: skip

NUMBERS = [
    b"0", b"1", b"9", b"10", b"00", b"007", b"0" * 30 + b"5", b"0" * 400 + b"10", b"255", b"0255", b"256",
    b"00256", b"257", b"999", b"65535", b"65536", b"4294967295", b"4294967296", b"9223372036854775807",
    b"9223372036854775808", b"18446744073709551614", b"18446744073709551615", b"000018446744073709551615",
    b"18446744073709551616", b"18446744073709551617", b"018446744073709551616", b"18446744073709551625",
    b"18446744073709551871", b"18446744073709551872", b"20000000000000000000", b"99999999999999999999",
    b"100000000000000000000", b"184467440737095516150", b"36893488147419103232", b"36893488147419103233",
    b"340282366920938463463374607431768211456", b"1" * 400,
]  # fmt: skip

NO_NUMBERS = [
    b"x", b"a", b"-1", b"-0", b"+1", b"1.0", b"1.", b".1", b"0x1", b"1e1", b"1_0", b"1,", b"1;", b"#", b"#1",
    b"1#", b"/", b":", b"1/", b"1:", b"0\0", b"\0", b"\xd9\xa1", b"\xc2\xb2", b"\xff", b"1\xa0", b"1\x0b",
    b"ten", b"''", b"none", b"A" * 500, b"1" * 30 + b"x", b"x" + b"1" * 30,
]  # fmt: skip

NO_HEX = [
    b"0", b"g", b"0g", b"g0", b"0x01", b"01 0", b"0 0 1", b"010", b"zz", b"-1", b"01,00", b"01 # more",
    b"#", b"0\0", b"/0", b":0", b"@0", b"G0", b"`0", b"\xc3\xa9", b"\xff\xff", b"01 \xc3\xa9", b"0\x0b0",
    b"01 00 0", b"0" * 527, b"0" * 527 + b"g", b"g" + b"0" * 17_165, b"0" * 17_199, b"00 " * 300 + b"x",
    b"1.0", b"00;", b"0_0", b"+0",
]  # fmt: skip

GOOD_HEX = [
    b"", b"00", b"0 0", b"0 1", b"0\t1", b"1 0 0 0", b"01 0 0", b"0 10 0", b"01\r00", b"fF", b"aBcDeF",
    b"ABCDEF", b"abcdef", b"0123456789", b"01 00 00", b"0" * 10, b" \t\r 0 \t\r 1 \t\r ", b"DEAD BEE F",
]  # fmt: skip

BLANK_LINES = [b"", b" ", b"\t", b"\r", b" \t\r \r\t ", b" " * 1000]

COMMENTS = [
    b"#", b"# share", b"#share", b"  # share", b"\t#", b"\r#\r", b"## load zz", b"#\0\xff\xfe", b"#\xc3\xa9",
    b"# line 1: no such command", b"#" * 5000, b"# " + b"0" * 17_200,
]  # fmt: skip


def _operand_lines() -> Iterator[bytes]:
    """Each command with good and bad operands, in each place."""
    for word in NUMBERS + NO_NUMBERS:
        yield b"label " + word
        yield b"next " + word + b" 97"
        yield b"next 0 " + word
        yield b"open " + word
        yield b"search " + word + b" 4"
        yield b"search 0 " + word
    for word in (b"x", b"18446744073709551616", b"256", b"18446744073709551615"):
        for other in (b"y", b"256", b"255", b"18446744073709551616"):
            yield b"next " + word + b" " + other
            yield b"search " + word + b" " + other
    for command in (b"share", b"table", b"states", b"next", b"label", b"open", b"search", b"find"):
        for more in range(5):
            for word in (b"1", b"x", b"#", b"300"):
                yield command + (b" " + word) * more
    yield b"next 1 2 # a comment"
    yield b"share # a comment"
    yield b"find # a comment"
    yield b"next " + b"1 " * 8_000
    yield b"label" + b" " * 17_000 + b"4"
    yield b" " * 17_000 + b"label 4" + b"\t" * 17_000


def _ends_of_lines() -> Iterator[Case]:
    """Scripts whose last line ends with the input, or that have next to nothing in them."""
    ends = (
        b"", b"\n", b"\r", b"\r\n", b" ", b"\t\r ", b"\n\n\n", b"#", b"# c", b"states", b"table\r", b"share\n table ",
        b"foo", b"\nfoo", b"\r\n\r\nfoo\r\n", b"#\nfoo\n", b"load", b"load ", b"load\n", b"load 0", b"load 00",
        b"open 0", b"open 1", b"search 0 0", b"search 0", b"find", b"find x", b"next 0 0", b"next 0", b"label 1",
        b"label 0\nlabel x", b"table\nshare\ntable", b"\0", b"\xff",
        b"share\r\ntable\r\nnext 0 97\r\n", b"foo\rbar\n", b"share\rtable\n", b"states\n\n\nbar\n# c\nbar",
    )  # fmt: skip
    for script in ends:
        yield Case(script, alone=True)
    yield Case(load_line(write_image(share_table())), alone=True)
    yield Case(load_line(write_image(share_table())) + b"\ntable", alone=True)


def _words(random: Random) -> bytes:
    """A line of words that are often right, with any blanks."""
    known = (b"share", b"table", b"states", b"next", b"label", b"load", b"open", b"search", b"find")
    first = random.choice(known) if random.randrange(8) else random.choice(NO_COMMANDS[:40])
    takes = {b"next": 2, b"label": 1, b"open": 1, b"search": 2}.get(first, 0)
    if first == b"load":
        takes = random.randrange(4)
    if random.randrange(8) == 0:
        takes = random.randrange(5)
    words = [first]
    for _ in range(takes):
        if first == b"load":
            words.append(random.choice((b"00", b"0", b"1", b"01", b"Ff", b"g")))
        elif random.randrange(6):
            words.append(str(random.randrange(14)).encode("ascii"))
        else:
            words.append(random.choice(NUMBERS + NO_NUMBERS))
    line = b"".join(random.choice((b" ", b" ", b"\t", b"\r", b"  \t")) + word for word in words)
    line = line if random.randrange(3) == 0 else line[1:].lstrip(b" \t\r")
    return line + random.choice((b"", b"", b"\r", b" ", b"\t \r"))


def _noise(random: Random) -> bytes:
    """A line of any bytes."""
    alphabet = random.choice((bytes(range(256)), b"share \t\r#", b"0123456789 abcdef", b"load 01"))
    return bytes(random.choice(alphabet) for _ in range(random.randrange(30))).replace(b"\n", b"")


def cases(random: Random) -> Iterator[Case]:
    """All cases of the topic."""
    yield from _ends_of_lines()
    for line in NO_COMMANDS:
        yield Case(script_of([b"share", line, b"table"]))
    for line in _operand_lines():
        yield Case(script_of([b"share", line, b"table"]))
    for digits in NO_HEX + GOOD_HEX:
        for blank in (b" ", b"\t", b" \r"):
            yield Case(script_of([b"share", b"load" + blank + digits] + ask_size()))
    for passed in BLANK_LINES + COMMENTS:
        yield Case(script_of([passed, b"share", passed, b"foo", passed, b"table"]))
    for line in (
        b"share", b"table", b"states", b"next 0 97", b"label 4", b"load 00", b"foo", b"next 1", b"open 4",
        b"search 0 4", b"find",
    ):  # fmt: skip
        for before in (b"", b" ", b"\t", b"\r", b" \t\r "):
            for after in (b"", b" ", b"\t", b"\r", b" \t\r ", b"\r\r"):
                yield Case(script_of([b"share", before + line + after, b"table" + after]))
        yield Case(script_of([b"share", line.replace(b" ", b"\t \r \t"), line.replace(b" ", b"\r")]))
    for table in (empty_table(), share_table(), random_table(random, 128, 64)):
        for _ in range(12):
            lines = [load_line(write_image(table), random)] + ask_size()
            yield Case(script_of([b"share"] + lines + [b"label %d" % (table.states - 1)]))
    for _ in range(300):
        table = any_table(random, 12, 3)
        start = [b"share"] if random.randrange(2) else [load_line(write_image(table), random)]
        made = [
            random.choice((_words, _words, _words, _noise))(random)
            if random.randrange(8)
            else random.choice(BLANK_LINES + COMMENTS)
            for _ in range(random.randint(5, 20))
        ]
        yield Case(script_of(start + made))


SUITE = Suite("script", "scripts", cases)
