#!/usr/bin/env python3
"""Writes crates/examples/stdin and crates/examples/stdout.

What is expected is written here, and never comes from the program: the stored requests have the answers of samples/requests.out, the
readings those of the documents, the published examples what the pages print. The Rust's own functions give the same on the readings, but for
number texts that R-1 refuses, for `too many` and `full`, as it lends no argument table and no buffer, and for `by the end`, which is R-4's.
The published examples were written down from memory, without the pages at hand.

A record is a byte that tells its kind, three bytes of length, the highest first, and its bytes:
  #      a label: written as it is, in front of the next record's line
  2 4 8  a request, read with places for so many arguments
  ?      a pattern and a name, two records; one that is not whole is empty
  =      a byte of size, and items, which are records, written behind one another into a buffer of that size
An item is + a simple string, - an error, $ a bulk string, * the head of an array that counts the item's bytes, : an integer
and n the digits of a number, which is a record, or of the sum of two, _ nil, 0 the nil array, c the greatest cursor, x EXEC of a failed
session, u an unknown name, q a name that may not be queued, a a name with a wrong number of arguments, and l text that may not be UTF-8.
In what is expected CR, LF and \\ are escaped, and so is each byte outside ASCII's printed ones.
"""
import collections
import os

HERE = os.path.dirname(os.path.abspath(__file__))
CRATE = os.path.join(HERE, "..", "crates", "examples")

records = []
lines = []
counts = collections.Counter()


def record(kind, data):
    return kind.encode() + len(data).to_bytes(3, "big") + data


def shown(data):
    escapes = {13: r"\r", 10: r"\n", 92: r"\\"}
    return "".join(escapes.get(b) or (chr(b) if 32 <= b <= 126 else f"\\x{b:02x}") for b in data)


def case(group, label, kind, data, expected):
    """A labelled line."""
    records.append(record("#", f"{label}: ".encode()) + record(kind, data))
    lines.append(f"{label}: {expected}")
    counts[group] += 1


def stored():
    """The stored requests: each with places for four arguments, and no label.

    samples/requests.in has three bytes of length, the highest first, in front of each request. samples/requests.out has the answers of the
    Rust's `resp::parse`, and of `Reply::encode` for its errors, on the same bytes, but for the 165 lines `too many`, which are document 01's:
    163 arrays with an accepted count above four, 2 inline lines of more words. The first 48 requests are chosen edges; the other 3,000
    are drawn at random: short pieces of the protocol side by side, such pieces as the line of one argument, and arrays of short arguments,
    some cut short or with one byte changed.
    """
    with open(os.path.join(HERE, "samples", "requests.in"), "rb") as file:
        data = file.read()
    at = 0
    while at < len(data):
        size = int.from_bytes(data[at : at + 3], "big")
        at += 3
        records.append(record("4", data[at : at + size]))
        at += size
        counts["stored requests, 4 places"] += 1
    with open(os.path.join(HERE, "samples", "requests.out"), encoding="ascii") as file:
        lines.extend(file.read().splitlines())


def line(label, data, expected):
    case("requests about the line limit, 2 places", label, "2", data, expected)


def eight(data, expected):
    case("requests, 8 places", f'"{shown(data)}"', "8", data, expected)


def two(data, expected):
    case("requests, 2 places", f'"{shown(data)}" with 2 places', "2", data, expected)


def published_request(label, data, expected):
    case("published requests, 4 places", label, "4", data, expected)


def reply(group, label, size, items, expected):
    data = bytes([size]) + b"".join(record(kind, text) for kind, text in items)
    case(group, label, "=", data, expected)


def head(count):
    return ("*", b"." * count)


def integer(digits):
    return (":", record("n", digits.encode()))


def text(label, size, items, expected):
    reply("replies", label, size, items, expected)


def published(label, size, items, expected):
    reply("published replies", label, size, items, expected)


def number(digits, expected):
    reply("numbers", f"number '{digits}'", 20, [("n", record("n", digits.encode()))], expected)


def total(a, b, expected):
    both = record("n", a.encode()) + record("n", b.encode())
    reply("sums", f"{a} + {b}", 20, [("n", both)], expected)


def lossy(label, data, expected):
    reply("published texts that are not UTF-8", label, 64, [("l", data)], expected)


def matches(group, label, pattern, name, expected):
    label = f"{label}pattern '{pattern}', name '{name}'"
    case(group, label, "?", record("?", pattern.encode()) + record("?", name.encode()), expected)


def keys_page(pattern, name):
    matches("published patterns", "KEYS page, ", pattern, name, "matches")


def cut_pattern(label, data, expected):
    """A record of a pattern and a name that are not both whole: what is not whole is empty."""
    case("patterns", f"{label} ({shown(data)})", "?", data, expected)


def glob(pattern, name, expected):
    matches("patterns", "", pattern, name, expected)


TOO_LONG = r"-ERR Protocol error: line too long\r\n"


def line_limit():
    """Document 01, section 3: LF at offset 65,536 from the line's start passes, one at 65,537 does not."""
    inline = b"a" * 65600
    line("inline, 65,536 bytes without LF", inline[:65536], "wait")
    line("inline, 65,537 bytes without LF", inline[:65537], TOO_LONG)
    line("inline, LF at offset 65,537", inline[:65537] + b"\n", TOO_LONG)
    line("inline, LF at offset 65,536", inline[:65536] + b"\n", "whole 1 65537 [65536 bytes]")
    line("inline, CR before that LF", inline[:65535] + b"\r\n", "whole 1 65537 [65535 bytes]")
    header = b"*" + b"0" * 65600
    line("array header, 65,536 bytes without LF", header[:65536], "wait")
    line("array header, 65,537 bytes without LF", header[:65537], TOO_LONG)
    line("array header, LF at offset 65,537", header[:65537] + b"\n", TOO_LONG)
    line("array header, LF at offset 65,536", header[:65536] + b"\n", "whole 0 65537")
    # The argument's line starts at byte 4.
    argument = b"*1\r\n$" + b"0" * 65600
    line("argument line, 65,536 bytes without LF", argument[:65540], "wait")
    line("argument line, 65,537 bytes without LF", argument[:65541], TOO_LONG)
    line("argument line, LF at offset 65,537", argument[:65541] + b"\n", TOO_LONG)
    line("argument line, LF at offset 65,536", argument[:65540] + b"\n\r\n", "whole 1 65543 []")


def arrays():
    """Document 01, section 3: an array's count is an optional `+`, digits, no `-`, within 64 bits, at most 1,048,576."""
    eight(b"*+1\r\n$4\r\nPING\r\n", "whole 1 15 [PING]")
    eight(b"*0\r\n", "whole 0 4")
    eight(b"*-1\r\n", r"-ERR Protocol error: invalid multibulk length '-1'\r\n")
    eight(b"*-0\r\n", r"-ERR Protocol error: invalid multibulk length '-0'\r\n")
    eight(b"*+\r\n", r"-ERR Protocol error: invalid multibulk length '+'\r\n")
    eight(b"*\r\n", r"-ERR Protocol error: invalid multibulk length ''\r\n")
    eight(b"*x", "wait")
    eight(b"*\xff\r\n", r"-ERR Protocol error: invalid multibulk length\r\n")
    eight(b"*1\r\r\n", r"-ERR Protocol error: invalid multibulk length '1 '\r\n")
    eight(b"*1048577\r\n", r"-ERR Protocol error: multibulk length 1048577 is over the limit of 1048576\r\n")
    eight(
        b"*18446744073709551615\r\n",
        r"-ERR Protocol error: multibulk length 18446744073709551615 is over the limit of 1048576\r\n",
    )
    eight(b"*18446744073709551616\r\n", r"-ERR Protocol error: invalid multibulk length '18446744073709551616'\r\n")


def arguments():
    """Document 01, section 3: argument lines, and the bytes behind them."""
    eight(b"*1\r\n$+4\r\nPING\r\n", "whole 1 15 [PING]")
    eight(b"*1\n$4\nPING\r\n", "whole 1 12 [PING]")
    eight(b"*1\n$4\nPING\n\n", r"-ERR Protocol error: bulk string not followed by CRLF\r\n")
    eight(b"*1\r\n$0\r\n\r\n", "whole 1 10 []")
    eight(b"*1\r\n$67108864\r\n", "wait")
    eight(b"*1\r\n$67108865\r\n", r"-ERR Protocol error: bulk length 67108865 is over the limit of 67108864\r\n")
    eight(b"*1\r\n$-1\r\n", r"-ERR Protocol error: invalid bulk length '-1'\r\n")
    eight(b"*1\r\n$3\r\nabcX", "wait")
    eight(b"*1\r\n$3\r\nabcXY", r"-ERR Protocol error: bulk string not followed by CRLF\r\n")
    eight(b"*1\r\n$3\r\nabc\r\n*1", "whole 1 13 [abc]")
    eight(b"*1\r\nX", "wait")
    eight(b"*1\r\nX\r\n", r"-ERR Protocol error: expected '$', got 'X'\r\n")
    eight(b"*1\r\n\r\n", r"-ERR Protocol error: expected '$', got ''\r\n")
    eight(b"*1\r\n\xffabc\r\n", r"-ERR Protocol error: expected '$', got '\xef\xbf\xbd'\r\n")


def inline_lines():
    """Document 01, section 3: split at space, tab, LF, FF and CR, without quoting; VT is no space."""
    eight(b"", "wait")
    eight(b"\r\n", "whole 0 2")
    eight(b"PING", "wait")
    eight(b"PING\r\n", "whole 1 6 [PING]")
    eight(b" set\tk 'a b' \n", "whole 4 14 [set] [k] ['a] [b']")
    eight(b"a\x0cb\rc\x0bd\r\r\n", r"whole 3 10 [a] [b] [c\x0bd]")


def two_places():
    """Document 01, section 3: more arguments than places, after an accepted count or line, before faults in the arguments."""
    two(b"*3\r\n", "too many")
    two(b"*3\r\nX\r\n", "too many")
    two(b"*1048576\r\n", "too many")
    two(b"*1048577\r\n", r"-ERR Protocol error: multibulk length 1048577 is over the limit of 1048576\r\n")
    two(b"*2\r\n", "wait")
    two(b"a b c", "wait")
    two(b"a b c\n", "too many")
    two(b"a b\n", "whole 2 4 [a] [b]")


def replies():
    """Document 01, section 4: CR and LF in simple and error text become spaces; a reply that does not fit is refused."""
    text("CR and LF in a simple string", 128, [("+", b"O\rK\n")], r"+O K \r\n")
    text("CR and LF in an error", 128, [("-", b"ERR a\r\nb")], r"-ERR a  b\r\n")
    text("CR and LF in a bulk string", 128, [("$", b"a\r\nb")], r"$4\r\na\r\nb\r\n")
    text(
        "an unknown name",
        128,
        [("u", b"a\xf0\x9f\x98b\xc3\xa9\n")],
        r"-ERR unknown command 'a\xef\xbf\xbdb\xc3\xa9 '\r\n",
    )
    text(
        "a name that may not be queued",
        128,
        [("q", b"keYs\xff\xc3\xa9\rz")],
        r"-ERR 'KEYS\xef\xbf\xbd\xc3\xa9 Z' can't be used inside MULTI\r\n",
    )
    text(
        "a wrong argument count", 128, [("a", b"INCRby")], r"-ERR wrong number of arguments for 'incrby' command\r\n"
    )
    text(
        "EXEC of a failed session",
        128,
        [("x", b"")],
        r"-EXECABORT Transaction discarded because of previous errors.\r\n",
    )
    text(
        "a cursor, and values or nil",
        64,
        [head(2), ("c", b""), head(4), ("$", b"ab"), ("_", b""), ("$", b""), ("$", b"bcd")],
        r"*2\r\n$20\r\n18446744073709551615\r\n*4\r\n$2\r\nab\r\n$-1\r\n$0\r\n\r\n$3\r\nbcd\r\n",
    )
    text("11 bytes into 11", 11, [("$", b"hello")], r"$5\r\nhello\r\n")
    text("11 bytes into 10", 10, [("$", b"hello")], "full")


def numbers():
    """R-1: `0`, or an optional `-` and digits that begin with 1 to 9, within i64; a sum beyond i64 is none."""
    number("9223372036854775807", "9223372036854775807")
    number("9223372036854775808", "none")
    number("-9223372036854775808", "-9223372036854775808")
    number("-9223372036854775809", "none")
    number("18446744073709551617", "none")
    number("0", "0")
    number("-0", "none")
    number("+7", "none")
    number("01", "none")
    number("-01", "none")
    number("00", "none")
    number("-7", "-7")
    number("-00000000000000000000000012", "none")
    number("", "none")
    number("+", "none")
    number("-", "none")
    number("+-1", "none")
    number(" 1", "none")
    number("1 ", "none")
    number("1.0", "none")
    total("9223372036854775807", "0", "9223372036854775807")
    total("9223372036854775807", "1", "none")
    total("1", "9223372036854775807", "none")
    total("9223372036854775807", "-9223372036854775808", "-1")
    total("-9223372036854775808", "0", "-9223372036854775808")
    total("-9223372036854775808", "-1", "none")
    total("-1", "-9223372036854775808", "none")
    total("7", "-10", "-3")
    total("+7", "-10", "none")


def resp2():
    """redis.io, "Redis serialization protocol specification", RESP2: each example value, written, and its requests, read."""
    published("RESP2, simple string OK", 128, [("+", b"OK")], r"+OK\r\n")
    published("RESP2, error", 128, [("-", b"Error message")], r"-Error message\r\n")
    published("RESP2, error, a generic one", 128, [("u", b"asdf")], r"-ERR unknown command 'asdf'\r\n")
    published(
        "RESP2, error, a prefix of its own",
        128,
        [("-", b"WRONGTYPE Operation against a key holding the wrong kind of value")],
        r"-WRONGTYPE Operation against a key holding the wrong kind of value\r\n",
    )
    published("RESP2, integer 0", 128, [integer("0")], r":0\r\n")
    published("RESP2, integer 1000", 128, [integer("1000")], r":1000\r\n")
    published("RESP2, bulk string hello", 32, [("$", b"hello")], r"$5\r\nhello\r\n")
    published("RESP2, empty bulk string", 32, [("$", b"")], r"$0\r\n\r\n")
    published("RESP2, null bulk string", 32, [("_", b"")], r"$-1\r\n")
    published("RESP2, null array", 32, [("0", b"")], r"*-1\r\n")
    published("RESP2, empty array", 32, [head(0)], r"*0\r\n")
    published(
        "RESP2, array of two bulk strings",
        64,
        [head(2), ("$", b"hello"), ("$", b"world")],
        r"*2\r\n$5\r\nhello\r\n$5\r\nworld\r\n",
    )
    published(
        "RESP2, array of three integers",
        64,
        [head(3), integer("1"), integer("2"), integer("3")],
        r"*3\r\n:1\r\n:2\r\n:3\r\n",
    )
    published(
        "RESP2, null element in an array",
        64,
        [head(3), ("$", b"hello"), ("_", b""), ("$", b"world")],
        r"*3\r\n$5\r\nhello\r\n$-1\r\n$5\r\nworld\r\n",
    )
    published(
        "RESP2, array of mixed types",
        64,
        [head(5), integer("1"), integer("2"), integer("3"), integer("4"), ("$", b"hello")],
        r"*5\r\n:1\r\n:2\r\n:3\r\n:4\r\n$5\r\nhello\r\n",
    )
    published(
        "RESP2, array of arrays",
        64,
        [head(2), head(3), integer("1"), integer("2"), integer("3"), head(2), ("+", b"Hello"), ("-", b"World")],
        r"*2\r\n*3\r\n:1\r\n:2\r\n:3\r\n*2\r\n+Hello\r\n-World\r\n",
    )
    published_request(
        "RESP2, request LLEN mylist", b"*2\r\n$4\r\nLLEN\r\n$6\r\nmylist\r\n", "whole 2 26 [LLEN] [mylist]"
    )
    published_request("RESP2, inline request PING", b"PING\r\n", "whole 1 6 [PING]")
    published_request("RESP2, inline request EXISTS somekey", b"EXISTS somekey\r\n", "whole 2 16 [EXISTS] [somekey]")


def patterns():
    """The Redis page on KEYS, without brackets; the others are of document 01, section 7, and of document 02, R-4."""
    keys_page("h?llo", "hello")
    keys_page("h?llo", "hallo")
    keys_page("h?llo", "hxllo")
    glob("h?llo", "hllo", "does not match")
    keys_page("h*llo", "hllo")
    keys_page("h*llo", "heeeello")
    glob("h*llo", "heeeell", "does not match, by the end")
    glob("h\\?llo", "h?llo", "matches")
    glob("h\\?llo", "hello", "does not match")
    glob("h\\*llo", "h*llo", "matches")
    glob("h\\*llo", "hllo", "does not match")
    # A star tries the tail one byte further on; a last lone `\` is itself.
    glob("a*b?", "axbbc", "matches")
    glob("a*b?", "axbb", "matches")
    glob("a*b?", "ab", "does not match, by the end")
    glob("*a*b", "aab", "matches")
    glob("*a*b", "aba", "does not match, by the end")
    glob("*", "", "matches")
    glob("?", "", "does not match")
    glob("", "", "matches")
    glob("", "a", "does not match")
    glob("a\\", "a\\", "matches")
    glob("a\\", "a", "does not match")
    glob("\\\\", "\\", "matches")
    glob("h[ae]llo", "hello", "does not match")
    glob("h[ae]llo", "h[ae]llo", "matches")
    # By the end: there is a wildcard star, and no end of the name matches what follows the last one.
    glob("b:*07", "b:1007", "matches")
    glob("b:*07", "b:1008", "does not match, by the end")
    glob("b:*07", "c:1007", "does not match")
    glob("a\\*", "b", "does not match")
    glob("a*", "b", "does not match")
    glob("*ab", "b", "does not match, by the end")
    glob("ab*b", "ab", "does not match")
    glob("a", "b", "does not match")
    glob("\\*", "x", "does not match")
    glob("*\\", "a", "does not match, by the end")
    glob("*\\*", "a", "does not match, by the end")
    glob("*ab*b", "ab", "does not match")
    glob("b*a", "c", "does not match, by the end")
    glob("[*]", "x]", "does not match")
    cut_pattern("neither record", b"", "matches")
    cut_pattern("the pattern is cut short", b"?\0\0\3ab", "matches")
    cut_pattern("no name", record("?", b"*"), "matches")
    cut_pattern("the name is cut short", record("?", b"a") + b"?\0\0\2a", "does not match")


FFFD = r"\xef\xbf\xbd"


def unicode_text():
    """The Unicode Standard, chapter 3: one U+FFFD for each maximal subpart of an ill-formed sequence."""
    lossy(
        "Unicode text, 41 C0 AF 41 F4 80 80 41",
        b"\x41\xc0\xaf\x41\xf4\x80\x80\x41",
        "A" + 2 * FFFD + "A" + FFFD + "A",
    )
    lossy("Unicode text, C2 41", b"\xc2\x41", FFFD + "A")
    lossy(
        "Unicode table 3-8 of version 6, 61 F1 80 80 E1 80 C2 62 80 63 80 BF 64",
        b"\x61\xf1\x80\x80\xe1\x80\xc2\x62\x80\x63\x80\xbf\x64",
        "a" + 3 * FFFD + "b" + FFFD + "c" + 2 * FFFD + "d",
    )
    lossy(
        "Unicode table 3-8, C0 AF E0 80 BF F0 81 82 41",
        b"\xc0\xaf\xe0\x80\xbf\xf0\x81\x82\x41",
        8 * FFFD + "A",
    )
    lossy(
        "Unicode table 3-9, ED A0 80 ED BF BF ED AF 41",
        b"\xed\xa0\x80\xed\xbf\xbf\xed\xaf\x41",
        8 * FFFD + "A",
    )
    lossy(
        "Unicode table 3-10, F4 91 92 93 FF 41 80 BF 42",
        b"\xf4\x91\x92\x93\xff\x41\x80\xbf\x42",
        5 * FFFD + "A" + 2 * FFFD + "B",
    )
    lossy(
        "Unicode table 3-11, E1 80 E2 F0 91 92 F1 BF 41",
        b"\xe1\x80\xe2\xf0\x91\x92\xf1\xbf\x41",
        4 * FFFD + "A",
    )


def main():
    for part in (
        stored,
        line_limit,
        arrays,
        arguments,
        inline_lines,
        two_places,
        replies,
        numbers,
        resp2,
        patterns,
        unicode_text,
    ):
        part()
    with open(os.path.join(CRATE, "stdin"), "wb") as file:
        file.write(b"".join(records))
    with open(os.path.join(CRATE, "stdout"), "w", encoding="ascii", newline="\n") as file:
        file.write("".join(f"{one}\n" for one in lines))
    for group, count in counts.items():
        print(f"{count:5} {group}")
    print(f"{sum(counts.values()):5} in all")


if __name__ == "__main__":
    main()
