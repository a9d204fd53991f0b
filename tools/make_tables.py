#!/usr/bin/env python3
"""Writes the cases of the table tests: tables in hexadecimal and what a load answers.

usage: make_tables.py > crates/table_tests/src/cases.rt     (the same bytes every time)
It shares nothing with the program: a table is put together as a string of 0s and 1s, field by field. The answers of the
named cases are written down here by hand; `judge` reads a table bit by bit and must agree with each of them, and it alone
gives the answers for the tables with changed bits.
"""
import random

# code: number of bits
ADDRESSES = {1: 32, 2: 128, 3: 16}
COSTS = {1: 32, 2: 32}


def bits(*fields):
    """Fields as (value, width), packed without gaps, the most significant bit first."""
    return "".join(format(value, "0%db" % width) for value, width in fields)


def to_hex(text):
    assert len(text) % 8 == 0
    return "".join("%02x" % int(text[i:i + 8], 2) for i in range(0, len(text), 8))


def head(kinds, count, edition=1):
    return bits((edition, 8), (kinds[0], 4), (kinds[1], 4), (kinds[2], 4), (count, 12))


def record(kinds, label, dst, src, cost, directive):
    form, line, rate = directive
    return bits((label, 16), (dst[1], 8), (dst[0], ADDRESSES[kinds[0]]), (src[1], 8), (src[0], ADDRESSES[kinds[1]]),
                (cost, COSTS[kinds[2]]), (form, 2), (line, 6), (rate, 24))


def table(kinds, records, count=None):
    return head(kinds, len(records) if count is None else count) + "".join(record(kinds, *r) for r in records)


def judge(kinds, capacity, text):
    """What a load answers: (record, number of the refusal), or how many filters."""
    def number(at, width):
        return int(text[at:at + width], 2)
    if len(text) < 32:
        return (0, 15)
    if number(0, 8) != 1 or (number(8, 4), number(12, 4), number(16, 4)) != kinds:
        return (0, 16)
    wide_dst, wide_src, wide_cost = ADDRESSES[kinds[0]], ADDRESSES[kinds[1]], COSTS[kinds[2]]
    size = 16 + 8 + wide_dst + 8 + wide_src + wide_cost + 32
    count = number(20, 12)
    if len(text) != 32 + count * size:
        return (0, 17)
    if count > capacity:
        return (0, 6)
    labels = set()
    for i in range(count):
        at = 32 + i * size
        label, at = number(at, 16), at + 16
        dst_length, at = number(at, 8), at + 8
        dst, at = text[at:at + wide_dst], at + wide_dst
        src_length, at = number(at, 8), at + 8
        src, at = text[at:at + wide_src], at + wide_src
        cost, at = number(at, wide_cost), at + wide_cost
        form, line, rate = number(at, 2), number(at + 2, 6), number(at + 8, 24)
        lawful = {0: line == 0 and rate == 0, 1: line > 0 and rate == 0, 2: line > 0 and rate > 0, 3: False}[form]
        if label == 0:
            return (i + 1, 1)
        if kinds[2] == 2 and cost >> 28 > 9:
            return (i + 1, 18)
        if dst_length > wide_dst or src_length > wide_src:
            return (i + 1, 2)
        if "1" in dst[dst_length:] or "1" in src[src_length:]:
            return (i + 1, 3)
        if not lawful:
            return (i + 1, 4)
        if label in labels:
            return (i + 1, 5)
        labels.add(label)
    return count


def told(answer):
    return "accepted %d" % answer if isinstance(answer, int) else "record %d refusal %d" % answer


def case(name, kinds, capacity, text, answer):
    assert judge(kinds, capacity, text) == answer, (name, judge(kinds, capacity, text))
    return "%s: %d%d%d %d %s -> %s" % (name, *kinds, capacity, to_hex(text), told(answer))


BLOCK, LINE, RESERVE = (0, 0, 0), (1, 3, 0), (2, 63, 0xFFFFFF)
V4, SOCKET, V6, TARIFF = (1, 1, 1), (1, 3, 1), (2, 2, 1), (1, 1, 2)
NET = (0xC6336400, 24)
ANY = (0, 0)
SAMPLE = [(1, NET, ANY, 9, LINE), (2, ANY, (0xC0000200, 24), 4, BLOCK)]
SIXTH = (0x20010DB8 << 96, 32)
ROW = (0xA5C0, 10)


def accepted():
    yield case("the sample", V4, 2, table(V4, SAMPLE), 2)
    yield case("room to spare", V4, 8, table(V4, SAMPLE), 2)
    yield case("no filter", V4, 0, table(V4, []), 0)
    yield case("one filter, ends of every field", V4, 1, table(V4, [(65535, (0xFFFFFFFF, 32), (0xFFFFFFFF, 32), 0xFFFFFFFF, RESERVE)]), 1)
    yield case("least of every field", V4, 1, table(V4, [(1, ANY, ANY, 0, (2, 1, 1))]), 1)
    yield case("sockets", SOCKET, 3, table(SOCKET, [(7, NET, ROW, 1, BLOCK), (8, ANY, (0xFFFF, 16), 2, (1, 63, 0)), (6, NET, ANY, 3, RESERVE)]), 3)
    yield case("IPv6", V6, 2, table(V6, [(3, SIXTH, ANY, 5, (1, 1, 0)), (4, ((1 << 128) - 1, 128), SIXTH, 6, BLOCK)]), 2)
    yield case("tariffs", TARIFF, 2, table(TARIFF, [(1, NET, ANY, 0x9FFFFFFF, LINE), (2, ANY, NET, 0, BLOCK)]), 2)
    yield case("IPv6 to sockets, tariffs", (2, 3, 2), 1, table((2, 3, 2), [(9, SIXTH, ROW, 0x50000001, (2, 1, 0x800000))]), 1)


def refused():
    one, two = table(V4, SAMPLE[:1]), table(V4, SAMPLE)
    yield case("no byte", V4, 8, "", (0, 15))
    yield case("three bytes", V4, 8, head(V4, 0)[:24], (0, 15))
    yield case("edition 0", V4, 8, head(V4, 0, 0), (0, 16))
    yield case("edition 2", V4, 8, head(V4, 0, 2), (0, 16))
    yield case("another destination kind", V4, 8, head((2, 1, 1), 0), (0, 16))
    yield case("another source kind", V4, 8, head((1, 3, 1), 0), (0, 16))
    yield case("another cost kind", V4, 8, head((1, 1, 2), 0), (0, 16))
    yield case("source and destination kind exchanged", (1, 3, 1), 8, head((3, 1, 1), 0), (0, 16))
    yield case("a byte less", V4, 8, two[:-8], (0, 17))
    yield case("a byte more", V4, 8, two + "00000000", (0, 17))
    yield case("a record less than told", V4, 8, table(V4, SAMPLE, 3), (0, 17))
    yield case("a record more than told", V4, 8, table(V4, SAMPLE, 1), (0, 17))
    yield case("a head alone tells 4095", V4, 8, head(V4, 4095), (0, 17))
    yield case("over capacity by one", V4, 1, two, (0, 6))
    yield case("no capacity", V4, 0, one, (0, 6))
    for where in (1, 2, 3):
        def at(bad, kinds=V4):
            good = [(11, ANY, ANY, 1, BLOCK), (12, ANY, ANY, 2, LINE), (13, ANY, ANY, 3, RESERVE)]
            return table(kinds, good[:where - 1] + [bad] + good[where:])
        def so(name, bad, number, kinds=V4):
            return case("%s, record %d" % (name, where), kinds, 3, at(bad, kinds), (where, number))
        yield so("label 0", (0, ANY, ANY, 1, BLOCK), 1)
        yield so("class 10", (5, ANY, ANY, 0xA0000000, BLOCK), 18, TARIFF)
        yield so("class 15", (5, ANY, ANY, 0xFFFFFFFF, BLOCK), 18, TARIFF)
        yield so("long destination", (5, (0, 33), ANY, 1, BLOCK), 2)
        yield so("long source", (5, ANY, (0, 255), 1, BLOCK), 2)
        yield so("long socket", (5, ANY, (0, 17), 1, BLOCK), 2, SOCKET)
        yield so("long IPv6", (5, (0, 129), ANY, 1, BLOCK), 2, V6)
        yield so("stray bit in the destination", (5, (0xC6336401, 31), ANY, 1, BLOCK), 3)
        yield so("stray bit in the source", (5, ANY, (0x80000000, 0), 1, BLOCK), 3)
        yield so("stray bit in a socket", (5, ANY, (0x0001, 15), 1, BLOCK), 3, SOCKET)
        yield so("form 0 with a line", (5, ANY, ANY, 1, (0, 1, 0)), 4)
        yield so("form 0 with a rate", (5, ANY, ANY, 1, (0, 0, 1)), 4)
        yield so("form 1 with line 0", (5, ANY, ANY, 1, (1, 0, 0)), 4)
        yield so("form 1 with a rate", (5, ANY, ANY, 1, (1, 1, 1)), 4)
        yield so("form 2 with line 0", (5, ANY, ANY, 1, (2, 0, 1)), 4)
        yield so("form 2 with rate 0", (5, ANY, ANY, 1, (2, 1, 0)), 4)
        yield so("form 3", (5, ANY, ANY, 1, (3, 1, 1)), 4)
    good = [(11, ANY, ANY, 1, BLOCK), (12, ANY, ANY, 2, LINE), (13, ANY, ANY, 3, RESERVE)]
    yield case("the first label again", V4, 3, table(V4, good[:1] + [(11, NET, ANY, 7, LINE)]), (2, 5))
    yield case("the first label at the end", V4, 3, table(V4, good[:2] + [(11, NET, ANY, 7, LINE)]), (3, 5))
    yield case("the second label at the end", V4, 3, table(V4, good[:2] + [(12, NET, ANY, 7, LINE)]), (3, 5))


def order():
    """Where two refusals apply, the first in the order is told."""
    worst = (0, (0xFFFFFFFF, 33), ANY, 0xFFFFFFFF, (3, 0, 0))
    yield case("short before kind", V4, 0, "1" * 24, (0, 15))
    yield case("kind before length", V4, 0, head((2, 1, 1), 9, 7), (0, 16))
    yield case("length before capacity", V4, 0, table(V4, SAMPLE)[:-8], (0, 17))
    yield case("capacity before records", TARIFF, 0, table(TARIFF, [worst]), (0, 6))
    yield case("label before cost", TARIFF, 1, table(TARIFF, [worst]), (1, 1))
    yield case("cost before length", TARIFF, 1, table(TARIFF, [(5,) + worst[1:]]), (1, 18))
    yield case("length before stray bits", V4, 1, table(V4, [(5, (0xFFFFFFFF, 33), (1, 0), 1, (3, 0, 0))]), (1, 2))
    yield case("stray bits before the directive", V4, 1, table(V4, [(5, ANY, (1, 0), 1, (3, 0, 0))]), (1, 3))
    yield case("the directive before the label in use", V4, 2, table(V4, [(5, ANY, ANY, 1, BLOCK), (5, ANY, ANY, 1, (3, 0, 0))]), (2, 4))
    yield case("an earlier record before a later one", V4, 2, table(V4, [(5, ANY, ANY, 1, (3, 0, 0)), (0, ANY, ANY, 1, BLOCK)]), (1, 4))


def changed():
    """Tables with one bit changed, anywhere; some of those are accepted again."""
    dice = random.Random(4095)
    for kinds in (V4, SOCKET, V6, TARIFF):
        wide = ADDRESSES[kinds[0]], ADDRESSES[kinds[1]]
        for i in range(12):
            rows = []
            for label in dice.sample(range(1, 65536), 2):
                lengths = [dice.randint(0, w) for w in wide]
                dst, src = [(dice.getrandbits(n) << (w - n) if n else 0, n) for n, w in zip(lengths, wide)]
                rows.append((label, dst, src, dice.getrandbits(31), dice.choice([BLOCK, LINE, RESERVE])))
            text = table(kinds, rows)
            at = dice.randrange(len(text))
            text = text[:at] + ("1" if text[at] == "0" else "0") + text[at + 1:]
            yield case("bit %d of table %d" % (at, i), kinds, 2, text, judge(kinds, 2, text))


def group(name, why, lines):
    return "// %s\npub const %s: &str = \"%s\n\";\n" % (why, name, "\n".join(lines))


print("// Tables and what a load answers, a case a line: what it shows, the codes of the kinds, the capacity, the table in")
print("// hexadecimal, and the answer. Written by tools/make_tables.py, which shares nothing with the program.")
print()
print("\n".join([
    group("ACCEPTED", "Tables that are accepted, for each pair of kinds.", accepted()),
    group("REFUSED", "Each refusal, at the first record that can have it and at later ones.", refused()),
    group("ORDER", "Where two refusals apply, the first in the order is told.", order()),
    group("CHANGED", "Tables with one bit changed.", changed()),
]), end="")
