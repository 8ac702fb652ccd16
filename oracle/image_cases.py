#!/usr/bin/env python3
# Writes the cases that the program image_cases runs: crates/image_cases/stdin (a line a case: its name, a space, the image
# as lower-case hex) and crates/image_cases/stdout (its name, a space, the refusal that is expected).
#
# The expected numbers do not come from the code of Thatchnip. Each case is built here, by this file's own layout code, and
# its number is stated beside it by hand, as document 01's clause gives it. Each image is then judged once more by `judge`
# below, a reading of document 01's table that was written from that document. Where the two disagree the script fails, and
# writes nothing.
#
#     image_cases.py            writes the two files
#     image_cases.py --check    fails if the two files are not as this script writes them

import pathlib
import struct
import sys

MOST = 2**32 - 1
(STR, INSENS, RANGE, IDENT, PEEK_SLICE, POS_PRED, NEG_PRED, SEQ, CHOICE, OPT, REP, REP_ONCE, REP_EXACT, REP_MIN, REP_MAX,
 REP_MIN_MAX, PUSH, PUSH_LITERAL, NODE_TAG) = range(1, 20)

# ---------------------------------------------------------------- building images


def node(kind, a=0, b=0, c=0, bits=0, pad=(0, 0), start=0, end=0):
    """A node, 24 bytes: kind, verdict bits, two zero bytes, then A, B, C, span start, span end."""
    return struct.pack("<4B5I", kind, bits, pad[0], pad[1], a, b, c, start, end)


def rule(at, length, root):
    """A rule, 12 bytes: name position in the text, name length, root."""
    return struct.pack("<3I", at, length, root)


def image(rules, nodes, text, positions=None, counts=None, tail=b""):
    """The table of contents, then the bodies without gaps. What is given in `positions` and `counts` stands in the table instead."""
    body = b"".join(rules) + b"".join(nodes) + text + tail
    at_nodes = 24 + 12 * len(rules)
    p = [24, at_nodes, at_nodes + 24 * len(nodes)]
    c = [len(rules), len(nodes), len(text)]
    for i, value in (positions or {}).items():
        p[i] = value
    for i, value in (counts or {}).items():
        c[i] = value
    return struct.pack("<6I", p[0], c[0], p[1], c[1], p[2], c[2]) + body


def contents(rules_at, rules, nodes_at, nodes, text_at, text):
    """A table of contents and nothing else."""
    return struct.pack("<6I", rules_at, rules, nodes_at, nodes, text_at, text)


def one(*nodes, text=b"abcd"):
    """One rule, named by the text's first byte, whose root is the last node."""
    return image([rule(0, 1, len(nodes) - 1)], list(nodes), text)


# ---------------------------------------------------------------- judging images, from document 01's table


def judge(data):
    """The refusal, 1 to 7, or 0: the table's lines in its order, each over the whole image."""
    if len(data) < 24:
        return 1
    rules_at, rules, nodes_at, nodes, text_at, texts = struct.unpack_from("<6I", data)
    if rules > 256 or nodes > 2048 or texts > 8192:
        return 2
    if (rules_at, nodes_at, text_at) != (24, 24 + 12 * rules, 24 + 12 * rules + 24 * nodes):
        return 3
    if len(data) != text_at + texts:
        return 3
    ns = [struct.unpack_from("<4B5I", data, nodes_at + 24 * i) for i in range(nodes)]
    rs = [struct.unpack_from("<3I", data, rules_at + 12 * i) for i in range(rules)]
    text = data[text_at:]
    if any(node_refused(n, texts) for n in ns):
        return 4
    if any(length == 0 or at + length > texts or root >= nodes for at, length, root in rs):
        return 5
    names = [bytes(text[at:at + length]) for at, length, _ in rs]
    if len(set(names)) < len(names):
        return 6
    met = [root for _, _, root in rs]
    for i, n in enumerate(ns):
        for part in parts(n):
            if part >= i:
                return 7
            met.append(part)
    if sorted(met) != list(range(nodes)):
        return 7
    return 0


def parts(n):
    """The parts of a node: kinds 6, 7, 10 to 17 and 19 name one in A, 8 and 9 one in A and one in B."""
    if n[0] in (8, 9):
        return [n[4], n[5]]
    if n[0] in (6, 7, 10, 11, 12, 13, 14, 15, 16, 17, 19):
        return [n[4]]
    return []


# which of A, B, C a kind names
NAMED = {1: "AB", 2: "AB", 3: "", 4: "AB", 5: "ABC", 6: "A", 7: "A", 8: "AB", 9: "AB", 10: "A", 11: "A", 12: "A",
         13: "AB", 14: "AB", 15: "AB", 16: "ABC", 17: "A", 18: "AB", 19: "A"}


def node_refused(n, texts):
    """Line 4 of the table, for one node."""
    kind, bits, pad, pad2, a, b, c, start, end = n
    if kind not in NAMED or bits > 7 or pad or pad2 or start > end:
        return True
    if any(value and field not in NAMED[kind] for field, value in zip("ABC", (a, b, c))):
        return True
    if kind == 5 and (b > 1 or (b == 0 and c != 0)):
        return True
    if kind in (1, 2, 4, 18) and a + b > texts:
        return True
    return kind == 4 and b == 0


# ---------------------------------------------------------------- the cases

CASES = []


def case(name, number, data):
    CASES.append((name, number, data))


EMPTY = contents(24, 0, 24, 0, 24, 0)
LEAF = node(STR, 0, 1)


def short_cases():
    """1: image under 24 bytes."""
    case("bytes-0", 1, b"")
    case("bytes-1", 1, b"\x18")
    case("bytes-23", 1, EMPTY[:23])
    case("bytes-24", 0, EMPTY)


def limit_cases():
    """2: a count over its limit. At its limit, with nothing behind the table, it is the total length that is wrong."""
    case("toc-rules-256", 3, contents(24, 256, 24 + 12 * 256, 0, 24 + 12 * 256, 0))
    case("toc-rules-257", 2, contents(24, 257, 24 + 12 * 257, 0, 24 + 12 * 257, 0))
    case("toc-nodes-2048", 3, contents(24, 0, 24, 2048, 24 + 24 * 2048, 0))
    case("toc-nodes-2049", 2, contents(24, 0, 24, 2049, 24 + 24 * 2049, 0))
    case("toc-text-8192", 3, contents(24, 0, 24, 0, 24, 8192))
    case("toc-text-8193", 2, contents(24, 0, 24, 0, 24, 8193))
    case("toc-rules-most", 2, contents(24, MOST, 24, 0, 24, 0))
    case("toc-nodes-most", 2, contents(24, 0, 24, MOST, 24, 0))
    case("toc-text-most", 2, contents(24, 0, 24, 0, 24, MOST))
    # 2^30 rules of 12 bytes, 2^29 nodes of 24: the positions agree if products are cut to 32 bits
    case("toc-rules-wrap", 2, contents(24, 2**30, 24, 0, 24, 0))
    case("toc-nodes-wrap", 2, contents(24, 0, 24, 2**29, 24, 0))


def full_cases():
    """Whole images at each limit, and one past it."""
    letters = bytes(range(256))
    ranges = [node(RANGE)]
    case("rules-256", 0, image([rule(i, 1, i) for i in range(256)], ranges * 256, letters))
    case("rules-257", 2, image([rule(i, 1, i) for i in range(256)] + [rule(0, 2, 256)], ranges * 257, letters))
    case("text-8192", 0, image([rule(0, 8192, 0)], ranges, b"t" * 8192))
    case("text-8193", 2, image([rule(0, 8192, 0)], ranges, b"t" * 8193))
    # every limit at once: the last rule owns a chain of all nodes that the others leave
    chain = [LEAF] + [node(OPT, n) for n in range(255, 2047)]
    rules = [rule(i, 1, i) for i in range(255)] + [rule(0, 8192, 2047)]
    case("all-limits", 0, image(rules, ranges * 255 + chain, letters * 32))
    case("nodes-2049", 2, one(LEAF, *[node(POS_PRED, n) for n in range(2048)]))


def place_cases():
    """3: a position or the total length is not as the layout says."""
    rules, nodes, text = [rule(0, 1, 1)], [LEAF, node(OPT, 0)], b"abcd"
    case("placed", 0, image(rules, nodes, text))
    for where, at in (("rules", 0), ("nodes", 1), ("text", 2)):
        right = [24, 36, 84][at]
        case(f"{where}-at-less", 3, image(rules, nodes, text, {at: right - 1}))
        case(f"{where}-at-more", 3, image(rules, nodes, text, {at: right + 1}))
        case(f"{where}-at-0", 3, image(rules, nodes, text, {at: 0}))
        case(f"{where}-at-most", 3, image(rules, nodes, text, {at: MOST}))
        case(f"{where}-at-high-byte", 3, image(rules, nodes, text, {at: right + 2**24}))
    case("length-more", 3, image(rules, nodes, text, tail=b"\0"))
    case("length-less", 3, image(rules, nodes, text)[:-1])
    case("gap-after-contents", 3, image(rules, nodes, text, {0: 25, 1: 37, 2: 85}))
    case("gap-after-rules", 3, struct.pack("<6I", 24, 1, 37, 2, 85, 4) + rules[0] + b"\0" + b"".join(nodes) + text)
    case("nodes-before-rules", 3, struct.pack("<6I", 72, 1, 24, 2, 84, 4) + b"".join(nodes) + rules[0] + text)
    # positions are exact also where counts are 0
    case("empty-rules-at-0", 3, contents(0, 0, 24, 0, 24, 0))
    case("empty-nodes-at-0", 3, contents(24, 0, 0, 0, 24, 0))
    case("empty-text-at-0", 3, contents(24, 0, 24, 0, 0, 0))
    case("count-less", 3, image(rules, nodes, text, counts={1: 1}))


def kind_cases():
    """4: an unknown kind; each known kind stands in an image that is done."""
    case("kind-0", 4, one(node(0)))
    case("kind-20", 4, one(node(20)))
    case("kind-255", 4, one(node(255)))
    case("kind-1-str", 0, one(node(STR, 1, 2)))
    case("kind-2-insens", 0, one(node(INSENS, 1, 2)))
    case("kind-3-range", 0, one(node(RANGE)))
    case("kind-4-ident", 0, one(node(IDENT, 1, 2)))
    case("kind-5-peekslice", 0, one(node(PEEK_SLICE, 1, 1, 2)))
    for name, kind in (("6-pospred", POS_PRED), ("7-negpred", NEG_PRED), ("10-opt", OPT), ("11-rep", REP),
                       ("12-reponce", REP_ONCE), ("17-push", PUSH), ("19-nodetag", NODE_TAG)):
        case(f"kind-{name}", 0, one(LEAF, node(kind, 0)))
    case("kind-8-seq", 0, one(LEAF, LEAF, node(SEQ, 0, 1)))
    case("kind-8-seq-turned", 0, one(LEAF, LEAF, node(SEQ, 1, 0)))
    case("kind-9-choice", 0, one(LEAF, LEAF, node(CHOICE, 0, 1)))
    case("kind-9-choice-turned", 0, one(LEAF, LEAF, node(CHOICE, 1, 0)))
    for name, kind in (("13-repexact", REP_EXACT), ("14-repmin", REP_MIN), ("15-repmax", REP_MAX)):
        case(f"kind-{name}", 0, one(LEAF, node(kind, 0, MOST)))
    case("kind-16-repminmax", 0, one(LEAF, node(REP_MIN_MAX, 0, 5, 2)))
    case("kind-18-pushliteral", 0, one(node(PUSH_LITERAL, 1, 2)))


def bits_cases():
    """4: bits above 7, and the two zero bytes."""
    case("bits-7", 0, one(node(STR, 0, 1, bits=7)))
    case("bits-8", 4, one(node(STR, 0, 1, bits=8)))
    case("bits-255", 4, one(node(STR, 0, 1, bits=255)))
    case("pad-first", 4, one(node(STR, 0, 1, pad=(1, 0))))
    case("pad-second", 4, one(node(STR, 0, 1, pad=(0, 1))))
    case("pad-second-high", 4, one(node(STR, 0, 1, pad=(0, 128))))


def stray_cases():
    """4: a stray non-zero field."""
    for field, numbers in (("a", (1, 0, 0)), ("b", (0, 1, 0)), ("c", (0, 0, 1)), ("c-high-byte", (0, 0, 2**24))):
        case(f"stray-3-{field}", 4, one(node(RANGE, *numbers)))
    for kind in (STR, INSENS, IDENT, PUSH_LITERAL):
        case(f"stray-{kind}-c", 4, one(node(kind, 1, 2, 1)))
    for kind in (POS_PRED, NEG_PRED, OPT, REP, REP_ONCE, PUSH, NODE_TAG):
        case(f"stray-{kind}-b", 4, one(LEAF, node(kind, 0, 1)))
        case(f"stray-{kind}-c", 4, one(LEAF, node(kind, 0, 0, 1)))
    for kind in (SEQ, CHOICE):
        case(f"stray-{kind}-c", 4, one(LEAF, LEAF, node(kind, 0, 1, 1)))
    for kind in (REP_EXACT, REP_MIN, REP_MAX):
        case(f"stray-{kind}-c", 4, one(LEAF, node(kind, 0, 1, 1)))


def slice_cases():
    """4: PeekSlice B over 1; without an end C is a stray field."""
    case("slice-all", 0, one(node(PEEK_SLICE)))
    case("slice-negative", 0, one(node(PEEK_SLICE, MOST)))
    case("slice-0-to-0", 0, one(node(PEEK_SLICE, 0, 1, 0)))
    case("slice-to-negative", 0, one(node(PEEK_SLICE, 1, 1, MOST)))
    case("slice-no-end-c", 4, one(node(PEEK_SLICE, 0, 0, 1)))
    case("slice-b-2", 4, one(node(PEEK_SLICE, 0, 2, 0)))
    case("slice-b-2-c", 4, one(node(PEEK_SLICE, 0, 2, 1)))
    case("slice-b-256", 4, one(node(PEEK_SLICE, 0, 256, 1)))


def text_cases():
    """4: text outside, an empty Ident. The text has 4 bytes."""
    for name, kind in (("str", STR), ("insens", INSENS), ("ident", IDENT), ("pushliteral", PUSH_LITERAL)):
        case(f"text-{name}-whole", 0, one(node(kind, 0, 4)))
        case(f"text-{name}-last", 0, one(node(kind, 3, 1)))
        case(f"text-{name}-past", 4, one(node(kind, 3, 2)))
        case(f"text-{name}-at-2-32", 4, one(node(kind, MOST, 1)))
        empty_number = 4 if kind == IDENT else 0
        case(f"text-{name}-empty", empty_number, one(node(kind, 0, 0)))
        case(f"text-{name}-empty-at-end", empty_number, one(node(kind, 4, 0)))
        case(f"text-{name}-empty-past", 4, one(node(kind, 5, 0)))
    case("text-sum-past-2-32", 4, one(node(STR, 2**32 - 2, 3)))
    case("text-length-most", 4, one(node(STR, 0, MOST)))
    case("text-both-most", 4, one(node(STR, MOST, MOST)))


def span_cases():
    """4: start past end."""
    case("span-equal", 0, one(node(STR, 0, 1, start=7, end=7)))
    case("span-ordered", 0, one(node(STR, 0, 1, start=7, end=8)))
    case("span-past", 4, one(node(STR, 0, 1, start=8, end=7)))
    case("span-most", 0, one(node(STR, 0, 1, start=MOST, end=MOST)))
    case("span-0-most", 0, one(node(STR, 0, 1, start=0, end=MOST)))
    case("span-past-high-byte", 4, one(node(STR, 0, 1, start=2**24, end=255)))
    case("span-start-only", 4, one(node(STR, 0, 1, start=1, end=0)))
    case("bad-node-first", 4, one(node(STR, 0, 1, bits=8), node(OPT, 0), node(REP, 1)))
    case("bad-node-last", 4, one(LEAF, node(OPT, 0), node(REP, 1, bits=8)))


def rule_cases():
    """5: a rule has an empty or outside name, or a root not below the node count. The text has 4 bytes."""

    def named(at, length, root=0):
        return image([rule(at, length, root)], [LEAF], b"abcd")

    case("name-one", 0, named(0, 1))
    case("name-whole", 0, named(0, 4))
    case("name-last", 0, named(3, 1))
    case("name-empty", 5, named(0, 0))
    case("name-empty-at-end", 5, named(4, 0))
    case("name-past", 5, named(3, 2))
    case("name-at-end", 5, named(4, 1))
    case("name-at-2-32", 5, named(MOST, 1))
    case("name-sum-past-2-32", 5, named(2**32 - 2, 3))
    case("name-length-most", 5, named(0, MOST))
    case("root-last", 0, image([rule(0, 1, 1)], [LEAF, node(OPT, 0)], b"abcd"))
    case("root-count", 5, named(0, 1, 1))
    case("root-most", 5, named(0, 1, MOST))
    case("rules-without-nodes", 5, image([rule(0, 1, 0)], [], b"abcd"))
    case("bad-rule-first", 5, image([rule(0, 0, 0), rule(1, 1, 1)], [LEAF, LEAF], b"abcd"))
    case("bad-rule-last", 5, image([rule(0, 1, 0), rule(1, 1, 2)], [LEAF, LEAF], b"abcd"))


def name_cases():
    """6: two rules share a name."""

    def names(text, *places):
        return image([rule(at, length, i) for i, (at, length) in enumerate(places)], [LEAF] * len(places), text)

    case("names-differ", 0, names(b"ab", (0, 1), (1, 1)))
    case("names-same-bytes", 6, names(b"ab", (0, 1), (0, 1)))
    case("names-equal-elsewhere", 6, names(b"abab", (0, 2), (2, 2)))
    case("names-overlap-differ", 0, names(b"abc", (0, 2), (1, 2)))
    case("names-overlap-equal", 6, names(b"aaa", (0, 2), (1, 2)))
    case("names-prefix", 0, names(b"abc", (0, 2), (0, 3)))
    case("names-prefix-turned", 0, names(b"abc", (0, 3), (0, 2)))
    case("names-suffix", 0, names(b"abc", (1, 2), (0, 3)))
    case("names-last-byte", 0, names(b"abcabd", (0, 3), (3, 3)))
    case("names-first-byte", 0, names(b"abcxbc", (0, 3), (3, 3)))
    case("names-case", 0, names(b"aA", (0, 1), (1, 1)))
    case("names-high-bytes", 0, names(b"\x7f\xff", (0, 1), (1, 1)))
    case("names-third-first", 6, names(b"abca", (0, 1), (1, 1), (3, 1)))
    case("names-third-second", 6, names(b"abcb", (0, 1), (1, 1), (3, 1)))


def part_cases():
    """7: a part's number is below its node's; every node is exactly once a part or a root."""
    case("nested", 0, one(LEAF, node(OPT, 0), LEAF, node(SEQ, 1, 2), node(REP, 3)))
    for kind in (POS_PRED, NEG_PRED, OPT, REP, REP_ONCE, REP_EXACT, REP_MIN, REP_MAX, REP_MIN_MAX, PUSH, NODE_TAG):
        case(f"part-{kind}-itself", 7, one(LEAF, node(kind, 1)))
    for kind in (SEQ, CHOICE):
        case(f"part-{kind}-left-itself", 7, one(LEAF, LEAF, node(kind, 2, 1)))
        case(f"part-{kind}-right-itself", 7, one(LEAF, LEAF, node(kind, 0, 2)))
        case(f"part-{kind}-twice", 7, one(LEAF, node(kind, 0, 0)))
    case("part-above", 7, image([rule(0, 1, 0)], [node(OPT, 1), LEAF], b"abcd"))
    case("part-count", 7, one(LEAF, node(OPT, 2)))
    case("part-most", 7, one(LEAF, node(OPT, MOST)))
    case("part-right-most", 7, one(LEAF, node(SEQ, 0, MOST)))
    case("part-of-two", 7, one(LEAF, node(OPT, 0), node(SEQ, 0, 1)))
    case("node-unused-first", 7, one(LEAF, LEAF))
    case("node-unused-last", 7, image([rule(0, 1, 0)], [LEAF, LEAF], b"abcd"))
    case("node-unused-middle", 7, one(LEAF, LEAF, node(OPT, 0)))
    case("nodes-without-rules", 7, image([], [LEAF], b"abcd"))
    case("text-without-rules", 0, image([], [], b"abcd"))
    case("root-twice", 7, image([rule(0, 1, 0), rule(1, 1, 0)], [LEAF], b"abcd"))
    case("root-also-part", 7, image([rule(0, 1, 0), rule(1, 1, 1)], [LEAF, node(OPT, 0)], b"abcd"))
    case("roots-in-turn", 0, image([rule(0, 1, 1), rule(1, 1, 0)], [LEAF, LEAF], b"abcd"))
    # numbers that are no parts
    case("count-is-no-part", 0, one(LEAF, node(REP_EXACT, 0, 1)))
    case("max-is-no-part", 0, one(LEAF, node(REP_MIN_MAX, 0, 0, 1)))
    case("start-is-no-part", 0, one(node(PEEK_SLICE, 7, 1, 9)))
    case("position-is-no-part", 0, one(node(STR, 2, 1)))


def order_cases():
    """Images that break two lines of the table: the first in its order is given, over the whole image."""
    bad, good = node(STR, 0, 1, bits=8), LEAF
    itself = node(OPT, 1)
    case("order-1-2", 1, contents(24, 257, 24, 0, 24, 0)[:23])
    case("order-1-all", 1, b"\xff" * 23)
    case("order-2-3", 2, contents(0, 257, 0, 0, 0, 0))
    case("order-2-all", 2, b"\xff" * 24)
    case("order-3-4", 3, image([rule(0, 1, 0)], [bad], b"abcd", {2: 61}))
    case("order-3-length-4", 3, image([rule(0, 1, 0)], [bad], b"abcd", tail=b"\0"))
    case("order-4-5", 4, image([rule(0, 0, 0)], [bad], b"abcd"))
    case("order-4-6", 4, image([rule(0, 1, 0), rule(0, 1, 1)], [good, bad], b"abcd"))
    case("order-4-7", 4, one(good, itself, bad))
    case("order-4-part-most", 4, one(node(OPT, MOST, bits=8)))
    case("order-5-6", 5, image([rule(0, 1, 0), rule(0, 1, 1), rule(1, 0, 2)], [good] * 3, b"abcd"))
    case("order-5-root-6", 5, image([rule(0, 1, 2), rule(0, 1, 0)], [good] * 2, b"abcd"))
    case("order-5-7", 5, image([rule(0, 0, 0)], [good, itself], b"abcd"))
    case("order-6-7", 6, image([rule(0, 1, 0), rule(0, 1, 0)], [good], b"abcd"))
    case("order-6-part-7", 6, image([rule(0, 1, 0), rule(0, 1, 1)], [good, itself], b"abcd"))


def main():
    for group in (short_cases, limit_cases, full_cases, place_cases, kind_cases, bits_cases, stray_cases, slice_cases,
                  text_cases, span_cases, rule_cases, name_cases, part_cases, order_cases):
        group()
    names = [name for name, _, _ in CASES]
    assert len(set(names)) == len(names), "two cases have one name"
    wrong = [f"{name}: stated {number}, judged {judge(data)}" for name, number, data in CASES if judge(data) != number]
    if wrong:
        sys.exit("\n".join(wrong))
    folder = pathlib.Path(__file__).resolve().parent.parent / "crates" / "image_cases"
    files = {
        folder / "stdin": "".join(f"{name} {data.hex()}\n" for name, _, data in CASES),
        folder / "stdout": "".join(f"{name} {number}\n" for name, number, _ in CASES),
    }
    for path, text in files.items():
        if sys.argv[1:] == ["--check"]:
            if path.read_text() != text:
                sys.exit(f"{path.name} is not as this script writes it")
        else:
            path.write_text(text)
    print(f"{len(CASES)} cases, {sum(len(t) for t in files.values())} bytes")


if __name__ == "__main__":
    main()
