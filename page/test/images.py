"""Images, records and a reader of a few lines in Python, by docs/REFERENCE.md, that the page's answers are compared with."""
import functools
import random


def image(symbols, leaves, pairs, version=1, flag=0):
    head = b"ESG" + version.to_bytes(2, "little") + bytes([symbols]) + len(leaves).to_bytes(2, "little") + len(pairs).to_bytes(2, "little")
    rules = b"".join(bytes([a]) + event.to_bytes(2, "little") for a, event in leaves) + b"".join(map(bytes, pairs))
    return head + (bytes([flag]) if version == 2 else b"") + rules


def record(events):
    return b"".join(event.to_bytes(2, "little") for event in events)


STOP_RULES = (6, [(2, 1), (4, 2), (5, 3)], [(0, 1, 0), (0, 2, 3), (1, 2, 3), (3, 4, 5)])
CHAIN_RULES = (1, [(0, 7)], [(0, 0, 0)])
STOP, CHAIN = image(*STOP_RULES), image(*CHAIN_RULES)
QUIET = image(*CHAIN_RULES, version=2, flag=1)
# the largest: every symbol is every stretch, with as many firings as there can be
LARGEST = image(64, [(a, event) for a in range(64) for event in range(8)], sorted((a, (a + 1) % 64, right) for a in range(64) for right in range(4)))
LARGEST_EVENTS = [x % 8 for x in range(96)]

# an image for each refusal, and what the page must say of it
REFUSED = [
    (1, STOP[:9], "9 bytes"),
    (2, b"PDF" + STOP[3:], "50 44 46"),
    (3, b"ESG\x03\x00" + STOP[5:], "It is 3."),
    (4, STOP[:5] + b"\x41" + STOP[6:], "65 symbols"),
    (5, STOP[:-1], "It has 30 bytes; by its head it would have 31."),
    (6, STOP[:-1] + b"\x06", "rule 6: 3 → 4 6"),
    (7, STOP[:13] + STOP[10:13] + STOP[16:], "rule 1: 2 → event 1. It stands behind rule 0: 2 → event 1."),
    (15, image(7, STOP_RULES[1], [(0, 1, 0), (0, 2, 3), (1, 2, 6), (3, 4, 5)]), "No rules lead to events from symbol 1, symbol 6."),
]


def some_rules(seed):
    """A grammar with many findings in a stretch, in which every symbol is live."""
    dice = random.Random(seed)
    leaves = sorted({(a, a % 4) for a in range(10)} | {(dice.randrange(10), dice.randrange(4)) for _ in range(6)})
    pairs = sorted({(a, a + 1, dice.randrange(10)) for a in range(9)} | {tuple(dice.randrange(10) for _ in range(3)) for _ in range(12)})
    return 10, leaves, pairs


def counted(rules, events):
    """The number of derivations of every symbol over every stretch that has some: {(i, k): {symbol: number}}."""
    symbols, leaves, pairs = rules
    table = {}
    for k in range(1, len(events) + 1):
        for i in range(k - 1, -1, -1):
            cell = {}
            for a, event in leaves:
                if k - i == 1 and event == events[i]:
                    cell[a] = cell.get(a, 0) + 1
            for j in range(i + 1, k):
                left, right = table[i, j], table[j, k]
                for a, b, c in pairs:
                    if b in left and c in right:
                        cell[a] = cell.get(a, 0) + left[b] * right[c]
            table[i, k] = cell
    return table


def firings(rules, events, table):
    _, leaves, pairs = rules
    n = len(events)
    found = sum(event == seen for _, event in leaves for seen in events)
    splits = [(i, j, k) for i in range(n) for j in range(i + 1, n) for k in range(j + 1, n + 1)]
    return found + sum(b in table[i, j] and c in table[j, k] for i, j, k in splits for _, b, c in pairs)


def scripts(rules, events):
    """Every reading's script, in order."""
    _, leaves, pairs = rules

    @functools.lru_cache(None)
    def of(symbol, i, k):
        if k - i == 1:
            return [[x, k] for x, leaf in enumerate(leaves) if leaf == (symbol, events[i])]
        return [[len(leaves) + x, j] + left + right for x, (a, b, c) in enumerate(pairs) if a == symbol for j in range(i + 1, k)
                for left in of(b, i, j) for right in of(c, j, k)]
    return sorted(of(0, 0, len(events)))
