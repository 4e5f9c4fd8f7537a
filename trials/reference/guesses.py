"""Guesses for the rows at which blocks begin, and the predictors that are supplied (docs/PREDICTORS.md)."""

from reference import syntax
from reference.meaning import LOAD, Frame, Trap

# how much the predictors keep that the command line supplies
MOST_ROOM, TABLE_ROOM, VOTE_ROOM, VOTE_EACH = 256, 4096, 4096, 8


# ---- hosts: what a kind answers for a block number, after it was told these pairs of a block number and a word

def distinct(values):
    return list(dict.fromkeys(values))


def most(room, words):
    """The word told most often of the first `room` different ones, the smallest of several, or 0."""
    kept = distinct(words)[:room]
    return min(kept, key=lambda word: (-words.count(word), word)) if kept else 0


def is_kept(room, pairs, block):
    return block in distinct(told for told, _ in pairs)[:room]


def words_of(pairs, block):
    return [word for told, word in pairs if told == block]


def answer(kind, pairs, block):
    if kind.startswith("fixed:"):
        return int(kind.removeprefix("fixed:"))
    match kind:
        case "last":
            return pairs[-1][1] if pairs else 0
        case "most":
            return most(MOST_ROOM, [word for _, word in pairs])
        case "table":
            return words_of(pairs, block)[-1] if is_kept(TABLE_ROOM, pairs, block) else 0
        case "vote":
            return most(VOTE_EACH, words_of(pairs, block)) if is_kept(VOTE_ROOM, pairs, block) else 0


# ---- guesses

def predicted(entry, expression, number):
    """What an expression comes to at the entry, for a block of this number, and whether it traps; then it is 0. It stores nothing."""
    frame = Frame(entry.run, entry.names)
    frame.line = entry.construct.line
    if isinstance(entry.construct, syntax.Fold):
        frame.names[entry.construct.block] = number
    form, word = frame.value(expression), None
    try:
        while True:
            kind, cell, _ = form.send(word)
            word = entry.memory[cell] if kind == LOAD else None
    except StopIteration as end:
        return end.value, False
    except Trap:
        return 0, True


def guess_of_part(entry, predictor, hosts, told, number):
    if not isinstance(predictor, syntax.Host):
        return predicted(entry, predictor, number)
    pairs = [(block, word) for host, block, word in told if host == predictor.number]
    return answer(hosts[predictor.number], pairs, number), False


def guesses(entry, hosts, told):
    """For each block its guess, and whether a part of it trapped. The first block has none. `told` has a host, a block and a word each."""
    guess, blind = [None], [False]
    for n in range(1, entry.blocks):
        parts = [guess_of_part(entry, part, hosts, told, entry.number_of(n)) for part in entry.construct.predict]
        guess.append(tuple(word for word, _ in parts))
        blind.append(any(trapped for _, trapped in parts))
    return guess, blind


def tells(entry, rows):
    """What hosts are told after a construct whose blocks began at these rows; nothing of the first one."""
    return [
        (part.number, entry.number_of(n), word)
        for n, row in enumerate(rows) if n > 0
        for part, word in zip(entry.construct.predict, row) if isinstance(part, syntax.Host)
    ]
