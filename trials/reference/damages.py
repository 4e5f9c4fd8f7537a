"""Logs with one thing wrong, or with one thing otherwise that may be so. What a generator draws decides what is done, and where.

Each kind of damage is a function of the draws and a log. It gives the bytes of another log, or None where the log has nothing of the kind.
"""

from reference.logs import COUNT_SIZE, SIGNATURE, STEP_SIZE, write_log
from reference.meaning import TURN


def pick(draws, items):
    return items[draws.below(len(items))] if items else None


def places_of_steps(log):
    """The offset of each step in the log's bytes."""
    places, at = [], len(SIGNATURE)
    for steps in log:
        places += range(at + COUNT_SIZE, at + COUNT_SIZE + STEP_SIZE * len(steps), STEP_SIZE)
        at += COUNT_SIZE + STEP_SIZE * len(steps)
    return places


def places_of_fields(log):
    """The offset and the size of each number in the log's bytes."""
    places, at = [], len(SIGNATURE)
    for steps in log:
        places.append((at, COUNT_SIZE))
        at += COUNT_SIZE
        for _ in steps:
            places += [(at, 1), (at + 1, 2), (at + 3, 8), (at + 11, 8)]
            at += STEP_SIZE
    return places


def with_number(data, place, number):
    """The bytes with another number in a field, modulo what it can hold."""
    at, size = place
    return data[:at] + (number % 256 ** size).to_bytes(size, "big") + data[at + size:]


def number_at(data, place):
    at, size = place
    return int.from_bytes(data[at:at + size], "big")


def with_steps(log, section, steps):
    return write_log(log[:section] + [steps] + log[section + 1:])


def exchanged(draws, items, one):
    """The items, where one and another that is drawn have changed places; where there is but one, as they are."""
    items = list(items)
    if len(items) > 1:
        other = (one + 1 + draws.below(len(items) - 1)) % len(items)
        items[one], items[other] = items[other], items[one]
    return items


def pick_step(draws, log):
    """A section and the index of a step in it."""
    return pick(draws, [(section, n) for section, steps in enumerate(log) for n in range(len(steps))])


# ---- bytes

def byte_changed(draws, log):
    data = write_log(log)
    place = draws.below(len(data)), 1
    return with_number(data, place, number_at(data, place) + 1 + draws.below(255))


def bit_changed(draws, log):
    data = write_log(log)
    place = draws.below(len(data)), 1
    return with_number(data, place, number_at(data, place) ^ 1 << draws.below(8))


def cut_off(draws, log):
    data = write_log(log)
    return data[:draws.below(len(data))]


def number_changed_by_one(draws, log):
    data, place = write_log(log), pick(draws, places_of_fields(log))
    return place and with_number(data, place, number_at(data, place) + pick(draws, [1, -1]))


def word_of_another_step(draws, log):
    data, places = write_log(log), places_of_steps(log)
    if not places:
        return None
    return with_number(data, (pick(draws, places) + 11, 8), number_at(data, (pick(draws, places) + 11, 8)))


# ---- steps

def steps_exchanged(draws, log):
    place = pick_step(draws, log)
    if place is None:
        return None
    section, one = place
    return with_steps(log, section, exchanged(draws, log[section], one))


def neighbours_exchanged(draws, log):
    place = pick_step(draws, log)
    if place is None:
        return None
    section, n = place
    steps = list(log[section])
    return with_steps(log, section, steps[:n] + steps[n:n + 2][::-1] + steps[n + 2:])


def step_dropped(draws, log):
    place = pick_step(draws, log)
    return place and with_steps(log, place[0], log[place[0]][:place[1]] + log[place[0]][place[1] + 1:])


def step_doubled(draws, log):
    place = pick_step(draws, log)
    return place and with_steps(log, place[0], log[place[0]][:place[1] + 1] + log[place[0]][place[1]:])


def step_of_another_block(draws, log):
    place = pick_step(draws, log)
    if place is None:
        return None
    section, n = place
    steps = list(log[section])
    steps[n] = draws.below(2 + max(block for block, _ in steps)), steps[n][1]
    return with_steps(log, section, steps)


def turns_number_changed(draws, log):
    """A flag is nothing but a number that was polled: 0 lets each attempt go on, 1 a second one, and all others none."""
    places = [place for place in places_of_steps(log) if write_log(log)[place] == TURN]
    return with_number(write_log(log), (pick(draws, places) + 11, 8), pick(draws, [0, 1, 2, 2 ** 64 - 1])) if places else None


def stopped_at_a_turn(draws, log):
    """A turn polls 1, and that many of the block's steps after it are left out."""
    turns = [(section, n) for section, steps in enumerate(log) for n, (_, event) in enumerate(steps) if event.kind == TURN]
    if not turns:
        return None
    section, n = pick(draws, turns)
    steps = list(log[section])
    block, event = steps[n]
    steps[n] = block, event._replace(content=1)
    later = [m for m in range(n + 1, len(steps)) if steps[m][0] == block]
    left_out = set(later[:draws.below(len(later) + 1)])
    return with_steps(log, section, [step for m, step in enumerate(steps) if m not in left_out])


def blocks_merged_anew(draws, log):
    """Each block's steps keep their order. Blocks have no cells in common, so the log is one of a run as before."""
    def merged(steps):
        left = [[step for step in steps if step[0] == block] for block in sorted({block for block, _ in steps})]
        found = []
        while left := [log for log in left if log]:
            found.append(pick(draws, left).pop(0))
        return found
    return write_log([merged(steps) for steps in log])


# ---- sections

def section_dropped(draws, log):
    if not log:
        return None
    n = draws.below(len(log))
    return write_log(log[:n] + log[n + 1:])


def section_doubled(draws, log):
    if not log:
        return write_log([[]])
    n = draws.below(len(log))
    return write_log(log[:n + 1] + log[n:])


def sections_exchanged(draws, log):
    if len(log) < 2:
        return None
    return write_log(exchanged(draws, log, draws.below(len(log))))


DAMAGES = {
    "a byte changed": byte_changed,
    "a bit changed": bit_changed,
    "the bytes cut off": cut_off,
    "a number changed by one": number_changed_by_one,
    "a word or number of another step": word_of_another_step,
    "two steps exchanged": steps_exchanged,
    "two neighbours exchanged": neighbours_exchanged,
    "a step dropped": step_dropped,
    "a step doubled": step_doubled,
    "a step moved to another block": step_of_another_block,
    "a turn's number changed": turns_number_changed,
    "a block stopped at a turn": stopped_at_a_turn,
    "blocks merged anew": blocks_merged_anew,
    "a section dropped": section_dropped,
    "a section doubled": section_doubled,
    "two sections exchanged": sections_exchanged,
}
