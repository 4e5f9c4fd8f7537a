"""The format SPL1: logs as bytes, and where bytes stop being one (crates/spf_replay_log/README.md)."""

from reference.meaning import LOAD, STORE, TURN, Event

SIGNATURE = b"SPL1"
MAX_BLOCKS = 4096
COUNT_SIZE, STEP_SIZE = 8, 19


class NotLog(Exception):
    def __init__(self, place):
        super().__init__(place)
        self.place = place


def write_step(step):
    block, event = step
    return bytes([event.kind]) + block.to_bytes(2, "big") + event.cell.to_bytes(8, "big") + (event.content % 2 ** 64).to_bytes(8, "big")


def write_section(steps):
    return len(steps).to_bytes(COUNT_SIZE, "big") + b"".join(map(write_step, steps))


def write_log(log):
    return SIGNATURE + b"".join(map(write_section, log))


class Reader:
    """Reads fields one after another. The bytes stop being a log at the first field that is whole and wrong, or at their end."""

    def __init__(self, data):
        self.data = data
        self.at = 0

    def field(self, size, is_right):
        begin, self.at = self.at, self.at + size
        if self.at > len(self.data):
            raise NotLog(len(self.data))
        if not is_right(self.data[begin:self.at]):
            raise NotLog(begin)
        return int.from_bytes(self.data[begin:self.at], "big")

    def step(self):
        kind = self.field(1, lambda field: field[0] in (LOAD, STORE, TURN))
        block = self.field(2, lambda field: int.from_bytes(field, "big") < MAX_BLOCKS)
        cell = self.field(8, lambda field: kind != TURN or not any(field))
        content = self.field(8, lambda field: True)
        is_below = kind != TURN and content >= 2 ** 63
        return block, Event(kind, cell, content - 2 ** 64 if is_below else content)

    def section(self):
        count = self.field(COUNT_SIZE, lambda field: True)
        steps = []
        while len(steps) < count:
            steps.append(self.step())
        return steps


def read_log(data):
    reader = Reader(data)
    reader.field(len(SIGNATURE), lambda field: field == SIGNATURE)
    log = []
    while reader.at < len(data):
        log.append(reader.section())
    return log
