"""The scenario of `canely storm NUMBER`, by the rules of the storm in docs/texts.md."""
from .scenario import keys_of
from .words import LIMITS, SERVICES

PARAMETERS = {"format": 1, "nodes": 8, "slots": 20_000, "lag": 0, "omit": 2, "errors": 2}
PARAMETERS.update({"bound": 211, "cycle": 422, "life": 211, "silence": 423, "confirm": 10})
STREAM, SENDS, FRAME_RULES = 1, 200, 40
STOP = {"slot": 10_000, "stop": [7]}


class Words:
    """The 32-bit words of the generator PCG XSH RR with a state of 64 bits, which `rand_pcg` calls Lcg64Xsh32."""

    MULTIPLIER, MASK = 6364136223846793005, (1 << 64) - 1

    def __init__(self, number, stream):
        self.increment = 2 * stream + 1
        self.state = number + self.increment
        self.step()

    def step(self):
        self.state = self.state * self.MULTIPLIER + self.increment & self.MASK

    def next(self):
        state = self.state
        self.step()
        word, turn = (state >> 18 ^ state) >> 27 & 0xFFFF_FFFF, state >> 59
        return (word >> turn | word << 32 - turn) & 0xFFFF_FFFF

    def below(self, n):
        return self.next() % n


def send_drawn(words, i):
    slot, node, service = 90 * i + words.below(80), words.below(8), SERVICES[words.below(len(SERVICES))]
    payload = bytes(words.below(256) for _ in range(words.below(LIMITS.payload_bytes + 1)))
    return {"slot": slot, "node": node, "service": service, "data": payload.hex()}


def rule_drawn(words, key):
    """The rule for the first attempt of a message's data frame."""
    service, origin, seq = key
    is_partial, reject = words.below(2), words.below(256)
    place = {"class": service, "number": seq, "node": origin, "nth": 1}
    if not is_partial:
        return {**place, "verdict": "lost"}
    return {**place, "verdict": "partial", "reject": [node for node in range(8) if reject >> node & 1]}


def storm(number):
    """The scenario of the storm of a number."""
    words = Words(number, STREAM)
    sends = [send_drawn(words, i) for i in range(SENDS)]
    faults = [rule_drawn(words, key) for key in keys_of(sends)[:: SENDS // FRAME_RULES]]
    return {**PARAMETERS, "send": sends, "fault": [*faults, STOP]}
