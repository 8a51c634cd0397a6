#!/usr/bin/env python3
"""Writes the bus of a run, from its report, as a log that tools for CAN read: as candump -L does, or as Vector ASC.

    tools/buslog.py [FILE] [--asc] [--nodes] [--bitrate N] [--start SECONDS] [--direction]

One interface hears each attempt. With --nodes there is one for each node, with what its controller saw.
"""
import functools
import sys
from typing import NamedTuple

sys.dont_write_bytecode = True

from lib import command, wire
from lib.report import Frame, report_from

MICROSECONDS = 1_000_000

# A candump line of an error: CAN_ERR_FLAG with CAN_ERR_PROT and CAN_ERR_BUSERROR of linux/can/error.h; its byte 2 is
# CAN_ERR_PROT_TX at a sender, its byte 3 CAN_ERR_PROT_LOC_EOF.
ERROR_IDENTIFIER, ERROR_AT_SENDER, ERROR_AT_RECEIVER = "20000088", "0000801A00000000", "0000001A00000000"

ASC_HEAD = [
    "date Thu Jan 1 12:00:00.000 am 1970",
    "base hex  timestamps absolute",
    "internal events logged",
    "Begin Triggerblock Thu Jan 1 12:00:00.000 am 1970",
    "   0.000000 Start of measurement",
]
ASC_END = "End TriggerBlock"


class Event(NamedTuple):
    """What an interface logs: a frame, or an error where there is none."""

    slot: int
    bits: int
    """From the start of the slot to the end of the frame, or of the error frame."""
    interface: int
    frame: Frame
    is_error: bool
    is_sender: bool


@functools.lru_cache(maxsize=1 << 16)
def placed(version, frame):
    """The identifier of a frame, and the bits to its end."""
    number = wire.identifier(version, frame)
    return number, wire.length(number, frame.payload)


def on_the_bus(report):
    """The events of one interface that hears all: each frame that somebody accepts or could, and each error."""
    for slot in report.bus:
        if not slot.frame:
            continue
        bits = placed(report.format, slot.frame)[1]
        if slot.verdict != "lost":
            yield Event(slot.slot, bits, 0, slot.frame, False, False)
        if slot.verdict in ("lost", "partial"):
            yield Event(slot.slot, bits + wire.ERROR_FRAME_BITS, 0, slot.frame, True, False)


def at_the_nodes(report):
    """The events of all nodes, by time: within a slot a frame ends before the error frame after it."""
    for slot in report.bus:
        if not slot.frame:
            continue
        bits = placed(report.format, slot.frame)[1]
        is_bad = slot.verdict in ("lost", "partial")
        good = [*slot.accepted, *([] if is_bad else slot.senders)]
        bad = [*slot.rejected, *(slot.senders if is_bad else [])]
        yield from (Event(slot.slot, bits, node, slot.frame, False, node in slot.senders) for node in sorted(good))
        bits += wire.ERROR_FRAME_BITS
        yield from (Event(slot.slot, bits, node, slot.frame, True, node in slot.senders) for node in sorted(bad))


class Clock:
    """Tells when an event was, in microseconds: each slot lasts as long as the longest may."""

    def __init__(self, bitrate, start):
        self.bitrate, self.start = bitrate, start

    def at(self, event):
        bits = event.slot * wire.SLOT_BITS + event.bits
        return self.start * MICROSECONDS + bits * MICROSECONDS // self.bitrate


def candump(report, events, clock, names, has_direction):
    """Lines as `candump -L` writes them."""
    for event in events:
        seconds, rest = divmod(clock.at(event), MICROSECONDS)
        if event.is_error:
            body = f"{ERROR_IDENTIFIER}#{ERROR_AT_SENDER if event.is_sender else ERROR_AT_RECEIVER}"
        else:
            payload = event.frame.payload
            body = f"{placed(report.format, event.frame)[0]:08X}#" + ("R" if payload is None else payload.hex().upper())
        direction = (" T" if event.is_sender else " R") if has_direction else ""
        yield f"({seconds:010d}.{rest:06d}) {names}{event.interface} {body}{direction}"


def asc(report, events, clock):
    """The lines of a Vector ASC file, whose channels are counted from 1."""
    yield from ASC_HEAD
    for event in events:
        seconds, rest = divmod(clock.at(event), MICROSECONDS)
        start = f"{seconds:4d}.{rest:06d} {event.interface + 1}  "
        if event.is_error:
            yield f"{start}ErrorFrame"
            continue
        payload = event.frame.payload
        body = "r" if payload is None else " ".join(["d", str(len(payload)), *(f"{byte:02X}" for byte in payload)])
        name = f"{placed(report.format, event.frame)[0]:08X}x"
        yield f"{start}{name:<15} {'Tx' if event.is_sender else 'Rx'}   {body}"
    yield ASC_END


def arguments():
    parser = command.Parser(prog="buslog.py", description="Writes the bus of a run of canely as a log of CAN tools.")
    parser.add_argument("file", nargs="?", help="the report; without it standard input")
    parser.add_argument("--asc", action="store_true", help="a Vector ASC file in place of the lines of candump -L")
    parser.add_argument("--nodes", action="store_true", help="an interface for each node, with what its controller saw")
    parser.add_argument("--bitrate", type=command.number_between(1, 10**9), default=500_000, metavar="N", help="bits in a second, 500000 where not given")
    parser.add_argument("--start", type=command.number_between(0, 4 * 10**9), default=0, metavar="SECONDS", help="the time of slot 0, in seconds since 1970")
    parser.add_argument("--direction", action="store_true", help="R or T at the end of each line of candump -L, which Wireshark 4.0 does not read")
    return parser.parse_args()


def log(given):
    report = report_from(given.file)
    events = at_the_nodes(report) if given.nodes else on_the_bus(report)
    clock = Clock(given.bitrate, 0 if given.asc else given.start)
    command.write(asc(report, events, clock) if given.asc else candump(report, events, clock, "n" if given.nodes else "can", given.direction))


def main():
    given = arguments()
    return command.run("buslog.py", lambda: log(given))


if __name__ == "__main__":
    sys.exit(main())
