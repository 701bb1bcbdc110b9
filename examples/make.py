#!/usr/bin/env python3
"""Writes the example files, from models that can be read here: make.py [FOLDER], by default this one.

NAME.bin is an input of the printing program, an end moment (8 bytes) and a model file; NAME.txt beside it is what the program
must print. NAME.model is a model file alone: for the inserter and the archive with its NAME.cues, for the program that runs a feed
with its NAME.feed, for that of several channels with a list of cues for each, and for the test of the stack.
"""
import pathlib
import struct
import sys

NEVER = 4294967295
ROOT = 0


class Model:
    """A model under construction; components are numbered as they are added, the root is 0."""

    def __init__(self):
        self.components, self.phases, self.rules, self.couplings = [bytes(5)], [], [], []
        self.fifth = b""

    def coupled(self, parent=ROOT):
        self.components.append(bytes([0, parent, 0, 0, 0]))
        return len(self.components) - 1

    def atomic(self, phases, parent=ROOT, initial=0, order=0):
        """Phases are (advance, next phase, outputs), outputs a list of (port, value)."""
        self.components.append(bytes([1, parent, len(phases), initial, order]))
        for advance, following, outputs in phases:
            slots = b"".join(struct.pack("<BH", port, value) for port, value in sorted(outputs))
            self.phases.append(struct.pack("<IBB", advance, following, len(outputs)) + slots.ljust(12, b"\0"))
        return len(self.components) - 1

    def rule(self, atomic, phase, values, following, port=0, least=1, elapsed=(0, NEVER)):
        """In the phase, at least so many messages on the port with a value in the range lead to the next phase."""
        low, high = values if isinstance(values, tuple) else (values, values)
        self.rules.append(struct.pack("<BBBBHHHII", atomic, phase, following, port, low, high, least, *elapsed))

    def couple(self, source, source_port, target, target_port, times=1):
        self.couplings += [bytes([source, source_port, target, target_port])] * times

    def half_open(self):
        """The same with elapsed times that stop short of their high ends, as the fifth section says."""
        self.fifth = struct.pack("<HB", 1, 2)
        return self

    def file(self):
        sections = [self.components, self.phases, self.rules, sorted(self.couplings)]
        return b"".join(struct.pack("<H", len(records)) + b"".join(records) for records in sections) + self.fifth


def cue_source():
    """The two-phase cue source of the papers."""
    m = Model()
    source = m.atomic([(10, 1, [(0, 7)]), (0, 0, [(0, 8)])])
    second = m.atomic([(NEVER, 0, []), (5, 0, [(0, 100)]), (10, 0, [(1, 8)])])
    m.rule(second, 0, 7, 1)
    m.rule(second, 1, 8, 2)
    m.couple(source, 0, second, 0)
    m.couple(second, 0, ROOT, 0)
    m.couple(second, 1, ROOT, 1)
    return m


def nested():
    """A clock at the bottom of seven coupled components; its cue climbs to the root two ways and comes down to a hold."""
    m = Model()
    nest = [m.coupled()]
    while len(nest) < 7:
        nest.append(m.coupled(nest[-1]))
    clock = m.atomic([(25, 1, [(0, 1)]), (50, 0, [(0, 2), (1, 9)])], parent=nest[-1])
    hold = m.atomic([(NEVER, 0, []), (30, 0, [(2, 41)]), (5, 0, [(2, 42)])], order=1)
    m.rule(hold, 0, (1, 2), 1, least=2)
    m.rule(hold, 1, 9, 2, port=1)
    m.couple(clock, 0, nest[-1], 0)
    m.couple(clock, 0, nest[-1], 1)
    m.couple(clock, 1, nest[-1], 3)
    for below, above in zip(reversed(nest), reversed(nest[:-1])):
        m.couple(below, 0, above, 0)
        m.couple(below, 1, above, 1)
        m.couple(below, 3, above, 3)
    m.couple(nest[0], 0, hold, 0)
    m.couple(nest[0], 1, hold, 0)
    m.couple(nest[0], 1, ROOT, 1)
    m.couple(nest[0], 3, hold, 1)
    m.couple(hold, 2, ROOT, 2)
    m.couple(hold, 2, ROOT, 0)
    return m


def jam():
    """A clock that strikes twice and then goes round without a stay: its third instant never ends."""
    m = Model()
    clock = m.atomic([(100, 1, [(0, 1)]), (100, 2, [(0, 2)]), (100, 3, [(0, 3)]), (0, 3, [])])
    m.couple(clock, 0, ROOT, 3)
    return m


def busy():
    """A message a tick at the root: in the end more than the trace of the printing program holds."""
    m = Model()
    clock = m.atomic([(1, 0, [(2, 65535)])])
    m.couple(clock, 2, ROOT, 3)
    return m


def bad_rule():
    """A rule whose low value lies above its high one."""
    m = cue_source()
    m.rule(2, 0, (9, 8), 1)
    return m


def largest():
    """Every section at its limit: 64 components, 512 phases, 1,024 rules, 1,024 couplings; 32,072 bytes, and 3 more with the fifth
    section."""
    m = Model()
    for k in range(63):
        count = 9 if k < 8 else 8
        m.atomic([(1000 + k, (p + 1) % count, [(0, k)]) for p in range(count)])
    for k in range(1024):
        m.rule(1 + k % 63, k % 8, (0, 65535), (k + 1) % 8)
    for k in range(63):
        m.couple(1 + k, 0, ROOT, 0)
    for k in range(1024 - 63):
        m.couple(1 + k % 63, 1, 1 + (k + 1) % 63, k % 4)
    return m


def captions():
    """A caption channel: a splitter tells cues 7 and 8 apart, a hold puts the caption up after 40 ms and takes it down after
    two seconds, and a new cue replaces what stands. A cue within those 40 ms is let pass."""
    m = Model()
    channel = m.coupled()
    splitter = m.atomic([(NEVER, 0, []), (0, 0, [(0, 7)]), (0, 0, [(0, 8), (1, 8)])], parent=channel)
    hold = m.atomic([(NEVER, 0, []), (40, 3, [(0, 7)]), (40, 3, [(0, 8)]), (2000, 0, [(1, 0)])], parent=channel)
    for cue, phase in ((7, 1), (8, 2)):
        m.rule(splitter, 0, cue, phase)
        m.rule(hold, 0, cue, phase)
        m.rule(hold, 3, cue, phase)
    m.couple(ROOT, 0, channel, 0)
    m.couple(channel, 0, splitter, 0)
    m.couple(splitter, 0, hold, 0)
    m.couple(splitter, 1, channel, 2)
    m.couple(hold, 0, channel, 0)
    m.couple(hold, 1, channel, 1)
    m.couple(channel, 0, ROOT, 0)
    m.couple(channel, 1, ROOT, 1)
    m.couple(channel, 2, ROOT, 2)
    return m


def meeting():
    """A caption channel with two rules that meet: a cue puts the caption up for two seconds; another one within 500 ms only begins
    these anew, and from 500 ms on it puts the caption up again. At 500 ms sharp both rules hold and the first decides, unless the
    file is half-open: then only the second holds."""
    m = Model()
    channel = m.coupled()
    hold = m.atomic([(NEVER, 0, []), (0, 2, [(0, 7)]), (2000, 0, [(1, 0)])], parent=channel)
    m.rule(hold, 0, 7, 1)
    m.rule(hold, 2, 7, 2, elapsed=(0, 500))
    m.rule(hold, 2, 7, 1, elapsed=(500, NEVER))
    m.couple(ROOT, 0, channel, 0)
    m.couple(channel, 0, hold, 0)
    for port in (0, 1):
        m.couple(hold, port, channel, port)
        m.couple(channel, port, ROOT, port)
    return m


def crawl():
    """A caption channel with a crawl: cue 1 begins it and cue 2 ends it, and it moves by a pixel each millisecond; every 500 pixels a
    word comes in. Cue 7 puts a caption up for two seconds beside it."""
    m = Model()
    pixels = m.atomic([(NEVER, 0, [])] + [(1, p % 50 + 1, [(0, 1)] if p == 50 else []) for p in range(1, 51)])
    words = m.atomic([(NEVER, p, []) for p in range(10)] + [(0, 0, [(0, 50)])])
    caption = m.atomic([(NEVER, 0, []), (0, 2, [(0, 7)]), (2000, 0, [(1, 0)])])
    m.rule(pixels, 0, 1, 1)
    for p in range(1, 51):
        m.rule(pixels, p, 2, 0)
    for p in range(10):
        m.rule(words, p, 1, p + 1)
    m.rule(caption, 0, 7, 1)
    m.couple(ROOT, 0, pixels, 0)
    m.couple(ROOT, 0, caption, 0)
    m.couple(pixels, 0, words, 0)
    m.couple(words, 0, ROOT, 2)
    m.couple(caption, 0, ROOT, 0)
    m.couple(caption, 1, ROOT, 1)
    return m


def full_bag():
    """1,024 rows from the root's input to one atomic: a given bag of 16 messages reaches it as 16,384."""
    m = Model()
    counter = m.atomic([(NEVER, 0, []), (0, 0, [(0, 1)])])
    m.rule(counter, 0, (0, 65535), 1, least=16384)
    m.couple(ROOT, 0, counter, 0, times=1024)
    return m


def full_root_bag():
    """1,024 rows from one atomic to the root: each of its steps puts 4,096 messages there. Sixty steps at moment 5."""
    m = Model()
    count = 60
    source = m.atomic([(5, 1, [])] + [(0, (k + 1) % count, [(0, 4), (0, 4), (0, 5), (0, 65535)]) for k in range(1, count)])
    m.couple(source, 0, ROOT, 0, times=1024)
    return m


def deep():
    """Two nests of seven coupled components; the way up one and down the other has ten double rows, 1,024 routes."""
    m = Model()
    nests = []
    for side in range(2):
        nest = [m.coupled()]
        while len(nest) < 7:
            nest.append(m.coupled(nest[-1]))
        nests.append(nest)
    source = m.atomic([(3, 0, [(1, 1), (1, 2), (1, 3), (1, 4)])], parent=nests[0][-1])
    target = m.atomic([(NEVER, 0, []), (1, 0, [(0, 9)])], parent=nests[1][-1], order=1)
    m.rule(target, 0, (1, 4), 1, port=2, least=4096)
    way = [source] + nests[0][::-1] + nests[1] + [target]
    for k, (here, there) in enumerate(zip(way, way[1:])):
        m.couple(here, 1 if k == 0 else 2, there, 2, times=2 if k < 10 else 1)
    return m


def feed(bags):
    """A list of bags prepared beforehand: moments with what is given there, a list of (port, value)."""
    content = struct.pack("<H", len(bags))
    for moment, messages in bags:
        content += struct.pack("<QB", moment, len(messages)) + b"".join(struct.pack("<BH", *message) for message in messages)
    return content


def worked_cues():
    """A bag that reaches nothing, and two without messages: they are steps or stops, and the worked run stays as it is."""
    return [(5, [(0, 5)]), (10, []), (25, [])]


def caption_cues():
    """The cues of captions.cues."""
    return [(0, [(0, 7)]), (1000, [(0, 8)]), (1500, [(0, 7), (0, 8), (0, 9)]), (5000, [(0, 7)])]


def day_of_cues():
    """A day of captions: a cue in every five minutes, 7 and 8 by turns, and at each hour a bag without messages."""
    five_minutes, hour, day = 300000, 3600000, 86400000
    cues = [(k * five_minutes + k * 7919 % five_minutes, [(0, 7 + k % 2)]) for k in range(day // five_minutes)]
    return sorted(cues + [(k * hour, []) for k in range(1, 24)])


def run(end, file):
    return struct.pack("<Q", end) + file


FILES = {
    "cue_source.bin": run(30, cue_source().file()),
    "nested.bin": run(200, nested().file()),
    "jam.bin": run(1000, jam().file()),
    "busy.bin": run(2000, busy().file()),
    "bad_rule.bin": run(30, bad_rule().file()),
    "cut_off.bin": run(30, cue_source().file()[:-1]),
    "short.bin": run(30, b"")[:7],
    "too_late.bin": run(1000000000001, cue_source().file()),
    "largest.bin": run(1010, largest().file()),
    "one_byte_more.bin": run(1010, largest().file() + b"\0"),
    "longest.bin": run(1010, largest().half_open().file()),
    "left_over.bin": run(1010, largest().half_open().file() + b"\0"),
    "captions.model": captions().file(),
    "meeting.model": meeting().file(),
    "meeting-half-open.model": meeting().half_open().file(),
    "crawl.model": crawl().file(),
    "full_bag.model": full_bag().file(),
    "full_root_bag.model": full_root_bag().file(),
    "deep.model": deep().file(),
    "longest.model": largest().half_open().file(),
    "cue_source.feed": feed(worked_cues()),
    "captions.feed": feed(caption_cues()),
    "day.feed": feed(day_of_cues()),
}

if __name__ == "__main__":
    folder = pathlib.Path(sys.argv[1] if len(sys.argv) > 1 else pathlib.Path(__file__).parent)
    folder.mkdir(parents=True, exist_ok=True)
    for name, content in FILES.items():
        (folder / name).write_bytes(content)
