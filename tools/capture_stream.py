"""Reads a capture a piece at a time, by the rules of capture_rules.py, so that its length takes no memory."""

import struct
import typing

import capture_rules

CHUNK = 1 << 20


class Item(typing.NamedTuple):
    """What is in a capture. Of what is no packet the time is None, and `spelled` is how it is written."""

    time: typing.Optional[int]
    frame: typing.Optional[bytes]
    spelled: typing.Optional[bytes]  # of a packet, how it was read, if it is written so when its frame does not change
    respell: typing.Optional[typing.Callable]  # by what was read, how a packet is written with another frame


def of_record(record):
    return Item(record.time, record.frame, None, lambda _, frame: capture_rules.written_record(record, frame))


def of_capture(capture, growth):
    """The items of a capture that is in memory."""
    for part in capture.parts:
        yield Item(None, None, part.spell(growth), None) if isinstance(part, capture_rules.Other) else of_record(part)


class Stream:
    """A capture in a file that is read while its items are asked for. What is wrong with it is known after the last of them."""

    def __init__(self, file):
        self.file, self.data, self.place, self.is_whole = file, b'', 0, False
        self.fault, self.is_refused, self.bytes = None, False, 0

    def fill(self, more=CHUNK):
        """Reads on behind what is left. Whether there was any more."""
        piece = self.file.read(more)
        self.is_whole = not piece
        self.data, self.place = self.data[self.place :] + piece, 0
        self.bytes += len(piece)
        return not self.is_whole

    def tell(self):
        """The number of bytes up to the end of the last item."""
        return self.bytes - len(self.data) + self.place

    def items(self, growth):
        while len(self.data) < 24 and self.fill():
            pass
        return self.blocks(growth) if self.data[:4] == capture_rules.SECTION_LEAD else self.classic(growth)

    def classic(self, growth):
        fault = capture_rules.head_fault(self.data[:24])
        if fault:
            self.fault, self.is_refused = fault, True
            return
        order, head, number = capture_rules.order_of_classic(self.data), self.data[:24], 0
        lead, unit = struct.Struct(order + 'IIII'), capture_rules.NANOSECONDS[struct.unpack(order + 'I', head[:4])[0]]
        lengths = struct.Struct(order + 'II')

        def respell(spelled, frame):
            if len(frame) == len(spelled) - 16:
                return spelled[:16] + frame
            _, original = lengths.unpack_from(spelled, 8)
            return spelled[:8] + lengths.pack(len(frame), capture_rules.in_32_bits(original + len(frame) - len(spelled) + 16)) + frame

        self.place = 24
        yield Item(None, None, capture_rules.classic_head(order, head, growth), None)
        longest = 16 + capture_rules.LONGEST_FRAME
        while True:
            while not self.is_whole and len(self.data) - self.place <= longest:
                self.fill()
            data, place = self.data, self.place
            last = len(data) if self.is_whole else len(data) - longest
            if place >= last:
                if self.is_whole:
                    return
                continue
            while place < last:
                number += 1
                if len(data) < place + 16:
                    self.fault = f'cut record {number}'
                    return
                seconds, fraction, captured, original = lead.unpack_from(data, place)
                end = place + 16 + captured
                if captured > capture_rules.LONGEST_FRAME:
                    self.fault = f'frame too long {number} {captured}'
                    return
                if end > len(data):
                    self.fault = f'cut record {number}'
                    return
                self.place = end
                yield seconds * 1_000_000_000 + fraction * unit, data[place + 16 : end], data[place:end], respell
                place = end

    def blocks(self, growth):
        interfaces, order, number, packets = [], '<', 0, 0
        while True:
            if len(self.data) - self.place < CHUNK and not self.is_whole:
                self.fill()
            if self.place == len(self.data):
                if self.is_whole:
                    return
                continue
            try:
                block = capture_rules.block_at(self.data, self.place, number + 1, order)
            except capture_rules.Fault as fault:
                # A block that is not whole yet may be longer than what was read.
                if not self.is_whole and str(fault).startswith('cut block') and self.fill(capture_rules.LONGEST_BLOCK):
                    continue
                self.fault, self.is_refused = str(fault), number == 0
                return
            try:
                part = capture_rules.part_of(block, number + 1, interfaces, packets)
            except capture_rules.Fault as fault:
                self.fault, self.is_refused = str(fault), number == 0
                return
            number, order, self.place = number + 1, block.order, self.place + len(block.data)
            if isinstance(part, capture_rules.Other):
                yield Item(None, None, part.spell(growth), None)
            else:
                packets += 1
                yield of_record(part)
