#!/usr/bin/env python3
"""Writes recordings/NAME.rxt and recordings/NAME.txt, and crates/rxt/stdin and stdout: recordings, and what document 01 says
that they print.

A recording is put together from values. With each record stands the answer that document 01 gives it and, where a PDU is sent,
that PDU; the tally is the sum of these answers and of the lengths of the accepted segments. Nothing here reads a PDU or follows
a transfer, and no output of the program is used. Run it after an edit, and read the diff.

Refusals 1, 2, 20 and 21 are not among the sets: the header's store length has 16 bits and the store never changes (1), the out
buffer is the program's own (2), 2^64 bytes of progress take more than 2^48 records (20), and what 21 refuses in a header is
`bad 0`, while no call makes a state that it refuses. Indications are not printed, so what only they show (an ignored fault's
report) is not seen here; nor is a tally that stops at 2^32 - 1.
"""
from pathlib import Path

ROOT = Path(__file__).resolve().parent.parent
CANCEL, IGNORE, ABANDON = 1, 3, 4
CONDITIONS = (1, 2, 3, 4, 5, 6, 7, 8, 10, 11)
WRITTEN = []


# --- putting a recording together ------------------------------------------------------------------------------------------


def num(value, width):
    return value.to_bytes(width, "big")


def hexa(text):
    return bytes.fromhex(text)


def header(local=2, width=1, store=16, on=None, flags=0, entries=((1, 1, 0),), mark=b"RXT", version=1, ten=None, count=None):
    """A recording's header. `on` has the handlers that are not the default; an entry is id, limit, discard."""
    default = {c: CANCEL for c in CONDITIONS} | {5: IGNORE, 11: IGNORE} | (on or {})
    ten = bytes(default[c] for c in CONDITIONS) if ten is None else bytes(ten)
    table = b"".join(num(i, 8) + num(limit, 4) + bytes([discard]) for i, limit, discard in entries)
    return (mark + num(version, 2) + bytes([width]) + num(local, 8) + num(store, 2) + ten
            + bytes([flags, len(entries) if count is None else count]) + table)


def poll_record(timer=0):
    return bytes([0, timer])


def pdu_record(data, timer=0):
    return bytes([1, timer]) + num(len(data), 2) + data


class Recording:
    """The bytes of a recording and the lines of its output, side by side."""

    def __init__(self, name, **config):
        self.name, self.data, self.lines = name, header(**config), ["RXT 1"]
        self.number = self.accepted = self.refused = self.stored = 0
        WRITTEN.append(self)

    def record(self, data, answer, sent, n=0):
        self.data += data
        self.number += 1
        self.lines.append(f"{self.number} {answer} {0 if sent is None else 1}")
        if sent is not None:
            self.lines.append(f"pdu {sent.hex()}")
        if answer == 0:
            self.accepted += 1
            self.stored += n
        else:
            self.refused += 1

    def poll(self, timer=0, sent=None):
        """A poll is never refused: 21, 1 and 2 cannot come up."""
        self.record(poll_record(timer), 0, sent)

    def pdu(self, data, answer=0, sent=None, timer=0, n=0):
        self.record(pdu_record(data, timer), answer, sent, n)

    def metadata(self, answer=0, timer=0, **values):
        self.pdu(metadata(**values), answer, None, timer)

    def segment(self, offset, data, answer=0, sent=None, timer=0, **values):
        self.pdu(segment(offset, data, **values), answer, sent, timer, len(data))

    def eof(self, checksum, size, answer=0, sent=None, timer=0, **values):
        self.pdu(eof(checksum, size, **values), answer, sent, timer)

    def refuse(self, number, pdus, timer=0):
        for data in pdus:
            self.pdu(data, number, None, timer)

    def bad(self, raw):
        """A bad record, and whatever stands behind it: the reading ends at its first byte."""
        self.lines.append(f"bad {len(self.data)}")
        self.data += raw

    def text(self):
        return "\n".join(self.lines + [f"tally {self.accepted} {self.refused} {self.stored}", ""])


def bad_header(name, data):
    """`bad 0` in place of line one, nothing is read on, and the tally follows."""
    r = Recording(name)
    r.data, r.lines = data, ["bad 0"]


# --- putting PDUs together -------------------------------------------------------------------------------------------------


def pdu(field, kind=0, version=1, direction=0, mode=1, crc=0, large=0, control=0, idw=1, segmeta=0, seqw=1, source=1, seq=5, dest=2,
        length=None):
    """A PDU header (its widths in bytes) and a data field."""
    first = version << 5 | kind << 4 | direction << 3 | mode << 2 | crc << 1 | large
    widths = control << 7 | (idw - 1) << 4 | segmeta << 3 | (seqw - 1)
    head = bytes([first]) + num(len(field) if length is None else length, 2) + bytes([widths])
    return head + num(source, idw) + num(seq, seqw) + num(dest, idw) + field


def metadata(closure=1, checksum=0, size=5, frm=b"a", to=b"b", options=b"", cut=None, **h):
    field = (bytes([7, closure << 6 | checksum]) + num(size, 8 if h.get("large") else 4) + bytes([len(frm)]) + frm
             + bytes([len(to)]) + to + options)
    return pdu(field[:cut], **h)


def segment(offset, data, before=b"", **h):
    """`before` is the segment metadata, where the header's flag says that there is some."""
    return pdu(before + num(offset, 8 if h.get("large") else 4) + data, kind=1, **h)


def eof(checksum, size, code=0, after=b"", cut=None, **h):
    return pdu((bytes([4, code]) + num(checksum, 4) + num(size, 8 if h.get("large") else 4) + after)[:cut], **h)


def finished(condition=0, complete=1, retained=1, large=0, idw=1, seqw=1, source=1, seq=5, dest=2, width=1, local=2):
    """5; condition, spare 0, incomplete, status (0 discarded, 2 retained); unless the condition is 0 or 11: 6, width, local id.
    The header is the Metadata's with direction 1: 2C, or 2D with large file."""
    field = bytes([5, condition << 4 | (0 if complete else 4) | (2 if retained else 0)])
    if condition not in (0, 11):
        field += bytes([6, width]) + num(local, width)
    return (bytes([0x2D if large else 0x2C]) + num(len(field), 2) + bytes([(idw - 1) << 4 | (seqw - 1)])
            + num(source, idw) + num(seq, seqw) + num(dest, idw) + field)


def words(file):
    """The sum modulo 2^32 of a file's four-byte big-endian words, the last padded with zeros: byte i weighs 256^(3 - i mod 4)."""
    return sum(b << 8 * (3 - i % 4) for i, b in enumerate(file)) % 2**32


FIVE = hexa("0102030405")  # 01020304 + 05000000
SUM5 = 0x06020304
SIX = b"\x06"  # behind the five: 01020304 + 05060000
SUM6 = 0x06080304
DONE = hexa("2C000200010502 0502")  # complete, retained
LOST = hexa("2C000500010502 05A6 060102")  # condition 10, incomplete, retained; fault location 2 in one byte
NO_ROOM = hexa("2C000500010502 0546 060102")  # condition 4, incomplete, retained


def transfer(r, sent=DONE, **h):
    """A whole transfer of five bytes: it completes."""
    r.metadata(**h)
    r.segment(0, FIVE, **h)
    r.eof(SUM5, 5, sent=sent, **h)


# --- W1 to W10: local id 2, remote 1, discard and flags 0, defaults, store 16 ----------------------------------------------


def numbers_to_try():
    meta, data = hexa("24000A0001050207400000000501610162"), hexa("34000900010502000000000102030405")
    good, zero = hexa("24000A0001050204000602030400000005"), hexa("24000A0001050204000000000000000005")

    r = Recording("w1")
    r.pdu(meta)
    r.pdu(data, n=5)
    r.pdu(good, sent=DONE)
    assert r.text() == "RXT 1\n1 0 0\n2 0 0\n3 0 1\npdu 2c0002000105020502\ntally 3 0 5\n"  # to the letter of document 01

    # the number of flagged polls that the limit takes: limit 0 is as limit 1
    for name, limit, polls in (("w2", 1, 1), ("w3", 0, 1), ("w4", 2, 2)):
        r = Recording(name, entries=((1, limit, 0),))
        r.pdu(meta)
        r.pdu(data, n=5)
        r.pdu(zero)
        for k in range(1, polls + 1):
            r.poll(timer=1, sent=LOST if k == polls else None)

    r = Recording("w5")
    r.metadata(size=0)
    r.eof(0, 0, sent=DONE)

    first, second = hexa("01020304"), hexa("05060708")
    for name, parts in (("w6", ((0, first + second),)), ("w6_other_order", ((0, second + first),)),
                        ("w6_two_segments", ((0, first), (4, second))), ("w6_second_first", ((4, second), (0, first)))):
        r = Recording(name)
        r.metadata(size=8)
        for offset, part in parts:
            r.segment(offset, part)
        r.eof(0x06080A0C, 8, sent=DONE)

    r = Recording("w7")
    r.metadata(size=8)
    r.segment(0, hexa("FFFFFFFF00000001"))
    r.eof(0, 8, sent=DONE)

    r = Recording("w8_at_11")
    r.metadata(size=16)
    r.segment(11, FIVE)  # words 0, 0, 00000001, 02030405
    r.eof(0x02030406, 16, sent=DONE)
    # at 12: fault 4 cancels; the completion is not in the refused call, so the next one has it
    r = Recording("w8_at_12")
    r.metadata(size=17)
    r.segment(12, FIVE, 19)
    r.poll(sent=NO_ROOM)

    r = Recording("w9")
    r.metadata(size=4)
    r.segment(3, b"\xab")
    r.eof(0x000000AB, 4, sent=DONE)
    # the byte at 3 again, after a transfer that left other bytes in the store: 0 from the old length up to the offset
    r = Recording("w9_over_old_bytes")
    transfer(r)
    r.metadata(size=4)
    r.segment(3, b"\xab")
    r.eof(0x000000AB, 4, sent=DONE)

    r = Recording("w10")
    r.pdu(meta)
    r.pdu(hexa("34000900010602000000000102030405"), 13)
    r.pdu(data, n=5)
    r.pdu(good, sent=DONE)


# --- a set for each refusal 3 to 19 ----------------------------------------------------------------------------------------


def everywhere(name, number, refused):
    """PDUs that are refused in every step. Nothing changes by them: the limit is 1, so one flag that counted while waiting
    would be fault 10, and the EOF's size is the number of bytes, so progress that grew would be fault 6."""
    r = Recording(name)
    r.refuse(number, refused)
    r.metadata(size=6)
    r.refuse(number, refused, timer=1)
    r.segment(0, FIVE)
    r.refuse(number, refused)
    r.eof(SUM6, 6)
    r.refuse(number, refused, timer=1)
    r.segment(5, SIX, timer=1, sent=DONE)
    r.refuse(number, refused, timer=1)
    transfer(r)


def refusals_of_any_step():
    whole, wide = metadata(), metadata(idw=8, seqw=8)
    cut = [whole[:n] for n in (0, 1, 2, 3, 4, 5, 6, 7, 8, 16)] + [wide[:4], wide[:27], wide[:28], wide[:37]]
    cut += [segment(0, FIVE)[:-1], eof(SUM5, 5)[:-1], pdu(b"\4", length=65535), pdu(b"", length=1), pdu(b"", kind=1, length=1)]
    cut += [b"\0\0\0", b"\xff\xff\xff"]  # 3 (four bytes) before 4
    cut += [pdu(b"\1", length=2), pdu(b"\5", length=2), pdu(b"\x09", length=2)]  # 3 (rest) before 7, 8, 10
    cut += [pdu(b"\7", length=2, dest=3)]  # 3 (rest) before 9
    everywhere("refusal_03", 3, cut)

    version = [make(version=v) for v in (0, 2, 3, 4, 5, 6, 7) for make in (metadata, lambda **h: segment(0, FIVE, **h))]
    version += [eof(SUM5, 5, version=0), metadata(version=0, idw=3), metadata(version=2, seqw=7), metadata(version=0, crc=1)]
    version += [metadata(version=0)[:4], b"\0\0\0\0", pdu(b"", version=0), eof(SUM5, 5, version=3, dest=3)]  # before 5, 6, 3, 7, 9
    everywhere("refusal_04", 4, version)

    width = [metadata(idw=w) for w in (3, 5, 6, 7)] + [metadata(seqw=w) for w in (3, 5, 6, 7)]
    width += [segment(0, FIVE, idw=3), segment(0, FIVE, seqw=6), eof(SUM5, 5, idw=5), eof(SUM5, 5, seqw=7)]
    width += [metadata(idw=3, seqw=5), metadata(idw=7, crc=1), metadata(seqw=3, crc=1)]  # 5 before 6
    width += [metadata(idw=7)[:4], metadata(seqw=5)[:-1], pdu(b"", idw=3), eof(SUM5, 5, idw=3, dest=3)]  # 5 before 3 (rest), 7, 9
    everywhere("refusal_05", 5, width)

    crc = [metadata(crc=1), segment(0, FIVE, crc=1), eof(SUM5, 5, crc=1), metadata(crc=1, large=1)]
    crc += [metadata(crc=1)[:4], segment(0, FIVE, crc=1)[:-1], pdu(b"", crc=1), pdu(b"\1", crc=1)]  # 6 before 3 (rest), 7
    crc += [pdu(b"\5\2", crc=1), pdu(b"\x09\0", crc=1), eof(SUM5, 5, crc=1, dest=3)]  # 6 before 8, 10, 9
    everywhere("refusal_06", 6, crc)

    unknown = [pdu(b""), pdu(b"", idw=8, seqw=8), pdu(b"\6")]
    unknown += [pdu(bytes([d, 0x40, 0, 0])) for d in (0, 1, 2, 3, 10, 11, 13, 14, 15, 16, 0x47, 0x84, 255)]
    unknown += [pdu(bytes([6, acked << 4 | 1, 0])) for acked in range(16) if acked not in (4, 5)]
    unknown += [pdu(b"\6\4"), pdu(b"\6\5")]  # 4 and 5 in the low half: the acked code is the high half
    unknown += [pdu(b"", dest=3), pdu(b"\1\0", dest=3), pdu(b"\6", dest=3), pdu(b"\6\0", dest=3)]  # 7 before 9
    everywhere("refusal_07", 7, unknown)

    sender = [pdu(b"\x08" + bytes(8)), pdu(b"\5\2"), pdu(b"\x0c" + bytes(4)), pdu(b"\6\x40\0"), pdu(b"\6\x4f")]
    sender += [pdu(b"\x08"), pdu(b"\5"), pdu(b"\x0c"), DONE, LOST]  # a body is not looked at, nor the direction
    sender += [pdu(b"\5\2", dest=3), pdu(b"\6\x45", dest=3), pdu(b"\x08\0", dest=3), pdu(b"\x0c\0", dest=3)]  # 8 before 9
    everywhere("refusal_08", 8, sender)

    other = [make(dest=d, idw=w) for d, w in ((3, 1), (0, 1), (0x0102, 2), (0x0200, 2), (2**32 + 2, 8), (2**63 + 2, 8))
             for make in (metadata, lambda **h: segment(0, FIVE, **h), lambda **h: eof(SUM5, 5, **h))]
    other += [metadata(dest=3, mode=0), metadata(dest=3, cut=3), metadata(dest=3, source=9)]  # 9 before 11, 10 (mode), 14, 15
    other += [metadata(dest=3, frm=b"", to=b""), metadata(dest=3, frm=b"\xff"), metadata(dest=3, options=b"\2\0")]
    other += [segment(0, FIVE, dest=3, seq=6), pdu(b"", kind=1, dest=3), segment(16, SIX, dest=3)]  # 9 before 12, 13, 14, 19
    other += [eof(SUM5, 5, dest=3, seq=6), pdu(b"\4", dest=3), eof(SUM5, 5, dest=3, code=0x10)]
    everywhere("refusal_09", 9, other)

    unsupported = [pdu(b"\x09\0"), pdu(b"\x09\x80"), pdu(b"\x09"), pdu(b"\6\x50\0"), pdu(b"\6\x5f")]
    unsupported += [pdu(b"\x09\0", dest=3), pdu(b"\6\x50", dest=3), pdu(b"\x09\0", seq=6, source=9)]  # 10 (Prompt, ACK) before 9
    everywhere("refusal_10", 10, unsupported)


def refusal_10_of_bodies():
    # Metadata, in 01's order: 10 (mode) before 14, 15; 10 (both empty) before 16, 17; 10 (option) last
    r = Recording("refusal_10_metadata")
    r.refuse(10, [metadata(mode=0), metadata(mode=0, cut=3), metadata(mode=0, source=9), metadata(mode=0, options=b"\0")])
    r.refuse(10, [metadata(mode=0, frm=b""), metadata(mode=0, to=b""), metadata(mode=0, frm=b"\xff")])
    r.refuse(10, [metadata(frm=b"", to=b""), metadata(frm=b"", to=b"", large=1), metadata(frm=b"", to=b"", options=b"\2\0")])
    r.refuse(10, [metadata(options=o) for o in (b"\2\0", b"\2\3abc", b"\2\xff" + b"\2" * 255, b"\0\1\2\6\0\2\3abc", b"\2\1x\0\0")], timer=1)
    r.metadata(options=b"\0\2\2\0\1\2\2\2")  # 2 as a value and as a length is no Message to User
    r.segment(0, FIVE, mode=0)  # mode only in a Metadata
    r.eof(SUM5, 5, sent=DONE, mode=0)

    # EOF: 13, 14 (under 2 bytes), 10, 14 (length)
    r = Recording("refusal_10_eof")
    r.metadata()
    r.segment(0, FIVE)
    r.refuse(10, [eof(SUM5, 5, code=c << 4) for c in range(1, 16)])
    r.refuse(10, [eof(SUM5, 5, code=0xF0, after=hexa("060102")), eof(SUM5, 5, code=0x1F), eof(SUM5, 5, code=0x10, large=1)], timer=1)
    r.refuse(10, [eof(SUM5, 5, code=0x10, cut=n) for n in range(2, 10)])  # 10 before 14 (length)
    r.pdu(pdu(b"\4"), 14)
    r.eof(SUM5, 5, 13, code=0x10, seq=6)
    r.eof(SUM5, 5, sent=DONE, code=0x0F)  # the low half is spare
    r.eof(SUM5, 5, 12, code=0x10)


def refusal_11():
    again = [metadata(), metadata(seq=6), metadata(source=3), metadata(size=0, closure=0), metadata(idw=8, seqw=2)]
    again += [metadata(mode=0), metadata(cut=1), metadata(options=b"\0"), metadata(source=9)]  # 11 before 10 (mode), 14, 15
    again += [metadata(frm=b"", to=b""), metadata(frm=b""), metadata(to=b""), metadata(frm=b"\xff"), metadata(options=b"\2\0")]
    r = Recording("refusal_11", entries=((1, 1, 0), (3, 5, 1)))
    r.metadata()
    r.refuse(11, again)
    r.segment(0, FIVE)
    r.refuse(11, again, timer=1)
    r.metadata(9, dest=3)
    r.eof(SUM6, 6)
    r.refuse(11, again, timer=1)  # waiting, limit 1: the flag isn't looked at
    r.segment(5, SIX, timer=1, sent=DONE)
    # a transfer that fault 4 cancelled is busy until the next call that is not refused
    r.metadata()
    r.segment(16, SIX, 19)
    r.refuse(11, again, timer=1)
    r.poll(timer=1, sent=NO_ROOM)
    transfer(r)


def refusal_12():
    data = [segment(0, FIVE), segment(0, b""), segment(0, FIVE, seq=6), segment(0, FIVE, source=9), segment(0, FIVE, large=1)]
    data += [pdu(b"", kind=1), pdu(b"\0\0\0", kind=1), segment(16, SIX)]  # 12 before 14, 19
    ends = [eof(SUM5, 5), eof(SUM6, 6), eof(0, 0), eof(SUM5, 5, seq=6), eof(SUM5, 5, source=3)]
    ends += [pdu(b"\4"), eof(SUM5, 5, code=0x10), eof(SUM5, 5, after=b"\0")]  # 12 before 14, 10, 14 (length)
    r = Recording("refusal_12")
    r.refuse(12, data + ends)
    r.refuse(12, data + ends, timer=1)
    r.metadata(size=6)
    r.segment(0, FIVE)
    r.eof(SUM6, 6)
    r.refuse(12, ends, timer=1)  # EOF outside receiving; file data are taken while it waits
    r.segment(5, SIX, timer=1, sent=DONE)
    r.refuse(12, data + ends)
    # cancelled by fault 4: neither receiving nor waiting
    r.metadata()
    r.segment(16, SIX, 19)
    r.refuse(12, data + ends, timer=1)
    r.poll(sent=NO_ROOM)
    r.refuse(12, data + ends, timer=1)
    transfer(r)


def refusal_13():
    ids = (dict(seq=6), dict(source=3), dict(source=9), dict(source=3, seq=6), dict(seq=0), dict(seq=0x0105, seqw=2),
           dict(seq=0x0500, seqw=2), dict(source=0x0101, idw=2), dict(source=2**32 + 1, idw=8), dict(seq=2**63 + 5, seqw=8))
    data = [segment(0, FIVE, **h) for h in ids] + [segment(0, b"", seq=6)]
    data += [pdu(b"", kind=1, seq=6), segment(16, SIX, source=3)]  # 13 before 14, 19
    ends = [eof(SUM5, 5, **h) for h in ids] + [eof(0, 0, seq=6)]
    ends += [pdu(b"\4", seq=6), eof(SUM5, 5, code=0x10, source=3), eof(SUM5, 5, cut=4, seq=6)]  # 13 before 14, 10, 14 (length)
    r = Recording("refusal_13", entries=((1, 1, 0), (3, 1, 0)))
    r.metadata(size=6)
    r.refuse(13, data + ends)
    r.segment(0, hexa("0102"), idw=8, seqw=4)  # the same values in other widths are the same transfer
    r.segment(2, hexa("030405"), idw=2, seqw=8)
    r.refuse(13, data + ends, timer=1)
    r.eof(SUM6, 6, idw=4, seqw=2)
    r.refuse(13, data, timer=1)  # waiting, limit 1
    r.segment(5, SIX, timer=1, sent=DONE, seqw=2)
    r.refuse(12, data + ends)
    transfer(r, seq=6, sent=finished(seq=6))
    r.metadata(seq=0x0105, seqw=2)
    r.segment(0, FIVE, 13)  # 5 is not 0105
    r.segment(0, FIVE, 13, seq=0x0500, seqw=2)
    r.segment(0, FIVE, seq=0x0105, seqw=4)
    r.eof(SUM5, 5, seq=0x0105, seqw=8, sent=hexa("2C0002 01 01 0105 02 0502"))


def refusal_14():
    meta = [metadata(cut=n) for n in range(1, 10)] + [metadata(cut=n, large=1) for n in (2, 9, 10, 11, 13)]
    meta += [metadata(frm=b"a" * 255, to=b"b" * 255, cut=n) for n in (261, 262, 516)]
    meta += [pdu(metadata()[7:], large=1)]  # a size of 4 bytes, read as one of 8
    meta += [metadata(options=o) for o in (b"\0", b"\0\1", b"\0\2x", b"\0\0\2", b"\2\0\0\1", b"\2\xff" + b"\2" * 254, b"\6\xff")]
    meta += [metadata(cut=9, source=9), metadata(frm=b"", to=b"", options=b"\0")]  # 14 before 15, 10 (both empty)
    meta += [metadata(frm=b"", options=b"\0"), metadata(to=b"", options=b"\0"), metadata(frm=b"\xff", options=b"\0")]  # 16, 17, 18
    meta += [metadata(options=b"\2\0\2")]  # 14 before 10 (option)
    data = [pdu(bytes(n), kind=1) for n in range(4)] + [pdu(bytes(n), kind=1, large=1) for n in (0, 4, 7)]
    data += [pdu(b"", kind=1, segmeta=1), pdu(bytes(4), kind=1, segmeta=1), pdu(b"\1m" + bytes(3), kind=1, segmeta=1)]
    data += [pdu(b"\x3f" + b"m" * 62, kind=1, segmeta=1), pdu(b"\xff" + b"m" * 66, kind=1, segmeta=1)]
    ends = [eof(SUM5, 5, cut=n) for n in range(1, 10)] + [eof(SUM5, 5, after=b"\0"), eof(SUM5, 5, after=hexa("060102"))]
    ends += [eof(SUM5, 5, large=1, cut=13), eof(SUM5, 5, large=1, after=b"\0"), pdu(eof(SUM5, 5)[7:], large=1)]
    ends += [pdu(eof(SUM5, 5, large=1)[7:])]
    r = Recording("refusal_14")
    r.refuse(14, meta)
    r.metadata(options=b"\0\0\6\2xy")
    r.refuse(14, data + ends, timer=1)
    r.segment(0, hexa("0102"), segmeta=1, before=b"\0")  # segment metadata of no byte, of one, of three with its two top bits set
    r.segment(2, hexa("0304"), segmeta=1, before=b"\1m")
    r.segment(4, hexa("05"), segmeta=1, before=b"\xc3mmm", large=1)
    r.refuse(14, data + ends)
    r.eof(SUM6, 6)
    r.refuse(14, data, timer=1)
    r.segment(5, SIX, timer=1, sent=DONE, segmeta=1, before=b"\x3f" + b"m" * 63)
    r.refuse(14, meta, timer=1)
    transfer(r)


def refusal_15():
    others = ((0, 1), (2, 1), (3, 1), (255, 1), (0x0101, 2), (0x0100, 2), (2**32 + 1, 8), (2**56, 8))
    unknown = [metadata(source=s, idw=w) for s, w in others]
    unknown += [metadata(source=3, frm=b"", to=b""), metadata(source=3, frm=b""), metadata(source=3, to=b"")]  # before 10, 16, 17
    unknown += [metadata(source=3, frm=b"\xff"), metadata(source=3, options=b"\2\0")]  # before 18, 10 (option)
    r = Recording("refusal_15")
    r.refuse(15, unknown)
    r.refuse(15, unknown, timer=1)
    r.metadata(14, source=3, cut=9)
    r.metadata(10, source=3, mode=0)
    transfer(r)
    r.refuse(15, unknown)
    r = Recording("refusal_15_no_entry", entries=())
    r.refuse(15, unknown + [metadata(), metadata(source=0)])
    r.segment(0, FIVE, 12)
    r.poll(timer=1)


def refusals_16_to_18():
    def names(name, number, refused, *neighbours):
        r = Recording(name)
        r.refuse(number, refused)
        for neighbour, data in neighbours:
            r.pdu(data, neighbour)
        r.refuse(number, refused, timer=1)
        transfer(r)
        r.refuse(number, refused)
        r.poll(timer=1)
        return r

    empty = [metadata(frm=b""), metadata(frm=b"", large=1), metadata(frm=b"", to=b"b" * 255)]
    empty += [metadata(frm=b"", to=b"\xff"), metadata(frm=b"", options=b"\2\0")]  # 16 before 18, 10 (option)
    names("refusal_16", 16, empty, (15, metadata(frm=b"", source=9)), (14, metadata(frm=b"", options=b"\0")),
          (10, metadata(frm=b"", to=b"")))
    empty = [metadata(to=b""), metadata(to=b"", large=1), metadata(frm=b"a" * 255, to=b"")]
    empty += [metadata(frm=b"\xff", to=b""), metadata(to=b"", options=b"\2\0")]  # 17 before 18, 10 (option)
    names("refusal_17", 17, empty, (15, metadata(to=b"", source=9)), (14, metadata(to=b"", options=b"\0")),
          (10, metadata(frm=b"", to=b"")))

    # both sides of the boundaries of RFC 3629
    bad = ("80", "BF", "C080", "C1BF", "C2", "C27F", "C2C0", "DF7F", "E0", "E080", "E09FBF", "E0A0", "E0A07F", "E17F80", "E1C080", "E180",
           "ECBFC0", "EDA080", "EDBFBF", "ED9FC0", "EE7F80", "EFBF", "F0", "F08FBFBF", "F0907F80", "F09080", "F0BFBFC0", "F17F8080",
           "F18080C0", "F4908080", "F4BFBFBF", "F48FBF7F", "F5808080", "F7BFBFBF", "F888808080", "FE", "FF", "61C2A980", "61F09F9B")
    good = ("00", "7F", "C280", "DFBF", "E0A080", "E0BFBF", "E18080", "ECBFBF", "ED8080", "ED9FBF", "EE8080", "EFBFBF", "F0908080",
            "F0BFBFBF", "F1808080", "F3BFBFBF", "F4808080", "F48FBFBF", "E282AC20F09F9BB0")
    refused = [metadata(frm=hexa(b)) for b in bad] + [metadata(to=hexa(b)) for b in bad] + [metadata(frm=b"\xff", to=b"\xff")]
    refused += [metadata(frm=b"a" * 254 + b"\xc2"), metadata(to=b"b" * 253 + hexa("E282"))]
    refused += [metadata(frm=b"\xff", options=b"\2\0"), metadata(to=b"\xff", options=b"\2\0")]  # 18 before 10 (option)
    r = names("refusal_18", 18, refused, (17, metadata(frm=b"\xff", to=b"")), (16, metadata(frm=b"", to=b"\xff")),
              (15, metadata(frm=b"\xff", source=9)), (14, metadata(frm=b"\xff", options=b"\0")))
    for name in good:
        for names_of in (dict(frm=hexa(name)), dict(to=hexa(name))):
            r.metadata(size=0, **names_of)
            r.eof(0, 0, sent=DONE)
    for length in (1, 255):
        r.metadata(size=0, frm=b"a" * length, to=b"b" * length)
        r.eof(0, 0, sent=DONE)


def refusal_19():
    # n > 0 and o + n > 16; fault 4 ignored changes nothing
    beyond = [segment(16, SIX), segment(12, FIVE), segment(15, b"\1\2"), segment(0, bytes(17)), segment(1, bytes(16)), segment(17, SIX)]
    beyond += [segment(2**32 - 1, SIX), segment(2**32 - 5, FIVE), segment(2**32, SIX, large=1), segment(2**63, SIX, large=1)]
    beyond += [segment(2**64 - 1, SIX, large=1), segment(2**64 - 5, FIVE, large=1), segment(2**64 - 4, FIVE, large=1)]
    beyond += [segment(12, FIVE, segmeta=1, before=b"\1m"), segment(0, b"\xee" * 300)]
    empty = [segment(o, b"") for o in (0, 3, 15, 16, 17, 2**32 - 1)] + [segment(o, b"", large=1) for o in (16, 2**63, 2**64 - 1)]
    r = Recording("refusal_19", on={4: IGNORE})
    r.metadata(size=6)
    r.refuse(19, beyond)
    r.segment(0, FIVE)
    r.refuse(19, beyond, timer=1)
    for data in empty:  # n = 0 changes nothing in the file, at any o
        r.pdu(data)
    r.segment(16, SIX, 13, seq=6)  # 13 before 19
    r.eof(SUM6, 6)
    r.refuse(19, beyond, timer=1)  # waiting, limit 1: refused, so the flag isn't looked at
    for data in empty:
        r.pdu(data)
    r.segment(5, SIX, timer=1, sent=DONE)
    r.refuse(12, beyond)  # 12 before 19
    transfer(r)
    r.metadata(size=16)
    r.segment(0, bytes(range(16)))  # a segment of the whole store: 00010203 + 04050607 + 08090A0B + 0C0D0E0F
    r.segment(15, b"\x0f")
    r.segment(16, b"\x10", 19)
    r.eof(0x181C2024, 17, sent=DONE)
    # a store of no byte: only an empty file fits
    r = Recording("refusal_19_no_store", store=0, on={4: IGNORE})
    r.metadata(size=0)
    r.segment(0, SIX, 19)
    r.segment(0, b"")
    r.segment(7, b"")
    r.eof(0, 0, sent=DONE)


# --- faults: each with each handler, with and without closure and discard --------------------------------------------------


def faults():
    def cases(number, handler, name):
        """Four transfers: source 1, whose entry retains, and source 3, whose entry says discard; with closure and without."""
        r = Recording(f"fault_{number:02}_{name}", on={number: handler}, entries=((1, 2, 0), (3, 2, 1)))
        for source, retained in ((1, 1), (3, 0)):
            for closure in (1, 0):
                yield r, dict(source=source), closure, retained
        transfer(r)

    def told(closure, source, condition=0, complete=1, retained=1):
        return finished(condition, complete, retained, source=source) if closure else None

    def idle(r, h):
        """Abandoned: idle at once, so that a poll does nothing and an EOF is refused with 12."""
        r.poll(timer=1)
        r.eof(SUM5, 5, 12, **h)

    three = ((CANCEL, "cancel"), (IGNORE, "ignore"), (ABANDON, "abandon"))
    for handler, name in three:
        # 4: the segment does not fit; the completion of a cancelled transfer is in the next call
        for r, h, closure, retained in cases(4, handler, name):
            r.metadata(closure=closure, **h)
            r.segment(0, FIVE, **h)
            r.segment(12, FIVE, 19, **h)
            if handler == CANCEL:
                r.eof(SUM5, 5, 12, **h)
                r.poll(sent=told(closure, h["source"], 4, 0, retained))
            elif handler == IGNORE:
                r.poll()
                r.eof(SUM5, 5, sent=told(closure, h["source"]), **h)
            else:
                idle(r, h)
        # 5: the sum is not the EOF's; ignore waits, and five zeros over the file give the sum 0
        for r, h, closure, retained in cases(5, handler, name):
            r.metadata(closure=closure, **h)
            r.segment(0, FIVE, **h)
            r.eof(0, 5, sent=told(closure, h["source"], 5, 0, retained) if handler == CANCEL else None, **h)
            if handler == IGNORE:
                r.poll(timer=1)
                r.segment(0, bytes(5), timer=1, sent=told(closure, h["source"]), **h)
            idle(r, h)
        # 6: progress 5, EOF size 4; ignore goes on to verify, and the sum is right
        for r, h, closure, retained in cases(6, handler, name):
            r.metadata(closure=closure, **h)
            r.segment(0, FIVE, **h)
            sent = {CANCEL: told(closure, h["source"], 6, 0, retained), IGNORE: told(closure, h["source"]), ABANDON: None}[handler]
            r.eof(SUM5, 4, sent=sent, **h)
            idle(r, h)
        # 10: limit 2; an ignored one leaves the count, so the next flag meets the limit again, and late data still complete
        for r, h, closure, retained in cases(10, handler, name):
            r.metadata(closure=closure, **h)
            r.segment(0, FIVE, **h)
            r.eof(0, 5, **h)
            r.poll(timer=1)
            r.poll(timer=1, sent=told(closure, h["source"], 10, 0, retained) if handler == CANCEL else None)
            if handler == IGNORE:
                r.poll(timer=1)
                r.poll()
                r.poll(timer=1)
                r.metadata(11, timer=1, **h)
                r.segment(0, bytes(5), **h)
                r.poll(timer=1, sent=told(closure, h["source"]))
            r.segment(0, FIVE, 12, **h)
            idle(r, h)
        # 11: types 1 to 14 are not supported; verify is then true, so delivery is complete and nothing is discarded
        for r, h, closure, retained in cases(11, handler, name):
            for checksum in (1, 2, 3, 14):
                r.metadata(closure=closure, checksum=checksum, **h)
                r.segment(0, FIVE, **h)
                sent = {CANCEL: told(closure, h["source"], 11), IGNORE: told(closure, h["source"]), ABANDON: None}[handler]
                r.eof(0, 5, sent=sent, **h)
                idle(r, h)


def faults_together():
    # 6 ignored, then verification's own fault
    r = Recording("faults_06_then_05_cancel", on={6: IGNORE, 5: CANCEL})
    r.metadata()
    r.segment(0, FIVE)
    r.eof(0, 4, sent=finished(5, 0))
    r = Recording("faults_06_then_05_abandon", on={6: IGNORE, 5: ABANDON})
    r.metadata()
    r.segment(0, FIVE)
    r.eof(0, 4)
    r.eof(0, 4, 12)
    r = Recording("faults_06_then_11_cancel", on={6: IGNORE, 11: CANCEL}, entries=((1, 1, 1),))
    r.metadata(checksum=3)
    r.segment(0, FIVE)
    r.eof(0, 4, sent=hexa("2C000200010502 05B2"))  # complete, so retained
    # 6 that cancels or abandons ends EOF handling: nothing is verified, whatever the type
    r = Recording("faults_06_ends_handling", on={11: ABANDON}, entries=((1, 1, 0), (3, 1, 1)))
    for checksum in (0, 3, 15):
        r.metadata(checksum=checksum)
        r.segment(0, FIVE)
        r.eof(SUM5, 4, timer=1, sent=hexa("2C000500010502 0566 060102"))
        r.metadata(checksum=checksum, source=3)
        r.segment(0, FIVE, source=3)
        r.eof(SUM5, 4, timer=1, source=3, sent=hexa("2C000500030502 0564 060102"))
    # progress counts a repeated segment twice, an empty one not, a refused one not
    r = Recording("faults_06_progress", on={4: IGNORE})
    r.metadata()
    r.segment(0, FIVE)
    r.segment(0, FIVE)
    r.eof(SUM5, 9, sent=finished(6, 0))
    r.metadata()
    r.segment(0, FIVE)
    r.segment(0, FIVE)
    r.eof(SUM5, 10, sent=DONE)
    r.metadata()
    r.segment(0, FIVE)
    r.segment(9, b"")
    r.segment(14, FIVE, 19)
    r.segment(0, FIVE, 13, seq=6)
    r.eof(SUM5, 5, sent=DONE)
    # the size is compared with progress, not with the file's length: a byte at 15 makes 16 bytes, and progress 1
    r.metadata()
    r.segment(15, b"\7")
    r.eof(7, 1, sent=DONE)
    r.metadata()
    r.segment(0, FIVE)
    r.eof(SUM5, 2**64 - 1, large=1, sent=DONE)
    # an EOF whose own call has the flag: fault 5 ignored, then fault 10 of the wait, in one call
    for handler, name, sent in ((CANCEL, "cancel", LOST), (ABANDON, "abandon", None)):
        r = Recording(f"faults_05_then_10_{name}", on={10: handler})
        r.metadata()
        r.segment(0, FIVE)
        r.eof(0, 5, timer=1, sent=sent)
        r.segment(0, FIVE, 12)
    # 6 and 5 ignored, then 10, all in one call
    r = Recording("faults_06_05_10", on={6: IGNORE})
    r.metadata()
    r.segment(0, FIVE)
    r.eof(0, 4, timer=1, sent=LOST)
    # fault 4 while it waits: condition 4 stays, and the flag no longer matters
    r = Recording("faults_04_while_waiting", entries=((1, 1, 0), (3, 1, 1)))
    r.metadata()
    r.segment(0, FIVE)
    r.eof(0, 5)
    r.segment(16, SIX, 19, timer=1)
    r.segment(0, bytes(5), 12, timer=1)
    r.poll(timer=1, sent=NO_ROOM)
    r.metadata(source=3)
    r.eof(1, 0, source=3)
    r.segment(16, SIX, 19, source=3)
    r.poll(sent=hexa("2C000500030502 0544 060102"))
    transfer(r)
    # abandoned while it waits, by fault 4
    r = Recording("faults_04_abandon_while_waiting", on={4: ABANDON})
    r.metadata()
    r.eof(1, 0)
    r.segment(16, SIX, 19, timer=1)
    r.segment(16, SIX, 12, timer=1)
    transfer(r)
    # the other conditions' handlers have nothing to do here
    for handler, name in ((IGNORE, "ignore"), (ABANDON, "abandon")):
        r = Recording(f"faults_others_{name}", on={c: handler for c in (1, 2, 3, 7, 8)})
        transfer(r)
        r.metadata()
        r.eof(1, 0)
        r.poll(timer=1, sent=LOST)
    # indications are not printed: the flags change no line
    for flags in (1, 2, 3):
        r = Recording(f"flags_{flags}", flags=flags)
        transfer(r)
        r.metadata()
        r.segment(16, SIX, 19)
        r.poll(sent=NO_ROOM)


# --- the wait --------------------------------------------------------------------------------------------------------------


def waits():
    # the flag at which the limit is met, counted from the EOF on: count + 1 >= limit
    for limit, last in ((0, 1), (1, 1), (2, 2), (3, 3), (5, 5)):
        r = Recording(f"wait_limit_{limit}", entries=((1, limit, 0), (3, 7, 0)))
        foreign = [segment(5, SIX, seq=6), segment(5, SIX, source=3)]
        # polls without a flag, flags while receiving and flags on refused PDUs do not count
        r.metadata(timer=1)
        r.segment(0, FIVE, timer=1)
        r.poll(timer=1)
        r.eof(SUM6, 6)
        for k in range(1, last + 1):
            r.poll()
            r.segment(0, FIVE)
            r.refuse(13, foreign, timer=1)
            r.refuse(9, [segment(5, SIX, dest=3), metadata(dest=3)], timer=1)
            r.refuse(11, [metadata(), metadata(seq=6)], timer=1)
            r.refuse(12, [eof(SUM5, 5), eof(SUM6, 6)], timer=1)
            r.refuse(14, [pdu(b"", kind=1)], timer=1)
            r.refuse(3, [b""], timer=1)
            r.poll()
            r.poll(timer=1, sent=LOST if k == last else None)
        r.poll(timer=1)
        # an EOF's own call counts
        r.metadata()
        r.segment(0, FIVE)
        r.eof(SUM6, 6, timer=1, sent=LOST if last == 1 else None)
        for k in range(2, last + 1):
            r.poll(timer=1, sent=LOST if k == last else None)
        # a flag on a segment counts, and the count does not start again when data come; their sum is compared, never their size
        r.metadata()
        r.eof(SUM6, 6)
        for k in range(1, last + 1):
            r.segment(0, FIVE)
            r.segment(5 + k, b"\xff", timer=1, sent=LOST if k == last else None)
        # late data complete: at the last flag, verified before it is counted
        r.metadata()
        r.segment(0, FIVE)
        r.eof(SUM6, 6)
        for k in range(1, last):
            r.poll(timer=1)
        r.segment(5, SIX, timer=1, sent=DONE)
        # late data without flag complete nothing; the next flag does
        r.metadata()
        r.segment(5, SIX)
        r.eof(SUM6, 6)
        for k in range(1, last):
            r.poll(timer=1)
        r.segment(0, FIVE)
        r.poll()
        r.segment(3, b"")
        r.poll(timer=1, sent=DONE)
        # a sum that is right while it waits, and wrong again when the flag comes
        r.metadata()
        r.segment(0, FIVE)
        r.eof(SUM6, 6)
        for k in range(1, last):
            r.poll(timer=1)
        r.segment(5, SIX)
        r.segment(0, b"\x09")
        r.poll(timer=1, sent=LOST)

    # a limit of 2^32 - 1
    r = Recording("wait_limit_most", entries=((1, 2**32 - 1, 0),))
    r.metadata()
    r.eof(SUM5, 5)
    for _ in range(300):
        r.poll(timer=1)
    r.segment(0, FIVE, timer=1, sent=DONE)
    # a right sum completes in the EOF's call, flag or not, limit 0
    r = Recording("wait_not_needed", entries=((1, 0, 0),))
    r.metadata(timer=1)
    r.segment(0, FIVE, timer=1)
    r.eof(SUM5, 5, timer=1, sent=DONE)
    # the last word is padded at its end: one to four bytes
    for file, checksum in ((b"\1", 0x01000000), (b"\1\2", 0x01020000), (b"\1\2\3", 0x01020300), (b"\1\2\3\4", 0x01020304)):
        r.metadata()
        r.segment(0, file)
        r.eof(checksum, len(file), sent=DONE)
    r.metadata()
    r.segment(0, b"\1")
    r.eof(1, 1)
    r.poll(timer=1, sent=LOST)
    # an ignored fault 10 goes on for ever
    r = Recording("wait_ignored", on={10: IGNORE}, entries=((1, 1, 0),))
    r.metadata()
    r.eof(SUM5, 5, timer=1)
    for _ in range(50):
        r.poll(timer=1)
    r.segment(0, FIVE)
    r.poll()
    r.poll(timer=1, sent=DONE)


# --- headers ---------------------------------------------------------------------------------------------------------------


def headers():
    behind = pdu_record(metadata()) + pdu_record(segment(0, FIVE)) + pdu_record(eof(SUM5, 5)) + poll_record(1)
    whole = header()
    assert len(whole) == 41
    for n in (0, 1, 2, 3, 4, 5, 6, 13, 14, 15, 16, 25, 26, 27, 28, 29, 35, 36, 39, 40):
        bad_header(f"bad_header_cut_{n:02}", whole[:n])
    eight = tuple((i, 1, 0) for i in range(1, 9))
    bad_header("bad_header_cut_eight_entries", header(entries=eight)[:-1])
    for name, mark in (("small", b"rxt"), ("rxu", b"RXU"), ("first", b"QXT"), ("zero", b"\0\0\0")):
        bad_header(f"bad_header_mark_{name}", header(mark=mark) + behind)
    for version in (0, 2, 0x0100, 0x0101, 0xFFFF):
        bad_header(f"bad_header_version_{version}", header(version=version) + behind)
    for width in (0, 3, 5, 6, 7, 9, 255):
        bad_header(f"bad_header_width_{width}", header(width=width) + behind)
    for width, local in ((1, 256), (1, 2**56 + 2), (2, 65536), (4, 2**32), (4, 2**63)):
        bad_header(f"bad_header_local_{width}_{local:x}", header(width=width, local=local) + behind)
    ten = [1, 1, 1, 1, 3, 1, 1, 1, 1, 3]
    for place in (0, 4, 8, 9):
        for value in (0, 2, 5, 255):
            bad_header(f"bad_header_handler_{place}_{value}", header(ten=ten[:place] + [value] + ten[place + 1:]) + behind)
    for flags in (4, 7, 128, 255):
        bad_header(f"bad_header_flags_{flags}", header(flags=flags) + behind)
    bad_header("bad_header_nine_entries", header(entries=eight + ((9, 1, 0),)) + behind)
    bad_header("bad_header_255_entries", header(entries=tuple((i, 1, 0) for i in range(1, 256))) + behind)
    bad_header("bad_header_255_entries_not_there", header(count=255) + behind)
    bad_header("bad_header_id_twice", header(entries=((1, 1, 0), (1, 1, 0))) + behind)
    bad_header("bad_header_id_twice_of_eight", header(entries=eight[:7] + ((1, 9, 1),)) + behind)
    bad_header("bad_header_discard_2", header(entries=((1, 1, 2),)) + behind)
    bad_header("bad_header_discard_255_last", header(entries=eight[:7] + ((8, 1, 255),)) + behind)

    Recording("good_header_alone")
    r = Recording("good_header_no_entry", entries=())
    r.metadata(15)
    r.segment(0, FIVE, 12)
    r.eof(SUM5, 5, 12)
    r.poll(timer=1)
    # eight entries, each with its own limit and discard: the limit counts of the source that the transfer has
    r = Recording("good_header_eight_entries", entries=tuple((i, i, i % 2) for i in range(1, 9)))
    for source in (8, 1, 4, 5):
        r.metadata(source=source)
        r.eof(SUM5, 5, source=source)
        for k in range(1, source + 1):
            r.poll(timer=1, sent=finished(10, 0, source % 2 == 0, source=source) if k == source else None)
    r.metadata(15, source=9)
    r.metadata(15, source=0)
    # every handler of the three at every place
    for handler in (CANCEL, IGNORE, ABANDON):
        r = Recording(f"good_header_handlers_{handler}", ten=[handler] * 10, flags=3)
        transfer(r)
    # the largest and the smallest local id of each width; the fault location has the local id's width
    for width in (1, 2, 4, 8):
        for local in (256**width - 1, 0):
            r = Recording(f"good_header_local_{width}_{'most' if local else 'zero'}", width=width, local=local)
            h = dict(idw=8, dest=local)
            r.metadata(9, dest=local ^ 1, idw=8)
            transfer(r, sent=finished(**h), **h)
            r.metadata(**h)
            r.eof(1, 0, **h)
            r.poll(timer=1, sent=finished(10, 0, width=width, local=local, **h))


# --- bad records -----------------------------------------------------------------------------------------------------------


def bad_records():
    behind = pdu_record(segment(0, FIVE)) + pdu_record(eof(SUM5, 5)) + poll_record(1)
    whole = pdu_record(metadata())
    assert len(whole) == 21
    cases = [("kind_2", b"\2\0" + behind), ("kind_2_alone", b"\2"), ("kind_255", b"\xff\0" + behind), ("kind_2_timer_2", b"\2\2"),
             ("kind_2_pdu", b"\2\0" + whole[2:] + behind), ("poll_timer_2", b"\0\2" + behind), ("poll_timer_255", b"\0\xff"),
             ("pdu_timer_2", b"\1\2" + whole[2:] + behind), ("pdu_timer_2_alone", b"\1\2"), ("poll_cut_1", b"\0"),
             ("pdu_short", b"\1\0" + num(18, 2) + metadata()), ("pdu_short_65535", b"\1\1\xff\xff" + metadata() + behind)]
    cases += [(f"pdu_cut_{n:02}", whole[:n]) for n in (1, 2, 3, 4, 5, 12, 20)]
    for name, raw in cases:
        r = Recording(f"bad_record_first_{name}")  # at 41, behind the header
        r.bad(raw)
    r = Recording("bad_record_no_entry", entries=())  # at 28
    r.bad(b"\2\0")
    cases += [(f"pdu_cut_{n:02}", whole[:n]) for n in (6, 7, 8, 9, 10, 11, 13, 14, 15, 16, 17, 18, 19)]
    for name, raw in cases:
        r = Recording(f"bad_record_later_{name}")  # behind a poll, a refused PDU, a transfer and an open one
        r.poll()
        r.pdu(b"", 3)
        transfer(r)
        r.metadata(seq=6)
        r.segment(0, b"\1\2", seq=6)
        r.bad(raw)
    # a PDU of no byte and of fewer than it says itself is a whole record; bytes behind the data field are never read
    r = Recording("good_records")
    r.pdu(b"", 3)
    r.pdu(b"", 3, timer=1)
    r.pdu(metadata()[:10], 3)
    r.pdu(metadata() + b"\xff" * 9)
    r.pdu(segment(0, FIVE) + b"\6\7", n=5)
    r.pdu(eof(SUM5, 5) + b"\0", sent=DONE)
    r.poll(timer=1)


# --- transfers one after another -------------------------------------------------------------------------------------------


def several():
    ids = (0x01, 0x0102, 0x01020304, 0x0102030405060708, 2**64 - 1)
    r = Recording("several", local=0x07, width=2, store=64, entries=tuple((i, 2, 0) for i in ids))
    # widths of ids and number, source, number, large file, checksum type, closure; type 15 is null, type 3 is not supported
    rows = ((1, 1, 0x01, 5, 0, 0, 1), (2, 1, 0x0102, 255, 0, 15, 1), (4, 2, 0x01020304, 0xFFFF, 0, 3, 1),
            (8, 4, 0x0102030405060708, 0x0A0B0C0D, 1, 0, 1), (8, 8, 2**64 - 1, 2**64 - 1, 1, 15, 1), (8, 1, 0x01, 0, 1, 3, 0),
            (2, 8, 0x01, 5, 0, 0, 1), (4, 4, 0x0102, 5, 1, 0, 0), (8, 2, 0x01020304, 5, 0, 15, 0), (1, 8, 0x01, 2**63, 1, 3, 1))
    for idw, seqw, source, seq, large, checksum, closure in rows:
        h = dict(idw=idw, seqw=seqw, source=source, seq=seq, dest=7, large=large)
        done = finished(**h) if closure else None
        r.metadata(closure=closure, checksum=checksum, **h)
        r.metadata(11, closure=closure, checksum=checksum, **h)
        r.segment(0, FIVE, **h)
        r.metadata(11, source=1, dest=7, timer=1)
        r.eof({0: SUM5, 15: 0xDEADBEEF, 3: 0}[checksum], 5, sent=done, **h)
        r.poll(timer=1)
        r.eof(SUM5, 5, 12, **h)
    # a wrong sum after these: the count begins at 0, and the fault location is the local id in two bytes
    h = dict(idw=4, seqw=1, source=0x01020304, seq=9, dest=7, large=1)
    for _ in range(2):
        r.metadata(**h)
        r.segment(0, FIVE, **h)
        r.eof(0, 5, **h)
        r.poll(timer=1)
        r.poll(timer=1, sent=hexa("2D0006 30 01020304 09 00000007 05A6 06 02 0007"))

    # equal values in different widths are one transfer; Finished has the Metadata's header, direction 1, the other flags 0
    r = Recording("widths_mixed", width=8)
    r.metadata(seqw=2, idw=4, direction=1, control=1, segmeta=1, large=1)
    r.segment(0, b"\1", idw=8)
    r.segment(1, b"\2", seqw=8, large=1)
    r.segment(2, b"\3", direction=1)
    r.segment(3, b"\4", control=1, mode=0)
    r.segment(4, b"\5", idw=2, seqw=4)
    r.eof(SUM5, 5, sent=hexa("2D0002 31 00000001 0005 00000002 0502"))
    r.metadata()
    r.segment(0, FIVE, large=1)
    r.eof(0, 5, large=1, idw=8, seqw=8)
    r.poll(timer=1, sent=hexa("2C000C 00 01 05 02 05A6 06 08 0000000000000002"))
    # the longest Finished PDU: 40 bytes
    local = 0x191A1B1C1D1E1F20
    r = Recording("finished_40_bytes", width=8, local=local, entries=((0x0102030405060708, 1, 1),))
    h = dict(idw=8, seqw=8, source=0x0102030405060708, seq=0x090A0B0C0D0E0F10, dest=local, large=1)
    r.metadata(**h)
    r.segment(2**64 - 1, SIX, 19, **h)
    r.poll(sent=hexa("2D000C 77 0102030405060708 090A0B0C0D0E0F10 191A1B1C1D1E1F20 0544 06 08 191A1B1C1D1E1F20"))
    # overlapping and repeated segments: the last one over an offset counts
    r = Recording("overlaps")
    r.metadata()
    r.segment(0, hexa("1111111111111111"))
    r.segment(2, hexa("22222222"))
    r.segment(5, hexa("3333333333"))  # 11112222 22333333 3333....
    r.eof(0x11112222 + 0x22333333 + 0x33330000, 17, sent=DONE)
    r.metadata()
    r.segment(12, hexa("44"))  # gaps are zeros, whatever stood there
    r.segment(6, hexa("5555"))
    r.segment(9, b"")
    r.eof(0x44000000 + 0x00005555, 3, sent=DONE)
    r.metadata(checksum=15)  # type 15: any sum
    r.eof(0xFFFFFFFF, 0, sent=DONE)


def twins():
    """Two radiators' files, of one source and one length, sequence numbers 5 and 6, interleaved."""
    left, right = hexa("0011223344556677"), hexa("8899AABBCCDDEEFF")
    left_sum, right_sum = 0x446688AA, 0x557799BA  # 00112233 + 44556677; 8899AABB + CCDDEEFF less 2^32
    a, b = dict(seq=5), dict(seq=6)
    r = Recording("twins")
    r.metadata(size=8, frm=b"radiator-left", to=b"left", **a)
    r.metadata(11, size=8, frm=b"radiator-right", to=b"right", **b)
    for offset in (0, 2, 4, 6):
        r.segment(offset, left[offset:offset + 2], **a)
        r.segment(offset, right[offset:offset + 2], 13, **b)
    r.eof(right_sum, 8, 13, **b)
    r.eof(left_sum, 8, sent=DONE, **a)
    r.segment(6, right[6:], 12, **b)
    r.metadata(size=8, frm=b"radiator-right", to=b"right", **b)
    for offset in (6, 4, 2, 0):
        r.segment(offset, left[offset:offset + 2], 13, timer=1, **a)
        r.segment(offset, right[offset:offset + 2], **b)
    r.eof(left_sum, 8, 13, **a)
    r.eof(right_sum, 8, sent=finished(seq=6), **b)

    # the twin's segments while the first waits for its last one, limit 1: neither file nor count is touched
    r = Recording("twins_waiting")
    r.metadata(size=8, **a)
    r.segment(0, left[:6], **a)
    r.eof(left_sum, 8, **a)
    r.segment(6, right[6:], 13, timer=1, **b)
    r.eof(right_sum, 8, 12, timer=1, **b)
    r.metadata(11, timer=1, **b)
    r.segment(6, left[6:], timer=1, sent=DONE, **a)
    # the twin's, from its own start
    r.metadata(size=8, **b)
    r.segment(0, right, **b)
    r.segment(0, left, 13, **a)
    r.eof(right_sum, 8, sent=finished(seq=6), **b)
    # two sources with one sequence number
    r = Recording("twins_two_sources", entries=((1, 1, 0), (3, 1, 0)))
    r.metadata(size=8)
    r.metadata(11, size=8, source=3)
    for offset in (0, 4):
        r.segment(offset, right[offset:offset + 4], 13, source=3)
        r.segment(offset, left[offset:offset + 4])
    r.eof(right_sum, 8, 13, source=3)
    r.eof(left_sum, 8, sent=DONE)
    r.metadata(size=8, source=3)
    for offset in (0, 4):
        r.segment(offset, left[offset:offset + 4], 13)
        r.segment(offset, right[offset:offset + 4], source=3)
    r.eof(right_sum, 8, source=3, sent=finished(source=3))


# --- long ones -------------------------------------------------------------------------------------------------------------


def long_store():
    """A store of 65,535 bytes, filled by 255 segments of 257 bytes out of order, the last byte included; one beyond is 19."""
    file = bytes((7 * i + i // 256) % 256 for i in range(65535))
    r = Recording("long_store", store=65535, on={4: IGNORE}, entries=((1, 3, 0),))
    r.metadata(size=65535)
    for k in range(255):
        at = 257 * (101 * k % 255)
        r.segment(at, file[at:at + 257])
    r.segment(65535, b"\1", 19)
    r.segment(65534, b"\1\2", 19)
    r.segment(65279, file[:257], 19)
    r.segment(65535, b"")
    r.eof(words(file), 65535, sent=DONE)
    # the last byte alone: all before it become 0, and it is the third of its word
    r.metadata()
    r.segment(65534, b"\xc4")
    r.eof(0x0000C400, 1, sent=DONE)
    # one byte wrong in the middle, and put right while it waits
    r.metadata(size=65535)
    for k in range(255):
        r.segment(257 * k, file[257 * k:257 * k + 257])
    r.segment(30000, bytes([file[30000] ^ 1]))
    r.eof(words(file), 65536)
    r.poll(timer=1)
    r.segment(30000, file[30000:30001], timer=1, sent=DONE)


def long_largest():
    """Records with the largest length, 65,535: a header of 7 bytes and a data field of 65,528, of which 65,524 are the segment's.
    Whoever reads in parts has to read on here; the bad record's offset is beyond 262,144."""
    file = bytes((i * i + 3 * i) % 251 for i in range(65535))
    r = Recording("long_largest", store=65535, on={4: IGNORE}, entries=((1, 2, 0),))
    r.metadata(size=65535)
    assert len(segment(0, file[:65524])) == 65535
    r.segment(0, file[:65524])
    r.segment(65524, file[65524:])
    r.segment(0, file[:65524], 13, seq=6)
    r.eof(words(file), 65535, sent=DONE)
    r.pdu(pdu(bytes(65528), length=65529), 3)
    r.metadata(size=65535)
    r.segment(12, file[12:], 14, length=3)  # a data field of three bytes; those behind it are never read
    r.segment(12, file[:65523] + b"\1", 19)
    r.poll(timer=1)
    r.segment(11, file[11:], segmeta=0)
    r.segment(0, file[:11])
    r.eof(words(file), 65535, sent=DONE)
    transfer(r)
    assert len(r.data) > 262144
    r.bad(pdu_record(segment(0, file[:2000]))[:-1])


def long_exact():
    """A recording of exactly 262,144 bytes, most of it refused PDUs while a transfer waits; its last record completes the transfer."""
    r = Recording("long_exact", entries=((1, 2**32 - 1, 0),))
    r.metadata()
    r.eof(SUM5, 5)
    zeros = bytes(9000)  # version 0: refusal 4
    for k in range(29):
        r.poll(timer=1)
        r.pdu(zeros[:8900 + k], 4, timer=k % 2)
        r.segment(0, FIVE[:k % 5])
    r.segment(0, FIVE)
    r.pdu(zeros[:262144 - len(r.data) - 4 - 2], 4)
    r.poll(timer=1, sent=DONE)
    assert len(r.data) == 262144


def long_records():
    """Thousands of polls and refused PDUs while a transfer waits: the limit is 3,000, and only the flags of polls count."""
    r = Recording("long_records", entries=((1, 3000, 0),))
    refused = ((3, b""), (4, metadata(version=0)), (7, pdu(b"")), (8, pdu(b"\5")), (9, eof(SUM5, 5, dest=3)), (10, pdu(b"\x09\0")),
               (11, metadata()), (12, eof(SUM5, 5)), (13, segment(0, FIVE, seq=6)), (14, pdu(b"\0", kind=1)))
    r.metadata()
    r.segment(0, b"\1\2\3\4")
    r.eof(SUM5, 5)
    for k in range(1, 3000):
        r.poll(timer=1)
        if k % 2:
            number, data = refused[k // 2 % 10]
            r.pdu(data, number, timer=1)
    r.poll()
    r.poll(timer=1, sent=LOST)
    for k in range(500):
        r.poll(timer=k % 2)
    r.metadata()
    r.segment(0, b"\1\2\3\4")
    r.eof(SUM5, 5)
    for k in range(1, 3000):
        r.poll(timer=1)
    r.segment(4, b"\5", timer=1, sent=DONE)


def program_test():
    """The program crate's own test: 90 transfers in some 5,000 records, more than 262,144 bytes, and a bad record at the end.
    Transfer k has k segments of k bytes, the last first; its twin's come between and are refused with 13."""
    r = Recording("crates/rxt", store=8100, entries=((1, 2, 0), (3, 2, 1)))
    for k in range(1, 91):
        file = bytes((k + i) % 256 for i in range(k * k))
        h = dict(seq=k, source=1 if k % 2 else 3)
        closure = 0 if k % 3 == 0 else 1
        done = finished(**h) if closure else None
        r.metadata(closure=closure, size=k * k, **h)
        for j in range(k - 1, -1, -1):
            r.segment(j * k, file[j * k:j * k + k], **h)
            if j % 8 == 0:
                r.segment(j * k, b"\xee" * (k // 2), 13, seq=k, source=3 if k % 2 else 1)
        if k % 5 == 0:  # the sum is one too large: the limit is 2
            r.eof((words(file) + 1) % 2**32, k * k, **h)
            r.poll(timer=1)
            r.poll(timer=1, sent=finished(10, 0, k % 2, **h) if closure else None)
        else:
            r.eof(words(file), k * k, sent=done, **h)
        r.poll()
    assert 262144 < len(r.data) < 350000
    r.bad(b"\1\0\0")
    return WRITTEN.pop()


numbers_to_try()
refusals_of_any_step()
refusal_10_of_bodies()
refusal_11()
refusal_12()
refusal_13()
refusal_14()
refusal_15()
refusals_16_to_18()
refusal_19()
faults()
faults_together()
waits()
headers()
bad_records()
several()
twins()
long_store()
long_largest()
long_exact()
long_records()
own = program_test()

folder = ROOT / "recordings"
folder.mkdir(exist_ok=True)
assert len({r.name for r in WRITTEN}) == len(WRITTEN)
for old in list(folder.glob("*.rxt")) + list(folder.glob("*.txt")):
    old.unlink()
for r in WRITTEN:
    folder.joinpath(r.name + ".rxt").write_bytes(r.data)
    folder.joinpath(r.name + ".txt").write_text(r.text())
ROOT.joinpath("crates/rxt/stdin").write_bytes(own.data)
ROOT.joinpath("crates/rxt/stdout").write_text(own.text())
print(f"{len(WRITTEN)} recordings, and the program's own")
