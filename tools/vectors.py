#!/usr/bin/env python3
"""Writes crates/vectors/stdin and stdout: the PDU layer's vectors and the lines that document 01 asks for.

Each expected line is written down here, or follows from the values that the PDU was put together from, by the layout that
document 01 gives; nothing here reads a PDU, and no output of the program is used. Run it after an edit, and read the diff.
"""
from pathlib import Path

ROWS = []


def row(kind, data, expected, name):
    ROWS.append((kind, data, expected, name))


# --- putting PDUs together -------------------------------------------------------------------------------------------------


def num(value, width):
    return value.to_bytes(width, "big")


def pdu(field, kind=0, version=1, direction=0, mode=1, crc=0, large=0, control=0, idw=1, segmeta=0, seqw=1, source=1, seq=5, dest=2,
        length=None, tail=b""):
    """A header (its widths as they are written, minus 1) and a data field; `tail` follows the PDU."""
    first = version << 5 | kind << 4 | direction << 3 | mode << 2 | crc << 1 | large
    widths = control << 7 | (idw - 1) << 4 | segmeta << 3 | (seqw - 1)
    head = bytes([first]) + num(len(field) if length is None else length, 2) + bytes([widths])
    return head + num(source, idw) + num(seq, seqw) + num(dest, idw) + field + tail


def head(n, mode=1, large=0, idw=1, seqw=1, source=1, seq=5, dest=2, **_):
    """The header's part of a line, before a data field of n bytes."""
    end = 4 + 2 * idw + seqw
    return (f" unacknowledged={mode} large={large} widths={idw},{seqw} source={source} seq={seq} dest={dest}"
            f" field={end}..{end + n}")


def p(data, expected, name, local=2):
    row("P", f"{num(local, 8).hex()} {data.hex()}", expected, name)


def size(value, large=0):
    return num(value, 8 if large else 4)


def metadata(closure=1, kind=0, length=5, large=0, source=b"a", dest=b"b", options=b"", spare=0):
    return (bytes([7, closure << 6 | kind | spare]) + size(length, large) + bytes([len(source)]) + source + bytes([len(dest)]) + dest
            + options)


def good_metadata(name, closure=1, kind=0, length=5, source=b"a", dest=b"b", options=b"", message=0, spare=0, **h):
    f = metadata(closure, kind, length, h.get("large", 0), source, dest, options, spare)
    p(pdu(f, **h), f"metadata{head(len(f), **h)} closure={closure} type={kind} size={length} from={source.hex()} to={dest.hex()}"
      f" message={message}", name, h.get("dest", 2))


def good_data(name, offset=0, segment=b"\1\2\3\4\5", before=b"", **h):
    f = before + size(offset, h.get("large", 0)) + segment
    p(pdu(f, kind=1, **h), f"file-data{head(len(f), **h)} offset={offset} segment={segment.hex()}", name, h.get("dest", 2))


def eof(checksum=0x06020304, length=5, large=0, code=0):
    return bytes([4, code]) + num(checksum, 4) + size(length, large)


def good_eof(name, checksum=0x06020304, length=5, code=0, **h):
    f = eof(checksum, length, h.get("large", 0), code)
    p(pdu(f, **h), f"eof{head(len(f), **h)} checksum={checksum} size={length}", name, h.get("dest", 2))


def refused(n, data, name, local=2):
    p(data, f"refused {n}", name, local)


# --- W1 to W10, to the letter of document 01 -------------------------------------------------------------------------------

W1 = ["24000A0001050207400000000501610162", "34000900010502000000000102030405", "24000A0001050204000602030400000005"]
H10 = " unacknowledged=1 large=0 widths=1,1 source=1 seq=5 dest=2 field=7..17"
H9 = " unacknowledged=1 large=0 widths=1,1 source=1 seq=5 dest=2 field=7..16"


def w(hexa, expected, name):
    p(bytes.fromhex(hexa), expected, name)


w(W1[0], f"metadata{H10} closure=1 type=0 size=5 from=61 to=62 message=0", "W1 to W4, W10: Metadata")
w(W1[1], f"file-data{H9} offset=0 segment=0102030405", "W1 to W4: segment")
w(W1[2], f"eof{H10} checksum=100795140 size=5", "W1: EOF, sum 06020304")
w("24000A0001050204000000000000000005", f"eof{H10} checksum=0 size=5", "W2 to W4: EOF, sum 0")
w("24000A0001050207400000000001610162", f"metadata{H10} closure=1 type=0 size=0 from=61 to=62 message=0", "W5: Metadata of an empty file")
w("24000A0001050204000000000000000000", f"eof{H10} checksum=0 size=0", "W5: EOF, sum 0")
H12 = " unacknowledged=1 large=0 widths=1,1 source=1 seq=5 dest=2 field=7..19"
w("34000C00010502000000000102030405060708", f"file-data{H12} offset=0 segment=0102030405060708", "W6: segment, words in one order")
w("34000C00010502000000000506070801020304", f"file-data{H12} offset=0 segment=0506070801020304", "W6: segment, words in the other order")
w("24000A00010502040006080A0C00000008", f"eof{H10} checksum=101190156 size=8", "W6: EOF, sum 06080A0C")
w("34000C0001050200000000FFFFFFFF00000001", f"file-data{H12} offset=0 segment=ffffffff00000001", "W7: segment")
w("24000A0001050204000000000000000008", f"eof{H10} checksum=0 size=8", "W7: EOF, sum 0")
w("340009000105020000000B0102030405", f"file-data{H9} offset=11 segment=0102030405", "W8: segment at 11")
w("340009000105020000000C0102030405", f"file-data{H9} offset=12 segment=0102030405", "W8: segment at 12")
w("340005000105020000000301", f"file-data{H9.replace('7..16', '7..12')} offset=3 segment=01", "W9: one byte at 3")
w("34000900010602000000000102030405", f"file-data{H9.replace('seq=5', 'seq=6')} offset=0 segment=0102030405", "W10: segment with sequence 6")

# --- the header ------------------------------------------------------------------------------------------------------------

whole = bytes.fromhex(W1[0])
for n in range(4):
    refused(3, whole[:n], f"3: {n} bytes")
refused(3, whole[:4], "3: four bytes, no ids")
refused(3, whole[:6], "3: header one byte short")
refused(3, whole[:7], "3: header whole, data field missing")
refused(3, whole[:-1], "3: data field one byte short")
p(whole + b"\xff", f"metadata{H10} closure=1 type=0 size=5 from=61 to=62 message=0", "one byte after the data field: not read")
good_eof("one byte after an EOF's data field: not read", tail=b"\xff")
good_data("a segment ends where the data field does", segment=b"\1\2", tail=b"\3\4\5")
refused(7, pdu(b"", tail=b"\x09\0"), "7: a Prompt behind an empty data field")
refused(7, pdu(b"\6", tail=b"\x41\0"), "7: ACK whose second byte lies behind the data field")
for part, f in (("Metadata whose last byte", metadata()), ("an empty name whose length", metadata(source=b"", dest=b"")),
                ("an option whose last byte", metadata(options=b"\2\7message")), ("EOF whose last byte", eof())):
    refused(14, pdu(f[:-1], tail=f[-1:]), f"14: {part} lies behind the data field")
f = eof(code=0x10)
refused(14, pdu(f[:1], tail=f[1:]), "14: EOF whose condition lies behind the data field")
f = size(0) + b"\1\2\3\4\5"
refused(14, pdu(f[:3], kind=1, tail=f[3:]), "14: offset whose last byte lies behind the data field")
refused(3, pdu(b"\4", length=65535), "3: data field of 65535 bytes, one there")
refused(3, b"\0\0\0", "3 before 4: three bytes of version 0")
for v in (0, 2, 3, 5, 7):
    refused(4, pdu(metadata(), version=v), f"4: version {v}")
refused(4, pdu(metadata(), version=0, idw=3), "4 before 5")
refused(4, pdu(metadata(), version=0, crc=1), "4 before 6")
refused(4, pdu(metadata(), version=0)[:5], "4 before 3 (rest)")
for width in (3, 5, 6, 7):
    refused(5, pdu(metadata(), idw=width), f"5: ids {width} bytes wide")
    refused(5, pdu(metadata(), seqw=width), f"5: sequence number {width} bytes wide")
refused(5, pdu(metadata(), idw=3, crc=1), "5 before 6")
refused(5, pdu(metadata(), idw=7)[:4], "5 before 3 (rest)")
refused(6, pdu(metadata(), crc=1), "6: CRC flag")
refused(6, pdu(metadata(), crc=1)[:-1], "6 before 3 (rest)")
refused(6, pdu(b"", crc=1), "6 before 7")
good_eof("direction 1 is not looked at", direction=1)
good_eof("segmentation control is not looked at", control=1)
good_eof("mode is not looked at in an EOF", mode=0)
good_data("mode is not looked at in file data", mode=0)
good_metadata("acknowledged Metadata are read; the handler refuses them", mode=0)
for idw in (1, 2, 4, 8):
    for seqw in (1, 2, 4, 8):
        most = dict(idw=idw, seqw=seqw, source=256**idw - 1, seq=256**seqw - 1, dest=256**idw - 2)
        good_eof(f"widths {idw} and {seqw}: largest values", **most)
good_data("widths 8 and 2: each byte in its place", idw=8, seqw=2, source=0x0102030405060708, seq=0x090A, dest=0x0B0C0D0E0F101112)

# --- routing ---------------------------------------------------------------------------------------------------------------

refused(7, pdu(b""), "7: empty data field")
refused(14, pdu(b"", kind=1), "file data with an empty data field: malformed, and not 7")
for d in (0, 1, 2, 3, 10, 11, 13, 14, 15, 16, 0x47, 255):
    refused(7, pdu(bytes([d, 0x40])), f"7: directive {d}")
refused(7, pdu(b"\6"), "7: ACK without second byte")
for code in range(16):
    n = {4: 8, 5: 10}.get(code, 7)
    refused(n, pdu(bytes([6, code << 4 | 1, 0])), f"{n}: ACK of {code}")
refused(7, pdu(b"\6\4"), "7: ACK with 4 in the low half")
refused(7, pdu(b"\6\5"), "7: ACK with 5 in the low half")
refused(8, pdu(b"\6\x4f"), "8: ACK of EOF, two bytes")
refused(8, pdu(b"\5\2"), "8: Finished")
refused(8, pdu(b"\5"), "8: Finished, one byte")
refused(8, pdu(b"\x08" + bytes(8)), "8: NAK")
refused(8, pdu(b"\x0c" + bytes(4)), "8: Keep Alive")
refused(10, pdu(b"\x09\0"), "10: Prompt")
refused(9, pdu(metadata()), "9: Metadata for another", 3)
refused(9, pdu(size(0), kind=1), "9: file data for another", 3)
refused(9, pdu(eof()), "9: EOF for another", 3)
refused(9, pdu(b"\7"), "9 before 14: malformed Metadata for another", 3)
refused(9, pdu(eof()), "9: local id 258, destination 2", 258)
refused(7, pdu(b""), "7 before 9", 3)
refused(7, pdu(b"\1"), "7 before 9: unknown directive", 3)
refused(8, pdu(b"\5\2"), "8 before 9", 3)
refused(10, pdu(b"\x09\0"), "10 before 9", 3)
good_eof("the destination is compared as a value: 2 in eight bytes", idw=8)
p(pdu(eof(), dest=0), f"eof{head(10, dest=0)} checksum=100795140 size=5", "destination 0 for the entity 0", 0)

# --- Metadata --------------------------------------------------------------------------------------------------------------

good_metadata("no closure", closure=0)
good_metadata("the spare bits are not looked at", spare=0xB0)
for k in (1, 2, 3, 15):
    good_metadata(f"checksum type {k}", kind=k)
good_metadata("size 2^32 - 1", length=2**32 - 1)
good_metadata("large file: size 2^64 - 1", length=2**64 - 1, large=1)
good_metadata("both names empty: the handler refuses them", source=b"", dest=b"")
good_metadata("source name empty", source=b"")
good_metadata("destination name empty", dest=b"")
good_metadata("names of 255 bytes", source=bytes(range(1, 256)), dest=b"\xff" * 255)
good_metadata("names that are not UTF-8: the handler refuses them", source=b"\xff", dest=b"\x80")
good_metadata("an option of type 0 without value", options=b"\0\0")
good_metadata("an option of type 6 with value", options=b"\6\2\1\2")
good_metadata("Message to User without value", options=b"\2\0", message=1)
good_metadata("Message to User with 255 bytes", options=b"\2\xff" + b"\2" * 255, message=1)
good_metadata("Message to User last of three", options=b"\0\1\2\6\0\2\3abc", message=1)
good_metadata("Message to User first of two", options=b"\2\1x\0\0", message=1)
good_metadata("2 in a value is no Message to User", options=b"\0\2\2\0")
good_metadata("2 as a length is no Message to User", options=b"\1\2\2\2")
f = metadata()
for n in range(1, len(f)):
    refused(14, pdu(f[:n]), f"14: Metadata cut to {n} bytes")
fl = metadata(large=1)
for n in (2, 9, 10, 11, 12, 13):
    refused(14, pdu(fl[:n], large=1), f"14: large Metadata cut to {n} bytes")
refused(14, pdu(f, large=1), "14: Metadata with a size of 4 bytes, read as large")
refused(14, pdu(metadata(options=b"\0")), "14: an option's type alone")
refused(14, pdu(metadata(options=b"\0\1")), "14: an option's value missing")
refused(14, pdu(metadata(options=b"\0\2x")), "14: an option's value one byte short")
refused(14, pdu(metadata(options=b"\0\0\2")), "14: a second option's type alone")
refused(14, pdu(metadata(options=b"\2\0\0\1")), "14: Message to User, then one cut off")
refused(14, pdu(metadata(options=b"\2\xff" + b"\2" * 254)), "14: Message to User one byte short")

# --- file data -------------------------------------------------------------------------------------------------------------

good_data("no data", segment=b"")
good_data("offset 2^32 - 1", offset=2**32 - 1)
good_data("large file: offset 2^64 - 1", offset=2**64 - 1, large=1)
good_data("large file, no data", segment=b"", large=1)
for n in range(4):
    refused(14, pdu(size(0)[:n], kind=1), f"14: offset of {n} bytes")
refused(14, pdu(size(0, 1)[:7], kind=1, large=1), "14: large offset of 7 bytes")
good_data("segment metadata of no bytes", before=b"\0", segmeta=1)
good_data("segment metadata of 3 bytes", before=b"\3abc", segmeta=1)
good_data("segment metadata of 63 bytes", before=b"\x3f" + b"m" * 63, segmeta=1)
good_data("the record continuation state is not looked at", before=b"\xc3abc", segmeta=1)
good_data("segment metadata, large file, no data", before=b"\1m", segment=b"", segmeta=1, large=1)
refused(14, pdu(b"", kind=1, segmeta=1), "14: segment metadata's count missing")
refused(14, pdu(b"\0" + size(0)[:3], kind=1, segmeta=1), "14: offset one byte short behind no metadata")
refused(14, pdu(b"\1m" + size(0)[:3], kind=1, segmeta=1), "14: offset one byte short behind metadata")
good_data("offset exactly whole behind metadata", before=b"\1m", segment=b"", segmeta=1)
refused(14, pdu(b"\x3f" + b"m" * 62, kind=1, segmeta=1), "14: segment metadata one byte short")

# --- EOF -------------------------------------------------------------------------------------------------------------------

good_eof("largest sum and size", checksum=2**32 - 1, length=2**32 - 1)
good_eof("large file: size 2^64 - 1", length=2**64 - 1, large=1)
good_eof("the low half beside the condition is not looked at", code=0x0F)
f = eof()
refused(14, pdu(f[:1]), "14: EOF of 1 byte")
for n in range(2, 10):
    refused(14, pdu(f[:n]), f"14: EOF of {n} bytes")
refused(14, pdu(f + b"\0"), "14: EOF of 11 bytes")
fl = eof(large=1)
refused(14, pdu(fl[:-1], large=1), "14: large EOF one byte short")
refused(14, pdu(fl + b"\0", large=1), "14: large EOF one byte more")
refused(14, pdu(fl), "14: EOF with a size of 8 bytes, not large")
refused(14, pdu(f, large=1), "14: EOF with a size of 4 bytes, large")
for code in range(1, 16):
    refused(10, pdu(eof(code=code << 4)), f"10: EOF with condition {code}")
refused(10, pdu(b"\4\x10"), "10 before 14 (length): EOF of 2 bytes with condition 1")
refused(10, pdu(eof(code=0xF0) + b"\6\1\2"), "10: cancelling EOF with a fault location")

# --- UTF-8: both sides of every boundary of RFC 3629 -----------------------------------------------------------------------


def utf8(hexa, bad=None):
    row("U", hexa.lower(), "utf-8" if bad is None else f"refused 18 at={bad}", f"UTF-8 {hexa if hexa else 'empty'}")


for good in ("", "00", "41", "7F", "C280", "DFBF", "E0A080", "E0BFBF", "E18080", "ECBFBF", "ED8080", "ED9FBF", "EE8080", "EFBFBF",
             "F0908080", "F0BFBFBF", "F1808080", "F3BFBFBF", "F4808080", "F48FBFBF", "41C2A942", "E282AC20F09F9BB0", "7FC280E0A080F0908080"):
    utf8(good)
for bad, at in (("80", 0), ("BF", 0), ("C080", 0), ("C1BF", 0), ("C0", 0), ("C27F", 1), ("C2C0", 1), ("DF7F", 1), ("DFC0", 1), ("C2", 1), ("DF", 1),
                ("E0", 1), ("E080", 1), ("E09FBF", 1), ("E0C080", 1), ("E0A0", 2), ("E0A07F", 2), ("E0BFC0", 2),
                ("E17F80", 1), ("E1C080", 1), ("E180", 2), ("E1807F", 2), ("ECBFC0", 2),
                ("ED7F80", 1), ("EDA080", 1), ("EDBFBF", 1), ("ED9F7F", 2), ("ED9FC0", 2), ("EE7F80", 1), ("EEC080", 1), ("EFBF", 2), ("EFBFC0", 2),
                ("F0808080", 1), ("F08FBFBF", 1), ("F0C08080", 1), ("F0907F80", 2), ("F0BFBFC0", 3), ("F09080", 3), ("F090", 2), ("F0", 1),
                ("F17F8080", 1), ("F1C08080", 1), ("F1807F80", 2), ("F180C080", 2), ("F180807F", 3), ("F18080C0", 3), ("F18080", 3), ("F3", 1),
                ("F47F8080", 1), ("F4908080", 1), ("F4BFBFBF", 1), ("F48F7F80", 2), ("F48FBF7F", 3), ("F48FBFC0", 3), ("F5808080", 0), ("F7BFBFBF", 0),
                ("F888808080", 0), ("FC", 0), ("FE", 0), ("FF", 0), ("41C2A980", 3), ("C2C280", 1), ("E28241", 2), ("41F09F9B", 4)):
    utf8(bad, at)

# --- Finished --------------------------------------------------------------------------------------------------------------


def finished(name, expected, mode=1, large=0, idw=1, seqw=1, source=1, seq=5, dest=2, condition=0, complete=1, retained=1, width=1, local=2,
             room=40):
    data = (bytes([mode, large, idw, seqw]) + num(source, 8) + num(seq, 8) + num(dest, 8) + bytes([condition, complete, retained, width])
            + num(local, 8) + bytes([room]))
    if expected is None:
        row("F", data.hex(), f"out={'ee' * room} refused 2", name)
    else:
        out = bytes.fromhex(expected)
        row("F", data.hex(), f"out={out.hex()}{'ee' * (room - len(out))} bytes={len(out)}", name)


finished("W1: Finished", "2C 0002 00 01 05 02 05 02")
finished("W2: Finished", "2C 0005 00 01 05 02 05 A6 06 01 02", condition=10, complete=0)
finished("2: out of 39 bytes", None, room=39)
finished("2: out of no bytes", None, room=0)
finished("out of 41 bytes: the rest stays", "2C 0002 00 01 05 02 05 02", room=41)
finished("discarded", "2C 0005 00 01 05 02 05 A4 06 01 02", condition=10, complete=0, retained=0)
finished("complete and discarded", "2C 0002 00 01 05 02 05 00", retained=0)
finished("incomplete and retained", "2C 0002 00 01 05 02 05 06", complete=0)
finished("acknowledged", "28 0002 00 01 05 02 05 02", mode=0)
finished("large file", "2D 0002 00 01 05 02 05 02", large=1)
for c in range(1, 16):
    if c == 11:
        finished("condition 11: no fault location", "2C 0002 00 01 05 02 05 B2", condition=11)
    else:
        finished(f"condition {c}", f"2C 0005 00 01 05 02 05 {c:X}2 06 01 02", condition=c)
for idw in (1, 2, 4, 8):
    for seqw in (1, 2, 4, 8):
        finished(f"widths {idw} and {seqw}", f"2C 0002 {(idw - 1) << 4 | (seqw - 1):02X} {1:0{2 * idw}X} {5:0{2 * seqw}X} {2:0{2 * idw}X} 05 02",
                 idw=idw, seqw=seqw)
for width in (1, 2, 4, 8):
    finished(f"local id {width} bytes wide", f"2C {4 + width:04X} 00 01 05 02 05 A6 06 {width:02X} {2:0{2 * width}X}", condition=10, complete=0,
             width=width)
finished("40 bytes: the longest", "2D 000C 77 0102030405060708 090A0B0C0D0E0F10 1112131415161718 05 46 06 08 191A1B1C1D1E1F20", large=1, idw=8, seqw=8,
         source=0x0102030405060708, seq=0x090A0B0C0D0E0F10, dest=0x1112131415161718, condition=4, complete=0, width=8, local=0x191A1B1C1D1E1F20)

here = Path(__file__).resolve().parent.parent / "crates/vectors"
here.joinpath("stdin").write_text("".join(f"{k} {d} # {n}\n" for k, d, _, n in ROWS))
here.joinpath("stdout").write_text("".join(f"{e} # {n}\n" for _, _, e, n in ROWS))
print(f"{len(ROWS)} vectors")
