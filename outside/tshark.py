#!/usr/bin/env python3
"""Holds the lines of the PDU layer's vectors against tshark, a reader of CFDP from elsewhere.

    tshark.py check [LINES]    compares with tshark's answers as tshark.txt keeps them; tshark itself is not needed
    tshark.py record           asks tshark and writes tshark.txt

LINES is an output of the program `vectors`; without it, crates/vectors/stdout is taken. README.md explains the differences.
"""
import struct
import subprocess
import sys
from collections import Counter
from pathlib import Path
from typing import NamedTuple
from xml.etree import ElementTree

HERE = Path(__file__).resolve().parent
VECTORS = HERE.parent / "crates/vectors"
LIST = HERE / "tshark.txt"
LINK_TYPE = 147
DISSECTOR = f'uat:user_dlts:"User 0 (DLT={LINK_TYPE})","cfdp","0","","0",""'


def stop(text):
    sys.exit(f"tshark.py: {text}")


# --- the vectors -----------------------------------------------------------------------------------------------------------


def words(line):
    """The words of a line by their labels; those without one are its answer."""
    labelled = [w.split("=", 1) for w in line.split() if "=" in w]
    return {"answer": " ".join(w for w in line.split() if "=" not in w), **dict(labelled)}


class Vector(NamedTuple):
    kind: str  # P, U or F: crates/vectors/src/main.rt says what each is
    data: bytes
    line: str
    name: str

    def pdu(self):
        """The PDU that is read or written, None where there is none."""
        ours = words(self.line)
        if self.kind == "P":
            return self.data[8:]
        if self.kind == "F" and "bytes" in ours:
            return bytes.fromhex(ours["out"])[:int(ours["bytes"])]
        return None


def vectors(lines):
    inputs = [line.partition(" # ") for line in VECTORS.joinpath("stdin").read_text().splitlines()]
    answers = [line.partition(" # ") for line in lines.read_text().splitlines()]
    if [i[2] for i in inputs] != [a[2] for a in answers]:
        stop(f"the names in {lines} are not those of the vectors")
    return [Vector(i[0][0], bytes.fromhex(i[0][1:]), a[0], a[2]) for i, a in zip(inputs, answers)]


def with_pdu(every):
    return [v for v in every if v.pdu() is not None]


# --- asking tshark ---------------------------------------------------------------------------------------------------------


def capture(pdus):
    """A capture file with a packet for each PDU."""
    packets = (struct.pack("<IIII", 0, 0, len(p), len(p)) + p for p in pdus)
    return struct.pack("<IHHiIII", 0xA1B2C3D4, 2, 4, 0, 0, 65535, LINK_TYPE) + b"".join(packets)


def tshark(*options, data=b""):
    try:
        return subprocess.run(["tshark", *options], input=data, capture_output=True, check=True).stdout
    except FileNotFoundError:
        stop("there is no tshark here: install it (Debian: apt-get install tshark), or use `check`, which needs none")
    except subprocess.CalledProcessError as error:
        stop(f"tshark failed: {error.stderr.decode()}")


def fields(packet):
    """tshark's fields of a packet in its order, each as name=value@start..end, the value in hex; a group of fields has no value."""
    for element in packet.iter():
        name, start, length = element.get("name"), int(element.get("pos") or 0), int(element.get("size") or 0)
        place = f"@{start}..{start + length}"
        if name == "data.data" or name and name.startswith("cfdp."):
            yield f"{name.rpartition('.')[2]}={element.get('value', '').lower()}{place}"
        elif name == "":
            yield element.get("show").replace(" ", "-") + place
        elif name == "_ws.malformed":
            yield "malformed" + place


def record():
    asked = with_pdu(vectors(VECTORS / "stdout"))
    version = tshark("--version").decode().splitlines()[0]
    pdml = tshark("-n", "-r", "-", "-o", DISSECTOR, "-T", "pdml", data=capture(v.pdu() for v in asked))
    packets = ElementTree.fromstring(pdml).findall("packet")
    lines = [" ".join([v.pdu().hex() or "-", *fields(p)]) + f" # {v.name}" for v, p in zip(asked, packets, strict=True)]
    LIST.write_text("\n".join([version, *lines, ""]))
    print(f"{len(lines)} PDUs recorded with {version}")


# --- tshark's fields in our words ------------------------------------------------------------------------------------------


class Field(NamedTuple):
    value: str
    start: int
    end: int

    def width(self):
        return self.end - self.start


class Shown(dict):
    """What tshark shows of a PDU: its fields by name, the first of each."""

    def __init__(self, listed):
        for field in listed:
            label, place = field.split("@")
            name, _, value = label.partition("=")
            self.setdefault(name, Field(value, *map(int, place.split(".."))))

    def number(self, name):
        return int(self[name].value, 16) if name in self else None

    def octets(self, name):
        return self[name].value if name in self else ""

    def size(self):
        """The first field of a size's width."""
        return self.get("offset") or self.get("file_size")

    def data_end(self):
        return self["dstid"].end + self.number("data_length")

    def within(self, name, group):
        """Whether a field is shown and ends inside its group."""
        return name in self and self[name].end <= self[group].end

    def unread(self):
        """Whether tshark leaves bytes of the data field in no field."""
        return "data" in self and self["data"].start < self.data_end()

    def overrun(self):
        """Whether a field or a group, other than the bytes left over, ends behind the data field."""
        return any(self.data_end() < field.end for name, field in self.items() if name != "data")

    def held(self):
        """The groups, and the fields that end inside the data field."""
        held = Shown([])
        held.update((name, field) for name, field in self.items() if not field.value or field.end <= self.data_end())
        return held


def refused(number):
    return {"answer": f"refused {number}"}


def line_words(answer, **others):
    return {"answer": answer, **{label: str(value) for label, value in others.items()}}


def header_words(shown, answer):
    number = shown.number
    return line_words(answer, unacknowledged=number("trans_mode"), large=number("res1"),
                      widths=f"{shown['srcid'].width()},{shown['transeqnum'].width()}",
                      source=number("srcid"), seq=number("transeqnum"), dest=number("dstid"),
                      field=f"{shown['dstid'].end}..{shown.data_end()}")


def body_words(shown, kind):
    """The words of a body, as far as tshark shows it, behind those of its header."""
    number, header = shown.number, header_words(shown, kind)
    if kind == "file-data":
        return line_words(**header, offset=number("offset"), segment=shown.octets("user_data"))
    if kind == "eof":
        return line_words(**header, checksum=number("checksum"), size=number("file_size"))
    spare = number("spare_seven") or 0
    return line_words(**header, closure=spare >> 6, type=spare & 15, size=number("file_size"),
                      **{"from": shown.octets("src_file_name"), "to": shown.octets("dst_file_name")},
                      message="unread" if shown.unread() else int("Message-To-User-TLV" in shown))


def finished_words(shown):
    if "malformed" in shown or "data" in shown or shown.number("fdtype") != 5:
        return line_words("no Finished PDU")
    number = shown.number
    return line_words(**header_words(shown, "finished"), direction=number("direction"), control=number("res2"), metadata=number("res3"),
                      condition=number("condition_code"), spare=number("end_system_stat"), incomplete=number("delivery_code"),
                      status=number("file_status"), fault=shown.octets("entity"))


def finished_asked(vector):
    """The words that a Finished PDU is to show, from the fields of its vector and the length that our line gives."""
    data, length = vector.data, words(vector.line)["bytes"]
    mode, large, entity, sequence = data[:4]
    source, seq, dest, local = (int.from_bytes(data[at:at + 8], "big") for at in (4, 12, 20, 32))
    condition, complete, retained, width = data[28:32]
    return line_words("finished", unacknowledged=mode, large=large, widths=f"{entity},{sequence}", source=source, seq=seq, dest=dest,
                      field=f"{4 + 2 * entity + sequence}..{length}", direction=1, control=0, metadata=0, condition=condition, spare=0,
                      incomplete=1 - complete, status=2 * retained,
                      fault="" if condition in (0, 11) else local.to_bytes(width, "big").hex())


def directive(shown):
    """The kind of a directive PDU's body, or the refusal."""
    acked = {4: refused(8), 5: refused(10)}.get(shown.number("dir_code_ack"), refused(7))
    kinds = {4: "eof", 5: refused(8), 6: acked, 7: "metadata", 8: refused(8), 9: refused(10), 12: refused(8)}
    return kinds.get(shown.number("fdtype"), refused(7))


def routed(shown, local):
    """The body's kind, or the refusal that comes before a body is read, in document 01's order."""
    if "dstid" not in shown:
        return refused(3)
    if shown.number("version") != 1:
        return refused(4)
    if not {shown.number("entid_length"), shown.number("transeqnum_length")} <= {0, 1, 3, 7}:
        return refused(5)
    if shown.number("crc_flag"):
        return refused(6)
    if "CFDP-File-Directive" not in shown and "CFDP-File-Data" not in shown:
        return refused(3)
    kind = "file-data" if shown.number("pdu_type") else directive(shown)
    if kind in ("file-data", "metadata", "eof") and shown.number("dstid") != local:
        return refused(9)
    if kind == "eof" and shown.number("condition_code"):
        return refused(10)
    return kind


def shown_words(shown, local):
    """The words of a PDU as tshark shows it."""
    kind = routed(shown, local)
    if not isinstance(kind, str):
        return kind
    malformed = "malformed" in shown or kind == "eof" and shown.unread()
    return refused(14) if malformed else body_words(shown, kind)


# --- the differences -------------------------------------------------------------------------------------------------------


RULES = {
    "large-file": lambda s: s.number("res1") and s.size() and s.size().width() == 4,
    "segment-metadata": lambda s: s.number("res3") and "offset" in s and s["offset"].start == s["dstid"].end,
    "options-unread": lambda s: s.number("fdtype") == 7 and s.unread() and s.number("data_length") <= s["data"].start,
    "option-overrun": lambda s: "Filestore-Request-TLV" in s and not s.within("first_file_name", "Filestore-Request-TLV"),
    "field-overrun": Shown.overrun,
}


class Malformed(Exception):
    pass


def take(data, count):
    """The first bytes, and the others."""
    if len(data) < count:
        raise Malformed
    return data[:count], data[count:]


def take_counted(data):
    """As many bytes as the first one says, and the others."""
    count, data = take(data, 1)
    return take(data, count[0])


def cut(kind, data, large, metadata):
    """The words of a body from its size or offset on, with each field where CCSDS 727.0-B-5 has it."""
    if kind == "file-data" and metadata:
        count, data = take(data, 1)
        _, data = take(data, count[0] & 63)
    size, data = take(data, 8 if large else 4)
    size = str(int.from_bytes(size, "big"))
    if kind == "file-data":
        return {"offset": size, "segment": data.hex()}
    if kind == "eof":
        if data:
            raise Malformed
        return {"size": size}
    source, data = take_counted(data)
    dest, data = take_counted(data)
    types = set()
    while data:
        option, data = take(data, 1)
        _, data = take_counted(data)
        types.add(option)
    return {"size": size, "from": source.hex(), "to": dest.hex(), "message": str(int(b"\2" in types))}


def cut_anew(shown, local, pdu):
    """The words of a PDU that tshark cuts elsewhere than the standard."""
    held = shown.held()
    kind, size = routed(held, local), held.size()
    if not isinstance(kind, str):
        return kind
    if not size:
        return refused(14)
    try:
        return {**body_words(held, kind),
                **cut(kind, pdu[size.start:held.data_end()], held.number("res1"), held.number("res3"))}
    except Malformed:
        return refused(14)


def cut_off(pdu):
    """The refusal of a header that is not whole, by its first four bytes."""
    first, widths = pdu[0], {pdu[3] >> 4 & 7, pdu[3] & 7}
    return refused(4 if first >> 5 != 1 else 5 if not widths <= {0, 1, 3, 7} else 6 if first & 2 else 3)


def answers(vector, shown):
    """The words by tshark's fields, the words that are due, and the rules that lead from those to these."""
    pdu, local = vector.pdu(), int.from_bytes(vector.data[:8], "big")
    seen = shown_words(shown, local)
    if set(shown) == {"malformed"} and 4 <= len(pdu):
        return seen, cut_off(pdu), ["header-cut"]
    rules = [name for name, holds in RULES.items() if "dstid" in shown and holds(shown)]
    return seen, cut_anew(shown, local, pdu) if rules else seen, rules


def differences(ours, other, whose):
    """The words that differ; where the answers do, only these."""
    labels = {**ours, **other} if ours["answer"] == other["answer"] else ["answer"]
    return ", ".join(f"{w} is {ours.get(w) or 'nothing'}, {whose} {other.get(w) or 'nothing'}"
                     for w in labels if ours.get(w) != other.get(w))


def first_change(pdu, listed, shown):
    """The first byte in which a PDU differs from the one in the list, and tshark's fields there."""
    at = next((i for i, (a, b) in enumerate(zip(pdu, listed)) if a != b), min(len(pdu), len(listed)))
    there = " ".join(name for name, field in shown.items() if field.value and field.start <= at < field.end)
    return (f"byte {at} ({there or 'the end'}) is {pdu[at:at + 1].hex() or 'missing'},"
            f" in the list {listed[at:at + 1].hex() or 'missing'}")


def compare(vector, listed_line):
    """How a vector stands to its line of the list: alike, explained or unexplained, by which rules, and the words that differ."""
    listed, *listed_fields = listed_line.split()
    listed, shown, pdu = bytes.fromhex(listed.strip("-")), Shown(listed_fields), vector.pdu()
    if pdu != listed:
        return "unexplained", [], first_change(pdu, listed, shown)
    if vector.kind == "F":
        ours, seen, rules = finished_asked(vector), finished_words(shown), []
        due = seen
    else:
        ours, (seen, due, rules) = words(vector.line), answers(vector, shown)
    if ours != due:
        return "unexplained", rules, differences(ours, due, "due is")
    return "alike" if ours == seen else "explained", rules, differences(ours, seen, "by tshark")


def check(lines):
    every = vectors(lines)
    shown_to = with_pdu(every)
    listed = [line.partition(" # ") for line in LIST.read_text().splitlines()[1:]]
    if [v.name for v in shown_to] != [line[2] for line in listed]:
        stop("tshark.txt is of other vectors: run `tshark.py record` where tshark is, and read the diff")
    tally = Counter()
    for vector, line in zip(shown_to, listed):
        verdict, rules, text = compare(vector, line[0])
        tally[verdict] += 1
        if text:
            print(f"{verdict}{' by ' if rules else ''}{' and '.join(rules)}: {vector.name}: {text}")
    print(f"{len(every)} vectors: {tally['alike']} shown alike, {tally['explained']} explained, {len(every) - len(shown_to)} without a PDU,"
          f" {tally['unexplained']} unexplained")
    return int(tally["unexplained"] > 0)


def main(command):
    try:
        if command == ["record"]:
            return record()
        if command[:1] == ["check"] and len(command) <= 2:
            return check(Path(command[1]) if command[1:] else VECTORS / "stdout")
    except (OSError, ValueError) as error:
        stop(error)
    stop("say `tshark.py check [LINES]` or `tshark.py record`; the head of this file says what they do")


if __name__ == "__main__":
    sys.exit(main(sys.argv[1:]))
