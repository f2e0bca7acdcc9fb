"""DNS compared with a decoder in Python, written from RFC 1035.

Both return the questions and records of each message, with their names as text, their data and the
offsets after them; or the section and entry of the error, with its reason and offset.
"""
import struct

from peers.dns_messages import messages
from peers.harness import Comparison, each, summed

# The maximum number of consecutive pointers that are followed.
LEVEL = 2


class Refused(Exception):
    """The reason why a message is invalid."""


def decoded_name(message, place):
    """Returns the labels at an offset, and the offset after them."""
    labels, octets, behind = [], 1, None
    begin = at = place
    followed = 0
    while True:
        length = message[at] if at < len(message) else None
        if length is not None and length < 64 and length and at + 1 + length <= len(message):
            labels.append(message[at + 1:at + 1 + length])
            octets += 1 + length
            at += 1 + length
            if octets > 255:
                raise Refused(f"TooLong({begin})")
            continue
        if length is None or 0 < length < 64:
            raise Refused(f"Ends({at})")
        if length == 0:
            return labels, at + 1 if behind is None else behind
        if length < 192:
            raise Refused(f"Reserved({at})")
        if at + 1 == len(message):
            raise Refused(f"Ends({at})")
        to = struct.unpack_from(">H", message, at)[0] & 0x3FFF
        if to >= begin:
            raise Refused(f"NotPrior({at})")
        if followed == LEVEL:
            raise Refused(f"TooMany({at})")
        followed += 1
        behind = at + 2 if behind is None else behind
        begin = at = to


def shown(labels):
    """Returns a name in the form of master files."""
    def byte(code):
        if chr(code) in '"().;\\@$':
            return "\\" + chr(code)
        return chr(code) if 33 <= code <= 126 else f"\\{code:03}"
    return "".join("".join(map(byte, label)) + "." for label in labels) or "."


def last_name(data, place):
    """Returns the name at the end of the data, as text."""
    labels, behind = decoded_name(data, place)
    if behind < len(data):
        raise Refused(f"Trailing({behind})")
    return shown(labels) + " "


def numbers(data, place, form):
    """Returns numbers in the data at an offset, as text."""
    if place + struct.calcsize(form) > len(data):
        raise Refused(f"Ends({place})")
    return "".join(f"{number} " for number in struct.unpack_from(form, data, place))


def address(data, place, size):
    """Returns the octets of an address, which the data have from an offset on."""
    if len(data) < place + size:
        raise Refused(f"Ends({place})")
    if len(data) > place + size:
        raise Refused(f"Trailing({place + size})")
    return summed(data[place:])


def decoded_data(data, place, kind, kind_class):
    """Returns the data from an offset on, by their type. The message is truncated after the
    data."""
    if place == len(data) and kind_class in (254, 255):
        return summed(b"")
    if kind in (2, 5, 12):
        return last_name(data, place)
    if kind == 6:
        primary, second = decoded_name(data, place)
        mailbox, behind = decoded_name(data, second)
        said = numbers(data, behind, ">5I")
        if behind + 20 < len(data):
            raise Refused(f"Trailing({behind + 20})")
        return f"{shown(primary)} {shown(mailbox)} {said}"
    if kind == 15:
        return numbers(data, place, ">H") + last_name(data, place + 2)
    if kind == 16:
        said = ""
        while not said or place < len(data):
            if place == len(data) or place + 1 + data[place] > len(data):
                raise Refused(f"Ends({place})")
            said += summed(data[place + 1:place + 1 + data[place]])
            place += 1 + data[place]
        return said
    if kind_class == 1 and kind in (1, 28):
        return address(data, place, 4 if kind == 1 else 16)
    if kind_class == 1 and kind == 33:
        return numbers(data, place, ">3H") + last_name(data, place + 6)
    return summed(data[place:])


def decoded_record(message, place):
    """Returns the record at an offset, as text, and the offset after it."""
    labels, behind = decoded_name(message, place)
    if behind + 10 > len(message):
        raise Refused(f"Ends({behind})")
    kind, kind_class, time, size = struct.unpack_from(">HHIH", message, behind)
    start, end = behind + 10, behind + 10 + size
    if end > len(message):
        raise Refused(f"Ends({start})")
    data = decoded_data(message[:end], start, kind, kind_class)
    return f"{shown(labels)} {kind} {kind_class} {time} {data}{end} ", end


def decoded_question(message, place):
    """Returns the question at an offset, as text, and the offset after it."""
    labels, behind = decoded_name(message, place)
    if behind + 4 > len(message):
        raise Refused(f"Ends({behind})")
    kind, kind_class = struct.unpack_from(">HH", message, behind)
    return f"{shown(labels)} {kind} {kind_class} {behind + 4} ", behind + 4


def decoded(message):
    """Returns the decoder's result for a message."""
    if len(message) < 12:
        return "Header 0: Ends(0)"
    counts = struct.unpack_from(">4H", message, 4)
    place, parts = 12, []
    for section, count in zip(("Question", "Answer", "Authority", "Additional"), counts):
        said = ""
        for entry in range(count):
            try:
                if section == "Question":
                    more, place = decoded_question(message, place)
                else:
                    more, place = decoded_record(message, place)
            except Refused as why:
                return f"{section} {entry}: {why}"
            said += more
        parts.append(said)
    return f"{'; '.join(parts)}; {place}"


def kind(row, ours, theirs):
    """Returns `read`, or the reason of the error."""
    return theirs.partition(": ")[2].partition("(")[0] if theirs[-1] == ")" else "read"


COMPARISONS = [
    Comparison(
        "dns/messages", "a decoder in Python", "format_dns", "dns",
        messages, lambda row: bytes([LEVEL]) + row, each(decoded), kind=kind, seed=1035, count=500,
    ),
]
