"""The files that are sent."""

import pathlib
import struct

ROOT = pathlib.Path(__file__).resolve().parents[2]
FOLDERS = (ROOT / "../shared/corpus", ROOT / "tests/files")
LONGEST = {"sony": 23_723_672, "arri": 8_192}
NESTED = 60_000  # over-long elements, each in the one before: more bytes than a receiver maps at once
PAYLOAD_ROOM = 4096
ANCILLARY = bytes.fromhex("060e2b34010201010d01030117010201")
PICTURE = bytes.fromhex("060e2b34024301010d01030104010301")
FRAME_DATA = bytes.fromhex("060e2b34010201010d01030117010f00")
LENS_UNIT_SET = bytes.fromhex("060e2b34025301010c02010101010000")
PACKAGE = bytes.fromhex("060e2b34024301010d01030104010203")
SEQUENCE_INFO = bytes.fromhex("060e2b340101010d0e15000000010000")
PRIVATE = bytes.fromhex("060e2b340101010d0e15000100010000")
PRIMER, TABLE = bytes.fromhex("060e2b34020501010d01020101050100"), bytes.fromhex("ffffffff00000012")
VALUE = len(PRIMER) + 9  # where the value of a primer starts


def klv(label, value):
    return label + b"\x84" + len(value).to_bytes(4, "big") + value


def primer(claim, size):
    """What `send primer` sends: a primer that claims so many bytes, and so many of them."""
    return PRIMER + b"\x88" + claim.to_bytes(8, "big") + TABLE + bytes(size - len(TABLE))


def picture(block):
    """The value of a picture metadata element with ARRI's 256 bytes."""
    run = klv(LENS_UNIT_SET, b"\x82\x00\x01\x00" + block)
    return b"\x88" + len(run).to_bytes(2, "big") + run


def item(kind, number):
    """An item of an ALEXA 35's set, with a whole number."""
    return bytes.fromhex("060e2b340101010e0e170102") + kind + b"\x00\x00\x04" + number.to_bytes(4, "big")


def ancillary(payload):
    """The value of an ST 436 element of one line."""
    samples = b"\x43\x05\x00\x00" + payload
    size = len(samples)
    return struct.pack(">HHBBHII", 1, 9, 2, 4, size, size, 1) + samples


def package(*packs):
    """The value of a package metadata set with a Private Camera Metadata of these packs, and an empty one."""
    runs = [klv(PRIVATE, bytes([len(packs)]) + b"".join(packs)), klv(PRIVATE, b"\x00")]
    return b"".join(b"\x88" + len(run).to_bytes(2, "big") + run for run in runs)


def canon():
    """A file of Canon's frames and given values."""
    packs = [b"\x01\x00\x32\xff\xff", b"\x05\x00\x1c\x00\x0a", b"\x0a\x00\x00\xff\xfe", b"\x06\x20\x0c\x80\x7f", b"\x09\x00\x00\x03\x20",
             b"\x0e\x00\x05\x00\x00", b"\x0f\xff\xf6\x00\x00"]
    start = struct.pack(">HHqHHq", 0x1501, 8, 3600, 0x1201, 8, -2)
    return b"".join([
        klv(PACKAGE, package(*packs)), klv(ANCILLARY, ancillary(b"first")), klv(SEQUENCE_INFO, start), b"lost",
        klv(PACKAGE[:7] + b"\x09" + PACKAGE[8:], b"none"), klv(ANCILLARY, ancillary(b"second")), klv(SEQUENCE_INFO, b""),
    ])


def cameras():
    """A file of both other cameras' frames: with values, without, over-long, the longest, with a payload that needs more room, longer
    than what is read at once, and no frames."""
    block = bytearray(b"\xff" * 256)
    block[0xA4:0xB0] = struct.pack(">III", 1000, 32_000, 2800)
    block[0x50:0x58] = struct.pack(">If", 20_833, 172_812.5)
    block[0xE0:0xE8] = struct.pack(">IHh", 15, 0, -10)
    stop, index, balance = item(b"\x0d\x03", 4096), item(b"\x0e\x03", 800), item(b"\x0e\x05", 5600)
    lens = klv(bytes.fromhex("060e2b34020101010e1701020d000000"), stop + index + balance)
    far = bytearray(block)
    far[0xA4:0xA8] = b"\xff" * 4
    inner = klv(PICTURE, picture(bytes(far))) + klv(ANCILLARY, ancillary(b"inside"))
    return b"".join([
        b"run-in \x06\x0e\x2b",
        klv(PICTURE, picture(bytes(block))),
        klv(FRAME_DATA, b""),
        klv(ANCILLARY, ancillary(b"a payload")),
        LENS_UNIT_SET + b"\x89",
        klv(FRAME_DATA[:13] + b"\x09\x0f\x07", lens),
        klv(PICTURE, inner + b"\x00" * (8193 - len(inner))),
        klv(PICTURE, b"no items"),
        klv(PICTURE, picture(bytes(far)).ljust(LONGEST["arri"], b"\x00")),
        klv(ANCILLARY, ancillary(b"x" * (PAYLOAD_ROOM + 1))),
        klv(ANCILLARY, ancillary(b"x" * 40_000)),
        klv(ANCILLARY[:7] + b"\x02" + ANCILLARY[8:], ancillary(b"byte 7 counts")),
        b"\x06\x0e\x2b\x34",
    ])


def over_long():
    """The example of docs/RULES.md, "L13. Certain frames": an over-long element with a frame in it, and one behind it."""
    frame = FRAME_DATA + b"\x00"
    return FRAME_DATA + b"\x82\x20\x01" + b"\x00" * 81 + frame + b"\x00" * 8095 + frame


def nested(count):
    """Over-long elements, each inside the one before, which end alike, then a frame that begins in them all and one behind them."""
    tail = b"\x00" * 9_000 + klv(FRAME_DATA, b"")[:12]
    size = len(klv(FRAME_DATA, b""))
    heads = (FRAME_DATA + b"\x84" + (size * (count - 1 - i) + len(tail)).to_bytes(4, "big") for i in range(count))
    return b"".join(heads) + tail + klv(FRAME_DATA, b"")[12:] + klv(ANCILLARY, ancillary(b"behind"))


def inside():
    """Both cameras' frames, and a long record that has such frames in it: torn there, a walk that goes on inside it counts on."""
    both = klv(FRAME_DATA, b"") + klv(ANCILLARY, ancillary(b"both"))
    return both + both + klv(LENS_UNIT_SET, both + bytes(9_000))


def longest():
    """Sony's longest element, one that is over-long with Canon's and Sony's inside, and the other cameras' file."""
    inside = klv(ANCILLARY, ancillary(b"inside")) + canon()
    return b"".join(klv(ANCILLARY, inside.ljust(LONGEST["sony"] + more, b"\x00")) for more in (0, 1)) + cameras()


def files(room):
    """Makes files in a folder, and gives all that are sent, by name."""
    made = {"cameras": cameras, "canon": canon, "over-long": over_long, "inside": inside, "longest": longest}
    made |= {"in-each-other": lambda: nested(12), "deep": lambda: nested(NESTED)}
    for name, make in made.items():
        (room / f"{name}.mxf").write_bytes(make())
    return {path.stem: path for folder in (*FOLDERS, room) for path in sorted(folder.glob("*.mxf"))}
