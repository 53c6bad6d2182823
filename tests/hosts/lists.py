"""What the receivers have to say of bytes: by klvlist and klvstream, which library/program has built, and by the library's finished and
arriving walks, which are none of the fed ones that the receivers use."""

import ctypes
import functools
import pathlib
import struct
import subprocess
import sys

ROOT = pathlib.Path(__file__).resolve().parents[2]
ARCHIVE = ROOT / "target/library/native/libbrinethimble.a"
LIMIT = 50_000_000  # bytes of an upload
KLVLIST = 65_536  # the most bytes that klvlist takes
ANSWERING = 20  # seconds
CAMERAS = ("sony", "arri")
WALKS = ("records", *CAMERAS, "canon")
KEY = bytes.fromhex("060e2b34")
SEQUENCE_INFO = bytes.fromhex("060e2b340101010d0e15000000010000")
PAYLOAD_ROOM = 4096
FRAME_VALUES = dict(enumerate(["focal", "focus", "stop", "exposure", "shutter", "tilt", "roll", "index", "balance"]))
CAMERA_VALUES = {0: "focal", 2: "f", 3: "t", 16: "shutter", 20: "balance", 24: "nd", 25: "iso", 29: "tilt", 30: "roll"}
FLOAT, DOUBLE, LINEAR = 4, 5, 8  # kinds of values
TEXTS = {7: "infinity", 10: "close", 12: "auto"}

library = None


def fail(text):
    sys.exit(f"hosts: {text}")


def same(what, had, wanted):
    """Ends the test where two lists of lines differ, and shows the first line that does."""
    if had == wanted:
        return
    at = next((i for i, pair in enumerate(zip(had, wanted)) if pair[0] != pair[1]), min(len(had), len(wanted)))
    fail(f"{what}: {len(had)} lines for {len(wanted)}; line {at} is {had[at:at + 1]}, not {wanted[at:at + 1]}")


def load(room):
    """Loads the library, to be called from here."""
    global library
    shared = room / "libbrinethimble.so"
    subprocess.run(["cc", "-shared", "-o", shared, "-Wl,--whole-archive", ARCHIVE, "-Wl,--no-whole-archive"], check=True)
    library = ctypes.CDLL(shared)
    library.brine_same_label.restype = ctypes.c_bool


def places(count):
    return (ctypes.c_uint64 * count)()


def sizes(*numbers):
    return map(ctypes.c_size_t, numbers)


# ---- Records ---------------------------------------------------------------------------------------------------------------


def program(name, given, *words):
    """The lines that a proved program writes."""
    done = subprocess.run([ROOT / "run", name, *words], input=given, capture_output=True, timeout=ANSWERING, check=True)
    return done.stdout.decode().splitlines()


def listed(data):
    """The records of the finished walk."""
    lines = program("klvlist", data)
    return lines[: next(i for i, line in enumerate(lines) if line.startswith("records "))]


def streamed(data):
    """What is said of the records of an upload that was closed. Where closing says that a value is not whole, a walk of what there is
    of it follows, which counts anew. Both are the finished walk's records, but for that count."""
    *records, _, closing = program("klvstream", data, "limit", str(LIMIT))
    more = []
    if closing != "clean":
        at, rest = map(int, closing.split()[1:])
        *more, _, closed = program("klvstream", data[at:], "end", str(rest))
        same("the walk of what is left", [closed], ["clean"])
        more = [f"{int(r[0]) + at} {r[1]} {int(r[2]) + at} {r[3]} {r[4]}" for r in map(str.split, more)]
    if len(data) <= KLVLIST:
        wanted = listed(data)
        if more:
            *words, _ = wanted[len(records)].split()
            wanted[len(records)] = " ".join([*words, str(int(words[0]) - at)])
        same("klvstream", records + more, wanted)
    said = [f"record {record}" for record in records]
    return said + [closing] * (closing != "clean") + [f"record {record}" for record in more]


def arrived(data):
    """What is said of the records of the arriving walk."""
    records, out, cursor = [], places(9), (0, 0)
    while True:
        if library.brine_arrive(data, *sizes(len(data), LIMIT, *cursor), out) != 0:
            fail("a step of the arriving walk is refused")
        cursor = out[4], out[8]
        if out[0] == 0:
            return records
        records.append(f"record {out[1]} {data[out[1] : out[1] + 16].hex()} {out[2]} {out[3]} {out[7]}")


# ---- Frames ----------------------------------------------------------------------------------------------------------------


def frames(camera, data, certain):
    """What a camera's finished or arriving walk finds, step by step, and the place where that is over, or waits."""
    step = getattr(library, f"brine_{camera}_{'arrive' if certain else 'step'}")
    found, out, cursor = [], places(10), (0, 0, 0)
    while True:
        if step(data, *sizes(len(data), LIMIT if certain else len(data)), *map(ctypes.c_uint64, cursor), out) != 0:
            fail(f"{camera}'s step is refused")
        cursor = out[6], out[9], out[7]
        if out[0] == 0:
            return found, out[6]
        names = ("number", "place", "value", "length", "over_long")
        found.append(dict(zip(names, out[1:6]), passed=out[8], given=out[0] == 2))


def left(data, at):
    """Where the value starts that a walk waits for at a place, and how much of it there is; none where it waits for no value."""
    out = places(4)
    library.brine_length(data, *sizes(len(data), at + 16), out)
    value = at + 16 + out[2]
    return (value, len(data) - value) if data.startswith(KEY, at) and out[0] == 1 else None


def told(names, kind, bits):
    """What is told of values that are there."""
    text = ""
    for i, name in names.items():
        if kind[i] == FLOAT:
            text += " %s %.3f" % (name, *struct.unpack("<f", bits[i].to_bytes(8, "little")[:4]))
        elif kind[i] == DOUBLE:
            text += " %s %.3f" % (name, *struct.unpack("<d", bits[i].to_bytes(8, "little")))
        elif kind[i] != 0:
            text += f" {'linear-' * (kind[i] == LINEAR)}{name} {TEXTS.get(kind[i], bits[i])}"
    return text


def values(data, frame):
    """What is told of an ARRI frame's values."""
    found, kind, bits = places(1), places(32), places(32)
    four = (ctypes.c_uint64 * 4)(frame["place"], frame["value"], frame["length"], 0)
    library.brine_arri_values(data, *sizes(len(data)), four, found, kind, bits)
    return told(FRAME_VALUES, kind, bits) if found[0] == 1 else " no values"


def payload(data, frame):
    """What is told of the payload of an ST 436 element."""
    value = data[frame["value"] : frame["value"] + frame["length"]]
    room, length = ctypes.create_string_buffer(PAYLOAD_ROOM), places(1)
    status = library.brine_payload(value, *sizes(len(value)), room, *sizes(PAYLOAD_ROOM), length)
    return f" payload {length[0]}" + " refused 3" * (status == 3)


def given(data, frame):
    """What is told of a value that Canon's walk gives."""
    value = data[frame["value"] : frame["value"] + frame["length"]]
    label = data[frame["place"] : frame["place"] + 16]
    if library.brine_same_label(label, *sizes(16), SEQUENCE_INFO, *sizes(16)):
        out, start = places(8), (ctypes.c_int64 * 2)()
        library.brine_sequence(value, *sizes(len(value)), out, start)
        return " sequence" + f" timecode {start[0]}" * out[6] + f" position {start[1]}" * out[7]
    packages, out = [], places(6)
    while True:
        library.brine_package(value, *sizes(len(value), out[4], out[5]), out)
        if out[0] == 0:
            break
        packages.append(value[out[2] : out[2] + out[3]])
    if not packages:
        return " package 0"
    kind, bits = places(32), places(32)
    library.brine_camera(packages[0], *sizes(len(packages[0])), kind, bits)
    return f" package {len(packages)}{told(CAMERA_VALUES, kind, bits)}"


def line(camera, frame):
    """What is said of a frame or a given value, but for what is told of it."""
    first = f"given {camera}" if frame["given"] else f"frame {camera} {frame['number']}"
    return f"{first} {frame['place']} {frame['value']} {frame['length']} {frame['passed']}"


def framed(data, camera):
    """What is said of a camera's frames of an upload that was closed: the finished list. Behind the frames that were certain a walk of
    what there is of a value follows, if one is not whole, and counts anew."""
    tell = {"sony": payload, "arri": values}[camera]
    (whole, _), (sure, at) = frames(camera, data, False), frames(camera, data, True)
    rest = left(data, at)
    more = frames(camera, data[rest[0] :], False)[0] if rest else []
    for frame in more:
        frame |= {"number": frame["number"] + len(sure), "place": frame["place"] + rest[0], "value": frame["value"] + rest[0]}
    uncounted = lambda found: [frame | {"passed": 0} for frame in found]
    same(f"{camera}'s certain frames", sure, whole[: len(sure)])
    same(f"{camera}'s frames in what is left", uncounted(more), uncounted(whole[len(sure) :]))
    lines = [line(camera, frame) + (" over-long" if frame["over_long"] else tell(data, frame)) for frame in sure + more]
    if rest is not None:
        lines.insert(len(sure), f"again {camera} {rest[0]} {rest[1]}")
    return lines


def canon(data):
    """What is said of Canon's frames and given values."""
    tell = lambda frame: " over-long" if frame["over_long"] else (given if frame["given"] else payload)(data, frame)
    return [line("canon", frame) + tell(frame) for frame in frames("canon", data, False)[0]]


# ---- Uploads ---------------------------------------------------------------------------------------------------------------


@functools.cache
def finished(data):
    """All that is said of an upload that was closed, by walk."""
    said = {"records": streamed(data)} | {camera: framed(data, camera) for camera in CAMERAS} | {"canon": canon(data)}
    counts = {walk: sum(not line.startswith(("again ", "given ")) for line in lines) for walk, lines in said.items()}
    counts["given"] = len(said["canon"]) - counts["canon"]
    return said | {"end": [" ".join(f"{walk} {count}" for walk, count in counts.items())]}


@functools.cache
def certain(data):
    """What is said of bytes before the sender closes, but for frames' values, by walk."""
    sure = {camera: [line(camera, frame) for frame in frames(camera, data, True)[0]] for camera in CAMERAS}
    return {"records": arrived(data)} | sure | {"canon": []}


def without_values(text):
    """A line without what is told of a frame besides its places."""
    words = text.split()
    return " ".join(words[: 7 if words[0] == "frame" else None])


def by_walk(lines):
    """Lines by the walk that says them; the last ones, in a list of their own, by none."""
    said = {walk: [] for walk in (*WALKS, "end")}
    for text in lines:
        first, second, *_ = text.split()
        walk = "records" if first == "record" or (first == "again" and second.isdigit()) else second
        said[walk if first != "records" and walk in WALKS else "end"].append(text)
    return said


def held(what, said, wanted):
    """Ends the test where the lines of an upload are not those that are wanted, by walk."""
    for walk, lines in by_walk(said).items():
        same(f"{what} {walk}", lines, wanted[walk])
