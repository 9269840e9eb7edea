"""PNG pictures, with the standard library alone: read to their colours, and written small, with a palette."""
import struct
import zlib

SIGNATURE = b"\x89PNG\r\n\x1a\n"


def chunks(data):
    """The chunks of a PNG file: their names and bytes."""
    at = len(SIGNATURE)
    while at < len(data):
        (length,) = struct.unpack(">I", data[at: at + 4])
        yield data[at + 4: at + 8], data[at + 8: at + 8 + length]
        at += 12 + length


def nearest(left, above, corner):
    """The neighbour that PNG's filter of Paeth takes."""
    guess = left + above - corner
    return min((abs(guess - left), 0, left), (abs(guess - above), 1, above), (abs(guess - corner), 2, corner))[2]


def unfiltered(kind, line, last, step):
    """A line of bytes without its filter; `last` is the line above."""
    for at in range(len(line)):
        left, corner = (line[at - step], last[at - step]) if at >= step else (0, 0)
        add = (0, left, last[at], (left + last[at]) // 2, nearest(left, last[at], corner) if kind == 4 else 0)[kind]
        line[at] = (line[at] + add) & 255
    return line


def read(data):
    """The width and the rows of a PNG of 8 bits a channel, not interlaced: each row its colours as red, green, blue."""
    parts = list(chunks(data))
    assert data.startswith(SIGNATURE) and parts[0][0] == b"IHDR" and parts[-1][0] == b"IEND"
    width, height, depth, color, _, _, interlaced = struct.unpack(">IIBBBBB", parts[0][1])
    assert depth == 8 and color in (2, 6) and not interlaced
    step = 3 if color == 2 else 4
    raw = zlib.decompress(b"".join(body for name, body in parts if name == b"IDAT"))
    rows, last = [], bytearray(width * step)
    for start in range(0, len(raw), 1 + width * step):
        line = bytearray(raw[start + 1: start + 1 + width * step])
        last = unfiltered(raw[start], line, last, step)
        rows.append(list(zip(last[0::step], last[1::step], last[2::step])))
    assert len(rows) == height
    return width, rows


def palette_of(rows):
    """At most 256 colours, the most frequent first, and which of them stands for each colour."""
    counts = {}
    for row in rows:
        for color in row:
            counts[color] = counts.get(color, 0) + 1
    ordered = sorted(counts, key=lambda color: (-counts[color], color))
    palette = ordered[:256]
    place = {color: index for index, color in enumerate(palette)}
    for color in ordered[256:]:
        place[color] = min(range(len(palette)), key=lambda index: distance(color, palette[index]))
    return palette, place


def distance(one, other):
    return sum((left - right) ** 2 for left, right in zip(one, other))


def write(width, rows):
    """A PNG of these rows with a palette."""
    palette, place = palette_of(rows)
    raw = b"".join(b"\0" + bytes(place[color] for color in row) for row in rows)
    parts = [(b"IHDR", struct.pack(">IIBBBBB", width, len(rows), 8, 3, 0, 0, 0)),
             (b"PLTE", b"".join(bytes(color) for color in palette)), (b"IDAT", zlib.compress(raw, 9)), (b"IEND", b"")]
    return SIGNATURE + b"".join(
        struct.pack(">I", len(body)) + name + body + struct.pack(">I", zlib.crc32(name + body)) for name, body in parts)
