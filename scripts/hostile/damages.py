"""How a file is damaged: in one to eight places, each by one of a few ways."""

PLACES = (1, 1, 1, 2, 2, 3, 4, 5, 6, 7, 8)
BLANKS = b" \t\r\n"
SORTS = (b"0123456789", b"abcdefghijklmnopqrstuvwxyz_", b"ABCDEFGHIJKLMNOPQRSTUVWXYZ", BLANKS, b"(),.#=-+*")


def span(draw, data):
    """A range of a text: mostly a few bytes, seldom many."""
    size = min(draw.choice((1, 1, 2, 3, 8, 20, draw.randint(1, len(data)))), len(data))
    at = draw.randint(0, len(data) - size)
    return at, at + size


def flipped(draw, data):
    """One bit of a byte."""
    at = draw.randrange(len(data))
    return data[:at] + bytes([data[at] ^ 1 << draw.randrange(8)]) + data[at + 1 :]


def other_byte(draw, data):
    at = draw.randrange(len(data))
    return data[:at] + bytes([draw.randrange(256)]) + data[at + 1 :]


def alike(draw, data):
    """A byte becomes another of its sort: a digit a digit, a blank a blank."""
    at = draw.randrange(len(data))
    sort = next((sort for sort in SORTS if data[at] in sort), SORTS[0])
    return data[:at] + bytes([draw.choice(sort)]) + data[at + 1 :]


def cut(draw, data):
    """A range is left out; or, seldom, all from a place on."""
    a, b = span(draw, data)
    return data[:a] if draw.random() < 0.05 else data[:a] + data[b:]


def doubled(draw, data):
    a, b = span(draw, data)
    return data[:b] + data[a:]


def swapped(draw, data):
    """Two ranges of one size change places."""
    a, b = span(draw, data)
    at = draw.randint(0, len(data) - (b - a))
    a, at, size = min(a, at), max(a, at), b - a
    if at < a + size:
        return data
    return data[:a] + data[at : at + size] + data[a + size : at] + data[a : a + size] + data[at + size :]


def line_moved(draw, data):
    lines = data.split(b"\n")
    line = lines.pop(draw.randrange(len(lines)))
    lines.insert(draw.randint(0, len(lines)), line)
    return b"\n".join(lines)


def lines_swapped(draw, data):
    lines = data.split(b"\n")
    a, b = draw.randrange(len(lines)), draw.randrange(len(lines))
    lines[a], lines[b] = lines[b], lines[a]
    return b"\n".join(lines)


KEEPING = (flipped, alike, alike, swapped, line_moved, lines_swapped)
ALL = KEEPING + (other_byte, cut, doubled)


def damaged(draw, data, ways=ALL):
    """The text with some damage, so that it is another one."""
    found = data
    while found == data:
        found = data
        for _ in range(draw.choice(PLACES)):
            if found:
                found = draw.choice(ways)(draw, found)
    return found


def damaged_image(draw, image, plan):
    """The image with some damage: half of the time in the texts of its plan alone, whose lengths stay."""
    if draw.random() < 0.5:
        return damaged(draw, image)
    a, b = plan
    return image[:a] + damaged(draw, image[a:b], KEEPING) + image[b:]
