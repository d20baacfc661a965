"""Values of D-Bus in bytes, for heads that are made up.

A value is a tuple: a letter and a number or text; "(" or "{" and its values; "v" and its value; "a", how many elements it has (ALL: as many as there is
room for) and the values that its elements take in turns, all of one type."""
ALL = -1
ALIGN = {**dict.fromkeys("ygv", 1), **dict.fromkeys("nq", 2), **dict.fromkeys("biuhsoa", 4), **dict.fromkeys("xtd({", 8)}
NUMBERS = "ybnqiuhxtd"


def type_of(value):
    kind = value[0]
    if kind == "a":
        return "a" + type_of(value[2])
    if kind in "({":
        return kind + "".join(map(type_of, value[1])) + ")}"["({".index(kind)]
    return kind


def put_text(out, width, text):
    out += len(text).to_bytes(width, "little") + text + b"\0"


def put_array(out, value, room):
    at = len(out)
    out += bytes(4)
    pad(out, value[2])
    start, elements = len(out), value[2:]
    count = 0
    while count != value[1]:
        before = len(out)
        put(out, elements[count % len(elements)], room)
        if value[1] == ALL and len(out) > room:
            del out[before:]
            break
        count += 1
    out[at:at + 4] = (len(out) - start).to_bytes(4, "little")


def pad(out, value):
    out += bytes(-len(out) % ALIGN[value[0]])


def put(out, value, room):
    """Writes a value behind `out`; an array of ALL elements stops before `room` is passed, where no element is too long for it."""
    kind = value[0]
    pad(out, value)
    if kind == "a":
        put_array(out, value, room)
    elif kind in "({":
        for v in value[1]:
            put(out, v, room)
    elif kind == "v":
        put_text(out, 1, type_of(value[1]).encode())
        put(out, value[1], room)
    elif kind in "sog":
        put_text(out, 1 if kind == "g" else 4, value[1])
    else:
        width = 4 if kind == "b" else ALIGN[kind]
        out += value[1].to_bytes(width, "little")
