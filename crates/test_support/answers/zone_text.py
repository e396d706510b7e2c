"""Parses the pieces of a zone file by its grammar (docs/RULES.md), for octets of which each is a character."""

BLANKS = b" \t"
ENDS_LINE = b"\r\n"
SPECIAL = BLANKS + ENDS_LINE + b';"()'


def digit(octets, at):
    return octets[at] - 0x30 if at < len(octets) and 0x30 <= octets[at] <= 0x39 else None


def after_escape(octets, at):
    """Returns the offset after the escape at an offset, or None and the offset of its error."""
    at += 1
    if at >= len(octets) or not 0x20 <= octets[at] <= 0x7E:
        return None, min(at, len(octets))
    if digit(octets, at) is None:
        return at + 1, None
    number = 0
    for weight in (100, 10, 1):
        found = digit(octets, at)
        # (what remains of 255 after the digits before)
        if found is None or number + found * weight > 255:
            return None, min(at, len(octets))
        number += found * weight
        at += 1
    return at, None


def after_text(octets, at, ends):
    """Returns the offset of the first octet of ends from there on outside escapes, or None and an error."""
    while at < len(octets) and octets[at] not in ends:
        if octets[at] == 0x5C:
            at, fault = after_escape(octets, at)
            if at is None:
                return None, fault
        else:
            at += 1
    return at, None


def pieces(octets):
    """Yields ('word', 0, 1), ('quote', 2, 5), ('comment', 6, 8), ('end', 9), ('blank', 9) and, last, an error,
    such as ('closing', 9)."""
    at = depth = began = 0
    size = len(octets)

    def end():
        return "blank" if began < size and octets[began] in BLANKS else "end", at

    while at < size:
        start, octet = at, octets[at]
        if octet in BLANKS:
            at += 1
        elif octet == 0x28:
            depth, at = depth + 1, at + 1
        elif octet == 0x29:
            if not depth:
                yield "closing", at
                return
            depth, at = depth - 1, at + 1
        elif octet in ENDS_LINE:
            at += octet == 0x0D
            if octets[at : at + 1] != b"\n":
                yield "lone return", at
                return
            at += 1
            if not depth:
                yield end()
                began = at
        elif octet == 0x3B:
            while at < size and octets[at] not in ENDS_LINE:
                at += 1
            # (a piece that ends at the error might be longer, and isn't yielded)
            if at < size or not depth:
                yield "comment", start, at
        elif octet == 0x22:
            at, fault = after_text(octets, at + 1, ENDS_LINE + b'"')
            if at is None:
                yield "bad escape", fault
                return
            if octets[at : at + 1] != b'"':
                yield "open quote", at, start
                return
            at += 1
            yield "quote", start, at
        else:
            at, fault = after_text(octets, at, SPECIAL)
            if at is None:
                yield "bad escape", fault
                return
            is_cut = depth if at == size else octets[at] == 0x29 and not depth
            if not is_cut:
                yield "word", start, at
    yield ("open parenthesis", size) if depth else end()


def listed(octets):
    """Returns the pieces as rows have them."""
    text = ""
    for name, *places in pieces(octets):
        if name in ("word", "quote", "comment"):
            text += f"{name} {places[0]} {places[1]}|"
        elif name in ("end", "blank"):
            text += f"{name} {places[0]}|"
        elif name == "open quote":
            text += f"{name} from {places[1]} at {places[0]}|"
        else:
            text += f"{name} at {places[0]}|"
    return text


def split(octets):
    """Returns the tokens with a bar after each, and a slash after each entry, or None if there is a syntax error."""
    text = b""
    for name, *places in pieces(octets):
        if name in ("word", "quote"):
            text += octets[places[0] : places[1]] + b"|"
        elif name in ("end", "blank"):
            text += b"/"
        elif name != "comment":
            return None
    return text


def tallied(octets):
    """Returns the number of pieces, and the error, without the position of its opener."""
    count = dict.fromkeys(("word", "quote", "comment", "end", "blank"), 0)
    size, fault = 0, ""
    for name, *places in pieces(octets):
        if name not in count:
            fault = f"|{name} at {places[0]}"
            continue
        count[name] += 1
        if len(places) == 2:
            size += places[1] - places[0]
    ends = count["end"] + count["blank"]
    return f"{count['word']} words, {count['quote']} quoted, {count['comment']} comments, {ends} ends, {size} octets{fault}"
