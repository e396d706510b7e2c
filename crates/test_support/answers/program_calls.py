"""Runs of `dnstext` and `zonetext` that answer test rows about tokens and zone files as text, and their expected
results. Rows about records are in program_records.py."""
import json
import re

import as_data

DNSTEXT, ZONETEXT = "dnstext", "zonetext"
# Syntax errors by their name in rows, with the code that `check` reports.
FAULTS = {
    "closing": "closing-parenthesis", "open parenthesis": "open-parenthesis", "open quote": "open-quote",
    "lone return": "lone-return", "bad escape": "bad-escape", "NUL": "nul", "byte order mark": "byte-order-mark",
}
LINTS = {
    "nul", "byte-order-mark", "control-z", "high-octet", "control-octet", "crlf", "nested-parentheses",
    "leading-parenthesis", "adjacent-tokens", "no-final-newline",
}
SPECIAL = {"plain": b"\\", "unquoted": b' "\\;()', "label": b" .\\"}


class Ran:
    """The result of a run: exit status, standard output and error, and the files that it created or changed."""

    def __init__(self, status, out, err, made=()):
        self.status, self.out, self.err, self.made = status, out, err, made

    def same(self, other):
        return (self.status, self.out, self.err, self.made) == (other.status, other.out, other.err, other.made)

    def __str__(self):
        text = f"status {self.status}, output {short(self.out)}, errors {short(self.err)}"
        return text + "".join(f", {name} {short(octets)}" for name, octets in self.made)


def short(octets):
    return repr(octets[:999])[1:]


class Plan:
    """Files in an empty folder, commands to run there, a description of the expected results, and a function that
    compares the results."""

    def __init__(self, files, commands, wanted, agrees):
        self.files, self.commands, self.wanted, self.agrees = files, commands, wanted, agrees


# ---- Conversions between rows and the programs' input and output


def printed(octets, form):
    """Escapes octets (RFC 1035 section 5.1): special characters by a backslash, other than printable ASCII in
    decimal."""
    return b"".join(
        b"\\" * (it in SPECIAL[form]) + bytes((it,)) if 0x20 <= it <= 0x7E else b"\\%03d" % it for it in octets)


def labels_of(name):
    """Returns the labels of a name in wire format, including the root as an empty label."""
    at, labels = 0, []
    while at < len(name):
        labels.append(name[at + 1 : at + 1 + name[at]])
        at += 1 + name[at]
    return labels


def spelled(name):
    """Converts a name from wire format to a token. All but letters, digits, `-`, `_` and `*` is escaped in decimal."""
    if name == b"\0":
        return b"."
    labels = [it for it in labels_of(name)]
    return b".".join(
        b"".join(bytes((it,)) if chr(it).isalnum() and it < 0x80 or it in b"-_*" else b"\\%03d" % it for it in label)
        for label in labels)


def position(text, place):
    """Returns the line and the column of an offset. Continuation octets of UTF-8 do not count as columns."""
    before = text[:place]
    line = before[before.rfind(b"\n") + 1 :]
    return 1 + before.count(b"\n"), 1 + sum(it & 0xC0 != 0x80 for it in line)


def at(text, place):
    return b"%d:%d" % position(text, place)


def origin_words(name):
    """Returns the option for an origin in wire format, which can be empty."""
    return [b"--zone", spelled(name)] if name else []


def items(text, end=b";"):
    """Splits a list whose items each have `end` after them."""
    *listed, rest = text.split(end)
    if rest:
        raise ValueError(text)
    return listed


def lines(octets):
    return items(octets + b"\n" * (not octets.endswith(b"\n") and octets != b""), b"\n")


def error_lines(ran):
    """Returns the findings on standard error: file, position, severity, message and code. The message has the owner
    and the type of the record before it, and the token after it."""
    found = []
    for line in lines(ran.err):
        reported = re.fullmatch(rb"([^:]*):([0-9]+:[0-9]+): (error|warning): (.*) \[([a-z0-9-]+)\]", line)
        if reported:
            found.append(reported.groups())
    return found


# Messages that name what was probably meant, and what the library says: any text, or one that fits.
NAMED = [
    (rb"no record type: is '[A-Z]+' missing before '.*'\?", rb"expected TTL|unknown record type"),
    (rb"'(#|//)' is no comment|merge conflict marker '.*'", rb".*"),
    (rb"character string of [0-9]+ octets \(at most 255\)", rb"character string with more than 255 octets"),
    (rb"digest of [0-9]+ octets; type .*", rb"wrong number of octets"),
    (rb"escape \\[0-9]{3} is above \\255", rb"illegal escape sequence|bad escape"),
]
# A message about another token than the one at the error's offset.
ELSEWHERE = rb"mandatory names (a key that is missing|[^ ]+, which is missing)"


def says(message, reason):
    """Whether a message, without owner, type and token, is a reason, which may have the type before it."""
    for named, reasons in NAMED:
        if re.fullmatch(rb"(.*: )?" + named, message):
            return re.fullmatch(rb"(.*: )?(" + reasons + rb")", reason) is not None
    bare = re.sub(rb" '[^']*('[^']*)*'(\.\.)?$", b"", message)
    without_type = reason.partition(b": ")[2] or reason
    return any(bare == it or bare.endswith(b": " + it) for it in (reason, without_type))


def is_named(message):
    """Whether a message names what was probably meant, at a position of its own."""
    return any(re.fullmatch(rb"(.*: )?" + named, message) for named in [ELSEWHERE, *(it[0] for it in NAMED)])


def findings(ran, codes):
    """Returns the findings of `check --json` that have one of the codes."""
    found = [json.loads(it) for it in lines(ran.out)]
    return [it for it in found if it["code"] in codes]


# ---- Plans of one run


def exact(words, out, status=0, err=b"", files=None):
    """Returns a plan that expects this status and this output."""
    wanted = Ran(status, out, err)
    return Plan(files or {}, [words], str(wanted), lambda rans: rans[0].same(wanted))


def zonetext(*words):
    return [ZONETEXT, *(it if isinstance(it, bytes) else it.encode() for it in words)]


def judged(files, words, wanted, agrees):
    return Plan(files, [words], wanted, lambda rans: agrees(rans[0]))


def has_fault(ran, text, place, name, file=b"f"):
    """Returns whether standard error reports a syntax error at its position, with its code if there is one."""
    reported = rb"(?m)^(zonetext: )?" + file + b":" + at(text, place) + b": (error: )?(.*)$"
    found = re.search(reported, ran.err)
    if found is None:
        return False
    code = re.search(rb" \[([a-z-]+)\]$", found[3])
    return code is None or code[1].decode() == FAULTS[name]


FAULT = re.compile(rb"(?:([0-9]+:[0-9]+) )?(closing|open parenthesis|open quote|lone return|bad escape|NUL|byte order mark)"
                   rb"(?: from [0-9]+)? at ([0-9]+)(?:, opened at ([0-9]+:[0-9]+))?")


def fault_of(wanted):
    """Splits an expected result into the text before a syntax error, and its name, offset, opening and position."""
    found = re.search(rb"(\||^)(?:" + FAULT.pattern + rb")$", wanted)
    if found is None:
        return wanted, None
    return wanted[: found.start()], (found[3].decode(), int(found[4]), found[5], found[2])


# ---- dnstext


def dnstext_row(row):
    text, bar, why = row.wanted.partition(b"!")
    status = 0 if not bar else 2 if why.startswith(b"usage: ") else 1
    # (the usage of the program has a line more than that of its library)
    why += b"       dnstext --version\n" * (status == 2)
    return exact([DNSTEXT, *row.inputs], text, status, why)


def scanned(kind, token, row, printed_value):
    """One token: its value, or that it is rejected. The message of the scanner differs from the one in the row."""
    words = [DNSTEXT, b"scan", kind, token]
    if row.is_refused:
        return judged({}, words, "status 1, no output, a refusal",
                      lambda ran: ran.status == 1 and not ran.out and ran.err.startswith(b"refused: "))
    return exact(words, printed_value + b"\n")


def encoding_row(kind):
    def plan(row):
        return scanned(kind, row.inputs[0], row, row.wanted.hex().upper().encode())

    return plan


def charstr_read(row):
    return scanned(b"charstr", row.inputs[0], row, printed(row.wanted, "unquoted"))


def name_read(row):
    if row.is_refused:
        return scanned(b"name", row.inputs[0], row, b"")
    if not row.wanted:
        return None
    labels = labels_of(row.wanted)
    is_absolute = row.wanted.endswith(b"\0") and labels[-1:] == [b""]
    if not is_absolute and len(row.wanted) > 254:
        return None
    labels = labels[:-1] if is_absolute else labels
    text = b".".join(printed(it, "label") for it in labels)
    return scanned(b"name", row.inputs[0], row, text + b".")


def unquoted_row(row):
    (octets,) = row.inputs
    if not octets or len(octets) > 255:
        return None
    return exact([DNSTEXT, b"line", b"simple", b"s:" + as_data.escaped(octets)], row.wanted + b"\n")


def print_words(kind, words):
    """Returns the command that prints a document of words in a layout."""
    items = []
    for word in words:
        if word in (b"(", b")"):
            items.append(word)
        elif word == b"\n":
            items.append(b"n")
        elif word.startswith(b"; "):
            items.append(b"c:" + word[2:])
        else:
            items.append(b"t:" + word)
    return [DNSTEXT, b"print", kind, *items]


def layout_row(row):
    kind = b"simple" if row.call == "law.tokens_split" else row.call.split(".")[1].encode()
    words = print_words(kind, row.inputs)
    if row.is_refused:
        return exact(words, b"", 1, b"refused: " + row.wanted[1:] + b"\n")
    return exact(words, row.wanted + b"\n")


def split_row(words):
    """A multiline layout and the number of its entries: `lines` prints each in a line."""

    def plan(row):
        command = words or print_words(b"multiline", row.inputs)
        if row.is_refused:
            # The message of the program has the index of the item.
            return judged({}, command, f"status 1, refused: {row.wanted[1:].decode()}",
                          lambda ran: ran.status == 1 and not ran.out and ran.err.startswith(b"refused: " + row.wanted[1:]))
        text, _, count = row.wanted.rpartition(b"|")
        return Plan({"f": text}, [command, zonetext("lines", "f")], f"output {short(text)}, and {count.decode()} entries",
                    lambda rans: all(it.status == 0 and not it.err for it in rans) and rans[0].out == text + b"\n"
                    and len(lines(rans[1].out)) == int(count))

    return plan


# The fields of `law.fields_split`.
FIELDS = [DNSTEXT, b"line", b"multiline", b"n:5", b"x:DEAD", b"b:Zg==", b"s:a(b"]


SCANS = {"u8": b"u8", "u16": b"u16", "u32": b"u32", "u64": b"u64", "u128": b"u128", "ttl": b"ttl",
         "charstr": b"charstr", "hex": b"hex", "base32hex": b"base32hex", "base64": b"base64", "name": b"name"}


def scan_row(row):
    """Steps of one kind with a token each. Only the last one can fail, since `dnstext` stops there."""
    steps, *tokens = row.inputs
    steps = steps.decode().split(",")
    answers = row.wanted.split(b",")
    kind = steps[0]
    if kind not in SCANS or set(steps) != {kind} or len(tokens) != len(steps) or len(answers) != len(steps) + 1:
        return None
    if any(it.startswith(b"!") for it in answers[:-2]) or kind == "name":
        return None
    out, err = b"", b""
    for answer in answers[:-1]:
        if answer.startswith(b"!"):
            err = b"refused: " + answer[1:] + b"\n"
        elif kind in ("hex", "base32hex", "base64"):
            out += answer.hex().upper().encode() + b"\n"
        elif kind == "charstr":
            out += printed(answer, "unquoted") + b"\n"
        else:
            out += answer + b"\n"
    return exact([DNSTEXT, b"scan", SCANS[kind], *tokens], out, 1 if err else 0, err)


# ---- Zone files as text


def form_row(row):
    (text,) = row.inputs
    if row.is_refused:
        _, fault = fault_of(row.wanted[1:])
        name, place, _, _ = fault
        return judged({"f": text}, zonetext("fmt", "f"), f"status 1, no output, {name} at {at(text, place).decode()}",
                      lambda ran: ran.status == 1 and not ran.out and has_fault(ran, text, place, name))
    # Formatting is idempotent.
    return exact(zonetext("fmt", "f", "form"), row.wanted * 2, files={"f": text, "form": row.wanted})


def listing(*command):
    """The output of a command, and the syntax error after it."""

    def plan(row):
        text, *after = row.inputs
        text = b"\n" * int(after[0] if after else 0) + text
        wanted, fault = fault_of(row.wanted)
        if fault is None:
            return exact(zonetext(*command, "f"), wanted, files={"f": text})
        name, place, opened, spot = fault
        place += len(text) - len(row.inputs[0])
        if spot not in (None, at(text, place)):
            raise ValueError(row.wanted)
        reported = b"f:" + (spot or at(text, place)) + b": "

        def agrees(ran):
            line = next((it for it in lines(ran.err) if it.startswith(reported)), None)
            said = line is not None and (opened is None or line.endswith(b", opened at " + opened))
            # Rows of `tabs_after` do not list the lines before a syntax error.
            return ran.status == 1 and said and (ran.out == wanted or bool(after) and command[0] == "lines")

        return judged({"f": text}, zonetext(*command, "f"), f"status 1, output {short(wanted)}, {reported.decode()}{name}", agrees)

    return plan


def check_row(row):
    text, *after = row.inputs
    text = b"\n" * int(after[0] if after else 0) + text
    words = zonetext("check", "--text", "f")
    if row.wanted == b"ok":
        return exact(words, b"", files={"f": text})
    _, (name, place, opened, spot) = fault_of(row.wanted)
    if spot != at(text, len(text) - len(row.inputs[0]) + place):
        raise ValueError(row.wanted)
    reported = b"f:" + spot + b": "

    def agrees(ran):
        first = ran.err.split(b"\n")[0]
        return ran.status == 1 and not ran.out and first.startswith(reported) and (
            first.endswith(b", opened at " + opened) if opened else b"opened" not in first)

    return judged({"f": text}, words, f"status 1, {reported.decode()}{name}", agrees)


def difference_row(row):
    one, other = row.inputs
    files, words = {"f": one, "g": other}, zonetext("diff", "--entries", "f", "g")
    if row.wanted == b"same":
        return exact(words, b"", files=files)
    side, _, rest = row.wanted.partition(b" ")
    if side in (b"first", b"second"):
        file, text = (b"f", one) if side == b"first" else (b"g", other)
        _, (name, place, _, _) = fault_of(rest)
        return judged(files, words, f"status 1, {name} at {at(text, place).decode()} of the {side.decode()}",
                      lambda ran: ran.status == 1 and not ran.out and has_fault(ran, text, place, name, file))
    reported = [b"f:" + side + b":", b"g:" + rest + b":"]
    return judged(files, words, f"status 1, {short(b' '.join(reported))}",
                  lambda ran: ran.status == 1 and not ran.err and [it[: len(to)] for it, to in zip(lines(ran.out), reported)] == reported
                  and len(lines(ran.out)) == 2)


def token_row(row):
    (text,) = row.inputs
    if not text:
        return None
    kind = b"quoted" if text.startswith(b'"') else b"word"
    line = b"1:1\t" + kind + b"\t" + text + b"\n"
    is_one = row.wanted == b"true"
    return judged({"f": text}, zonetext("tokens", "f"), ("" if is_one else "not ") + f"status 0, output {short(line)}",
                  lambda ran: (ran.status == 0 and ran.out == line) == is_one)


def entries_row(row):
    """Entries: `tokens` prints their tokens, and `lines` shows where they end and whether they begin with a blank."""
    (text,) = row.inputs
    wanted, tokens, entries, entry = row.wanted, b"", [], b""
    while True:
        token = re.match(rb"([0-9]+)([:+])((?:[^|\\]|\\.)*?)\|", wanted, re.S)
        end = re.match(rb"(_?)/", wanted)
        if token:
            is_glued = token[2] == b"+"
            kind = b"glued-" * is_glued + (b"quoted" if token[3].startswith(b'"') else b"word")
            tokens += b"\t".join((at(text, int(token[1])), kind, token[3])) + b"\n"
            entry += b" " * (entry != b"" and not is_glued) + token[3]
        elif end:
            entries.append(b" " * (end[1] == b"_") + entry)
            entry = b""
        else:
            break
        wanted = wanted[(token or end).end() :]
    if wanted:
        _, (name, place, _, _) = fault_of(wanted)
        return judged({"f": text}, zonetext("tokens", "f"), f"status 1, output {short(tokens)}, {name}",
                      lambda ran: ran.status == 1 and ran.out == tokens and has_fault(ran, text, place, name))
    laid = b"\n".join(entries)
    return Plan({"f": text}, [zonetext("tokens", "f"), zonetext("lines", "f")], f"output {short(tokens)} and {short(laid)}",
                lambda rans: all(it.status == 0 and not it.err for it in rans) and [it.out for it in rans] == [tokens, laid])


def text_position_row(row):
    """A position in characters: an unmatched closing parenthesis at the offset is reported there."""
    text, place = row.inputs
    text = text[: int(place)] + b")"
    return judged({"f": text}, zonetext("check", "--text", "f"), f"f:{row.wanted.decode()}: error",
                  lambda ran: ran.status == 1 and ran.err.startswith(b"f:" + row.wanted + b": "))


def lint_row(row):
    """Findings about a file as text, with their offsets."""
    (text,) = row.inputs
    # `check` stops at a Ctrl-Z at the end of a file.
    if text.endswith(b"\x1a"):
        return None
    wanted, ends = [], []
    for item in items(row.wanted, b"/"):
        code, place = item.split(b"@")
        ends += [place] if code == b"control-z" else []
        # `check` reports a Ctrl-Z at the start of an entry once.
        if code == b"control-octet" and place in ends:
            continue
        wanted.append((code.decode(), *position(text, int(place))))

    def agrees(ran):
        found = [(it["code"], it["line"], it["column"]) for it in findings(ran, LINTS)]
        return found == wanted

    return judged({"f": text}, zonetext("check", "--json", "--max", "0", "f"), f"findings {wanted}", agrees)


def policy_row(row):
    """The severity of CRLF under `--allow`, `--deny` and `--strict`."""
    code, allowed, denied, strict = row.inputs
    if code != b"crlf":
        return None
    words = zonetext("check", "--json", "--allow", allowed, "--deny", denied, *([b"--strict"] if strict else []), "f")
    wanted = [] if row.wanted == b"left out" else [row.wanted.decode()]
    return judged({"f": b"a. 1 A 192.0.2.1\r\n"}, words, f"severities {wanted}",
                  lambda ran: [it["severity"] for it in findings(ran, {"crlf"})] == wanted)


def tally_row(row):
    """Which errors (`e`) and warnings are reported under `--max`, the status, and the summary. Each has its own line."""
    found, most = row.inputs
    text = b"".join(b")\n" if it == 0x65 else b'a. 1 TXT "\xff"\n' for it in found)
    shown, status, summary = row.wanted[: len(found)], row.wanted[len(found)] - 0x30, row.wanted[len(found) + 1 :]

    def agrees(ran):
        reported = {int(it[1].split(b":")[0]) for it in error_lines(ran)}
        marks = b"".join(b"+" if number in reported else b"-" for number in range(1, len(found) + 1))
        rest = b"".join(it + b"\n" for it in lines(ran.err) if not it.startswith(b"f:"))
        return (marks, ran.status, rest) == (shown, status, summary)

    return judged({"f": text}, zonetext("check", "--max", most, "f"),
                  f"status {status}, lines {shown.decode()}, {short(summary)}", agrees)


CALLS = {
    "dnstext": dnstext_row,
    "format.form": form_row,
    "base16.read": encoding_row(b"hex"),
    "base32.read": encoding_row(b"base32hex"),
    "base64.read": encoding_row(b"base64"),
    "charstr.read": charstr_read,
    "charstr.unquoted": unquoted_row,
    "symbol.unquoted": unquoted_row,
    "name.read": name_read,
    "scan.tokens": scan_row,
    "zone.simple": layout_row,
    "zone.tabbed": layout_row,
    "zone.multiline": layout_row,
    "law.tokens_split": layout_row,
    "law.items_split": split_row(None),
    "law.fields_split": split_row(FIELDS),
    "law.token": unquoted_row,
    "law.hex": encoding_row(b"hex"),
    "law.number": lambda row: scanned(b"u8", row.inputs[0], row, row.wanted),
    "zone.is_token": token_row,
    "zone.text_position": text_position_row,
    "zonetext.check": check_row,
    "zonetext.check_after": check_row,
    "zonetext.tokens": listing("tokens"),
    "zonetext.tokens_after": listing("tokens"),
    "zonetext.json": listing("tokens", "--json"),
    "zonetext.spaces": listing("lines"),
    "zonetext.tabs": listing("lines", "--tabbed"),
    "zonetext.tabs_after": listing("lines", "--tabbed"),
    "zonetext.diff": difference_row,
    "report.lint": lint_row,
    "report.policy": policy_row,
    "report.tally": tally_row,
}
# Calls of test_rows whose names are other calls in test_records.
OF_TEXT = {"zone.entries": entries_row, "zone.pieces": lambda row: None}


def octets(word):
    """Returns a word of a command as octets."""
    return word if isinstance(word, bytes) else word.encode()
