"""The likely cause for which a line of a play is refused. What decides is the program; the cause is a guess."""
import re

NUMBER = re.compile(r"(0|[1-9][0-9]*)\Z")
FD_LENGTHS = list(range(9)) + [12, 16, 20, 24, 32, 48, 64]


def shown(line):
    """A line with its hidden characters: a space as ·, other bytes that don't print as \\x.."""
    names = {32: "·", 9: "\\t", 13: "\\r", 10: "\\n", 92: "\\\\"}
    return "".join(names.get(b, chr(b) if 33 <= b < 127 else "\\x%02x" % b) for b in line)


def number_fault(name, word, low, high):
    if not NUMBER.match(word):
        return "%s is a decimal number with no sign and no leading zero, and not '%s'" % (name, word)
    return None if low <= int(word) <= high else "%s is from %d to %d, and not %s" % (name, low, high, word)


def byte_fault(line):
    """What stands in the bytes of a line, whatever its words are."""
    text = line.rstrip(b"\n")
    if text.startswith(b"\xef\xbb\xbf"):
        return "a byte order mark stands in front: save the file as UTF-8 without it"
    if text[:2] in (b"\xff\xfe", b"\xfe\xff") or b"\0" in text:
        return "the file is UTF-16: save it as plain ASCII"
    if b"\r" in text:
        return "the line ends with CR LF: a line ends with a line feed alone (`dos2unix`, or sed -i 's/\\r$//')"
    if not text:
        return "the line is blank: there are no blank lines"
    if text.lstrip()[:1] in (b"#", b";") or b" #" in text or b"//" in text:
        return "this is a comment: there are none"
    if b"\t" in text:
        return "a tab: words have one space between them"
    if text != text.strip(b" ") or b"  " in text:
        return "a space too many: words have one space between them, and none stands at the ends"
    if any(b > 126 or b < 32 for b in text):
        return "a character that isn't plain ASCII"
    return None if line.endswith(b"\n") else "the last line has no line feed"


def header_fault(words):
    if words[0] != "play":
        return "the first line is the header: play RESOLUTION RATE FDRATE NODES STOP"
    if len(words) != 6:
        return "a header has six words: play RESOLUTION RATE FDRATE NODES STOP"
    fault = (number_fault("RESOLUTION", words[1], 1, 10 ** 12) or number_fault("RATE", words[2], 1, 2 ** 32 - 1)
             or number_fault("FDRATE", words[3], 0, 2 ** 32 - 1) or number_fault("NODES", words[4], 1, 32)
             or number_fault("STOP", words[5], 0, 2 ** 62))
    if not fault and any(int(words[1]) % int(rate) for rate in words[2:4] if rate != "0"):
        return "RESOLUTION isn't a multiple of RATE and FDRATE: a bit lasts a whole number of ticks"
    return fault


def error_fault(words, nodes, before):
    if len(words) != 6:
        return "an error line has six words: error FROM COUNT KIND BY BIT"
    if before and not before[-1].startswith(b"error "):
        return "error lines stand in front of the actions"
    if len(before) >= 1024:
        return "there are 1,024 error lines at most"
    return (number_fault("FROM", words[1], 1, 2 ** 32) or number_fault("COUNT", words[2], 1, 2 ** 32)
            or number_fault("KIND", words[3], 1, 4) or number_fault("BIT", words[5], 0, 1023)
            or words[4] != "sender" and number_fault("BY is `sender` or a node, which", words[4], 0, nodes - 1) or None)


def frame_fault(frame, fd_rate):
    identifier, mark, data = frame.partition("#")
    if re.search("[A-F]", identifier + data.removeprefix("R")) or "#r" in frame:
        return "hexadecimal digits are lower case, and the R of a remote frame is upper case"
    if not mark or not re.match(r"([0-9a-f]{3}|[0-9a-f]{8})\Z", identifier):
        return "a frame begins with an identifier of three or eight hexadecimal digits and #"
    if int(identifier, 16) > (0x7FF if len(identifier) == 3 else 0x1FFFFFFF):
        return "an identifier is at most 7ff, or 1fffffff with eight digits"
    if data.startswith("R"):
        return "a remote frame has nothing behind #R" if data != "R" else None
    fd = data.startswith("#")
    if fd and fd_rate == 0:
        return "an FD frame needs a positive FDRATE in the header"
    if fd and not re.match("#[0-3]", data):
        return "behind ## stands one digit, 0 to 3: 1 for BRS plus 2 for ESI"
    data = data[2:] if fd else data
    if not re.match(r"([0-9a-f]{2})*\Z", data):
        return "data has two hexadecimal digits for each byte, and nothing between them"
    good = len(data) // 2 in (FD_LENGTHS if fd else FD_LENGTHS[:9])
    return None if good else "classical data has 0 to 8 bytes, FD data also 12, 16, 20, 24, 32, 48 or 64"


def action_fault(words, header, before):
    last = int(before[-1].split(b" ")[0]) if before and not before[-1].startswith(b"error ") else 0
    fault = number_fault("the moment T", words[0], 0, 2 ** 62)
    fault = fault or number_fault("the node N", (words + [""])[1], 0, int(header[4]) - 1)
    if fault:
        return fault
    if int(words[0]) < last:
        return "moments don't fall: the line in front has %d" % last
    if words[2:3] not in (["send"], ["wake"], ["sleep"], ["keep"], ["discard"]):
        return "behind moment and node stands send, wake, sleep, keep or discard, in lower case"
    if len(words) != (4 if words[2] == "send" else 3):
        return "send has one frame behind it, and each other word has nothing"
    return frame_fault(words[3], int(header[3])) if words[2] == "send" else None


def likely_cause(lines, number):
    if number > len(lines):
        return "the file is empty: it begins with a header"
    line = lines[number - 1]
    words = line.decode("latin-1").rstrip("\n").split(" ")
    header = lines[0].decode("latin-1").rstrip("\n").split(" ")
    fault = byte_fault(line)
    if not fault:
        fault = (header_fault(words) if number == 1
                 else error_fault(words, int(header[4]), lines[1:number - 1]) if words[0] == "error"
                 else action_fault(words, header, lines[1:number - 1]))
    return fault or "this script sees none: docs/FORMATS.md has the rules"
