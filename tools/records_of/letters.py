"""Files of other programs as characters: their encodings, and what DOS and old machines put to lines and ends."""
import re

from records_of.record import Refused

MARKS = ((b"\xef\xbb\xbf", "utf-8"), (b"\xff\xfe", "utf-16-le"), (b"\xfe\xff", "utf-16-be"))
NAMES = {"utf-8": "UTF-8", "utf-16-le": "UTF-16", "utf-16-be": "UTF-16", "cp932": "Shift-JIS", "cp1252": "Latin-1",
         "latin-1": "Latin-1"}


def likely_encodings(data, kind):
    """The encodings that a file without a mark may have, the likeliest first."""
    if data[1::2].count(0) > len(data) // 4:
        return ["utf-16-le"]
    if data[0::2].count(0) > len(data) // 4:
        return ["utf-16-be"]
    return ["utf-8", "cp1252", "latin-1"] if kind == "pdn" else ["utf-8", "cp932"]


def characters(data, kind, named, notes):
    """The characters of a file; its encoding is the one that is named, or the likeliest that fits."""
    encodings = [named] if named else likely_encodings(data, kind)
    for mark, encoding in MARKS:
        if data.startswith(mark):
            notes.add("the byte order mark is left out")
            data, encodings = data[len(mark):], [encoding]
            break
    for encoding in encodings:
        try:
            text = data.decode(encoding)
        except UnicodeError:
            continue
        if text.encode() != data:
            notes.add(f"the text was {NAMES.get(encoding, encoding)} and is UTF-8 now")
        return cleaned(text, notes)
    raise Refused("its letters are of no encoding that fits; name the right one with --encoding")


def cleaned(text, notes):
    """The text without the end that DOS put to files, and with lines that end with LF or CRLF."""
    ended = re.sub(r"\x1a[\x1a\x00\s]*\Z", "", text)
    if ended != text:
        notes.add("the final Ctrl-Z is left out")
    if "\r" in ended and "\n" not in ended:
        notes.add("lines end with LF, where CR stood")
        ended = ended.replace("\r", "\n")
    return ended
