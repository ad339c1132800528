"""Lines of iCalendar (RFC 5545)."""
import time

LONGEST = 75  # octets of a line, without its end


def utc(seconds):
    return time.strftime("%Y%m%dT%H%M%SZ", time.gmtime(seconds))


def escaped(text):
    """A value of the type TEXT (section 3.3.11)."""
    return text.replace("\\", "\\\\").replace(";", "\\;").replace(",", "\\,").replace("\n", "\\n")


def folded(line):
    """A content line, folded between characters (section 3.1)."""
    parts, size = [""], 0
    for letter in line:
        more = len(letter.encode())
        if size + more > LONGEST:
            parts.append(" ")
            size = 1
        parts[-1] += letter
        size += more
    return "\r\n".join(parts) + "\r\n"
