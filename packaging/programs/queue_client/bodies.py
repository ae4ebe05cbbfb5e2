"""Job bodies in readable form: as text, or as bytes in hexadecimal. Their contents are not trusted."""
import collections

# How many bytes of a body are shown.
LIMIT = 4096

# `kind` is "text" or "hex", `text` is what is shown, which covers `shown` of `size` bytes.
Body = collections.namedtuple("Body", "kind text shown size")


def readable(body, width=16):
    """Returns the beginning of a body, as text if it is printable UTF-8, else as a dump with `width` bytes a line."""
    part = body[:LIMIT]
    text = text_of(part, cut=len(part) < len(body))
    if text is None:
        return Body("hex", dump(part, width), len(part), len(body))
    return Body("text", text, len(text.encode()), len(body))


def text_of(part, cut):
    """Returns the text of these bytes, or None if they are not text. If they are `cut`, the last character may be
    incomplete."""
    for lacking in range(4 if cut else 1):
        try:
            text = part[: len(part) - lacking].decode()
        except UnicodeDecodeError:
            continue
        return text if all(it.isprintable() or it in "\n\t" for it in text.replace("\r\n", "\n")) else None
    return None


def dump(part, width):
    """Returns lines with some bytes each: their offset, the bytes in hexadecimal in groups of eight, and the printable
    ASCII."""
    lines = []
    for first in range(0, len(part), width):
        row = part[first : first + width]
        eights = [f"{row[at : at + 8].hex(' '):23}" for at in range(0, width, 8)]
        printable = "".join(chr(it) if 32 <= it < 127 else "." for it in row)
        lines.append("  ".join([f"{first:08x}", *eights, printable]))
    return "\n".join(lines)
