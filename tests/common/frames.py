"""The frames of a log, by its text alone."""
import re


def frame(number, content, name=b"book"):
    """The text of a frame."""
    size = len(content)
    return b"%s %d bytes %d\n%send %d bytes %d\n" % (name, number, size, content, number, size)


def framed(log, name=b"book", is_cut=False):
    """The contents of the frames of a log, from the number 0 on. What follows the last whole frame counts only if the log may be cut."""
    contents, place = [], 0
    while place < len(log):
        number = len(contents)
        found = re.compile(name + rb" %d bytes (0|[1-9][0-9]*)\n" % number).match(log, place)
        first, size = (found.end(), int(found[1])) if found else (place, 0)
        last = b"end %d bytes %d\n" % (number, size)
        if not found or not log.startswith(last, first + size):
            if is_cut:
                break
            raise ValueError(log)
        contents.append(log[first : first + size])
        place = first + size + len(last)
    return contents
