"""Finds a shorter list that still shows a difference."""
import time


def shrunk(items, differs, seconds):
    """Removes parts of the list as long as `differs` holds for the rest, for at most this many seconds."""
    until = time.monotonic() + seconds
    size = max(len(items) // 2, 1)
    while size:
        place = 0
        while place < len(items):
            if time.monotonic() > until:
                return items
            fewer = items[:place] + items[place + size:]
            if fewer and differs(fewer):
                items = fewer
            else:
                place += size
        size //= 2
    return items
