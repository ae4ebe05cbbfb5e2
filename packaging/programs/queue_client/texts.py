"""The texts of the protocol's lists and statistics, a small part of YAML."""
import re

TUBE_NAME = re.compile(r"[A-Za-z0-9+/;.$_()][-A-Za-z0-9+/;.$_()]{0,199}")


def names_of(text):
    """Returns the tube names in a list, or None if it isn't a list of tubes."""
    lines = text.splitlines()[1:]
    names = [unquoted(it[2:]) for it in lines]
    if not all(it.startswith("- ") for it in lines) or not all(map(TUBE_NAME.fullmatch, names)):
        return None
    return names


def statistics_of(text):
    """Returns the values in a text of statistics by key, or None if it isn't one."""
    pairs = [it.partition(": ") for it in text.splitlines()[1:]]
    if not all(colon for _, colon, _ in pairs):
        return None
    return {key: value_of(word) for key, _, word in pairs}


def unquoted(word):
    """Returns a word without the quotes that beanstalkd puts around some."""
    return word[1:-1] if len(word) > 1 and word[0] == word[-1] == '"' else word


def value_of(word):
    """Returns a number if the word is one, otherwise the word."""
    return int(word) if word.isdigit() and len(word) <= 20 else unquoted(word)
