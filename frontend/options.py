"""The words after a command: options, and the rest."""

from messages import Unusable


class Help(Exception):
    """Help is asked for."""


def taken(words, flags=(), valued=()):
    """Splits words into options (a name without its dashes, and True or a value) and the rest.

    `--` ends the options; `-` is none; a value follows as a word of its own or after `=`. For each option with a value, `valued`
    has the words that it can be, or none where any can.
    """
    options, rest = {}, []
    words = list(words)
    while words:
        word = words.pop(0)
        name, equals, value = word.partition("=")
        if word == "--":
            return options, rest + words
        if not word.startswith("-") or word == "-":
            rest.append(word)
        elif word in ("-h", "--help"):
            raise Help()
        elif word in flags:
            options[word[2:]] = True
        elif name in valued:
            if not equals:
                value = words.pop(0) if words else ""
            options[name[2:]] = value_of(name, value, valued[name])
        else:
            raise Unusable(f"no such option: {word}")
    return options, rest


def only_one_of(options, *names):
    """Which of these options is there; more than one exclude each other."""
    there = [name for name in names if name in options]
    if len(there) > 1:
        raise Unusable(f"--{there[0]} and --{there[1]} exclude each other")
    return there[0] if there else None


def value_of(name, value, choices):
    """The value of an option: one of the choices where there are some, and not empty."""
    if value and (not choices or value in choices):
        return value
    wanted = f"one of {', '.join(choices)}" if choices else "a value"
    raise Unusable(f"{name} takes {wanted}" + (f", not {value}" if value else ""))


def digits_of(word):
    """The digits of a whole number, without zeros in front."""
    if not (word.isascii() and word.isdigit()):
        raise Unusable(f"not a whole number: {word}")
    return word.lstrip("0") or "0"


def capped_number(word, most):
    """A whole number, in decimal digits; the most where it is above that."""
    digits = digits_of(word)
    return most if len(digits) > len(str(most)) else min(int(digits), most)


def whole_number(word, most=2**64 - 1):
    """A whole number, in decimal digits."""
    digits = digits_of(word)
    if len(digits) > len(str(most)) or int(digits) > most:
        raise Unusable(f"too large a number: {word}")
    return int(digits)
