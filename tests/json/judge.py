"""Python's json as a judge of JSON, and of what a text that breaks off can still become.

RFC 8259 leaves some of it to the parser. What is done here, so that the grammar alone decides:

- NaN, Infinity and -Infinity, which Python takes, are refused.
- The bytes are decoded as UTF-8 first, strictly: json would guess UTF-16 and UTF-32, and take raw surrogates.
- A byte order mark is refused (json does, of a decoded text).
- A surrogate that is escaped alone is taken (json does).
- Numbers are kept as they are written: there is none too great.
- Nesting has no limit here but Python's own, which no text that is made comes near.
"""

import json
import re
import sys

sys.setrecursionlimit(20_000)


class Number(str):
    """A number as it is written."""


class Members(list):
    """An object as its pairs of key and value, repeated ones too."""


def refuse(word):
    raise ValueError(word)


# Its memo of keys aside, json's own scanner in C.
DECODER = json.JSONDecoder(object_pairs_hook=Members, parse_int=Number, parse_float=Number, parse_constant=refuse)


class NotJson(Exception):
    """The text isn't JSON."""


def parsed(text):
    """The value of a text."""
    try:
        decoded = text.decode("utf-8")
        if decoded.startswith("\ufeff"):
            raise NotJson
        return DECODER.decode(decoded)
    except ValueError as error:
        raise NotJson from error


# What may be missing behind a text that breaks off: the rest of a character, of a string, of another token, of a member.
CHARACTERS = [b"", b"\x80", b"\x90", b"\xa0", b"\x80\x80", b"\x90\x80", b"\xa0\x80", b"\x80\x80\x80", b"\x90\x80\x80"]
IN_STRINGS = [b'"', b'n"', b'0"', b'00"', b'000"', b'0000"']
TOKENS = [b"", b"0", b"777777", b'"another name"', b"[]", b"{}", b"rue", b"ue", b"e", b"alse", b"lse", b"se", b"ull", b"ll", b"l",
          b'"another key":0']
MEMBERS = [b"", b":0"]


def state(text):
    """Whether a text that breaks off is in a string, and the brackets that close what is open."""
    in_string = escaped = False
    open_brackets = []
    for byte in text:
        if in_string:
            in_string, escaped = escaped or byte != 0x22, not escaped and byte == 0x5C
        elif byte == 0x22:
            in_string = True
        elif byte in b"[{":
            open_brackets.append(byte + 2)
        elif byte in b"]}" and open_brackets:
            open_brackets.pop()
    return in_string, bytes(reversed(open_brackets))


def wholes(text):
    """JSON texts that begin with this one: their values. There are none only where no JSON text does."""
    in_string, closing = state(text)
    characters = CHARACTERS if in_string else [b""]
    tokens = IN_STRINGS if in_string else TOKENS
    for character in characters:
        for token in tokens:
            for member in MEMBERS:
                try:
                    yield parsed(text + character + token + member + closing)
                except NotJson:
                    pass


def goes_on(text):
    """Whether some JSON text begins with this one."""
    return next(wholes(text), NotJson) is not NotJson


def start_of(text):
    """The place where the value, key or opening bracket starts that the text ends with."""
    in_string = escaped = False
    start, starts = 0, []
    for place, byte in enumerate(text):
        if in_string:
            in_string, escaped = escaped or byte != 0x22, not escaped and byte == 0x5C
        elif byte == 0x22:
            in_string, start = True, place
        elif byte in b"[{":
            starts.append(place)
            start = place
        elif byte in b"]}":
            start = starts.pop()
    return start if text[-1] in b'"[]{}' else re.search(rb"[-+.0-9A-Za-z]*\Z", text).start()
