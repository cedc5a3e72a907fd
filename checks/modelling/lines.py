"""Request lines and the words of replies and audit lines, as docs/FORMATS.md says.

What is read and written are strings with one character for each byte (latin-1)."""

from dataclasses import dataclass, field

from .policies import CLASSES, MOST_BYTES, REST, is_context, is_printable, is_word

GREATEST = 4294967295
GREATEST_VERSION = 18446744073709551615
LONGEST_LINE = 4097
MOST_REFERENCES = 16
MOST_PAYLOAD = 1024

HEXADECIMAL = "0123456789abcdefABCDEF"
VALID = REST.replace(".", "").replace("-", "") + "-./"


class Malformed(Exception):
    """A line that is no request of its kind."""


class TooLong(Exception):
    """A line that is too long, or a `reload` of a file that is."""


class Cut(Exception):
    """Input that ends inside a line or a file."""


class Input:
    """What comes from a script or a connection, up to its end."""

    def __init__(self, text):
        self.text, self.at = text, 0

    def is_over(self):
        return self.at == len(self.text)

    def line(self):
        line = self.text[self.at : self.at + LONGEST_LINE]
        if "\n" in line:
            line = line.split("\n")[0]
            self.at += len(line) + 1
            return line
        raise TooLong if len(line) == LONGEST_LINE else Cut

    def take(self, length):
        taken = self.text[self.at : self.at + length]
        if len(taken) < length:
            raise Cut
        self.at += length
        return taken


@dataclass
class Request:
    word: str
    client: int | None = None
    fields: list = field(default_factory=list)


def number(text, greatest=GREATEST):
    if text == "" or any(digit not in "0123456789" for digit in text) or (text[0] == "0" and text != "0"):
        raise Malformed
    if int(text) > greatest:
        raise Malformed
    return int(text)


def from_digits(text):
    """The bytes that hexadecimal digits of either case say."""
    if len(text) % 2 == 1 or any(digit not in HEXADECIMAL for digit in text):
        raise Malformed
    return bytes.fromhex(text).decode("latin-1")


def name(text):
    if text.startswith("%"):
        return from_digits(text[1:])
    if not is_printable(text):
        raise Malformed
    return text


def reference(text):
    """Nothing for `null`, otherwise the letter and the number."""
    if text == "null":
        return None
    if text[:1] not in ("o", "h"):
        raise Malformed
    return text[0], number(text[1:])


def own_object(text):
    if text[:1] != "o":
        raise Malformed
    return reference(text)


def payload(text):
    if text == "-":
        return ""
    if text == "" or len(text) > 2 * MOST_PAYLOAD:
        raise Malformed
    return from_digits(text)


def context(text):
    if not is_context(text):
        raise Malformed
    return text


def is_for_isolated(text):
    if text not in ("0", "1"):
        raise Malformed
    return text == "1"


def rule_word(text):
    if not is_word(text):
        raise Malformed
    return text


def class_word(text):
    if text not in [kind for kind, _ in CLASSES]:
        raise Malformed
    return text


def perm_word(text):
    if not any(text in perms for _, perms in CLASSES):
        raise Malformed
    return text


def version(text):
    return number(text, GREATEST_VERSION)


HELLO = {"hello": [number, number, context]}

OF_CLIENTS = {
    "add": [name, reference, is_for_isolated, number],
    "get": [name],
    "check": [name],
    "watch": [name, own_object],
    "unwatch": [name, own_object],
    "unregister": [name, reference],
    "release": [number],
    "take": [],
    "bye": [],
    "list": [number],
    "version": [],
}

OF_ADMINISTRATORS = {
    "reload": [version, number, number],
    "explain": [rule_word, rule_word, class_word, perm_word],
    "denials": [],
    "seal": [],
}


def read_fields(words, forms):
    if words[0] not in forms or len(words) - 1 != len(forms[words[0]]):
        raise Malformed
    return [form(word) for form, word in zip(forms[words[0]], words[1:])]


def read_client(words):
    """A client's request other than a `hello`."""
    if words[0] == "call":
        if not 3 <= len(words) <= 3 + MOST_REFERENCES:
            raise Malformed
        references = [reference(word) for word in words[3:]]
        return Request("call", None, [number(words[1]), payload(words[2]), references])
    return Request(words[0], None, read_fields(words, OF_CLIENTS))


def read_hello(words):
    return Request("hello", None, read_fields(words, HELLO))


def read_administrator(words):
    request = Request(words[0], None, read_fields(words, OF_ADMINISTRATORS))
    if request.word == "reload" and (request.fields[1] > MOST_BYTES or request.fields[2] > MOST_BYTES):
        raise TooLong
    return request


def read_script(words):
    if words[0] == "hello":
        return read_hello(words)
    if words[0] in OF_ADMINISTRATORS:
        return read_administrator(words)
    client = number(words[0])
    if len(words) == 1:
        raise Malformed
    request = read_client(words[1:])
    request.client = client
    return request


def is_valid(text):
    return 1 <= len(text) <= 127 and all(byte in VALID for byte in text)


def in_digits(text):
    return text.encode("latin-1").hex()


def written(text):
    """A name as replies and audit lines have it."""
    return text if is_valid(text) else "%" + in_digits(text)
