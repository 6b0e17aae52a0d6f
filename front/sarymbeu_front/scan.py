"""Reading a text from front to back, with the place of the first fault."""
import re

SPACE = re.compile(r"[ \t\r\n]*")
NAME = re.compile(r"[A-Za-z_][A-Za-z0-9_]*")
QUOTED = re.compile(r'"((?:[^"\\]|\\.)*)"', re.DOTALL)
RAW = re.compile(r"`([^`]*)`")
ESCAPE = re.compile(
    r"\\(?:([abfnrtv\\\"'])|x([0-9a-fA-F]{2})|([0-3][0-7]{2})|u([0-9a-fA-F]{4})|U([0-9a-fA-F]{8}))|\\|[^\\]+"
)
LETTERS = {"a": 7, "b": 8, "f": 12, "n": 10, "r": 13, "t": 9, "v": 11, "\\": 92, '"': 34, "'": 39}


class Unread(Exception):
    """The text is not understood from `at` on, which counts characters from 0; `what` says what stands there."""

    def __init__(self, text: str, at: int, what: str):
        super().__init__(what)
        self.what = what
        self.line = text.count("\n", 0, at) + 1
        self.column = at - (text.rfind("\n", 0, at) + 1) + 1

    def __str__(self) -> str:
        return f"parse error at line {self.line}, col {self.column}: {self.what}"


class Scanner:
    """A text and how far it has been read. `mended` counts the bytes of escapes that were no text, and became U+FFFD."""

    def __init__(self, text: str):
        self.text = text
        self.at = 0
        self.mended = 0

    def fault(self, what: str, at: int | None = None) -> Unread:
        """The fault at the present place, or at another."""
        return Unread(self.text, self.at if at is None else at, what)

    def rest(self) -> str:
        """What stands here, for the text of a fault: at most 20 characters."""
        return repr(self.text[self.at : self.at + 20]) if self.at < len(self.text) else "the end"

    def space(self) -> None:
        """Passes over white space."""
        self.at = SPACE.match(self.text, self.at).end()

    def take(self, *tokens: str) -> str | None:
        """The first of `tokens` that stands behind white space, which is passed over, or None."""
        self.space()
        for token in tokens:
            if self.text.startswith(token, self.at):
                self.at += len(token)
                return token
        return None

    def name(self, pattern: re.Pattern = NAME) -> str:
        """A name of the form of `pattern`, behind white space. Raises Unread."""
        self.space()
        found = pattern.match(self.text, self.at)
        if found is None:
            raise self.fault(f"a label name is wanted, not {self.rest()}")
        self.at = found.end()
        return found[0]

    def quoted(self) -> str:
        """The value of a text in quotes, with Go's escapes, or in back quotes, without. Raises Unread."""
        self.space()
        raw = RAW.match(self.text, self.at)
        if raw is not None:
            self.at = raw.end()
            return raw[1]
        found = QUOTED.match(self.text, self.at)
        if found is None:
            raise self.fault(f"a text in quotes is wanted, not {self.rest()}")
        begins, self.at = self.at + 1, found.end()
        return found[1] if "\\" not in found[1] else self._unescape(found[1], begins)

    def _unescape(self, text: str, begins: int) -> str:
        """`text`, which stands from `begins` on, with its escapes read. Raises Unread."""
        value = bytearray()
        for piece in ESCAPE.finditer(text):
            letter, byte, octal, short, long = piece.groups()
            code = int(short or long or "0", 16)
            if piece[0] == "\\" or code > 0x10FFFF:
                raise self.fault("no escape of Go's texts", begins + piece.start())
            if letter:
                value.append(LETTERS[letter])
            elif byte or octal:
                value.append(int(byte, 16) if byte else int(octal, 8))
            elif short or long:
                value += chr(code).encode("utf-8", "surrogatepass")
            else:
                value += piece[0].encode("utf-8", "surrogatepass")
        mended, count = text_of(bytes(value))
        self.mended += count
        return mended


def text_of(value: bytes) -> tuple[str, int]:
    """The text of `value`, with what is no UTF-8 as U+FFFD, and how many of these were put."""
    try:
        return value.decode(), 0
    except UnicodeDecodeError:
        text = value.decode("utf-8", "replace")
        return text, text.count("\ufffd") - value.count("\ufffd".encode())
