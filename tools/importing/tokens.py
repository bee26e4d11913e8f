"""Tokens of a listing, each with its line. ECMA-335 II.5.2 has the lexical rules; what `monodis` and `ildasm` print is read."""

import re
from dataclasses import dataclass

from .report import ListingError

_TOKEN = re.compile(
    r"""
    (?P<space>\s+|//[^\n]*|/\*.*?\*/)
  | (?P<string>"(?:\\.|[^"\\\n])*")
  | (?P<quoted>'(?:\\.|[^'\\\n])*')
  | (?P<number>-?0x[0-9A-Fa-f]+ | -?\d+\.(?!\.)\d*(?:[eE][-+]?\d+)? | -?\d+[eE][-+]\d+ | -?\d+)
  | (?P<word>[A-Za-z_.$@?`][\w.$@?`]*)
  | (?P<mark>::|\.\.\.|[{}()\[\],:=&*!/<>+|-])
    """,
    re.VERBOSE | re.DOTALL,
)


@dataclass(frozen=True)
class Token:
    """A token: `kind` is string, quoted, number, word, mark or end; `text` as in the listing; `line` from 1."""

    kind: str
    text: str
    line: int


def tokenize(text: str) -> list[Token]:
    """Returns the tokens of a listing and a last one of the kind end. Fails at a position where no token begins."""
    tokens: list[Token] = []
    position, line = 0, 1
    while position < len(text):
        match = _TOKEN.match(text, position)
        if match is None:
            raise ListingError(line, f"no token begins at {text[position:position + 12]!r}")
        if match.lastgroup != "space":
            tokens.append(Token(match.lastgroup or "", match.group(), line))
        line += match.group().count("\n")
        position = match.end()
    tokens.append(Token("end", "", line))
    return tokens
