"""Text from outside: split at line feeds alone, and escaped before it is printed."""

from __future__ import annotations

_SHOWN = [chr(byte) if 32 <= byte < 127 else f"\\x{byte:02x}" for byte in range(256)]
_SHOWN[ord("\\")] = "\\\\"


def escape(text: str | bytes) -> str:
    """Returns a text as one line of printable ASCII: a backslash as `\\\\`, every other byte as `\\xNN`. Surrogates are undecoded
    bytes (PEP 383), unless one isn't."""
    try:
        data = text.encode("utf-8", "surrogateescape") if isinstance(text, str) else text
    except UnicodeEncodeError:
        data = str(text).encode("utf-8", "replace")
    return "".join(_SHOWN[byte] for byte in data)


def one_line(text: str) -> str:
    """Returns a message as one line of printable ASCII. What it quotes is escaped already, so its backslashes stay."""
    return "".join(letter if " " <= letter <= "~" else escape(letter) for letter in text)


def text_lines(text: str) -> list[str]:
    """Splits a text at line feeds alone; a last line feed begins no line."""
    return text.removesuffix("\n").split("\n") if text else []
