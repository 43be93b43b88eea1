"""Constant expressions: C's operators on whole numbers."""

from __future__ import annotations

from typing import Callable, Dict, Sequence

LEVELS = [["||"], ["&&"], ["|"], ["^"], ["&"], ["==", "!="], ["<", ">", "<=", ">="], ["<<", ">>"], ["+", "-"], ["*", "/", "%"]]
ESCAPES = {"a": 7, "b": 8, "t": 9, "n": 10, "v": 11, "f": 12, "r": 13, "0": 0}


class NotConstant(Exception):
    """An expression that has no value here."""


def number(text: str) -> int:
    """The value of a number, with C's suffixes; a leading 0 makes it octal."""
    digits = text.rstrip("uUlL")
    try:
        if digits[:2].lower() == "0x":
            return int(digits[2:], 16)
        return int(digits, 8 if len(digits) > 1 and digits[0] == "0" else 10)
    except ValueError:
        raise NotConstant(f"{text} is no whole number") from None


def evaluate(words: Sequence[str], value: Callable[[str], int]) -> int:
    """The value of an expression; `value` gives that of a name."""
    reader = Reader(words, value)
    found = reader.choice()
    if reader.at < len(words):
        raise NotConstant(f"unexpected {words[reader.at]}")
    return found


class Reader:
    """Reads an expression from its words."""

    def __init__(self, words: Sequence[str], value: Callable[[str], int]) -> None:
        self.words, self.value, self.at = words, value, 0

    def peek(self) -> str:
        return self.words[self.at] if self.at < len(self.words) else ""

    def take(self) -> str:
        self.at += 1
        return self.words[self.at - 1] if self.at <= len(self.words) else ""

    def choice(self) -> int:
        first = self.binary(0)
        if self.peek() != "?":
            return first
        self.take()
        second = self.choice()
        if self.take() != ":":
            raise NotConstant("no : after ?")
        third = self.choice()
        return second if first else third

    def binary(self, level: int) -> int:
        if level == len(LEVELS):
            return self.unary()
        left = self.binary(level + 1)
        while self.peek() in LEVELS[level]:
            left = combined(self.take(), left, self.binary(level + 1))
        return left

    def unary(self) -> int:
        word = self.take()
        if word in ("-", "+", "~", "!"):
            inner = self.unary()
            return {"-": -inner, "+": inner, "~": ~inner, "!": int(not inner)}[word]
        if word == "(":
            inner = self.choice()
            if self.take() != ")":
                raise NotConstant("no )")
            return inner
        if word[:1].isdigit():
            return number(word)
        if word[:1] == "'" or word[:2] == "L'":
            body = word.lstrip("L")[1:-1]
            return ord(body) if len(body) == 1 else ESCAPES.get(body[1:], ord(body[1]))
        if word in ("TRUE", "FALSE"):
            return int(word == "TRUE")
        if word[:1].isalpha() or word[:1] == "_":
            return self.value(word)
        raise NotConstant(f"unexpected {word or 'end'}")


def combined(operator: str, left: int, right: int) -> int:
    """The value of an operator with two operands."""
    if operator in ("/", "%"):
        if right == 0:
            raise NotConstant("a divisor is 0")
        quotient = abs(left) // abs(right) * (1 if (left < 0) == (right < 0) else -1)
        return quotient if operator == "/" else left - quotient * right
    if operator in ("<<", ">>") and not 0 <= right < 64:
        raise NotConstant("a shift is out of range")
    results: Dict[str, Callable[[], int]] = {
        "||": lambda: int(bool(left or right)), "&&": lambda: int(bool(left and right)), "|": lambda: left | right, "^": lambda: left ^ right,
        "&": lambda: left & right, "==": lambda: int(left == right), "!=": lambda: int(left != right), "<": lambda: int(left < right),
        ">": lambda: int(left > right), "<=": lambda: int(left <= right), ">=": lambda: int(left >= right), "<<": lambda: left << right,
        ">>": lambda: left >> right, "+": lambda: left + right, "-": lambda: left - right, "*": lambda: left * right}
    return results[operator]()
