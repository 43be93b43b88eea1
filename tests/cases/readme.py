"""README.md: each line that begins with `$` is run, and prints what the page shows after it."""

from dataclasses import replace

from case import Check, commands

LINES = [replace(line, alone=" drain " in line.line or "pipe0.out" in line.line) for line in commands("README.md")]  # `drain` writes files
MANY = 8  # lines that the page has at least

CASES = [
    Check("README.md: the page was read", lambda: [] if len(LINES) >= MANY else [f"it has {len(LINES)} lines, not {MANY}"]),
    *LINES,
]
