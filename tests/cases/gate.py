"""bench/gate.py: the table and the longest chain that it prints of a log."""

import subprocess
import sys
import tempfile
from pathlib import Path

from case import ROOT, Check

LOG = """\
      2.0 [running 60.0] nd_base proof 45.0
     62.0 rt: nd_base proved
     64.0 [running 120.0] idl_lexer proof 90.0, nd_base tests 60.0
    184.0 rt: idl_lexer proved
    185.0 rt: nd_base: its tests are proved
    186.0 rt: rpc_pdu is kept: an earlier run on this machine proved the same files over the same libraries
    190.0 [running 30.0] idl_lexer edits 24.0, idl_lexer edits 30.0
    220.0 rt: must-fail idl_lexer/any_escape.edit: refused, as it must be
    221.0 rt: idl_parser NOT PROVED
"""
TABLE = """\
| Crate | Proof | Tests | Must-fail edits | Proof, processor | Tests, processor | Edits, processor | Number | State |
|---|---:|---:|---:|---:|---:|---:|---:|---|
| `nd_base` | 1.0 | 2.0 | - | 0.8 | 1.0 | - | - |  |
| `rpc_pdu` | - | - | - | - | - | - | - | kept |
| `idl_lexer` | 2.0 | - | 0.5 | 1.5 | - | 0.9 | 1 |  |
| `idl_parser` | - | - | - | - | - | - | - | NOT PROVED |
| all | 3.0 | 2.0 | 0.5 | 2.2 | 1.0 | 0.9 | 1 | |

The whole run: 3.7 minutes.
The longest chain of proofs: nd_base 0.8 -> idl_lexer 1.5: 2.2 minutes of a processor.
The longest work other than proofs: tests of nd_base, 2.0 minutes.
"""


def run(*words, given=None):
    """What the script prints."""
    return subprocess.run([sys.executable, str(ROOT / "bench" / "gate.py"), *words], input=given, capture_output=True, text=True).stdout


def table():
    """The table of a log."""
    with tempfile.TemporaryDirectory() as folder:
        log = Path(folder, "log")
        log.write_text(LOG)
        found = run(str(log))
    return [] if found == TABLE else [f"wanted {TABLE!r}", f"found {found!r}"]


def stamps():
    """A line that is stamped: its time, and the line."""
    found = run("--stamp", given="rt: nd_base proved\n")
    return [] if found.strip().endswith(" rt: nd_base proved") and 0 <= float(found.split()[0]) < 60 else [f"found {found!r}"]


def keeps():
    """The minutes that are kept of a log; what it does not have stays."""
    with tempfile.TemporaryDirectory() as folder:
        log, kept = Path(folder, "log"), Path(folder, "minutes.txt")
        log.write_text(LOG)
        kept.write_text("# before\nnd_base 9.0 9.0 9.0\nidl_parser 7.0 0 0\ngone 1 1 1\n")
        run("--minutes", str(kept), str(log))
        lines = kept.read_text().splitlines()
    wanted = ["nd_base 0.8 1.0 9.0", "idl_lexer 1.5 0 0.9", "idl_parser 7.0 0 0"]
    return [f"no line {line!r}" for line in wanted if line not in lines] + [f"found {line!r}" for line in lines if line.startswith("gone")]


def estimates():
    """More checks at once take no longer."""
    found = [run("--estimate", str(lanes)).strip() for lanes in (1, 4, 1000)]
    if not all(it.isdigit() for it in found):
        return [f"found {found!r}"]
    one, four, many = map(int, found)
    return [] if one >= four >= many > 0 and one > many else [f"found {found!r}"]


CASES = [Check("gate: the minutes that are kept", keeps), Check("gate: an estimate", estimates), Check("gate: the minutes of a log", table), Check("gate: lines get their times", stamps)]
