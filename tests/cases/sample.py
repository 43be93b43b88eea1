"""The command `sample`, and a run without words."""

from case import CLOSED, FULL, Case, lines, octets

SAMPLED = lines("cells 2", "octets 28", "sum 178", "same yes")


# The text of the interface that the sample has (`command_sample: interface`), and its listing.
TEXT = b"""[local] interface sample {
  typedef struct node { long v; [ptr] struct node *left; [ptr] struct node *right; } node;
  void take([in, ptr] node *root);
}
"""
LISTING = lines(
    "interface sample version 0.0 uuid -",
    "type 12 struct align 4",
    "member v 7",
    "member left 13",
    "member right 13",
    "type 13 ptr 12 align 4",
    "op 0 take",
    "in root 13",
)


def refused(*words):
    """Words that are no command."""
    return Case("sample: " + " ".join(words) + " is refused", words, notes=lines("words refused"), status=2)


CASES = [
    Case("sample: no words", [], out=SAMPLED),
    Case("sample: no words, closed input", [], input=CLOSED, out=SAMPLED),
    Case("sample: no input is read", [], input=octets("01"), out=SAMPLED, left=octets("01")),
    Case("sample: 1 2", ["sample", "1", "2"], out=SAMPLED),
    Case("sample: one cell", ["sample", "0", "1"], out=lines("cells 1", "octets 16", "sum 1", "same yes")),
    Case("sample: 100000 cells", ["sample", "1", "100000"], out=lines("cells 100000", "octets 1200004", "sum 49871872", "same yes"), slow=True),
    Case("sample: the most cells", ["sample", "1", "1000000"], out=lines("cells 1000000", "octets 12000004", "sum 498652264", "same yes"), slow=True),
    Case("sample: the last seed", ["sample", "4294967295", "3"], out=lines("cells 3", "octets 40", "sum 1270", "same yes")),
    Case("sample: full out", ["sample", "1", "2"], out=FULL, notes=lines("write fault"), status=4),
    Case("sample: its interface", ["compile", "sample.idl", "-"], {"sample.idl": TEXT}, out=LISTING),
    refused("sample"),
    refused("sample", "1"),
    refused("sample", "1", "0"),
    refused("sample", "1", "1000001"),
    refused("sample", "4294967296", "1"),
    refused("sample", "-1", "1"),
    refused("sample", "1", "+1"),
    refused("sample", "01", "1"),
    refused("sample", "1", "01"),
    refused("sample", "1", ""),
    refused("sample", "1", "2", "3"),
    refused("Sample", "1", "2"),
    refused(""),
]
