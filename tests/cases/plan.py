"""The plan of an interface: the examples of docs/PLAN.md, whole, and what is refused as by `compile`."""

import re
from typing import Iterator, List, Tuple

from case import CLOSED, ROOT, Case, lines

PAGE = (ROOT / "docs" / "PLAN.md").read_text(encoding="utf-8")
BASIC = 33
ATTRIBUTES = "[uuid(11111111-2222-3333-4444-555555555555)] "


def examples(page: str) -> Iterator[Tuple[str, List[str]]]:
    """The interface of each example with the lines of its plan, which go on from one block to the next."""
    for section in page.split("\n## ")[1:]:
        blocks = re.findall(r"^```\n(.*?)^```$", section, flags=re.MULTILINE | re.DOTALL)
        if blocks:
            yield blocks[0], [line for block in blocks[1:] for line in block.splitlines()]


def cases() -> Iterator[Case]:
    found = list(examples(PAGE))
    basic = found[0][1][:BASIC]
    for text, plan in found:
        name = re.search(r"interface (\w+)", text).group(1)
        whole = plan if plan[:BASIC] == basic else basic + plan
        yield Case(f"plan: docs/PLAN.md, {name}", ["plan", "t.idl", "-"], {"t.idl": text.encode()}, out=lines(*whole))


ACF = b"interface t {}"
BASIC_PLAN = lines(*list(examples(PAGE))[0][1][:BASIC])

WORDS = """interface words {
  typedef enum { ONE = 1, TWO } e;
  typedef union switch (e k) v { case ONE: short s; default: ; } u;
  typedef union switch (boolean k) w { case TRUE: char c; } x;
  void put([in] long fixed[3], [in, string] char name[8], [in, length_is(n)] short part[4], [in] short n,
           [in] unsigned long *most, [in, size_is(*most), length_is(*most)] hyper tail[*], [in] u choice, [in] x other);
}
"""

# an enumerated type, two unions (one with an empty default, one with none), arrays and a string of each bound, and agreements with what a parameter points to
WORDS_PLAN = """33 align 2
34 enum 12
35 ret
36 align 2
37 tag 12
38 arm 1 12
39 other 0
40 tag 0
41 arm 1 4
42 noarm
43 fixed 3 18
44 ret
45 align 4
46 text 8
47 ret
48 align 4
49 vary 4 12
50 ret
51 align 4
52 pointer ref 8 21
53 ret
54 hoist
55 call 57
56 ret
57 align 4
58 confvary 24
59 ret
60 call 43
61 defer
62 ret
63 call 45
64 defer
65 ret
66 call 48
67 defer
68 ret
69 call 12
70 defer
71 ret
72 direct 8 21
73 defer
74 ret
75 call 54
76 defer
77 ret
78 call 36
79 defer
80 ret
81 call 40
82 defer
83 ret
84 check length 2 3 0
85 check size 5 4 1
86 check length 5 4 1
87 ret
88 ret
values 12 1 2
entry 0 in fixed 60
entry 0 in name 63
entry 0 in part 66
entry 0 in n 69
entry 0 in most 72
entry 0 in tail 75
entry 0 in choice 78
entry 0 in other 81
checks 0 in 84
checks 0 out 88
"""

# the size of an output that only the request has
REQUEST = "interface t { void r([in] unsigned long n, [out, size_is(n)] byte a[*]); }"
REQUEST_PLAN = """33 hoist
34 call 36
35 ret
36 conf 6
37 ret
38 call 21
39 defer
40 ret
41 ret
42 call 33
43 defer
44 ret
45 given size 0 0 0
46 ret
entry 0 in n 38
checks 0 in 41
entry 0 out a 42
checks 0 out 45
"""


def planned(name: str, text: str, plan: str, acf: str = "-") -> Case:
    """The plan of a text, whose lines after those of the basic types are these."""
    return Case(f"plan: {name}", ["plan", "t.idl", acf], {"t.idl": (ATTRIBUTES + text).encode(), "t.acf": ACF},
                CLOSED, BASIC_PLAN + plan.encode())


CASES = [
    *cases(),
    planned("every instruction that a parameter can need", WORDS, WORDS_PLAN),
    planned("a size in the request", REQUEST, REQUEST_PLAN),
    planned("an attribute file changes nothing", REQUEST, REQUEST_PLAN, "t.acf"),
    Case("plan: a fault of the interface", ["plan", "t.idl", "-"], {"t.idl": b"[local] interface t { ; }"},
         notes=lines("idl t.idl:1:23: Syntax"), status=6),
    Case("plan: a missing file", ["plan", "t.idl", "-"], notes=lines("absent: t.idl"), status=7),
    Case("plan: a missing ACF", ["plan", "t.idl", "t.acf"], {"t.idl": b"[local] interface t {}"},
         notes=lines("absent: t.acf"), status=7),
]
