"""The command `compile`: what it lists, and the order in which it refuses. `acf.py` has what attribute files are refused for."""

from case import CLOSED, ENDLESS, FULL, Case, Folder, example, lines, octets

UUID = "11111111-2222-3333-4444-555555555555"
LOCAL = "interface t version 0.0 uuid -"


def listed(name, text, *listing, **more):
    """An interface file, and its listing."""
    return Case(f"compile: {name}", ["compile", "t.idl", "-"], {"t.idl": text.encode()}, out=lines(*listing), **more)


def local(name, declarations, *listing):
    """Declarations of an interface without UUID and version, and the lines after its header."""
    return listed(name, f"[local] interface t {{ {declarations} }}\n", LOCAL, *listing)


# ----------------------------------------------------------------------------------------------------------------------
# An interface with an import, and with an attribute file

BASE = b"""[uuid(0a0b0c0d-0102-0304-0506-0708090a0b0c), version(1.0)]
interface base {
  const long NAME_MAX = 16;
  typedef enum { FILE_KIND, FOLDER_KIND = 4 } kind_t;
}
"""
DIRECTORY = b"""[uuid(00112233-4455-6677-8899-aabbccddeeff), version(2.1),
 pointer_default(unique)]
interface dir {
  import "base.idl";
  typedef [switch_type(kind_t)] union {
    [case(FILE_KIND)] unsigned long size;
    [case(FOLDER_KIND)] ;
  } detail_t;
  typedef struct entry {
    kind_t kind;
    [switch_is(kind)] detail_t detail;
    [string] char name[NAME_MAX];
    [ptr] struct entry *parent;
    struct entry *next;
  } entry;
  unsigned long list([in, string] char *path, [out] entry *first);
  void put([in] handle_t h, [in, unique] entry *e,
           [in] unsigned long n, [in, size_is(n)] byte data[*]);
}
"""
DIRECTORY_ACF = b"[explicit_handle] interface dir { put([heap] e); }\n"
DIRECTORY_LISTING = lines(
    "interface dir version 2.1 uuid 00112233-4455-6677-8899-aabbccddeeff",
    "type 12 enum 0 4 align 2",
    "type 13 union 12 align 4",
    "arm 0 size 8",
    "arm 4 - void",
    "type 14 struct align 4",
    "member kind 12",
    "member detail 13 switch_is kind",
    "member name 15",
    "member parent 16",
    "member next 17",
    "type 15 text 1 16 align 4",
    "type 16 ptr 14 align 4",
    "type 17 unique 14 align 4",
    "type 18 conftext 1 align 4 hoists",
    "type 19 ref 18 align 4",
    "type 20 ref 14 align 4",
    "type 21 conf 2 align 1 hoists",
    "op 0 list",
    "in path 19",
    "out first 20",
    "out return 8",
    "op 1 put",
    "in e 17",
    "in n 8",
    "in data 21 size_is n",
)
FILES = {"dir.idl": DIRECTORY, "base.idl": BASE, "dir.acf": DIRECTORY_ACF}
COMPILE = ["compile", "dir.idl", "dir.acf"]


def without(*names):
    """The directory's files except these."""
    return {name: content for name, content in FILES.items() if name not in names}


WORKED = [
    listed(
        "a struct that hoists",
        f"[uuid({UUID}), version(1.0)] interface t {{\n"
        "typedef struct { short n; [size_is(n)] hyper a[*]; } s; void sum([in] s *p);\n}\n",
        f"interface t version 1.0 uuid {UUID}",
        "type 12 struct align 8 hoists",
        "member n 5",
        "member a 13 size_is n",
        "type 13 conf 9 align 8 hoists",
        "type 14 ref 12 align 4",
        "op 0 sum",
        "in p 14",
    ),
    Case("compile: the directory", COMPILE, FILES, out=DIRECTORY_LISTING),
    Case("compile: the directory without an ACF", ["compile", "dir.idl", "-"], without("dir.acf"), out=DIRECTORY_LISTING),
]

EXAMPLES = [
    Case("compile: the example of letters", ["compile", "letters.idl", "letters.acf"],
         {name: example(name) for name in ("letters.idl", "letters.acf")},
         out=lines(
             "interface letters version 1.2 uuid 6b1d1e10-2f0a-4b6e-9d3f-0a1b2c3d4e5f",
             "type 12 enum 0 4 align 2",
             "type 13 struct align 4 hoists",
             "member what 12",
             "member to 14",
             "member answered 15",
             "member size 8",
             "member text 16 size_is size",
             "type 14 text 1 32 align 4",
             "type 15 unique 13 align 4",
             "type 16 conf 2 align 1 hoists",
             "type 17 ref 13 align 4",
             "type 18 conftext 1 align 4 hoists",
             "type 19 ref 18 align 4",
             "op 0 send",
             "in sent 17",
             "out return 8",
             "op 1 last",
             "in to 19",
             "out found 17",
         )),
    Case("compile: the example of a shop", ["compile", "examples/shop.idl", "examples/shop.acf"],
         {f"examples/{name}": example(name) for name in ("shop.idl", "base.idl", "shop.acf")},
         out=lines("interface shop version 0.0 uuid -", "type 12 fixed 8 16 align 4", "op 0 put", "in i 8", "in count 6", "op 1 list", "in all 12",
                   "op 2 top", "out return 10")),
]

# ----------------------------------------------------------------------------------------------------------------------
# Forms of the listing

HEADERS = [
    listed("no type and no operation", "[local] interface t { }", LOCAL),
    listed("a UUID in upper case", "[uuid(0A0B0C0D-0102-0304-0506-0708090A0B0C)] interface t { }",
           "interface t version 0.0 uuid 0a0b0c0d-0102-0304-0506-0708090a0b0c"),
    listed("a UUID of zeros", "[uuid(00000000-0000-0000-0000-000000000000)] interface t { }",
           "interface t version 0.0 uuid 00000000-0000-0000-0000-000000000000"),
    listed("the greatest UUID", "[uuid(FFFFFFFF-FFFF-FFFF-FFFF-FFFFFFFFFFFF)] interface t { }",
           "interface t version 0.0 uuid ffffffff-ffff-ffff-ffff-ffffffffffff"),
    listed("a version without a minor one", "[local, version(3)] interface t { }", "interface t version 3.0 uuid -"),
    listed("the greatest version", "[local, version(65535.0xFFFF)] interface t { }", "interface t version 65535.65535 uuid -"),
    listed("a name of 31 letters", f"[local] interface {'n' * 31} {{ }}", f"interface {'n' * 31} version 0.0 uuid -"),
]

PRIMITIVES = [
    "boolean", "char", "byte", "small", "unsigned small", "short", "unsigned short", "long", "unsigned long", "hyper", "unsigned hyper",
]

OPERATIONS = [
    local("an operation without parameters", "void f();", "op 0 f"),
    local("each primitive", f"void f({', '.join(f'[in] {type} p{number}' for number, type in enumerate(PRIMITIVES))});", "op 0 f",
          *(f"in p{number} {number}" for number in range(11))),
    local("each primitive as a result", " ".join(f"{type} f{number}();" for number, type in enumerate(PRIMITIVES)),
          *(line for number in range(11) for line in (f"op {number} f{number}", f"out return {number}"))),
    local("a handle does not travel", "void f([in] handle_t h, [in] long a);", "op 0 f", "in a 7"),
    local("both sides", "long f([in, out] long *a, [in] short b, [out] hyper *c);",
          "type 12 ref 7 align 4", "type 13 ref 9 align 4", "op 0 f", "in a 12", "in b 5", "out a 12", "out c 13", "out return 7"),
    local("pipes come after the result", "typedef pipe long p; long f([in, out] p a, [in] p *b, [out] p *c, [in] byte d, [out] long *e);",
          "type 12 pipe 7 align 4", "type 13 ref 12 align 4", "type 14 ref 7 align 4", "op 0 f",
          "in d 2", "in a 12", "in b 12", "out e 14", "out return 7", "out a 12", "out c 12"),
    local("context handles", "typedef [context_handle] void *c; void f([in] c a, [out] c *b);",
          "type 12 ref 11 align 4", "op 0 f", "in a 11", "out b 12"),
    local("operations in the order of the file", "void b(); void a(); void c();", "op 0 b", "op 1 a", "op 2 c"),
]

TYPES = [
    local("enumerators with equal and with given values", "typedef enum { A, B, C = 7, D, E = 7, F = 0, G = 32767 } e;", "type 12 enum 0 1 7 8 7 0 32767 align 2"),
    local("arrays of each form",
          "struct s { long n; long m; [first_is(n), length_is(m)] short a[4]; short b[4]; [size_is(n), last_is(m)] short c[*]; };"
          "struct u { long n; [max_is(n)] short d[*]; };",
          "type 12 struct align 4 hoists", "member n 7", "member m 7", "member a 13 first_is n length_is m", "member b 14",
          "member c 15 size_is n last_is m", "type 13 vary 5 4 align 4", "type 14 fixed 5 4 align 2", "type 15 confvary 5 align 4 hoists",
          "type 16 struct align 4 hoists", "member n 7", "member d 17 max_is n", "type 17 conf 5 align 2 hoists"),
    local("arrays of arrays", "typedef hyper a[2][3][4]; typedef a b[5];",
          "type 12 fixed 9 4 align 8", "type 13 fixed 12 3 align 8", "type 14 fixed 13 2 align 8", "type 15 fixed 14 5 align 8"),
    local("texts of each form", "struct s { [string] char a[8]; [string] byte b[*]; };",
          "type 12 struct align 4 hoists", "member a 13", "member b 14", "type 13 text 1 8 align 4", "type 14 conftext 2 align 4 hoists"),
    local("pointers of each class", "typedef [ref] long *a; typedef [unique] short *b; typedef [ptr] byte *c;",
          "type 12 ref 7 align 4", "type 13 unique 5 align 4", "type 14 ptr 2 align 4"),
    local("a pointer with a count", "void f([in] long n, [in, unique, size_is(n)] hyper *a, [in, string, max_is(n)] char *b);",
          "type 12 conf 9 align 8 hoists", "type 13 unique 12 align 4", "type 14 conftext 1 align 4 hoists", "type 15 ref 14 align 4",
          "op 0 f", "in n 7", "in a 13 size_is n", "in b 15 max_is n"),
    local("a variable that a pointer names", "void f([in] long *n, [in, size_is(*n)] byte a[*]);",
          "type 12 ref 7 align 4", "type 13 conf 2 align 1 hoists", "op 0 f", "in n 12", "in a 13 size_is *n"),
    local("a variable that is not on that side", "void f([in] long n, [in, out, size_is(n)] byte a[*], [out] long *m, [in, length_is(*m)] byte b[2]);",
          "type 12 conf 2 align 1 hoists", "type 13 ref 7 align 4", "type 14 vary 2 2 align 4",
          "op 0 f", "in n 7", "in a 12 size_is n", "in b 14 length_is *m", "out a 12 size_is n", "out m 13"),
    local("a variable that comes later", "struct s { [unique, size_is(n), first_is(f), last_is(l)] long *a; long n; short f; small l; };",
          "type 12 struct align 4", "member a 14 size_is n first_is f last_is l", "member n 7", "member f 5", "member l 3",
          "type 13 confvary 7 align 4 hoists", "type 14 unique 13 align 4"),
    local("a union with a tag", "typedef union switch (long k) of_k { case -5: case 3: hyper a; default: ; case 2147483647: char c; } u;",
          "type 12 union 7 align 8", "arm -5 a 9", "arm 3 a 9", "arm 2147483647 c 1", "default - void"),
    local("a union without a default", "union u switch (boolean k) { case TRUE: byte a; case FALSE: ; };",
          "type 12 union 0 align 1", "arm 1 a 2", "arm 0 - void"),
    local("a union without a tag", "typedef [switch_type(char)] union { [case('a', 'b')] short a; [default] long b; } u;"
          " void f([in] char k, [in, switch_is(k)] u a);",
          "type 12 union 1 align 4", "arm 97 a 5", "arm 98 a 5", "default b 7", "op 0 f", "in k 1", "in a 12 switch_is k"),
    local("labels of large tags", "union u switch (unsigned hyper k) { case 0: ; case 0xFFFFFFFFFFFFFFFF: ; };"
          " union v switch (hyper k) { case -9223372036854775807 - 1: ; };",
          "type 12 union 10 align 8", "arm 0 - void", "arm 18446744073709551615 - void",
          "type 13 union 9 align 8", "arm -9223372036854775808 - void"),
    local("labels that are enumerators", "typedef enum { A = 9, B } e; union u switch (e k) { case B: long b; case A: ; };",
          "type 12 enum 9 10 align 2", "type 13 union 12 align 4", "arm 10 b 7", "arm 9 - void"),
    local("a tag before its body", "typedef [unique] struct s *p; struct s { p next; byte b; };",
          "type 12 struct align 4", "member next 13", "member b 2", "type 13 unique 12 align 4"),
    local("a type that nothing uses", "typedef struct { long a; } s; void f();", "type 12 struct align 4", "member a 7", "op 0 f"),
    local("equal types have one number", "typedef [unique] long *a; typedef [unique] long *b; typedef long c[3]; void f([in, unique] long *x, [in] long y[3]);",
          "type 12 unique 7 align 4", "type 13 fixed 7 3 align 4", "op 0 f", "in x 12", "in y 13"),
]

LAYOUTS = [
    local("alignments of structs", "struct a { byte x; }; struct b { small x; short y; }; struct c { struct a x; struct b y; boolean z; };"
          " struct d { byte x; [unique] byte *y; }; struct e { byte x; unsigned hyper y[3]; };",
          "type 12 struct align 1", "member x 2", "type 13 struct align 2", "member x 3", "member y 5",
          "type 14 struct align 2", "member x 12", "member y 13", "member z 0",
          "type 15 struct align 4", "member x 2", "member y 16", "type 16 unique 2 align 4",
          "type 17 struct align 8", "member x 2", "member y 18", "type 18 fixed 10 3 align 8"),
    local("alignments of arrays of octets", "struct s { small n; byte a[7]; [length_is(n)] byte b[7]; }; struct u { small n; [string] char c[7]; };",
          "type 12 struct align 4", "member n 3", "member a 13", "member b 14 length_is n",
          "type 13 fixed 2 7 align 1", "type 14 vary 2 7 align 4",
          "type 15 struct align 4", "member n 3", "member c 16", "type 16 text 1 7 align 4"),
    local("alignments of unions", "union a switch (boolean k) { case 0: char x; }; union b switch (hyper k) { case 0: ; };"
          " union c switch (char k) { case 0: short x; default: hyper y; }; union d switch (char k) { case 0: ; case 1: union a x; };",
          "type 12 union 0 align 1", "arm 0 x 1", "type 13 union 9 align 8", "arm 0 - void",
          "type 14 union 1 align 8", "arm 0 x 5", "default y 9", "type 15 union 1 align 1", "arm 0 - void", "arm 1 x 12"),
    local("a count before two structs", "struct inner { long n; [size_is(n)] short a[*]; }; struct outer { byte t; struct inner i; }; void g([in] struct outer *p);",
          "type 12 struct align 4 hoists", "member n 7", "member a 13 size_is n", "type 13 conf 5 align 2 hoists",
          "type 14 struct align 4 hoists", "member t 2", "member i 12", "type 15 ref 14 align 4", "op 0 g", "in p 15"),
    local("no count before what only points to one", "struct s { long n; [size_is(n), unique] long *a; }; struct t { [string, unique] char *b; };",
          "type 12 struct align 4", "member n 7", "member a 14 size_is n", "type 13 conf 7 align 4 hoists", "type 14 unique 13 align 4",
          "type 15 struct align 4", "member b 17", "type 16 conftext 1 align 4 hoists", "type 17 unique 16 align 4"),
    local("elements of pipes", "typedef pipe hyper p; typedef pipe struct { byte a; } q;",
          "type 12 pipe 9 align 4", "type 13 struct align 1", "member a 2", "type 14 pipe 13 align 4"),
    local("31 structs in one another", " ".join(["struct s0 { hyper a; };", *(f"struct s{n} {{ struct s{n - 1} a; }};" for n in range(1, 31))]),
          "type 12 struct align 8", "member a 9", *(line for n in range(1, 31) for line in (f"type {12 + n} struct align 8", f"member a {11 + n}"))),
]

IMPORTED = [
    Case("compile: types of imported files come first, their operations are not listed", ["compile", "t.idl", "-"],
         {"t.idl": b'[local] interface t { import "u.idl"; typedef [unique] long *p; void f([in] e a); }',
          "u.idl": b'[local, version(9.9)] interface u { import "v.idl"; typedef byte three[3]; void g(); }',
          "v.idl": b"[uuid(11111111-2222-3333-4444-555555555555)] interface v { typedef enum { A = 5 } e; void h([in, unique] hyper *z); }"},
         out=lines(LOCAL, "type 12 enum 5 align 2", "type 13 fixed 2 3 align 1", "type 14 unique 7 align 4", "op 0 f", "in a 12")),
    Case("compile: pointer_default is that of each file", ["compile", "t.idl", "-"],
         {"t.idl": b'[local, pointer_default(ptr)] interface t { import "u.idl"; typedef long *p; }',
          "u.idl": b"[local, pointer_default(unique)] interface u { typedef long *q; }"},
         out=lines(LOCAL, "type 12 unique 7 align 4", "type 13 ptr 7 align 4")),
]

# ----------------------------------------------------------------------------------------------------------------------
# Words, streams, and what is refused first

SMALL = {"t.idl": b"[local] interface t { void f([in] long a); }"}
SMALL_LISTING = lines(LOCAL, "op 0 f", "in a 7")
LONE_TYPE = {"t.idl": b"[local] interface t { long; }"}


def refused(name, *words):
    """Words that are no command, though the file is there."""
    return Case(f"compile: {name}", words, SMALL, octets("01"), notes=lines("words refused"), status=2)


WORDS = [
    refused("alone", "compile"),
    refused("too few words", "compile", "t.idl"),
    refused("too many words", "compile", "t.idl", "-", "f"),
    refused("words of a decoding", "compile", "t.idl", "-", "f", "in", "little"),
    refused("in capitals", "Compile", "t.idl", "-"),
    refused("the ACF's name is no UTF-8", "compile", "t.idl", b"t\xff.acf"),
    refused("two ACFs", "compile", "t.idl", "-", "-"),
]

STREAMS = [
    Case("compile: a closed input is not asked for", ["compile", "t.idl", "-"], SMALL, input=CLOSED, out=SMALL_LISTING),
    Case("compile: an endless input is not asked for", ["compile", "t.idl", "-"], SMALL, input=ENDLESS, out=SMALL_LISTING),
    Case("compile: standard output is full", ["compile", "t.idl", "-"], SMALL, out=FULL, notes=lines("write fault"), status=4),
    Case("compile: standard output is closed", ["compile", "t.idl", "-"], SMALL, out=CLOSED, notes=lines("write fault"), status=4),
    Case("compile: standard error is full", ["compile", "t.idl", "-"], {}, notes=FULL, status=4),
]


def refusal(name, words, files, line, status=6):
    """What is reported first, of more than one fault."""
    return Case(f"compile: {name}", words, files, notes=lines(line), status=status)


WITH_ACF = ["compile", "t.idl", "t.acf"]
ORDER = [
    refusal("a missing file", ["compile", "t.idl", "-"], {}, "absent: t.idl", 7),
    refusal("a missing file before a missing ACF", WITH_ACF, {}, "absent: t.idl", 7),
    refusal("a missing import", COMPILE, without("base.idl"), "absent: base.idl", 7),
    *(Case(f"{task}: the directory without the file that it imports", [task, "dir.idl", "dir.acf", "put", "in", "little", *chunk],
           without("base.idl"), input=CLOSED, notes=lines("absent: base.idl"), status=7)
      for task, chunk in (("decode", []), ("encode", ["1"]))),
    refusal("a missing ACF", COMPILE, without("dir.acf"), "absent: dir.acf", 7),
    refusal("a missing import before a missing ACF", COMPILE, without("base.idl", "dir.acf"), "absent: base.idl", 7),
    refusal("a missing import before an ACF's syntax", COMPILE, {**without("base.idl"), "dir.acf": b"]"}, "absent: base.idl", 7),
    refusal("an import that is a folder before a missing ACF", COMPILE, {"dir.idl": DIRECTORY, "base.idl": Folder()}, "file fault: base.idl", 9),
    refusal("an ACF that is a folder", COMPILE, {**FILES, "dir.acf": Folder()}, "file fault: dir.acf", 9),
    refusal("an ACF in a missing folder", ["compile", "t.idl", "sub/t.acf"], SMALL, "absent: sub/t.acf", 7),
    refusal("an empty name of an ACF", ["compile", "t.idl", ""], SMALL, "absent: ", 7),
    refusal("syntax before a missing ACF", WITH_ACF, {"t.idl": b"[local] interface t { ; }"}, "idl t.idl:1:23: Syntax"),
    refusal("syntax before an ACF's", WITH_ACF, {"t.idl": b"[local] interface t { ; }", "t.acf": b"]"}, "idl t.idl:1:23: Syntax"),
    refusal("an unknown name before a missing ACF", WITH_ACF, {"t.idl": b"[local] interface t { typedef no_t n; }"}, "idl t.idl:1:31: Unknown no_t"),
    refusal("a constant before a missing ACF", WITH_ACF, {"t.idl": b"[local] interface t { const long A = 1 / 0; }"}, "idl t.idl:1:40: ZeroDivisor"),
    refusal("a missing ACF before a rule", WITH_ACF, LONE_TYPE, "absent: t.acf", 7),
    refusal("an ACF's token before a rule", WITH_ACF, {**LONE_TYPE, "t.acf": b"interface t { $ }"}, "idl t.acf:1:15: BadOctet"),
    refusal("an ACF's syntax before a rule", WITH_ACF, {**LONE_TYPE, "t.acf": b"interface { }"}, "idl t.acf:1:11: Syntax"),
    refusal("another rule before that on ACFs", WITH_ACF, {**LONE_TYPE, "t.acf": b"interface other { }"}, "idl t.idl:1:23: Rule 5"),
    refusal("the last of the other rules before that on ACFs", WITH_ACF,
            {"t.idl": f"[local] interface t {{ void f({', '.join(f'[in] long p{n}' for n in range(257))}); }}".encode(), "t.acf": b"interface other { }"},
            f"idl t.idl:1:{30 + sum(len(f'[in] long p{n}, ') for n in range(256))}: Rule 39"),
    refusal("a rule of an import before that on ACFs", COMPILE,
            {**FILES, "base.idl": b"[local] interface base { long; const long NAME_MAX = 16;\ntypedef enum { FILE_KIND, FOLDER_KIND = 4 } kind_t; }",
             "dir.acf": b"interface other { }"}, "idl base.idl:1:26: Rule 5"),
    refusal("the directory with another interface's ACF", COMPILE, {**FILES, "dir.acf": b"interface other { }"}, "idl dir.acf:1:1: Rule 40"),
    refusal("an ACF that is the IDL file", ["compile", "dir.idl", "dir.idl"], FILES, "idl dir.idl:1:2: Syntax"),
    refusal("an ACF that is an imported file", ["compile", "dir.idl", "base.idl"], FILES, "idl base.idl:1:2: Syntax"),
    refusal("IDL that is an ACF", ["compile", "dir.acf", "dir.acf"], FILES, "idl dir.acf:1:2: Syntax"),
]

NAMES = [
    Case("compile: - is no ACF, also where a file has the name", ["compile", "t.idl", "-"], {**SMALL, "-": b"]"}, out=SMALL_LISTING),
    refusal("an ACF that is named -", ["compile", "t.idl", "./-"], {**SMALL, "-": b"]"}, "idl ./-:1:1: Syntax"),
    Case("compile: an ACF that is named -, and right", ["compile", "t.idl", "./-"], {**SMALL, "-": b"interface t { }"}, out=SMALL_LISTING),
    Case("compile: IDL that is named -", ["compile", "-", "-"], {"-": SMALL["t.idl"]}, out=SMALL_LISTING),
    Case("compile: an ACF in a folder", ["compile", "t.idl", "sub/t.acf"], {**SMALL, "sub/t.acf": b"interface t { }"}, out=SMALL_LISTING),
    refusal("an ACF in a folder, refused", ["compile", "t.idl", "sub/../sub/t.acf"], {**SMALL, "sub/t.acf": b"interface u { }"},
            "idl sub/../sub/t.acf:1:1: Rule 40"),
    refusal("letters past ASCII in the name of an ACF", ["compile", "t.idl", "größe.acf"], SMALL, "absent: größe.acf", 7),
]

CASES = WORKED + EXAMPLES + HEADERS + OPERATIONS + TYPES + LAYOUTS + IMPORTED + WORDS + STREAMS + ORDER + NAMES
