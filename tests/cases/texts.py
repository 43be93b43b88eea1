"""The value text of every form of type, by `migrate`: what is read and printed of each, in both versions, and what is refused of a text and of its values.

`§` in a text is before the place that is reported. The `Interface` of a case is `[local] interface t { DECLARATIONS void f(PARAMETERS); }`."""

from case import Case, Sparse, blocks, lines

TEXT_LIMIT = 536_870_912


def idl(parameters, declarations=""):
    """An interface with one operation."""
    return {"t.idl": f"[local] interface t {{ {declarations} void f({parameters}); }}".encode()}


def run(name, files, text, **wanted):
    """A text of `f` is migrated."""
    given = text if not isinstance(text, str) else text.encode()
    return Case(f"text: {name}", ["migrate", "t.idl", "-", "f", "in"], files, given, **wanted)


def whole(version, rest):
    """A text from its version and its lines after the first two."""
    return "".join(f"{line}\n" for line in [f"values {version}", "op f in", *rest])


def place(text):
    """A text without its mark, and the line and column where it was."""
    before, after = text.split("§")
    return before + after, f"{before.count(chr(10)) + 1}:{len(before) - before.rfind(chr(10))}"


class Form:
    """A form of type, by an operation with parameters of it."""

    def __init__(self, name, parameters, declarations=""):
        self.name, self.files = name, idl(parameters, declarations)

    def read(self, given, printed=None, version=2):
        """Lines that are read, and those that are printed of them: the same, unless others are given."""
        rest = (printed or given).split("\n")
        return run(f"{self.name}: {given}, version {version}", self.files, whole(version, given.split("\n")), out=whole(2, rest).encode())

    def both(self, *given):
        """Lines that are read in both versions, and printed."""
        return [self.read(one, version=version) for one in given for version in (1, 2)]

    def not_text(self, reason, *marked, version=2):
        """Lines that are refused at the mark. A mark at the end is at that of the text."""
        cases = []
        for one in marked:
            lines_of = whole(version, one.split("\n"))
            text, where = place(lines_of[:-1] if one.endswith("§") else lines_of)
            cases.append(run(f"{self.name}: {one}, version {version}", self.files, text, status=1, notes=lines(f"refused: text {where}: {reason}")))
        return cases

    def not_value(self, given, path, reason, version=2):
        """Lines that are read, and whose values do not conform."""
        return run(f"{self.name}: {given}, version {version}", self.files, whole(version, given.split("\n")), status=1,
                   notes=lines(f"refused: value at {path}: {reason}"))


PAIR = "typedef struct { long v; short w; } pair;"
PICK = "typedef union switch (short k) { case 1: long a; case 2: ; default: hyper h; } pick;"
FEW = "typedef union switch (short k) { case 1: long a; case 2: ; } few;"
BESIDE = "typedef [switch_type(short)] union { [case(1)] long a; [case(2)] ; [default] pair b; } beside;"
NODE = "typedef struct node { long v; [ptr] struct node *next; } node;"

NUMBER = Form("a number", "[in] long a")
BOOLEAN = Form("a boolean", "[in] boolean a")
CHAR = Form("a char", "[in] char a")
ENUM = Form("an enumerated value", "[in] kind a", "typedef enum { A, B = 4 } kind;")
STRUCT = Form("a struct", "[in] pair *a", PAIR)
FIXED = Form("a fixed array", "[in] long a[2]")
ROWS = Form("an array of two dimensions", "[in] short a[2][2]")
CONFORMANT = Form("a conformant array", "[in, size_is(n)] long a[*], [in] long n")
VARYING = Form("a varying array", "[in, length_is(n)] short a[4], [in] long n")
BOTH = Form("a conformant varying array", "[in, size_is(n), length_is(m)] short a[*], [in] long n, [in] long m")
STRUCTS = Form("an array of structs", "[in] pair a[2]", PAIR)
TEXT = Form("a string", "[in, string] char *a")
SHORT_TEXT = Form("a string of fixed bound", "[in, string] char a[4]")
BYTE_TEXT = Form("a string of bytes", "[in, string] byte a[4]")
UNION = Form("a union", "[in] pick *a", PICK)
NO_DEFAULT = Form("a union without a default", "[in] few *a", FEW)
OTHER_UNION = Form("a union with its tag elsewhere", "[in] short k, [in, switch_is(k)] beside a", PAIR + BESIDE)
REF = Form("a reference pointer", "[in] long *a")
UNIQUE = Form("unique pointers", "[in, unique] long *a, [in, unique] long *b")
FULL = Form("full pointers", "[in, ptr] node *a, [in, ptr] node *b", NODE)
CHAIN = Form("a list of nodes", "[in, ptr] node *a", NODE)
CONTEXT = Form("a context handle", "[in] ctx a", "typedef [context_handle] void *ctx;")
PIPE = Form("a pipe", "[in] lp a", "typedef pipe long lp;")
PIPE_AFTER = Form("a pipe after what follows it", "[in] lp a, [in] short b", "typedef pipe long lp;")
PIPE_REF = Form("a pipe under a reference pointer", "[in] lp *a", "typedef pipe long lp;")
CONTEXT_REF = Form("a context handle under a reference pointer", "[in] ctx *a", "typedef [context_handle] void *ctx;")
BYTE = Form("a byte", "[in] byte a")
BYTES = Form("fixed bytes", "[in] byte a[2]")
BYTE_ROWS = Form("bytes in two dimensions", "[in] byte a[2][2]")
BYTES_CONFORMANT = Form("conformant bytes", "[in, size_is(n)] byte a[*], [in] long n")
BYTES_VARYING = Form("varying bytes", "[in, length_is(n)] byte a[4], [in] long n")
BYTES_BOTH = Form("conformant varying bytes", "[in, size_is(n), length_is(m)] byte a[*], [in] long n, [in] long m")
BYTE_PIPE = Form("a pipe of bytes", "[in] bp a", "typedef pipe byte bp;")
CHARS = Form("an array of char", "[in] char a[2]")
NONE = Form("no parameters", "")

# What is read and printed.

READ = [
    *NUMBER.both("a = 1", "a = -2147483648"),
    *BOOLEAN.both("a = 0", "a = 1"),
    *CHAR.both("a = 104"),
    *ENUM.both("a = 4"),
    *STRUCT.both("a = @1\n@1 = {v = 1, w = -2}"),
    STRUCT.read("a=@1@1={v=1,w=-2}", "a = @1\n@1 = {v = 1, w = -2}"),
    STRUCT.read(" a\n=\t@1 \r\n@1 = { v = 1 , w\n= -2 } ", "a = @1\n@1 = {v = 1, w = -2}"),
    *FIXED.both("a = [1, 2]"),
    FIXED.read("a=[1,2]", "a = [1, 2]"),
    *ROWS.both("a = [[1, 2], [3, 4]]"),
    *CONFORMANT.both("a = [1, 2]\nn = 2", "a = []\nn = 0"),
    *VARYING.both("a = 0:[5, 6]\nn = 2", "a = 1:[7, 8, 9]\nn = 3", "a = 0:[]\nn = 0", "a = 4:[]\nn = 0"),
    *BOTH.both("a = 3:1:[7, 8]\nn = 3\nm = 2", "a = 0:0:[]\nn = 0\nm = 0"),
    BOTH.read("a = 3 : 1 : [ 7 , 8 ]\nn = 3\nm = 2", "a = 3:1:[7, 8]\nn = 3\nm = 2"),
    *STRUCTS.both("a = [{v = 1, w = 2}, {v = 3, w = 4}]"),
    *TEXT.both('a = @1\n@1 = 3:"hi"', 'a = @1\n@1 = 1:""', r'a = @1' + '\n' + r'@1 = 9:"\"\\\x7f\x01 ~"'),
    *TEXT.both(r'a = @1' + '\n' + r'@1 = 8:"ab\"c\\de"'),
    TEXT.read(r'a = @1' + '\n' + r'@1 = 5:"\x41\x0A\xfF"', r'a = @1' + '\n' + r'@1 = 5:"A\x0a\xff"'),
    *SHORT_TEXT.both('a = "hi"', 'a = ""'),
    *BYTE_TEXT.both('a = "hi"', r'a = "\x01\xff"'),
    *UNION.both("a = @1\n@1 = 1:5", "a = @1\n@1 = 2:void", "a = @1\n@1 = 9:-1"),
    *OTHER_UNION.both("k = 1\na = 1:5", "k = 2\na = 2:void", "k = 3\na = 3:{v = 1, w = 2}"),
    *REF.both("a = @1\n@1 = 5"),
    *UNIQUE.both("a = null\nb = null", "a = @1\nb = @2\n@1 = 5\n@2 = 5"),
    UNIQUE.read("a = @2\nb = @1\n@1 = 6\n@2 = 5", "a = @1\nb = @2\n@1 = 5\n@2 = 6"),
    *FULL.both("a = @1\nb = @1\n@1 = {v = 7, next = @1}", "a = null\nb = @1\n@1 = {v = 7, next = null}"),
    FULL.read("a = @2\nb = @1\n@1 = {v = 8, next = @1}\n@2 = {v = 7, next = @1}", "a = @1\nb = @2\n@1 = {v = 7, next = @2}\n@2 = {v = 8, next = @2}"),
    FULL.read("a = @2\nb = @1\n@1 = {v = 8, next = @2}\n@2 = {v = 7, next = @1}", "a = @1\nb = @2\n@1 = {v = 7, next = @2}\n@2 = {v = 8, next = @1}"),
    *CONTEXT.both("a = ctx(0, 00000000-0000-0000-0000-000000000000)", "a = ctx(4294967295, 00112233-4455-6677-8899-aabbccddeeff)"),
    CONTEXT.read("a = ctx ( 7 , 00112233-4455-6677-8899-AABBCCDDEEFF )", "a = ctx(7, 00112233-4455-6677-8899-aabbccddeeff)"),
    *PIPE.both("a = [1, 2, 3]", "a = []"),
    *PIPE_AFTER.both("b = 5\na = [1]"),
    *PIPE_REF.both("a = [1, 2]"),
    *CONTEXT_REF.both("a = @1\n@1 = ctx(7, 00112233-4455-6677-8899-aabbccddeeff)"),
    *BYTE.both("a = 255"),
    BYTES.read('a = x"00ff"'),
    BYTES.read('a = x"aBcD"', 'a = x"abcd"'),
    BYTES.read("a = [0, 255]", 'a = x"00ff"', 1),
    BYTE_ROWS.read('a = [x"0001", x"0203"]'),
    BYTE_ROWS.read("a = [[0, 1], [2, 3]]", 'a = [x"0001", x"0203"]', 1),
    BYTES_CONFORMANT.read('a = x"abcd"\nn = 2'),
    BYTES_CONFORMANT.read('a = x""\nn = 0'),
    BYTES_CONFORMANT.read("a = [171, 205]\nn = 2", 'a = x"abcd"\nn = 2', 1),
    BYTES_CONFORMANT.read("a = []\nn = 0", 'a = x""\nn = 0', 1),
    BYTES_VARYING.read('a = 1:x"abcd"\nn = 2'),
    BYTES_VARYING.read("a = 1:[171, 205]\nn = 2", 'a = 1:x"abcd"\nn = 2', 1),
    BYTES_BOTH.read('a = 3:1:x"abcd"\nn = 3\nm = 2'),
    BYTES_BOTH.read("a = 3:1:[171, 205]\nn = 3\nm = 2", 'a = 3:1:x"abcd"\nn = 3\nm = 2', 1),
    BYTE_PIPE.read('a = x"0102"'),
    BYTE_PIPE.read('a = x""'),
    BYTE_PIPE.read("a = [1, 2]", 'a = x"0102"', 1),
    *CHARS.both("a = [104, 105]"),
    run("no parameters: version 1", NONE.files, "values 1 op f in", out=b"values 2\nop f in\n"),
]

# What is no text of the operation.

REFUSED = [
    *NUMBER.not_text("Expected", "a = §x", "a = §{", 'a = §"1"', "a = §[1]", "a = §@1", "a = §null", "a §1", "§1", "§", "a = 1\n§b = 2", "a = 1\n§1"),
    *NUMBER.not_text("BadToken", "a = §01", "a = §-", "a = §-0", "a = §123456789012345678901", "a = §1x", "§? = 1", "a §+ 1"),
    *NUMBER.not_text("OtherName", "§b = 1", "§values", "§A = 1"),
    *NUMBER.not_text("Unnamed", "a = 1\n§@1 = 2"),
    *NUMBER.not_text("OutOfOrder", "a = 1\n§@2 = 2"),
    *BOOLEAN.not_text("Expected", "a = §TRUE", "a = §null"),
    *BOOLEAN.not_text("BadToken", "a = §01"),
    *CHAR.not_text("Expected", 'a = §"h"', "a = §h"),
    *CHAR.not_text("BadToken", "a = §'h'"),
    *ENUM.not_text("Expected", "a = §B", "a = §[4]"),
    *ENUM.not_text("BadToken", "a = §04"),
    *STRUCT.not_text("Expected", "a = @1\n@1 = §1", "a = @1\n@1 = §[1]", "a = @1\n@1 = {§}", "a = @1\n@1 = {v §1}", "a = @1\n@1 = {v = 1 §w = 2}",
                     "a = @1\n@1 = {v = 1§}", "a = @1\n@1 = {v = 1, §}", "a = @1\n@1 = {v = 1, w = 2§, x = 3}", "a = @1\n@1 = {v = 1, w = 2§]", "a = @1\n@1 = {v = 1, w = 2\n§",
                     "a = §{v = 1, w = 2}", "a = @1\n@1 §{v = 1, w = 2}"),
    *STRUCT.not_text("OtherName", "a = @1\n@1 = {§w = 2, v = 1}", "a = @1\n@1 = {v = 1, §x = 2}", "a = @1\n@1 = {v = 1, §v = 1}"),
    *STRUCT.not_text("BadToken", "a = @1\n@1 = {v = 1, §?", "a = @1\n@1 = {v = 1§; w = 2}"),
    *FIXED.not_text("Expected", "a = §1", "a = [§,", "a = [1§}", "a = [1 §2]", "a = [1, §]", "a = §{1, 2}", "a = §0:[1, 2]", 'a = §"12"', "a = [1, 2§"),
    *FIXED.not_text("BadToken", "a = [§00]", "a = [1, 2§;"),
    *ROWS.not_text("Expected", "a = [§1, 2, 3, 4]", "a = [[1, 2] §[3, 4]]", "a = [[1, 2], §3]", "a = [[§[1]]]"),
    *ROWS.not_text("BadToken", "a = [[1, 2], [§03, 4]]"),
    *CONFORMANT.not_text("BadToken", "a = [1, §2x]\nn = 2"),
    *CONFORMANT.not_text("Expected", "a = §2:[1, 2]\nn = 2", "a = §@1\nn = 2", "a = [1, 2]\n§2"),
    *CONFORMANT.not_text("OtherName", "§n = 2\na = [1, 2]", "a = [1, 2]\n§m = 2"),
    *VARYING.not_text("Expected", "a = §[5, 6]\nn = 2", "a = 0§[5, 6]\nn = 2", "a = 4:§0:[5, 6]\nn = 2", "a = §-1:[5, 6]\nn = 2", "a = §4294967296:[5, 6]\nn = 2",
                      "a = 0:§5\nn = 2", "a = §null\nn = 2"),
    *VARYING.not_text("BadToken", "a = §00:[5, 6]\nn = 2", "a = 0:[5, §-]\nn = 2"),
    *BOTH.not_text("Expected", "a = §[7, 8]\nn = 3\nm = 2", "a = 3:§[7, 8]\nn = 3\nm = 2", "a = 3:1§[7, 8]\nn = 3\nm = 2", "a = §-3:1:[7, 8]\nn = 3\nm = 2",
                   "a = 3:§4294967296:[7, 8]\nn = 3\nm = 2"),
    *BOTH.not_text("BadToken", "a = 3:§01:[7, 8]\nn = 3\nm = 2"),
    *STRUCTS.not_text("BadToken", "a = [{v = 1, w = §-0}, {v = 3, w = 4}]"),
    *STRUCTS.not_text("OtherName", "a = [{v = 1, w = 2}, {§w = 4, v = 3}]"),
    *STRUCTS.not_text("Expected", "a = [{v = 1, w = 2}, §@1]", "a = [{v = 1, w = 2} §{v = 3, w = 4}]"),
    *TEXT.not_text("Expected", 'a = §"hi"', 'a = @1\n@1 = §"hi"', 'a = @1\n@1 = 3§"hi"', "a = @1\n@1 = 3:§hi", "a = @1\n@1 = 3:§[104, 105]", 'a = @1\n@1 = §-3:"hi"',
                   'a = @1\n@1 = 3:§0:"hi"', 'a = @1\n@1 = 3:§x"6869"'),
    *TEXT.not_text("BadToken", 'a = @1\n@1 = 3:§"hi', r'a = @1' + '\n' + r'@1 = 3:§"h\i"', r'a = @1' + '\n' + r'@1 = 3:§"h\x1"', r'a = @1' + '\n' + r'@1 = 3:§"h\X41"',
                   'a = @1\n@1 = 3:§"h\n"', 'a = @1\n@1 = 3:§"h\ti"', "a = @1\n@1 = 3:§'h'"),
    *SHORT_TEXT.not_text("Expected", 'a = §3:"hi"', "a = §hi", "a = §[104, 105]", 'a = §x"6869"'),
    *SHORT_TEXT.not_text("BadToken", 'a = §"hi', "a = §'hi'"),
    *BYTE_TEXT.not_text("BadToken", r'a = §"h\xg0"'),
    *BYTE_TEXT.not_text("Expected", 'a = §x"6869"', "a = §[104, 105]"),
    *UNION.not_text("Expected", "a = @1\n@1 = §void", "a = @1\n@1 = 1 §{5}", "a = @1\n@1 = 1 §5", "a = @1\n@1 = 1:§void", "a = @1\n@1 = 2:§5", "a = @1\n@1 = 2:§null",
                    "a = @1\n@1 = §{k = 1}", "a = @1\n@1 = 9:§{h = 1}", "a = @1\n@1 = 1:§"),
    *UNION.not_text("BadToken", "a = @1\n@1 = §01:5", "a = @1\n@1 = 1:§05"),
    *NO_DEFAULT.not_text("Expected", "a = @1\n@1 = 3:§5"),
    *NO_DEFAULT.not_text("BadToken", "a = @1\n@1 = 1:§0x5"),
    *OTHER_UNION.not_text("BadToken", "k = 1\na = 1:§-0"),
    *OTHER_UNION.not_text("Expected", "k = 3\na = 3:§5", "k = 3\na = 3:§void"),
    *OTHER_UNION.not_text("OtherName", "k = 3\na = 3:{§w = 2, v = 1}"),
    *REF.not_text("Expected", "a = §5", "a = @1\n§a = 5", "a = @1\n@1 §5", "a = @1\n@1 = §@1", "a = @1\n@1 = 5\n§1"),
    *REF.not_text("BadToken", "a = §@01", "a = §@0", "a = §@", "a = §@4294967296", "a = §@1a", "a = §@ 1", "a = @1\n§@01 = 5"),
    *REF.not_text("Unnamed", "a = @1\n@1 = 5\n§@2 = 6", "a = null\n§@1 = 5", "a = @2\n§@1 = 5"),
    *REF.not_text("OutOfOrder", "a = @1\n§@2 = 5", "a = @2\n§@2 = 5", "a = @1\n@1 = 5\n§@1 = 5", "a = @1\n@1 = 5\n§@3 = 5"),
    *UNIQUE.not_text("Expected", "a = null\n§@1 = 5", "a = §Null\nb = null", "a = §void\nb = null"),
    *UNIQUE.not_text("BadToken", "a = §@00\nb = null"),
    *FULL.not_text("BadToken", "a = @1\nb = §@4294967296"),
    *FULL.not_text("Expected", "a = @1\nb = §1", "a = @1\nb = §ref"),
    *FULL.not_text("Unnamed", "a = @1\nb = @1\n@1 = {v = 7, next = @1}\n§@2 = {v = 8, next = @2}"),
    *CHAIN.not_text("OutOfOrder", "a = @1\n@1 = {v = 7, next = @2}\n§@3 = {v = 8, next = null}"),
    *CHAIN.not_text("BadToken", "a = @1\n@1 = {v = 7, next = §@0}"),
    *CHAIN.not_text("OtherName", "a = @1\n@1 = {v = 7, §last = @2}"),
    *CHAIN.not_text("Expected", "a = @1\n@1 = {v = 7, next = §{v = 8, next = null}}"),
    *CONTEXT.not_text("Expected", "a = §null", "a = §(0, 00000000-0000-0000-0000-000000000000)", "a = ctx §0", "a = ctx(§)", "a = ctx(§-1, 00000000-0000-0000-0000-000000000000)",
                      "a = ctx(§4294967296, 00000000-0000-0000-0000-000000000000)", "a = ctx(0§)", "a = ctx(0, §5)", "a = ctx(0, 00112233-4455-6677-8899-aabbccddeeff§",
                      "a = ctx(0, 00112233-4455-6677-8899-aabbccddeeff§x)", "a = §cty(0, 00000000-0000-0000-0000-000000000000)"),
    *CONTEXT.not_text("BadToken", "a = ctx(0, §00112233-44)", "a = ctx(0, §00112233-4455-6677-8899-aabbccddeef)", "a = ctx(§00, 00000000-0000-0000-0000-000000000000)"),
    *PIPE.not_text("Expected", "a = §1", "a = [1 §2]", "a = [§[1]]", "a = [1, §]", 'a = §x"01"'),
    *PIPE.not_text("BadToken", "a = [1, §02]"),
    *PIPE_REF.not_text("Expected", "a = §@1\n@1 = [1, 2]"),
    *CONTEXT_REF.not_text("Expected", "a = §ctx(7, 00112233-4455-6677-8899-aabbccddeeff)"),
    *PIPE_AFTER.not_text("OtherName", "§a = [1]\nb = 5"),
    *BYTE.not_text("Expected", 'a = §x"01"'),
    *BYTE.not_text("BadToken", "a = §0xff"),
    *BYTES.not_text("Expected", "a = §[0, 255]", "a = §[]", 'a = §"ab"', "a = §x", 'a = §x "00"', 'a = §[x"00"]'),
    *BYTES.not_text("BadToken", 'a = §x"0"', 'a = §x"0 0"', 'a = §x"0g"', 'a = §x"00', 'a = §x"0x00"', 'a = x"00"§?'),
    *BYTES.not_text("Expected", 'a = §x"00ff"', 'a = §x"0"', version=1),
    *BYTE_ROWS.not_text("Expected", 'a = §x"00010203"', "a = [§[0, 1], [2, 3]]", 'a = [x"0001" §x"0203"]'),
    *BYTE_ROWS.not_text("Expected", 'a = [§x"0001", x"0203"]', version=1),
    *BYTE_ROWS.not_text("BadToken", 'a = [x"0001", §x"020"]'),
    *BYTES_CONFORMANT.not_text("BadToken", 'a = §x"abc"\nn = 2'),
    *BYTES_VARYING.not_text("BadToken", 'a = 1:§x"ab cd"\nn = 2', 'a = §01:x"abcd"\nn = 2'),
    *BYTES_BOTH.not_text("BadToken", 'a = 3:1:§x"abcg"\nn = 3\nm = 2'),
    *BYTES_CONFORMANT.not_text("Expected", "a = §[171, 205]\nn = 2", "a = §[]\nn = 0", 'a = §2:x"abcd"\nn = 2'),
    *BYTES_CONFORMANT.not_text("Expected", 'a = §x""\nn = 0', version=1),
    *BYTES_VARYING.not_text("Expected", 'a = §x"abcd"\nn = 2', "a = 1:§[171, 205]\nn = 2"),
    *BYTES_BOTH.not_text("Expected", 'a = 3:§x"abcd"\nn = 3\nm = 2', "a = 3:1:§[171, 205]\nn = 3\nm = 2"),
    *BYTE_PIPE.not_text("Expected", "a = §[1, 2]", "a = §1"),
    *BYTE_PIPE.not_text("BadToken", 'a = §x"102"'),
    *BYTE_PIPE.not_text("Expected", 'a = §x"0102"', version=1),
    *CHARS.not_text("Expected", 'a = §x"6869"', 'a = §"hi"'),
    *CHARS.not_text("BadToken", "a = [§'h', 105]"),
]

# One text of each form of type. Each is refused for every reason before it, within it and after it.

ONE_OF_EACH = [
    (NUMBER, "a = 1"),
    (BOOLEAN, "a = 1"),
    (CHAR, "a = 104"),
    (ENUM, "a = 4"),
    (STRUCT, "a = @1\n@1 = {v = 1, w = 2}"),
    (FIXED, "a = [1, 2]"),
    (ROWS, "a = [[1, 2], [3, 4]]"),
    (CONFORMANT, "a = [1, 2]\nn = 2"),
    (VARYING, "a = 1:[5, 6]\nn = 2"),
    (BOTH, "a = 3:1:[7, 8]\nn = 3\nm = 2"),
    (STRUCTS, "a = [{v = 1, w = 2}, {v = 3, w = 4}]"),
    (TEXT, 'a = @1\n@1 = 3:"hi"'),
    (SHORT_TEXT, 'a = "hi"'),
    (BYTE_TEXT, 'a = "hi"'),
    (UNION, "a = @1\n@1 = 1:5"),
    (NO_DEFAULT, "a = @1\n@1 = 2:void"),
    (OTHER_UNION, "k = 1\na = 1:5"),
    (REF, "a = @1\n@1 = 5"),
    (UNIQUE, "a = @1\nb = null\n@1 = 5"),
    (FULL, "a = @1\nb = @1\n@1 = {v = 7, next = null}"),
    (CHAIN, "a = @1\n@1 = {v = 7, next = @2}\n@2 = {v = 8, next = @1}"),
    (CONTEXT, "a = ctx(7, 00112233-4455-6677-8899-aabbccddeeff)"),
    (PIPE, "a = [1, 2]"),
    (PIPE_AFTER, "b = 5\na = [1]"),
    (BYTE, "a = 255"),
    (BYTES, 'a = x"00ff"'),
    (BYTE_ROWS, 'a = [x"0001", x"0203"]'),
    (BYTES_CONFORMANT, 'a = x"abcd"\nn = 2'),
    (BYTES_VARYING, 'a = 1:x"abcd"\nn = 2'),
    (BYTES_BOTH, 'a = 3:1:x"abcd"\nn = 3\nm = 2'),
    (BYTE_PIPE, 'a = x"0102"'),
    (CHARS, "a = [104, 105]"),
]


def every_reason(form, whole_text):
    """A whole text of a form, refused before its first root, at its end where its last value is missing, and after it."""
    cells = whole_text.count("\n@")
    return [
        *form.not_text("OtherName", f"§z{whole_text[1:]}"),
        *form.not_text("Expected", f"§({whole_text}", f"{whole_text[:whole_text.rindex('=') + 1]}§", f"{whole_text}\n§z = 0"),
        *form.not_text("BadToken", f"§?{whole_text}", f"{whole_text}\n§?"),
        *form.not_text("Unnamed", f"{whole_text}\n§@{cells + 1} = 0"),
        *form.not_text("OutOfOrder", f"{whole_text}\n§@{cells + 2} = 0"),
    ]


FOR_EVERY_REASON = [case for form, whole_text in ONE_OF_EACH for case in every_reason(form, whole_text)]


def head(name, marked, reason):
    """A text that is refused in its first two lines, or has no others."""
    text, where = place(marked)
    return run(name, NUMBER.files, text, status=1, notes=lines(f"refused: text {where}: {reason}"))


HEADS = [
    head("version 3", "values §3\nop f in\na = 1\n", "Expected"),
    head("version 0", "values §0\nop f in\na = 1\n", "Expected"),
    head("version 02", "values §02\nop f in\na = 1\n", "BadToken"),
    head("version two", "values §two\nop f in\na = 1\n", "Expected"),
    head("bytes for a version", 'values §x"02"\nop f in\na = 1\n', "Expected"),
    head("bytes for the first word", '§x"02" values', "Expected"),
    head("bytes for op, version 2", 'values 2 §x"02"', "Expected"),
    head("no whole bytes for op, version 2", 'values 2 §x"0', "BadToken"),
    head("no whole bytes for op, version 1", 'values 1 §x"0', "Expected"),
    head("a mark for the first word", "§= 2\nop f in\na = 1\n", "Expected"),
    head("another first word", "§value 2\nop f in\na = 1\n", "Expected"),
    head("no token for the first word", "§;values 2\nop f in\na = 1\n", "BadToken"),
    head("no token for the version", "values §2nd\nop f in\na = 1\n", "BadToken"),
    head("no op", "values 2\n§f in\na = 1\n", "Expected"),
    head("no token for the operation", "values 2\nop §0f in\na = 1\n", "BadToken"),
    head("a string for the operation", 'values 2\nop §"f" in\na = 1\n', "Expected"),
    head("no token for the side", "values 2\nop f §?\na = 1\n", "BadToken"),
    head("a number for the side", "values 2\nop f §1\na = 1\n", "Expected"),
    head("no side", "values 2\nop f §= 1\n", "Expected"),
    head("a cell after the head", "values 2\nop f in\n§@1 = 1\n", "Expected"),
    head("the text ends after the operation", "values 2\nop f§", "Expected"),
    head("no text at all", "§", "Expected"),
    head("blanks alone", " \n\t \n§", "Expected"),
    head("another operation", "values 2\nop §g in\na = 1\n", "OtherName"),
    head("the other side", "values 2\nop f §out\n", "OtherName"),
    head("a form feed is no blank", "values 2§\fop f in\na = 1\n", "BadToken"),
    run("one octet too long", NUMBER.files, Sparse(TEXT_LIMIT + 1, b" "), status=1, notes=lines("refused: text 1:1: TooLong")),
]

# What is read, and does not conform.

MISFITS = [
    NUMBER.not_value("a = 2147483648", "a", "Range"),
    *[NUMBER.not_value(f"a = {n}", "a", "Range") for n in (10**18 - 1, 10**18, 10**19 - 1, 10**19, 2**64 - 1, 2**64, 10**20 - 1)],
    BOOLEAN.not_value("a = 2", "a", "Range"),
    CHAR.not_value("a = 256", "a", "Range"),
    ENUM.not_value("a = 1", "a", "Range"),
    STRUCT.not_value("a = @1\n@1 = {v = 1, w = 40000}", "@1.w", "Range"),
    STRUCT.not_value("a = null", "a", "NullRef"),
    STRUCT.not_value("a = @1", "a", "NoCell"),
    FIXED.not_value("a = [1]", "a", "Bound"),
    FIXED.not_value("a = [1, 2147483648]", "a[1]", "Range"),
    ROWS.not_value("a = [[1, 2], [3, 40000]]", "a[1][1]", "Range"),
    ROWS.not_value("a = [[1, 2], [3]]", "a[1]", "Bound"),
    CONFORMANT.not_value("a = [1, 2]\nn = 3", "a", "Disagrees wanted 3 found 2"),
    CONFORMANT.not_value("a = [1, 2147483648]\nn = 2", "a[1]", "Range"),
    VARYING.not_value("a = 3:[5, 6]\nn = 2", "a", "Bound"),
    VARYING.not_value("a = 2:[5, 40000]\nn = 2", "a[3]", "Range"),
    VARYING.not_value("a = 0:[5, 6]\nn = 1", "a", "Disagrees wanted 1 found 2"),
    BOTH.not_value("a = 3:2:[7, 8]\nn = 3\nm = 2", "a", "Bound"),
    BOTH.not_value("a = 4:2:[7, 40000]\nn = 4\nm = 2", "a[3]", "Range"),
    STRUCTS.not_value("a = [{v = 1, w = 2}, {v = 3, w = 40000}]", "a[1].w", "Range"),
    TEXT.not_value('a = @1\n@1 = 2:"hi"', "@1", "Bound"),
    TEXT.not_value(r'a = @1' + '\n' + r'@1 = 3:"h\x00"', "@1", "Zero"),
    SHORT_TEXT.not_value('a = "four"', "a", "Bound"),
    BYTE_TEXT.not_value('a = "four"', "a", "Bound"),
    BYTE_TEXT.not_value(r'a = "h\x00"', "a", "Zero"),
    UNION.not_value("a = @1\n@1 = 40000:1", "@1", "Range"),
    UNION.not_value("a = @1\n@1 = 1:2147483648", "@1.a", "Range"),
    NO_DEFAULT.not_value("a = @1\n@1 = 3:void", "@1", "NoArm"),
    OTHER_UNION.not_value("k = 2\na = 1:5", "a", "Disagrees wanted 2 found 1"),
    OTHER_UNION.not_value("k = 3\na = 3:{v = 1, w = 40000}", "a.b.w", "Range"),
    REF.not_value("a = null", "a", "NullRef"),
    REF.not_value("a = @1", "a", "NoCell"),
    UNIQUE.not_value("a = @1\nb = null", "a", "NoCell"),
    UNIQUE.not_value("a = @1\nb = @1\n@1 = 5", "b", "Shared"),
    FULL.not_value("a = @1\nb = @1\n@1 = {v = 7, next = @2}", "@1.next", "NoCell"),
    PIPE.not_value("a = [1, 2147483648]", "a[1]", "Range"),
    BYTE.not_value("a = 256", "a", "Range"),
    BYTES.not_value('a = x"00"', "a", "Bound"),
    BYTES.not_value("a = [0, 256]", "a[1]", "Range", 1),
    BYTE_ROWS.not_value('a = [x"00", x"0102"]', "a[0]", "Bound"),
    BYTES_CONFORMANT.not_value('a = x"abcd"\nn = 3', "a", "Disagrees wanted 3 found 2"),
    BYTES_BOTH.not_value('a = 1:1:x"abcd"\nn = 1\nm = 2', "a", "Bound"),
    CHARS.not_value("a = [104, 256]", "a[1]", "Range"),
    BYTES_VARYING.not_value("a = 1:[0, 256]\nn = 2", "a[2]", "Range", 1),
    BYTE_PIPE.not_value("a = [1, -1]", "a[1]", "Range", 1),
    run("another pointee: the first pointer to a cell gives its type", idl("[in, ptr] long *a, [in, ptr] short *b"), whole(2, ["a = @1", "b = @1", "@1 = 5"]), status=1,
        notes=lines("refused: value at b: CellType")),
    run("a misfit of a root before one of a cell", idl("[in] pair *a, [in] short b", PAIR), whole(2, ["a = @1", "b = 40000", "@1 = {v = 1, w = 40000}"]), status=1,
        notes=lines("refused: value at b: Range")),
    run("a text's fault before a value's", STRUCT.files, whole(2, ["a = @1", "@1 = {v = 1, w = 40000"]), status=1, notes=lines("refused: text 5:1: Expected")),
]

# Operations with pointers, unions, strings and pipes: of each its text, migrated from version 1 and from its own output.

DIRECTORY = """[uuid(00112233-4455-6677-8899-aabbccddeeff), version(2.1), pointer_default(unique)]
interface dir {
  import "base.idl";
  typedef [switch_type(kind_t)] union { [case(FILE_KIND)] unsigned long size; [case(FOLDER_KIND)] ; } detail_t;
  typedef struct entry {
    kind_t kind;
    [switch_is(kind)] detail_t detail;
    [string] char name[NAME_MAX];
    [ptr] struct entry *parent;
    struct entry *next;
  } entry;
  void put([in] handle_t h, [in, unique] entry *e, [in] unsigned long n, [in, size_is(n)] byte data[*]);
}
"""
BASE = """[uuid(0a0b0c0d-0102-0304-0506-0708090a0b0c), version(1.0)]
interface base {
  const long NAME_MAX = 16;
  typedef enum { FILE_KIND, FOLDER_KIND = 4 } kind_t;
}
"""
ENTRIES = [
    "@1 = {kind = 4, detail = 4:void, name = \"etc\", parent = @2, next = @3}",
    "@2 = {kind = 4, detail = 4:void, name = \"/\", parent = @2, next = null}",
    "@3 = {kind = 0, detail = 0:1024, name = \"a\", parent = @2, next = null}",
]
PUT_ONE = lines("values 1", "op put in", "e = @1", "n = 2", "data = [171, 205]", *ENTRIES)
PUT_TWO = lines("values 2", "op put in", "e = @1", "n = 2", 'data = x"abcd"', *ENTRIES)
EXAMPLE = blocks("docs/TEXT.md")[0].encode()
PUT_FILES = {"dir.idl": DIRECTORY.encode(), "base.idl": BASE.encode()}


def put(name, text, **wanted):
    """A text of the directory's operation."""
    return Case(f"text: a directory, {name}", ["migrate", "dir.idl", "-", "put", "in"], PUT_FILES, text, **wanted)


def migrated(name, idl_text, operation, given, printed, side="in"):
    """A text of version 1 and what is printed of it, which is printed of itself."""
    words, files, out = ["migrate", "t.idl", "-", operation, side], {"t.idl": f"[local] interface t {{ {idl_text} }}".encode()}, lines("values 2", *printed)
    return [Case(f"text: {name}", words, files, lines("values 1", *given), out), Case(f"text: {name}, its own output", words, files, out, out)]


def same(name, idl_text, operation, *rest, side="in"):
    """The same where both versions have the same lines."""
    return migrated(name, idl_text, operation, rest, rest, side)


RING = NODE + " void ring([in, ptr] node *p);"
SAY = "void say([in, string] char *s);"

WORKED = [
    *same("three numbers", "void add([in] long a, [in] short b, [in] hyper c);", "add", "op add in", "a = 1", "b = 2", "c = 3"),
    *same("a result", "unsigned hyper top();", "top", "op top out", "return = 18446744073709551615", side="out"),
    *same("a result before a pipe", "typedef pipe long lp; long f([out] lp *p, [in, out] long *a);", "f", "op f out", "a = @1", "return = 5", "p = [1, 2]", "@1 = 7", side="out"),
    *same("a parameter named return", "long f([out] long *return);", "f", "op f out", "return = @1", "return = 5", "@1 = 7", side="out"),
    *same("a ring of one", RING, "ring", "op ring in", "p = @1", "@1 = {v = 7, next = @1}"),
    *same("a ring of two", RING, "ring", "op ring in", "p = @1", "@1 = {v = 7, next = @2}", "@2 = {v = 8, next = @1}"),
    *same("a string", SAY, "say", "op say in", "s = @1", '@1 = 3:"hi"'),
    *same("a union with a default", "typedef union switch (short k) { case 1: long a; default: hyper h; } u; void pick([in] u *p);", "pick", "op pick in", "p = @1", "@1 = 9:1"),
    *same("a pipe of longs", "typedef pipe long lp; void feed([in] lp d);", "feed", "op feed in", "d = [1, 2, 3]"),
    *same("a null context handle", "typedef [context_handle] void *ctx; void use([in] ctx c);", "use", "op use in", "c = ctx(0, 00000000-0000-0000-0000-000000000000)"),
    *same("a struct with an array of two dimensions", "typedef struct { byte t; short m[2][2]; } q; void fx([in] q *p);", "fx", "op fx in", "p = @1",
          "@1 = {t = 1, m = [[1, 2], [3, 4]]}"),
    *same("a union with its tag in front", "typedef [switch_type(short)] union { [case(1)] long a; [default] ; } nu; void nn([in] short k, [in, switch_is(k)] nu u);", "nn",
          "op nn in", "k = 1", "u = 1:5"),
    *same("a struct with a varying array", "typedef struct { long n; [length_is(n)] short a[4]; } vs; void va([in] vs *p);", "va", "op va in", "p = @1", "@1 = {n = 2, a = 0:[5, 6]}"),
    put("version 1", PUT_ONE, out=PUT_TWO),
    put("its own output", PUT_TWO, out=PUT_TWO),
    put("the example of docs/TEXT.md", EXAMPLE, out=EXAMPLE),
    put("version 3", PUT_TWO.replace(b"values 2", b"values 3"), status=1, notes=lines("refused: text 1:8: Expected")),
    put("a count that disagrees", PUT_ONE.replace(b"n = 2", b"n = 3"), status=1, notes=lines("refused: value at data: Disagrees wanted 3 found 2")),
    put("a tag that disagrees", PUT_ONE.replace(b"@1 = {kind = 4", b"@1 = {kind = 0"), status=1, notes=lines("refused: value at @1.detail: Disagrees wanted 0 found 4")),
    Case("text: a cell that nothing names", ["migrate", "t.idl", "-", "ping", "in"], {"t.idl": b"[local] interface t { void ping(); }"}, lines("values 1", "op ping in", "@1 = 5"),
         notes=lines("refused: text 3:1: Unnamed"), status=1),
    Case("text: a cell without its line", ["migrate", "t.idl", "-", "ring", "in"], {"t.idl": f"[local] interface t {{ {RING} }}".encode()}, lines("values 1", "op ring in", "p = @1"),
         notes=lines("refused: value at p: NoCell"), status=1),
    Case("text: a zero in a string", ["migrate", "t.idl", "-", "say", "in"], {"t.idl": f"[local] interface t {{ {SAY} }}".encode()},
         lines("values 1", "op say in", "s = @1", r'@1 = 3:"h\x00"'), notes=lines("refused: value at @1: Zero"), status=1),
]

# The words, and what comes before the text.

BEFORE = [
    Case("migrate: an operation that is not there", ["migrate", "t.idl", "-", "g", "in"], NUMBER.files, notes=lines("idl t.idl: NoOperation g"), status=6),
    Case("migrate: no file", ["migrate", "none.idl", "-", "f", "in"], {}, notes=lines("absent: none.idl"), status=7),
    Case("migrate: another side", ["migrate", "t.idl", "-", "f", "inout"], NUMBER.files, notes=lines("words refused"), status=2),
    Case("migrate: no side", ["migrate", "t.idl", "-", "f"], NUMBER.files, notes=lines("words refused"), status=2),
    Case("migrate: an order", ["migrate", "t.idl", "-", "f", "in", "little"], NUMBER.files, notes=lines("words refused"), status=2),
]

CASES = [*READ, *REFUSED, *FOR_EVERY_REASON, *HEADS, *MISFITS, *WORKED, *BEFORE]
