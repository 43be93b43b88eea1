"""bin/from-midl: for each thing that it rewrites a small file of our own, which is translated and compiled, and octets whose values are known.

The octets are worked by hand from docs/NDR.md, and the values are those that MIDL's or pidl's reading of the file gives them. Where the two languages that are
written print a value in two ways (letters with a count that nothing states), the line of the present language is after `|c706|`."""

import subprocess
import sys
import tempfile
from dataclasses import dataclass, field
from pathlib import Path
from typing import Dict, List, Sequence, Tuple

from case import ROOT, CheckOf

sys.path.append(str(ROOT))

from midl.command import translated, why_not
from midl.report import Report
from midl.shapes import Sources
from midl.tokens import Refused

HEAD = 'import "ms-dtyp.idl";\n[uuid("11111111-2222-3333-4444-555555555555"), version(1.0), pointer_default(unique)] interface t {\n'
PIDL = '#include "idl_types.h"\n[uuid("11111111-2222-3333-4444-555555555555"), version(1.0), pointer_default(unique)] interface t {\nuint32 first([in] uint8 a);\n'
Stream = Tuple[str, str, str, Sequence[str]]  # operation, side, octets in little order, the lines of their values


@dataclass(frozen=True)
class Thing:
    """A thing that the translator rewrites: a source, octets with their values, lines that the report has, and what the file that is written has."""

    name: str
    source: str
    streams: Sequence[Stream] = ()
    reports: Sequence[str] = ()
    texts: Sequence[str] = ()
    files: Dict[str, str] = field(default_factory=dict)
    windows_alone: bool = False  # it has no equivalent in the present language
    absent: Sequence[str] = ()  # what the report must not have


def midl(name: str, source: str, *streams: Stream, **more: object) -> Thing:
    """A thing in an interface for MIDL."""
    return Thing(name, f"{HEAD}{source}\n}}\n", streams, **more)  # type: ignore[arg-type]


def pidl(name: str, source: str, *streams: Stream, **more: object) -> Thing:
    """A thing in an interface for pidl. Its operation 0 is of no interest."""
    return Thing(name, f"{PIDL}{source}\n}}\n", streams, **more)  # type: ignore[arg-type]


THINGS = [
    # The text
    midl("comments, cpp_quote and midl_pragma", """// one line
        cpp_quote("#define N 16") midl_pragma warning(disable: 2400);
#pragma pack(4)
        void f([in] long x /* two */ ); cpp_quote("}")""", ("f", "in", "05000000", ["x = 5"])),
    midl("two lists in a row", "void f([in][range(0, 10)] long x);", ("f", "in", "05000000", ["x = 5"]), reports=["not compared: x: range(0, 10)"]),
    midl("attributes that change no octets", '[helpstring("no, not that"), idempotent] void f([in, annotation("[in]")] long x);', ("f", "in", "05000000", ["x = 5"])),
    midl("const, SAL words and calling conventions", "long __stdcall f([in] __RPC__in _In_reads_(3) const long *x, IN [in] long y OPTIONAL);",
         ("f", "in", "0500000006000000", ["x = @1", "y = 6", "@1 = 5"])),
    midl("widths of integers", "void f([in] int a, [in] unsigned b, [in] signed short c, [in] unsigned int d, [in] long int e, [in] __int64 g, [in] unsigned __int3264 h);",
         ("f", "in", "ffffffff ffffffff ffff0000 ffffffff feffffff 00000000 0300000000000000 04000000",
          ["a = -1", "b = 4294967295", "c = -1", "d = 4294967295", "e = -2", "g = 3", "h = 4"])),
    midl("signed and unsigned characters", "void f([in] char a, [in] unsigned char b, [in] signed char c, [in] small d, [in] byte e, [in] boolean g);",
         ("f", "in", "ffffffffff07", ["a = 255", "b = 255", "c = -1", "d = -1", "e = 255", "g = 1"])),
    midl("suffixes, octal and sizeof", "const unsigned long A = 10UL; const int C = 010; void f([in] byte x[C], [in] byte y[A], [in] byte z[2 * sizeof(DWORD)]);",
         ("f", "in", "0001020304050607 00010203040506070809 0001020304050607",
          ['x = x"0001020304050607"', 'y = x"00010203040506070809"', 'z = x"0001020304050607"'])),
    midl("a long name is shortened, the same in each file", "void NetrLogonGetTrustInformationExtended([in] long x);", ("NetrLogonGetTrustInforma_ff95c6", "in", "05000000", ["x = 5"]),
         reports=["renamed: NetrLogonGetTrustInformationExtended to NetrLogonGetTrustInforma_ff95c6"], texts=["/* NetrLogonGetTrustInformationExtended */"]),
    midl("names that are words of the language", "void f([in] long string, [in, size_is(string)] byte pipe[]);", ("f", "in", "01000000 01000000 07", ["string_ = 1", 'pipe_ = x"07"']),
         reports=["renamed: string to string_"]),
    midl("a typedef before its body", "typedef struct _node node; typedef struct _node { long v; struct _node *next; } NODE, *PNODE; void f([in] PNODE p);",
         ("f", "in", "05000000 01000000 06000000 00000000", ["p = @1", "@1 = {v = 5, next = @2}", "@2 = {v = 6, next = null}"])),
    midl("a struct and a union without names", "typedef struct { long k; [switch_is(k), switch_type(long)] union { [case(1)] short a; [case(2)] long b; }; struct { byte c; } d; } s; void f([in] s *x);",
         ("f", "in", "01000000 01000000 0500 07", ["x = @1", "@1 = {k = 1, unnamed_1 = 1:5, d = {c = 7}}"])),
    midl("a comma after the last enumerator", "typedef enum { A, B = 5, } e; void f([in] e x);", ("f", "in", "0500", ["x = 5"]), texts=["const hyper B = 5;"]),
    midl("an operation that has no number", "void a([in] byte x); [local] void b([in] byte x); [call_as(b)] void c([in] byte x); [callback] void d([in] byte x); void e([in] short x);",
         ("e", "in", "0500", ["x = 5"]), reports=["left out: b, which is [local]", "left out: d, which is [callback]"], texts=["void a([in] byte x);\n  void c([in] byte x);\n  void e("]),
    midl("a list that is only void, and no lists", "void a(void); void b(); void c([in] long x);", ("c", "in", "05000000", ["x = 5"]), texts=["void a();\n  void b();\n"]),
    Thing("#define, #if and #include", f"""#define N 3
        #define KIND(a, b) a##b
        #if defined(OTHER) || N > 5
        $ %
        #elif 1
        #include "inner.h"
        #endif
        {HEAD} typedef inner_t KIND(ou, ter)[N]; void f([in] outer x); }}""", [("f", "in", "0100 0200 0300", ["x = [1, 2, 3]"])], files={"inner.h": "typedef short inner_t;\n"}),
    Thing("line marks of cpp", f'# 1 "real.idl"\n# 40 "real.idl" 2\n{HEAD}\n\n  void f([in, range(1, 2)] long x); }}', [("f", "in", "05000000", ["x = 5"])], reports=["real.idl:44:15: not compared"]),
    Thing("imports between declarations", f'typedef long before; import "types.idl";\n{HEAD} import "types.idl"; void f([in] before a, [in] there b); }}',
          [("f", "in", "01000000 02000000", ["a = 1", "b = 2"])], files={"types.idl": "typedef long there;\n"}),
    Thing("several interfaces in a file", f"[uuid(00000000-0000-0000-0000-000000000001)] interface other {{ typedef long n; void g([in] byte x); }};\n{HEAD} void f([in] n x); }};",
          [("f", "in", "05000000", ["x = 5"])]),
    midl("the names of Windows", "NTSTATUS f([in] DWORD a, [in] BYTE b, [in] ULONGLONG c, [in] GUID *d, [in] FILETIME e, [in] PSYSTEMTIME t);",
         ("f", "in", "01000000 02000000 0300000000000000 33221100 5544 7766 8899aabbccddeeff 01000000 02000000 0100 0200 0300 0400 0500 0600 0700 0800",
          ["a = 1", "b = 2", "c = 3", "d = @1", "e = {dwLowDateTime = 1, dwHighDateTime = 2}", "t = @2", '@1 = {Data1 = 1122867, Data2 = 17493, Data3 = 26231, Data4 = x"8899aabbccddeeff"}',
           "@2 = {wYear = 1, wMonth = 2, wDayOfWeek = 3, wDay = 4, wHour = 5, wMinute = 6, wSecond = 7, wMilliseconds = 8}"]),
         ("f", "out", "ffffffff", ["return = -1"])),

    # Pointers
    midl("a pointer of a typedef is a reference pointer at the top", "typedef struct { long v; } s, *ps; void f([in] ps x, [in, unique] ps y, [in, ptr] s *z);",
         ("f", "in", "07000000 01000000 08000000 01000000 09000000", ["x = @1", "y = @2", "z = @3", "@1 = {v = 7}", "@2 = {v = 8}", "@3 = {v = 9}"])),
    midl("a class that a typedef states is kept", "typedef [unique] long *u; void f([in] u x);", ("f", "in", "01000000 07000000", ["x = @1", "@1 = 7"])),
    midl("pointers to pointers", "typedef struct { long v; } s, *ps; void f([out] ps *x, [out] s **y, [in, out, unique] long **z);",
         ("f", "out", "01000000 05000000 00000000 02000000 03000000 06000000", ["x = @1", "y = @3", "z = @4", "@1 = @2", "@2 = {v = 5}", "@3 = null", "@4 = @5", "@5 = 6"])),
    Thing("pointer_default(ptr)", HEAD.replace("(unique)", "(ptr)") + "typedef struct n { long v; struct n *l, *r; } n; void f([in] n *x); }",
          [("f", "in", "05000000 01000000 01000000 06000000 00000000 00000000",
            ["x = @1", "@1 = {v = 5, l = @2, r = @2}", "@2 = {v = 6, l = null, r = null}"])]),
    Thing("no pointer_default is unique", HEAD.replace(", pointer_default(unique)", "") + "typedef struct n { long v; struct n *l; } n; void f([in] n *x); }",
          [("f", "in", "05000000 00000000", ["x = @1", "@1 = {v = 5, l = null}"])]),
    midl("a unique pointer that is only [out]", "void f([out, unique] long *x);", ("f", "out", "01000000 05000000", ["x = @1", "@1 = @2", "@2 = 5"]), reports=["note: x: a unique pointer that is only [out]"]),
    midl("context handles", "typedef [context_handle] void *H; void f([in] H a, [out] H *b); void g([in, out, context_handle] void **c, [in, context_handle] void *d);",
         ("f", "in", "00000000 33221100 5544 7766 8899aabbccddeeff", ["a = ctx(0, 00112233-4455-6677-8899-aabbccddeeff)"]),
         ("g", "in", "00" * 40, ["c = @1", "d = ctx(0, 00000000-0000-0000-0000-000000000000)", "@1 = ctx(0, 00000000-0000-0000-0000-000000000000)"])),
    midl("handle_t, and a name that is a handle", "typedef [handle] wchar_t *NAME; typedef [handle] long own; void f([in] handle_t h, [in, unique, string] NAME n, [in] own o);",
         ("f", "in", "00000000 07000000", ["n = null", "o = 7"])),

    # Strings
    midl("a string of chars is no letter", "void f([in, string] char *s, [in, string, unique] const unsigned char *t); typedef struct { [string] char *m; [string] char n[4]; } x; void g([in] x *y);",
         ("f", "in", "03000000 00000000 03000000 686900 00 00000000", ['s = @1', "t = null", '@1 = 3:"hi"']),
         ("g", "in", "01000000 00000000 02000000 6800 0000 03000000 00000000 03000000 686900", ["y = @1", '@1 = {m = @2, n = "h"}', '@2 = 3:"hi"'])),
    midl("a string of wide letters is no letter", "void f([in, string] wchar_t *s, [string, in, unique] WCHAR *t, [in, string] LPCWSTR u);",
         ("f", "in", "02000000 00000000 02000000 68000000 01000000 01000000 00000000 01000000 0000 0000 02000000 00000000 02000000 69000000",
          ["s = @1", "t = @2", "u = @3", "@1 = 2:0:[104, 0]|c706|@1 = {offset = 0, actual = 2, letters = [104, 0]}", "@2 = 1:0:[0]|c706|@2 = {offset = 0, actual = 1, letters = [0]}",
           "@3 = 2:0:[105, 0]|c706|@3 = {offset = 0, actual = 2, letters = [105, 0]}"])),
    midl("a typedef that is a string", "typedef [string, unique] wchar_t *TASK; void f([in] TASK s, [out] TASK *t); void g([in] long n, [in, size_is(n)] TASK *a);",
         ("f", "in", "00000000", ["s = null"]), ("f", "out", "01000000 01000000 00000000 01000000 0000", ["t = @1", "@1 = @2", "@2 = 1:0:[0]|c706|@2 = {offset = 0, actual = 1, letters = [0]}"]),
         ("g", "in", "02000000 02000000 00000000 01000000 01000000 00000000 01000000 0000",
          ["n = 2", "a = @1", "@1 = [null, @2]", "@2 = 1:0:[0]|c706|@2 = {offset = 0, actual = 1, letters = [0]}"])),
    midl("a pointer to one letter is said to be one", "void f([in] wchar_t *s, [in] LPSTR t);", ("f", "in", "6800 69", ["s = @1", "t = @2", "@1 = 104", "@2 = 105"]), reports=["note: s points to one letter"]),
    midl("wide letters in place", "typedef struct { [string] wchar_t d[3]; long n; } s; void f([in] s *x); void g([in] WCHAR y[2]);",
         ("f", "in", "00000000 02000000 4300 0000 05000000", ["x = @1", "@1 = {d = 0:[67, 0], n = 5}"]), ("g", "in", "43004400", ["y = [67, 68]"]), windows_alone=True),
    midl("a counted string with room", "void f([in] PRPC_UNICODE_STRING s);",
         ("f", "in", "0400 0600 01000000 03000000 00000000 02000000 61006200", ["s = @1", "@1 = {Length = 4, MaximumLength = 6, Buffer = @2}", "@2 = 3:0:[97, 98]"]),
         reports=["not compared: Buffer: size_is(MaximumLength/2)", "not compared: Buffer: length_is(Length/2)"], windows_alone=True),
    midl("a counted string without room", "void f([in] RPC_UNICODE_STRING *s);",
         ("f", "in", "0400 0400 01000000 02000000 00000000 02000000 61006200",
          ["s = @1", "@1 = {Length = 4, MaximumLength = 4, Buffer = @2}", "@2 = 2:0:[97, 98]|c706|@2 = {offset = 0, actual = 2, letters = [97, 98]}"])),

    # Counts
    midl("counts that a variable states", "void f([in] DWORD n, [in, size_is(n)] BYTE *d, [in, size_is(n + 1)] long e[], [in, max_is(n)] short *g, [out] DWORD *m, [out, size_is(n), length_is(*m)] BYTE *o);",
         ("f", "in", "02000000 02000000 0102 0000 03000000 01000000 02000000 03000000 03000000 0100 0200 0300",
          ["n = 2", "d = @1", "e = [1, 2, 3]", "g = @2", '@1 = x"0102"', "@2 = [1, 2, 3]"]),
         texts=["size_is(n)] byte *d", "max_is(n)] long e[*]", "max_is(n)] short *g", "size_is(n), length_is(*m)] byte *o"], absent=["not compared"]),
    midl("a count that is stated is compared", "typedef struct { unsigned char n; [size_is(n)] long a[]; } s; void f([in] s *x);",
         ("f", "in", "01000000 01 000000 05000000", ["x = @1", "@1 = {n = 1, a = [5]}"]), texts=["[size_is(n)] long a[*]"], absent=["not compared"]),
    midl("size_is of the pointer within", "void f([out] DWORD *n, [out, size_is(, *n)] BYTE **d);", ("f", "out", "02000000 01000000 02000000 0506", ["n = @1", "d = @2", "@1 = 2", "@2 = @3", '@3 = x"0506"']),
         reports=["not compared: d: size_is(*n)"]),
    midl("size_is of the pointer outside", "void f([in] DWORD n, [in, size_is(n, )] long **d);",
         ("f", "in", "02000000 02000000 01000000 00000000 05000000", ["n = 2", "d = @1", "@1 = [@2, null]", "@2 = 5"]), texts=["size_is(n)]"]),
    midl("a count behind a unique pointer", "void f([in, unique] DWORD *n, [in, unique, size_is(n ? *n : 0)] BYTE *d, [in, size_is(n * 2)] long *e);",
         ("f", "in", "01000000 02000000 01000000 02000000 0506 0000 01000000 07000000", ["n = @1", "d = @2", "e = @3", "@1 = 2", '@2 = x"0506"', "@3 = [7]"]),
         reports=["not compared: d: size_is(n?*n:0)", "not compared: e: size_is(n*2)"]),
    midl("a count that is a constant", "void f([in, size_is(16)] BYTE d[]);", ("f", "in", "01000000 05", ["d = @1", '@1 = x"05"']), reports=["not compared: d: size_is(16)"]),
    midl("arrays whose length is an expression", "typedef struct { unsigned short u; [size_is(1260), length_is((u + 7) / 8)] unsigned char *h; } s; void f([in] s *x); void g([in] long n, [in, size_is(1000), length_is(n)] ULONG *d);",
         ("f", "in", "0900 0000 01000000 ec040000 00000000 02000000 ff01", ["x = @1", "@1 = {u = 9, h = @2}", '@2 = 1260:0:x"ff01"']),
         ("g", "in", "01000000 e8030000 00000000 01000000 05000000", ["n = 1", "d = @1", "@1 = 1000:0:[5]"]), windows_alone=True),
    midl("a conformant array in place with an expression", "typedef struct { unsigned short AclSize; [size_is(AclSize - 4)] unsigned char d[*]; } acl; void f([in] acl *x);",
         ("f", "in", "02000000 0600 0102", ["x = @1", '@1 = {AclSize = 6, d = x"0102"}']), windows_alone=True),
    midl("a struct that points to an array of itself", "typedef struct n { long k; [size_is(k * 2)] struct n *a; } n; void f([in] n *x);",
         ("f", "in", "01000000 01000000 01000000 07000000 00000000", ["x = @1", "@1 = {k = 1, a = @2}", "@2 = [{k = 7, a = null}]"]), windows_alone=True),
    midl("an array of fixed arrays", "typedef short pair[2]; void f([in] long n, [in, size_is(n)] pair *x);",
         ("f", "in", "02000000 02000000 0100 0200 0300 0400", ["n = 2", "x = @1", "@1 = [{row = [1, 2]}, {row = [3, 4]}]"])),

    # Unions and numbers
    midl("switch_is of a member and of a parameter", "typedef [switch_type(DWORD)] union { [case(0, 2)] long a; [case(-1)] short b; [default]; } u; typedef struct { DWORD k; [switch_is(k)] u v; } s; void f([in] s *x, [in] DWORD l, [in, switch_is(l)] u *y);",
         ("f", "in", "02000000 02000000 05000000 ffffffff ffffffff 0600", ["x = @1", "l = 4294967295", "y = @2", "@1 = {k = 2, v = 2:5}", "@2 = 4294967295:6"]),
         texts=["case(0, 2)", "case(4294967295)"], absent=["not compared"]),
    midl("switch_is with an expression, or of a pointer within", "typedef [switch_type(long)] union { [case(1)] long a; [default]; } u; void f([in] long l, [in, switch_is(l & 0xffff)] u *x, [out, switch_is(l)] u **y);",
         ("f", "in", "01000100 01000000 05000000", ["l = 65537", "x = @1", "@1 = 1:5"]), ("f", "out", "01000000 01000000 06000000", ["y = @1", "@1 = @2", "@2 = 1:6"]),
         reports=["not compared: x: switch_is(l&0xffff)", "not compared: y: switch_is(l)"]),
    midl("a union without switch_type", "typedef union { [case(1)] long a; [case(2)] ; } u; typedef struct { unsigned short k; [switch_is(k)] u v; } s; void f([in] s *x);",
         ("f", "in", "0100 0100 05000000", ["x = @1", "@1 = {k = 1, v = 1:5}"]), reports=["note: v: no switch_type"]),
    midl("an encapsulated union", "typedef union _u switch (short k) w { case 1: case 2: long a; default: ; } u; void f([in] u *x);", ("f", "in", "0200 0000 05000000", ["x = @1", "@1 = 2:5"])),
    Thing("ms_union and a narrow arm", HEAD.replace("version(1.0)", "version(1.0), ms_union") + "typedef [switch_type(long)] union { [case(1)] long a; [case(2)] short b; } u; void f([in] long k, [in, switch_is(k)] u *x); }",
          [("f", "in", "01000000 01000000 05000000", ["k = 1", "x = @1", "@1 = 1:5"])], reports=["partly: u without its arm b: with ms_union it is after a gap to 4"]),
    midl("enumerators are numbers, of four octets with v1_enum", "typedef [v1_enum] enum { A = 0x80000000, B } big; typedef enum { C = 3, D } small_one; void f([in] big x, [in] small_one y, [in] big z);",
         ("f", "in", "63000000 0400 0000 01000080", ["x = 99", "y = 4", "z = 2147483649"]), texts=["const hyper B = 2147483649;"]),
    midl("float and double are their bits", "void f([in] float x, [in] double y);", ("f", "in", "0000803f 00000000 000000000000f03f", ["x = 1065353216", "y = 4607182418800017408"])),

    # What has no equivalent
    midl("a side without equivalent", "void f([in] long a, [in, iid_is(r)] void *p, [out] long *q, [in] long r); void g([in] long a, [out] void **b);",
         ("f", "out", "05000000", ["q = @1", "@1 = 5"]), ("g", "in", "06000000", ["a = 6"]),
         reports=["no equivalent: f, the request: iid_is(r)", "no equivalent: g, the response: a pointer to void"]),
    midl("transmit_as and unknown words", "typedef [transmit_as(long)] char c; void f([in] c x); void g([in, nobody_knows] long x); void h([in] long y);", ("h", "in", "05000000", ["y = 5"]),
         reports=["no equivalent: f, the request: transmit_as(long)", "no equivalent: g, the request: nobody_knows"]),
    midl("a pointer to what has no equivalent", "typedef struct { long v; [unique] void *p; } s; void f([in] s *x);", ("f", "in", "05000000 00000000", ["x = @1", "@1 = {v = 5, p = null}"]),
         reports=["partly: p only where it is null: a pointer to void"]),
    midl("pipes", "typedef pipe BYTE bytes; typedef pipe struct { long *p; } bad; void f([in] bytes b); long g([in] long a, [out] bytes *b); void h([in] bad b);",
         ("f", "in", "02000000 0506 0000 00000000", ['b = x"0506"']), ("g", "in", "05000000", ["a = 5"]),
         reports=["no equivalent: g, the response: b: an [out] pipe beside other values", "no equivalent: h, the request:"]),
    midl("a constant that is no number", 'const char *NAME = "größe"; const float G = 1.5; void f([in] long x);', ("f", "in", "05000000", ["x = 5"])),
    midl("a bit field and a function", "typedef long fn(long a); typedef struct { long a : 4; } s; void f([in] s *x); void g([in] long y);", ("g", "in", "05000000", ["y = 5"]), reports=["no equivalent: f, the request: a bit field"]),

    # pidl
    pidl("the numbers of pidl", "void f([in] uint8 a, [in] uint16 b, [in] uint32 c, [in] hyper d, [in] NTTIME e, [in] int16 g, [in] char h, [in] udlong i);",
         ("f", "in", "ff 00 ffff ffffffff ffffffffffffffff 01000000 02000000 ffff ff 00 0300000004000000",
          ["a = 255", "b = 65535", "c = 4294967295", "d = 18446744073709551615", "e = {low = 1, high = 2}", "g = -1", "h = 255", "i = {low = 3, high = 4}"])),
    pidl("enums and bitmaps of each width", "typedef [enum8bit] enum { A } a; typedef [enum16bit] enum { B } b; typedef [v1_enum] enum { C } c; typedef enum { D } d; typedef [bitmap8bit] bitmap { E = 1 } e; typedef [bitmap16bit] bitmap { F = 2 } g; typedef bitmap { G = 4 } h; void f([in] a a, [in] e e, [in] b b, [in] g g, [in] d d, [in] c c, [in] h h);",
         ("f", "in", "01 02 0300 0400 0500 06000000 07000000", ["a = 1", "e = 2", "b = 3", "g = 4", "d = 5", "c = 6", "h = 7"]), texts=["const hyper G = 4;"]),
    pidl("charset", "void f([in, unique] [string, charset(UTF16)] uint16 *a, [in, string, charset(DOS)] uint8 *b, [in, charset(UTF16)] uint16 c[2]);",
         ("f", "in", "01000000 01000000 00000000 01000000 0000 0000 02000000 00000000 02000000 6800 4300 4400",
          ["a = @1", "b = @2", "c = [67, 68]", "@1 = 1:0:[0]|c706|@1 = {offset = 0, actual = 1, letters = [0]}", '@2 = 2:"h"'])),
    pidl("policy_handle and dom_sid2", "void f([in] policy_handle *h, [in] dom_sid2 *s);",
         ("f", "in", "00000000 33221100 5544 7766 8899aabbccddeeff 01000000 01 01 000000000005 20000000",
          ["h = @1", "s = @2", '@1 = {handle_type = 0, uuid = {time_low = 1122867, time_mid = 17493, time_hi_and_version = 26231, clock_seq = x"8899", node = x"aabbccddeeff"}}',
           '@2 = {sid_rev_num = 1, num_auths = 1, id_auth = x"000000000005", sub_auths = [32]}'])),
    pidl("a union of pidl has a tag of four octets", "typedef union { [case(1)] uint16 a; [default]; } u; void f([in] uint16 k, [in, switch_is(k)] u x);",
         ("f", "in", "0100 0000 01000000 0500", ["k = 1", "x = 1:5"])),
    pidl("subcontext(4) is bytes", "typedef struct { uint32 n; [subcontext(4), subcontext_size(n)] GUID *g; } s; void f([in] s *x); void g([in, subcontext(0)] GUID x);",
         ("f", "in", "02000000 01000000 02000000 0506", ["x = @1", "@1 = {n = 2, g = @2}", '@2 = x"0506"']),
         reports=["note: g: subcontext(4) is read as bytes", "no equivalent: g, the request: subcontext(0)"]),
    pidl("what pidl alone has", "typedef struct { uint32 n; uint8 d[n]; } inline; typedef [flag(NDR_NOALIGN)] struct { uint8 a; uint32 b; } packed; typedef [nodiscriminant] union { [case(1)] uint32 a; } bare; void f([in] inline *x); void g([in] packed *x); void h([in] uint32 k, [in, switch_is(k)] bare *x); void i([in, relative] uint32 *x); void j([in] uint16 y); [todo] void k();",
         ("j", "in", "0500", ["y = 5"]), reports=["f, the request: [n]", "g, the request: flag(", "h, the request: nodiscriminant", "i, the request: relative", "left out: k: the source does not say"]),
    pidl("a member that is not sent", "typedef struct { uint32 n; [skip] uint32 m; uint8 o; } s; void f([in] s *x);", ("f", "in", "05000000 06", ["x = @1", "@1 = {n = 5, o = 6}"]), reports=["left out: m, which is not sent"]),
]


def translate(thing: Thing, folder: Path, windows: bool) -> Tuple[str, Report]:
    """The file that is written for a thing, and its report."""
    for name, content in {"t.idl": thing.source, **thing.files}.items():
        (folder / name).write_text(content)
    sources = Sources([folder])
    for interface, made in translated(sources, sources.file(folder / "t.idl"), windows):
        if interface.name == "t":
            return made.text, made.report
    raise AssertionError("no interface t")


def run(program: str, words: Sequence[str], folder: Path, given: bytes = b"") -> Tuple[int, bytes, bytes]:
    """Runs the program in a folder."""
    ran = subprocess.run([program, *words], cwd=folder, input=given, stdout=subprocess.PIPE, stderr=subprocess.PIPE)
    return ran.returncode, ran.stdout, ran.stderr


def knows_windows(program: str) -> bool:
    """Whether the program has the language of Windows."""
    return run(program, ["windows", "--help"], Path("/"))[0] == 0


def faults(thing: Thing, program: str, windows: bool) -> List[str]:
    """What is wrong with a thing in one of the languages."""
    with tempfile.TemporaryDirectory() as place:
        folder = Path(place)
        try:
            text, report = translate(thing, folder, windows)
        except Refused as fault:
            return [str(fault)]
        (folder / "made.idl").write_text(text)
        before = ["windows"] if windows else []
        if not thing.streams:
            status, _, notes = run(program, [*before, "compile", "made.idl", "-"], folder)
            if status:
                return [f"{notes.decode()} of\n{text}"]
        found = [f"the file lacks {part!r}:\n{text}" for part in thing.texts if part not in text and (windows or not thing.windows_alone)]
        all_lines = "\n".join(map(str, report.lines))
        if windows or not thing.windows_alone:
            found += [f"the report lacks {part!r}:\n{all_lines}" for part in thing.reports if part not in all_lines]
        found += [f"the report has {part!r}:\n{all_lines}" for part in thing.absent if part in all_lines]
        for stream in thing.streams if windows or not thing.windows_alone else ():
            found += misread(stream, program, folder, before)
        return found


def misread(stream: Stream, program: str, folder: Path, before: List[str]) -> List[str]:
    """What is wrong with the values of octets."""
    operation, side, digits, wanted = stream
    status, out, notes = run(program, [*before, "decode", "made.idl", "-", operation, side, "little"], folder, bytes.fromhex(digits))
    lines = [line.split("|c706|")[0 if before else -1] for line in wanted]
    if status or out.decode().splitlines()[1:] != [f"op {operation} {side}", *lines]:
        return [f"{operation} {side}: {notes.decode()}{out.decode()}{(folder / 'made.idl').read_text()}"]
    return []


def check(thing: Thing) -> CheckOf:
    """The case of a thing, in the present language and, if the program has it, in that of Windows."""
    def find(program: str) -> List[str]:
        found = faults(thing, program, False)
        return found + (faults(thing, program, True) if knows_windows(program) else [])
    return CheckOf(f"from-midl: {thing.name}", find)


def objects() -> List[str]:
    """What is wrong with interfaces that have no file."""
    with tempfile.TemporaryDirectory() as place:
        path = Path(place) / "o.idl"
        path.write_text("[object, uuid(00000000-0000-0000-0000-000000000001)] interface IA : IUnknown { HRESULT f([in] long x); }\n"
                        "[uuid(00000000-0000-0000-0000-000000000002)] interface none { typedef long a; }\ninterface later;\n")
        found = [why_not(interface) for interface in Sources([]).file(path).interfaces]
        return [] if found == ["an interface of objects", "no operations"] else [str(found)]


def refused() -> List[str]:
    """What is wrong with a file that cannot be read: its place is said."""
    with tempfile.TemporaryDirectory() as place:
        path = Path(place) / "r.idl"
        path.write_text(HEAD + "void f([in] long x;\n}")
        try:
            Sources([]).file(path)
        except Refused as fault:
            return [] if str(fault) == f"{path}:3:19: ',' was expected, not ';'" else [str(fault)]
        return ["it was read"]


CASES = [
    *(check(thing) for thing in THINGS),
    CheckOf("from-midl: interfaces that have no file", lambda program: objects()),
    CheckOf("from-midl: a file that cannot be read", lambda program: refused()),
]
