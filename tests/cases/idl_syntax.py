"""Interface files that are no files of the language: the first token at which none of them goes on."""

from case import Case, interface, lines, octets
from idl import HEADER, MARK, UUID, export, fault, header, parameters, parsed, value, whole

PLAIN = interface("void f([in] small x);")
HERE = MARK.encode()
TOKENS = f"[ uuid ( {UUID} ) ] interface t {{ void f ( [ in ] small x , [ in ] hyper y ) ; void g ( ) ; }}".split()
RESERVED = ("boolean byte case char const default enum FALSE handle_t hyper import interface long NULL pipe short small "
            "struct switch TRUE typedef union void").split()
ATTRIBUTE_WORDS = ("uuid version endpoint local pointer_default ref unique ptr in out string context_handle size_is max_is "
                   "length_is first_is last_is switch_is switch_type idempotent broadcast maybe").split()
BANNED = "float double wchar_t ISO_LATIN_1 ISO_MULTI_LINGUAL ISO_UCS".split()
BANNED_ATTRIBUTES = "transmit_as represent_as ignore handle reflect_deletions min_is encode decode".split()


def imports(what, *texts):
    """Files with this before their operation."""
    return whole(what, *(f"{HEADER} interface t {{ {text} void f([in] small x); }}" for text in texts))


def named(what, word):
    """Files that use a word as the name of an interface, an operation and a parameter."""
    return [fault(what, interface("void f([in] small x);", name=f"§{word}"), f"an interface named {word}"),
            *export(what, f"void §{word}();", f"void g([in] small §{word});")]


# A text that ends too early is reported just past its last octet.
ENDS = [
    *whole("Syntax", *(" ".join(TOKENS[:count]) + MARK for count in range(len(TOKENS)))),
    *whole("Syntax", " §", "\n§", " \n\n §", "\r§", "/* */§", "/*\n*/ §", f"{HEADER}\n§", f"{HEADER}\n\n\n§", f"{HEADER}\n \t§",
           f"{HEADER}\r\n§", f"{HEADER}\r§", f"{HEADER}\n/* t */§", f"{HEADER}/*\n*/\n§"),
    *whole("Syntax", *(f"{HEADER} interface t {{ {text}" for text in (
        "import§", 'import "u"§', 'import "u",§', 'import "u";§', "typedef§", "typedef long n§", "typedef struct {§",
        "typedef struct { long n;§", "const§", "const long A§", "const long A = 1 +§", "const long A = (1§"))),
    fault("Syntax", PLAIN[:-2] + b"\n\n" + HERE, "line feeds in the place of the last bracket"),
    fault("Syntax", HEADER.ljust(1_048_576) + MARK, "an end at the greatest length"),
    Case("idl, Syntax: an empty file that is a device", ["decode", "/dev/null", "-", "f", "in", "little"], {}, octets("01"),
         notes=lines("idl /dev/null:1:1: Syntax"), status=6),
]

ATTRIBUTES = [
    *whole("Syntax", "§interface t { void f([in] small x); }", f"[uuid({UUID}) §interface t {{ void f([in] small x); }}"),
    *header("Syntax", "[§]", f"§uuid({UUID})", f"§{UUID}", "[uuid§]", "[uuid(§)]", "[uuid(§1)]", "[uuid(§t)]",
            f"[uuid §{UUID}]", f"[uuid({UUID}§]", f"[§(uuid({UUID}))]", f"[§UUID({UUID})]", f"[§guid({UUID})]",
            f'[uuid(§"{UUID}")]', f"[uuid(§{{{UUID}}})]", f"[uuid({UUID}),§]", f"[§,uuid({UUID})]",
            f"[uuid({UUID}) §uuid({UUID})]", f"{HEADER} §{HEADER}", "[uuid(§11111111-2222-3333-4444-55555555555)]",
            "[uuid(11111111-2222-3333-4444-555555555555§5)]", "[uuid(11111111-2222-3333-4444-555555555555§x)]",
            "[uuid(§1111111-2222-3333-4444-555555555555)]", "[uuid(§11111111-222-33333-4444-555555555555)]",
            "[uuid(§11111111-2222-3333-4444555555555555)]", "[uuid(§11111111 - 2222 - 3333 - 4444 - 555555555555)]",
            "[uuid(§11111111-2222-3333-4444-\n555555555555)]", "[version§]", "[version(§)]", "[version(§A)]", '[version(§"1")]',
            "[version(§-1)]", "[version(1.§)]", "[version(1§,2)]", "[version(1§..2)]", "[version(1.2§.3)]", "[endpoint§]",
            "[endpoint(§)]", "[endpoint(§a)]", '[endpoint("a",§)]', '[endpoint("a" §"b")]', "[pointer_default§]",
            "[pointer_default(§)]", "[pointer_default(§in)]", "[pointer_default(ref§, ptr)]", "[local§()]", "[local,§,local]",
            "[local§;]", "[local §= 1]", "[§class]", "[§object]", "[§interface]", "[§1]", '[§"a"]', "[§[local]]", "[§*]"),
    *parameters("Syntax", "[§] small y", "[in,§] small y", "[in §out] small y", "[in] §[in] small y", "[§IN] small y",
                "in §small y", "§(in) small y", "[in§;] small y", "[in§(1)] small y", "[string§(1)] small y",
                "[size_is§] long y", "[size_is(§)] long y", "[size_is(§1)] long y", "[size_is(*§)] long y",
                "[size_is(*§*n)] long y", "[size_is(n§, m)] long y", "[size_is(n §+ 1)] long y", "[size_is(§(n))] long y",
                "[switch_type§] long y", "[switch_type(§)] long y", "[switch_type(§struct a)] long y",
                "[switch_type(long §*)] long y", "[case§] long y", "[case(§)] long y", "[case(1,§)] long y",
                '[case(§"a")] long y', "[case(§NULL)] long y", "[default§(1)] long y"),
    # Inside attribute brackets a word with which an attribute begins is no name.
    *parameters("Syntax", *(f"[size_is(§{word})] long y" for word in ATTRIBUTE_WORDS)),
    *parameters("Syntax", "[size_is(*§in)] long y", "[switch_type(§string)] long y", "[case(§ref)] long y",
                "[case(1 + (§in))] long y", "[case(n, §out)] long y"),
]

INTERFACES = whole(
    "Syntax",
    f"{HEADER} interface §{{ void f([in] small x); }}",
    f'{HEADER} interface §"t" {{ void f([in] small x); }}',
    f"{HEADER} interface §1 {{ void f([in] small x); }}",
    f"{HEADER} interface t§; {{ void f([in] small x); }}",
    f"{HEADER} interface t §void f([in] small x);",
    f"{HEADER} interface t §( void f([in] small x); )",
    f"{HEADER} interface t §: u {{ void f([in] small x); }}",
    f"{HEADER} interface t §u {{ void f([in] small x); }}",
    f"{HEADER} interface t§.u {{ void f([in] small x); }}",
    f"{HEADER} interface t {{ void f([in] small x) §}}",
    f"{HEADER} interface t {{ void f([in] small x); §)",
    f"{HEADER} interface t {{ §{{ void f([in] small x); }} }}",
    f"{HEADER} interface t {{ void f([in] small x); }}§;",
    f"{HEADER} interface t {{ void f([in] small x); }} §}}",
    f"{HEADER} interface t {{ void f([in] small x); }} §interface u {{ }}",
    f"{HEADER} interface t {{ void f([in] small x); }} §{HEADER} interface u {{ }}",
    f"{HEADER} interface t {{ void f([in] small x); }} §end",
    f"{HEADER} interface t {{ void f([in] small x); }} §// end",
    f"{HEADER} interface t {{ void f([in] small x); }} §*/",
    f"{HEADER} §Interface t {{ void f([in] small x); }}",
    f"{HEADER} §module t {{ void f([in] small x); }}",
    f"{HEADER}§interfacet {{ void f([in] small x); }}",
    f"§interface {HEADER} t {{ void f([in] small x); }}",
    "§void f([in] small x);",
    "§}",
    "§t",
)

IMPORTS = [
    *imports("Syntax", "import§;", "import §u;", "import §'u';", "import §<u>;", "import §import;", 'import§("u");',
             'import "u" §void g();', 'import "u",§;', 'import "u" §"v";', 'import "u"§.idl;', 'import "u"; §;'),
    *export("Syntax", '§import "u.idl";'),
]

OPERATIONS = [
    *whole("Syntax", f"{HEADER} interface t {{ void g() §}}"),
    *export("Syntax", "§;", "§1;", '§"a";', "§*;", "§{ }", "§;void g();", "[§] void g();", "[in §void g();", "[idempotent] §;",
            "[idempotent] §typedef long n;", "[idempotent] §const long A = 1;", "[idempotent] §[maybe] void g();",
            "void g();§;", "void g§;", "void g(§;", "void g§);", "void §();", "g§();", "voidg§();", "void §void g();",
            "void §long g();", "void §*g();", "void §(*g)();", "void g§, h();", "void g§[1]();", "void g()§[1];",
            "void g() §const;", "void g()§();", "void g() §{ }", "void g() §[in];", "void §1 g();", "void g §h();",
            "void g([in] small y)§([in] small z);", "void g([in] small y) §void h();", "long §long g();", "§int g();",
            "struct §();", "struct a §*g();", "a §*g();"),
]

PARAMETERS = parameters(
    "Syntax", "[in] small y,§", "§,[in] small y", "[in] small y,§,[in] small z", "[in] small y§; [in] small z",
    "[in] small y §void", "[in] small y §z", "[in] small§", "[in] y§", "[in]§", "[in] small §small y", "[in] small §1",
    "[in] small y§-z", "[in] small y§.z", "[in] small y §= 1", "[in] small y§()", "[in] small y §*", "[in] small *§",
    "[in] small §(*y)", "[in] small §&y", "[in] smally§", "[in] unsigned §y", "[in] §int y", "[in] long §long y",
    "[in] long §short y", "[in] struct§", "[in] §const long y", "[in] §typedef y", "[in] §pipe long y", "[in] §[4] y",
    "void§, [in] small y", "void §void", "void§[1]", "[in] small y, void§", "§...", "[in] small y, §...",
    # After a name a bracket is a bound, in which `in` is a name.
    "[in] small y [in] §small z", "[in] small y [in§, out] small z", "[in] small y[§", "[in] small y[1§", "[in] small y[1 §1]",
)

TYPEDEFS = export(
    "Syntax", "typedef§;", "typedef n§;", "typedef long§;", "typedef §const long n;", "typedef §typedef long n;",
    "typedef long n §m;", "typedef long n,§;", "typedef long n§();", "typedef long n §= 1;", "typedef long n§*;",
    "typedef long *§;", "typedef long §(*n);", "typedef [§] long n;", "typedef [in §long n;", "typedef [§v1_enum] long n;",
    "typedef pipe§;", "typedef pipe long§;", "typedef pipe §pipe long n;", "typedef pipe §[in] long n;", "typedef void§;",
    "typedef §int n;", "typedef unsigned §n;", "typedef unsigned §int n;", "typedef unsigned §boolean n;",
    "typedef unsigned §unsigned long n;", "typedef long unsigned §unsigned n;", "typedef unsigned long §unsigned n;",
    "typedef long int §int n;", "typedef long int §unsigned n;", "typedef long §short n;", "typedef char §unsigned n;",
    "typedef unsigned char §int n;", "typedef boolean §int n;", "typedef byte §byte n;", "typedef signed §long n;",
)

BOUNDS = export(
    "Syntax", "typedef long n[§;", "typedef long n[1§;", "typedef long n[1 §2];", "typedef long n[1§,2];",
    "typedef long n[§..2];", "typedef long n[1..§];", "typedef long n[1..2§..3];", "typedef long n[*§..2];",
    "typedef long n[*§*];", "typedef long n[* §1];", "typedef long n[1..* §+ 1];", "typedef long n[1]§m;",
    "typedef long n§(1);", "typedef long n[§long];", 'typedef long n[§"a"];', "typedef long n[§NULL];", "typedef long n[§[1]];",
)

STRUCTS = export(
    "Syntax", "struct§;", "struct { §};", "struct a { §};", "struct a { §; };", "struct a { long§; };", "struct a { long b §};",
    "struct a { long b,§; };", "struct a { long b; §;};", "struct a b§;", "struct a { long b; } c§;", "struct §struct a;",
    "struct a { struct§; };", "struct a { long b§(); };", "struct a { long b §= 1; };", "struct a { void §(); };",
    "struct a { [§] long b; };", "struct a { [in] §; };", "struct a { long b; }§};", "struct a { §typedef long b; };",
    "struct a §switch (long b) { };", "struct a { §const long B = 1; };", "struct §1 { long b; };",
)

ENUMERATIONS = export(
    "Syntax", "enum§;", "enum { §};", "enum a { §1 };", "enum a { B, §};", "enum a { B §C };", "enum a { B = §};",
    "enum a { B§; };", "enum a { §long };", "enum a { §, B };", 'enum a { B = §"1" };', "enum a { B = 1 §C };",
    "enum a { §[in] B };", "enum a { B = §NULL };", "enum §switch (long b) { };",
)

UNIONS = export(
    "Syntax", "union§;", "union { §};", "union a { §};", "union a { long§; };", "union a { long b§, c; };",
    "union a { §case 1: long b; };", "union a { §default: ; };", "union a switch §long b { case 1: ; };",
    "union a switch (§) { case 1: ; };", "union a switch (long§) { case 1: ; };", "union a switch (§struct a b) { case 1: ; };",
    "union a switch (long b§, c) { case 1: ; };", "union a switch (long §*b) { case 1: ; };",
    "union a switch (§[in] long b) { case 1: ; };", "union a switch (long b)§;", "union a switch (long b) c §d { case 1: ; };",
    "union a switch (long b) { §};", "union a switch (long b) { §long c; };", "union a switch (long b) { §; };",
    "union a switch (long b) { case §: ; };", "union a switch (long b) { case 1§; };",
    "union a switch (long b) { case 1§, 2: ; };", "union a switch (long b) { case 1: §};",
    "union a switch (long b) { case 1§..2: ; };", "union a switch (long b) { case 1: long c§, d; };",
    "union a switch (long b) { case 1: long§; };", "union a switch (long b) { default §1: ; };",
    "union a switch (long b) { case 1: ; §long c; };", "union a switch (long b) { §[in] case 1: ; };",
)

CONSTANTS = [
    *export("Syntax", "const§;", "const §A = 1;", "const §struct a A = 1;", "const long §= 1;", "const long A§;",
            "const long A §1;", "const long *§*A = NULL;", "const long A§[1] = 1;", "const long A = 1§, B = 2;",
            "const long A§, B = 1;", "const long §const A = 1;", "const long A §== 1;", "const §[in] long A = 1;",
            "const §typedef long A = 1;"),
    *value("Syntax", "§", "§= 1", "§*", "§* 1", "§/ 1", "§? 1 : 2", "§)", "(§)", "(1§", "1§)", "((1)§", "(1 §2)", "(1§, 2)",
           "1 §TRUE", "1§(2)", "1§[2]", "1 +§", "1 + §* 2", "1++§", "1 §= 1", "1 + (§", "1 -§> 2", "-§", "- §/ 1", "!§",
           "1 §! 2", "1 §~ 2", "1 ? 2§", "1 ? §: 2", "1 ? 2 :§", "1 §: 2", "1 ? 2 : 3 §: 4", "1 ? 2§, 3", "(1 ? 2§) : 3",
           "1 ? (2 §: 3)", "A §B", "A§(1)", "A§.b", "sizeof§(1)", "TRUE §FALSE", "§long", "(§long) 1", "§{ 1 }", "§[1]", "§;",
           '"a" §+ 1', "NULL §+ 1", "1 + §NULL", "(§NULL)", "1 §in", "§case", "1 + §char"),
]

NAMES = [
    *(case for word in RESERVED for case in named("Syntax", word)),
    # After a size these two words are of the type, so that the name is missing.
    fault("Syntax", interface("void f([in] small x);", name="§int"), "an interface named int"),
    fault("Syntax", interface("void f([in] small x);", name="§unsigned"), "an interface named unsigned"),
    *export("Syntax", "void §int();", "void §unsigned();", "void g([in] small int§);", "void g([in] small unsigned§);"),
    *export("Syntax", "void n§-n();", "void n§.n();", "void n §n();"),
]

BANNED_WORDS = [
    *(case for word in BANNED for case in named(f"Banned {word}", word)),
    *(case for word in BANNED for case in (
        *whole(f"Banned {word}", f"§{word}", f"§{word} {HEADER}", f"{HEADER} interface t {{ void f([in] small x); }} §{word}",
               f"{HEADER} interface t §{word} {{"),
        *parameters(f"Banned {word}", f"[in] §{word} y", f"[in] small y §{word}", f"[§{word}] small y",
                    f"[in, §{word}(y)] small y", f"[size_is(§{word})] small y", f"§{word}"),
        *export(f"Banned {word}", f"§{word} g();", f"typedef §{word} n;", f"struct §{word} {{ long a; }};",
                f"struct a {{ §{word} b; }};", f"const long A = §{word};", f"const long A = 1 + §{word};",
                f"const long A = 1 §{word};", f"§{word};"))),
    *header("Banned float", "[§float]", "[uuid(§float)]", "[local, §float]", "[local §float]", "[version(1.§float)]"),
]

BANNED_ATTRIBUTE_WORDS = [
    *(case for word in BANNED_ATTRIBUTES for case in (
        *header(f"Banned {word}", f"[§{word}]", f"[§{word}(long)]", f"[local, §{word}]"),
        *parameters(f"Banned {word}", f"[§{word}(long)] small y", f"[in, §{word}] small y"),
        *export(f"Banned {word}", f"typedef [§{word}(long)] long n;", f"[§{word}] void g();",
                f"struct a {{ [§{word}] long b; }};", f"union a {{ [§{word}] ; }};"),
        # Where no attribute begins it is a name.
        *parameters("Syntax", f"[in §{word}] small y", f"[pointer_default(§{word})] small y", f"[in] {word}§"),
        *parameters("Syntax", f"[size_is({word})] small y§;", f"[case({word})] small y§;", f"[in] {word} y§;"))),
]

# 64 brackets may be open, of any kind. The interface's is one of them.
BRACKETS = [
    *parsed(f"{'(' * 63}1{')' * 63}", f"{'-(' * 63}1{')' * 63}", f"({'(' * 62}1{')' * 62} + {'(' * 62}1{')' * 62})",
            " + ".join(["(1)"] * 65)),
    *value("Deep", f"{'(' * 63}§(1{')' * 64}", f"{'(' * 63}§(", f"{'(' * 63}§({'(' * 100_000}",
           f"({'(' * 62}1{')' * 62} + {'(' * 62}§(1{')' * 63})"),
    *header("Syntax", f"[case({'(' * 62}1{')' * 62})]§;"),
    *header("Deep", f"[case({'(' * 62}§(1{')' * 63})]"),
    *parameters("Syntax", f"[case({'(' * 60}1{')' * 60})] small y§;", f"[in] small y[{'(' * 61}1{')' * 61}]§;"),
    *parameters("Deep", f"[case({'(' * 60}§(1{')' * 61})] small y", f"[in] small y[{'(' * 61}§(1{')' * 62}]"),
    *export("Syntax", f"typedef {'struct { ' * 63}long b; {'} c; ' * 62}}} n;§;",
            f"typedef {'struct { ' * 62}[in] long b[1]; union switch (long b) {{ case 1: ; }} c; {'} c; ' * 61}}} n;§;"),
    *export("Deep", f"typedef {'struct { ' * 63}struct §{{ long b; {'} c; ' * 63}}} n;",
            f"typedef {'struct { ' * 63}§[in] long b;", f"typedef {'struct { ' * 63}long b§[1];",
            f"typedef {'struct { ' * 63}union switch §(long b)", f"typedef {'struct { ' * 63}enum §{{ B"),
    # A 65th where none may be is a wrong token.
    *value("Syntax", f"{'(' * 63}§[", f"{'(' * 63}§{{", f"{'(' * 63}§)", f"{'(' * 63}1§("),
]

SUM = " + ".join(["1"] * 65)

# An expression has at most 64 operators, and what is in its brackets is of it.
OPERATORS = [
    *parsed(SUM, f"{'-' * 64}1", f"{'1 ? 2 : ' * 64}3", f"{'1 + ~' * 32}1", f"{'(1 + 1) * ' * 32}1",
            f"{'(-1 ? 2 : 3) * ' * 21}1"),
    *value("Deep", f"{SUM} §+ 1", f"{SUM} §+", f"{SUM} §? 1 : 2", f"{SUM} §<< 2", f"{'-' * 64}§-1",
           f"{'1 ? 2 : ' * 64}3 §? 4 : 5", f"{'1 + ~' * 32}1 §* 1", f"{'(1 + 1) * ' * 32}1 §* 1", f"{'(1 + 1) * ' * 32}(§-1)",
           f"{'!' * 64}§{'!' * 100_000}1", f"1 ? {' + '.join(['1'] * 64)} §+ 1 : 2"),
    *value("Syntax", f"{'1 + ' * 64}§* 1", f"{'1 + ' * 64}§)", f"{SUM} §: 1", f"{SUM} §= 1"),
    # Each of several expressions has its own operators.
    *parameters("Syntax", f"[in] small y[{SUM}..{SUM}][{SUM}..*]§;", f"[case({SUM}, {SUM})] small y§;"),
    *parameters("Deep", f"[in] small y[{SUM} .. {SUM} §+ 1]", f"[in] small y[{SUM}][{SUM} §+ 1]",
                f"[case({SUM}, {SUM} §+ 1)] small y"),
    *export("Syntax", f"enum a {{ B = {SUM}, C = {SUM} }};§;", f"union a switch (long b) {{ case {SUM}: case {SUM}: ; }};§;"),
    *export("Deep", f"enum a {{ B = {SUM}, C = {SUM} §+ 1 }};",
            f"union a switch (long b) {{ case {SUM}: case {SUM} §+ 1: ; }};"),
]

# Places without a mark.
NUMBERED = [
    Case(f"idl, {what}: {line} at {place}", ["decode", "t.idl", "-", "f", "in", "little"], {"t.idl": interface(line)},
         octets("01"), notes=lines(f"idl t.idl:{place}: {what}"), status=6)
    for line, place, what in (
        ("void f([in] long);", "3:17", "Syntax"), ("void f([in] float x);", "3:13", "Banned float"),
        ("const long A = 012;", "3:16", "BadNumber"), ("void f([in] long x)", "4:1", "Syntax"),
        ("void f([in] no_t x);", "3:13", "Unknown no_t"))
]

# Only a line feed ends a line, and each octet is a column.
LINES = [
    fault("Syntax", f"{HEADER}\ninterface t {{\n§;\n}}\n", "on line 3"),
    fault("Syntax", f"{HEADER} /* one\ntwo\nthree */ §;", "on line 3, after a comment of three lines"),
    fault("Syntax", f"\n\n\n{HEADER}\n\n§;", "after empty lines"),
    fault("Syntax", f"{HEADER}\n\t§;", "a tab is one column"),
    fault("Syntax", f"{HEADER}\n\t \t§;", "tabs and a space are three columns"),
    fault("Syntax", f"{HEADER}\n/* größe */ §;", "a letter of two octets is two columns"),
    fault("Syntax", f"{HEADER}\n/* \u2026 */ §;", "a letter of three octets is three columns"),
    fault("Syntax", f"{HEADER}\r\ninterface t {{\r\n  §;\r\n}}\r\n", "carriage returns and line feeds"),
    fault("Syntax", f"{HEADER}\rinterface t {{\r§;\r}}\r", "carriage returns are columns"),
    fault("Syntax", f"{HEADER}\n\r§;", "a line feed and a carriage return"),
    fault("Syntax", f"{HEADER}\f\f\f§;", "form feeds are columns"),
    fault("Syntax", f"{HEADER}\n/*\v\0\f\r*/§;", "each octet of a comment is a column"),
    fault("Syntax", f"{HEADER}\n" + " " * 100_000 + "§;", "column 100,001"),
    fault("Syntax", "§;".rjust(1_048_577), "column 1,048,576"),
    fault("Syntax", "\n" * 1_048_575 + "§;", "line 1,048,576"),
    fault("Syntax", "\n" * 1_048_576 + "§", "line 1,048,577"),
]

# The first of several, and one of them before what is of the language and not built yet, wherever that is.
ORDER = [
    *export("Syntax", "§; float", "void g(§; float", "const long A = (§) float;", f"const long A = §) {'(' * 70}"),
    *export("Banned float", "void §float ;;", "§float (", f"const long A = §float {'(' * 70}"),
    *export("Deep", f"const long A = {'(' * 63}§( float", f"const long A = {'(' * 63}§( ;"),
    *header("Syntax", "[local §local]", "[local] §;"),
    *whole("Syntax", f"[uuid({UUID}), version(1.0)] interface §interface t {{ }}",
           f"{HEADER} interface t {{ void f([in] long y, [in] long y§"),
    *export("Syntax", "void f(); §;", "[idempotent] void g(); §;", "typedef long n; const long A§;"),
    fault("Syntax", interface(*(f"void g{number}();" for number in range(1025)), "§;"), "after 1,025 operations"),
    fault("Syntax", interface("void g(" + "[in] small y, " * 257 + "§);"), "after 257 parameters of one name"),
    fault("Syntax", f"{HEADER} §;", "before an unknown operation", operation="g"),
    fault("Syntax", f"{HEADER} §;", "the file's name as it was given", file="./a folder/größe.idl"),
]

CASES = (ENDS + ATTRIBUTES + INTERFACES + IMPORTS + OPERATIONS + PARAMETERS + TYPEDEFS + BOUNDS + STRUCTS + ENUMERATIONS + UNIONS
         + CONSTANTS + NAMES + BANNED_WORDS + BANNED_ATTRIBUTE_WORDS + BRACKETS + OPERATORS + NUMBERED + LINES
         + ORDER)
