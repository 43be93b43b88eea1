"""Attribute configuration files: what is read, what is refused and where, and that every command takes one."""

from case import CLOSED, Case, lines, octets
from idl import MARK, marked, readable

IDL = b"""[local] interface t {
  import "base.idl";
  const long C = 1;
  typedef [unique] long *p;
  struct tag { long m; };
  typedef enum { E } e;
  void f([in] long a, [in] short b);
  void include([in] long in_line);
  void code([in] long handle);
}
"""
BASE = b"[local] interface base { typedef long n; void of_base([in] long a); struct of_tag { long m; }; }"
FILES = {"t.idl": IDL, "base.idl": BASE}
LISTING = lines(
    "interface t version 0.0 uuid -",
    "type 12 struct align 4",
    "member m 7",
    "type 13 unique 7 align 4",
    "type 14 struct align 4",
    "member m 7",
    "type 15 enum 0 align 2",
    "op 0 f",
    "in a 7",
    "in b 5",
    "op 1 include",
    "in in_line 7",
    "op 2 code",
    "in handle 7",
)
COMPILE = ["compile", "t.idl", "t.acf"]


def accepted(*texts, group="acf"):
    """Attribute files for the interface above that are right."""
    return [Case(f"{group}: {readable(text)}", COMPILE, {**FILES, "t.acf": text.encode()}, out=LISTING) for text in texts]


NO_NUMBERS = b"[local] interface t { void none(void); void bare(); void h([in] handle_t b); }"


def without_numbers(text, *out):
    """An attribute file for operations without parameters, and one with a handle alone: right, with this listing, or refused at its mark."""
    if out:
        return Case(f"acf, no numbers: {readable(text)}", COMPILE, {"t.idl": NO_NUMBERS, "t.acf": text.encode()}, out=lines(*out))
    content, place = marked(text)
    return Case(f"acf, no numbers: {readable(text)}", COMPILE, {"t.idl": NO_NUMBERS, "t.acf": content}, notes=lines(f"idl t.acf:{place}: Rule 40"), status=6)


def refused(what, *texts):
    """Attribute files for it that are refused at their mark."""
    return [refused_as(what, readable(text), text) for text in texts]


def refused_as(what, name, text):
    content, place = marked(text)
    return Case(f"acf, {what}: {name}", COMPILE, {**FILES, "t.acf": content}, notes=lines(f"idl t.acf:{place}: {what}"), status=6)


# ----------------------------------------------------------------------------------------------------------------------
# The grammar

READ = accepted(
    "interface t { }",
    "interface t{}",
    "/* one */ interface /* two */ t { /* three */ } /* four */\n",
    "[code] interface t { }",
    "[auto_handle, nocode, in_line, out_of_line, enable_allocate, explicit_handle] interface t { }",
    "[implicit_handle(n h)] interface t { }",
    "[implicit_handle(handle_t uuid)] interface t { }",
    "[implicit_handle(handle_t string), implicit_handle(p ref)] interface t { }",
    'interface t { include "a.h"; }',
    'interface t { include "a.h", "", "b.idl"; include "a.h"; }',
    "interface t { typedef [heap] p; }",
    "interface t { typedef [in_line, heap, out_of_line] p, e, n, p; }",
    "interface t { f(); }",
    "interface t { f(b); }",
    "interface t { f([heap] b, a, [in_line, heap] b); f(); f(a); }",
    "interface t { [code, nocode, code] f(); }",
    "[code, code] interface t { typedef [heap, heap] p; f([heap, heap] a); }",
    "interface t { include(); }",
    "interface t { include(in_line); [code] include([in_line] in_line); }",
    "interface t { [code] code([heap] handle); code(handle); }",
    'interface t { include "a.h"; typedef [heap] n; f(a); include "b.h"; }',
)

SYNTAX = refused(
    "Syntax",
    "§",
    " /* nothing */ §",
    "§;",
    "§t { }",
    "interface §{ }",
    "interface t §",
    "interface t §;",
    "interface t {§",
    "interface t { } §x",
    "interface t { } §interface t { }",
    "interface t { }§;",
    "interface §long { }",
    "§local interface t { }",
    "[§] interface t { }",
    "[code §nocode] interface t { }",
    "[code, §] interface t { }",
    "[code] §[nocode] interface t { }",
    "[§uuid(11111111-2222-3333-4444-555555555555)] interface t { }",
    "[§local] interface t { }",
    "[code§(1)] interface t { }",
    "[implicit_handle§] interface t { }",
    "[implicit_handle(§)] interface t { }",
    "[implicit_handle(handle_t§)] interface t { }",
    "[implicit_handle(handle_t §code)] interface t { }",
    "[implicit_handle(§heap h)] interface t { }",
    "[implicit_handle(§long h)] interface t { }",
    "[implicit_handle(n h§, n i)] interface t { }",
    "interface t { include §; }",
    'interface t { include "a.h" §"b.h"; }',
    'interface t { include "a.h", §; }',
    'interface t { include "a.h" §}',
    'interface t { [code] include §"a.h"; }',
    "interface t { include §include; }",
    "interface t { typedef §p; }",
    "interface t { typedef [heap] §; }",
    "interface t { typedef [heap] p §e; }",
    "interface t { typedef [heap] §long; }",
    "interface t { typedef [heap] p, §; }",
    "interface t { typedef [§] p; }",
    "interface t { [heap] §typedef p; }",
    "interface t { f§; }",
    "interface t { f(§, a); }",
    "interface t { f(a, §); }",
    "interface t { f(a §b); }",
    "interface t { f(a) §}",
    "interface t { f(§*a); }",
    "interface t { f([heap]§); }",
    "interface t { f([heap] §[heap] a); }",
    "interface t { §void f(); }",
    'interface t { §import "base.idl"; }',
    "interface t { §; }",
    "interface t { [code] §}",
    "interface t { §\"a.h\"; }",
    "interface t { §1(); }",
)

BANNED_ANYWHERE = ["float", "double", "wchar_t", "ISO_LATIN_1", "ISO_MULTI_LINGUAL", "ISO_UCS"]
BANNED_ATTRIBUTES = ["transmit_as", "represent_as", "ignore", "handle", "reflect_deletions", "min_is", "encode", "decode"]
BANNED = [
    *(case for word in BANNED_ANYWHERE for case in refused(f"Banned {word}", f"interface t {{ f(a, §{word}); }}")),
    *(case for word in BANNED_ATTRIBUTES for case in refused(f"Banned {word}", f"interface t {{ [code, §{word}] f(); }}")),
    *refused("Banned float", "interface §float { }", "interface t { } §float", "interface t { typedef [heap] §float; }", "[implicit_handle(§float h)] interface t { }"),
    *refused("Banned represent_as", "[§represent_as(local)] interface t { }", "interface t { typedef [§represent_as(local)] n; }", "interface t { f([§represent_as(local)] a); }"),
]

LEXED = [
    *refused("BadOctet", "interface t { §$ }", "interface t { } §@", "§\x7f", 'include "a\\§q"'),
    *refused("OpenComment", "interface t { } §/*", "§/*/ interface t { }"),
    *refused("OpenText", 'interface t { include §"a.h; }', "interface t { §'a\n }"),
    *refused("LongName", f"interface t {{ §{'x' * 32}(); }}"),
    *refused("BadNumber", "interface t { §012 }", "§18446744073709551616", "interface t { §1a(); }"),
    *refused("BadOctet", "interface { } §$"),
    refused_as("TooLong", "1,048,577 octets", "interface t { }".ljust(1_048_576) + MARK + " "),
    refused_as("TooLong", "1,048,577 octets, and no token", "$" + "\n" * 1_048_575 + MARK + "\n"),
    Case("acf: 1,048,576 octets", COMPILE, {**FILES, "t.acf": b"interface t { }".ljust(1_048_576)}, out=LISTING),
]

# Where lines and columns are those of the ACF, and the last thing that is reported is the first of the text.
PLACES_OF_FAULTS = refused(
    "Rule 40",
    "\n\n  §interface u { }",
    "/* a\nb */\t§[code]\ninterface u { }",
    "interface t {\r\n\tf(a,\n  §c);\n}\n",
)

# ----------------------------------------------------------------------------------------------------------------------
# The rule: names, places, and what is reported of more than one fault

NAMES = refused(
    "Rule 40",
    "§interface T { }",
    "§interface base { }",
    "§interface t_ { }",
    "§[implicit_handle(no_t h)] interface t { }",
    "§[implicit_handle(tag h)] interface t { }",
    "§[implicit_handle(C h)] interface t { }",
    "interface t { §typedef [heap] no_t; }",
    "interface t { §typedef [heap] p, no_t; }",
    "interface t { §typedef [heap] tag; }",
    "interface t { §typedef [heap] of_tag; }",
    "interface t { §typedef [heap] C; }",
    "interface t { §typedef [heap] E; }",
    "interface t { §typedef [heap] f; }",
    "interface t { §typedef [heap] t; }",
    "interface t { §g(); }",
    "interface t { §[code] g(); }",
    "interface t { §of_base(); }",
    "interface t { §p(); }",
    "interface t { §C(); }",
    "interface t { §a(); }",
    "interface t { f(§c); }",
    "interface t { f(§in_line); }",
    "interface t { f(§f); }",
    "interface t { f(a, b, §[heap] A); }",
    "interface t { f(); include(§a); }",
)

FIRST = refused(
    "Rule 40",
    "§interface u { g(c); }",
    "§[heap] interface u { typedef [code] no_t; }",
    "interface t { §typedef [code] p; typedef [heap] no_t; }",
    "interface t { f(a); §g(c); f(c); }",
    "interface t { f(§c); g(); }",
    "interface t { §[heap] f(c); }",
    "interface t { f(§c, [code] a); }",
    "interface t { f(§[code] a, c); }",
    "interface t { §g([code] x, y); }",
    'interface t { include "none"; code(handle); §code_(); }',
)

# Each attribute at each place: the interface, a type, an operation, a parameter.
PLACES = ["§[{}] interface t {{ }}", "interface t {{ §typedef [{}] n; }}", "interface t {{ §[{}] f(); }}", "interface t {{ f(§[{}] a); }}"]
ATTRIBUTES = {
    "auto_handle": "yes no no no",
    "explicit_handle": "yes no yes no",
    "implicit_handle(handle_t h)": "yes no no no",
    "code": "yes no yes no",
    "nocode": "yes no yes no",
    "in_line": "yes yes no yes",
    "out_of_line": "yes yes no yes",
    "enable_allocate": "yes no yes no",
    "heap": "no yes no yes",
    "comm_status": "no no yes yes",
    "fault_status": "no no yes yes",
}


def at_places():
    """Each attribute at each place, alone and after one that may be there."""
    for attribute, answers in ATTRIBUTES.items():
        for text, other, answer in zip(PLACES, ["code", "in_line", "code", "in_line"], answers.split()):
            for filled in (text.format(attribute), text.format(f"{other}, {attribute}")):
                yield from accepted(filled.replace(MARK, ""), group="acf, in its place") if answer == "yes" else refused("Rule 40", filled)


# ----------------------------------------------------------------------------------------------------------------------
# Other commands

ADD = {"t.idl": b"[local] interface t { void add([in] long a, [in] short b, [in] hyper c); void many([in, unique] long *a); }"}
ACF = {"t.acf": b'[code] interface t { include "none.h"; add([heap] a); }'}
OTHER = {"t.acf": b"interface u { }"}
VALUES = lines("values 2", "op add in", "a = 1", "b = 2", "c = 3")
STREAM = octets("01000000 0200 0000 0300000000000000")
DECODE = ["decode", "t.idl", "t.acf", "add", "in", "little"]
ENCODE = ["encode", "t.idl", "t.acf", "add", "in", "little", "1"]
MISSING = ["decode", "t.idl", "t.acf", "none", "in", "little"]


def told(name, words, files, line, status=6, input=CLOSED):
    """A refusal before the input is due."""
    return Case(f"acf, other commands: {name}", words, files, input, notes=lines(line), status=status)


COMMANDS = [
    Case("acf, other commands: decode", DECODE, {**ADD, **ACF}, STREAM, VALUES),
    Case("acf, other commands: encode", ENCODE, {**ADD, **ACF}, VALUES, STREAM),
    Case("acf, other commands: decode, an ACF named ./-", ["decode", "t.idl", "./-", *DECODE[3:]], {**ADD, "-": ACF["t.acf"]}, STREAM, VALUES),
    Case("acf, other commands: decode, - is none", ["decode", "t.idl", "-", *DECODE[3:]], {**ADD, "-": b"]"}, STREAM, VALUES),
    Case("acf, other commands: encode, - is none", ["encode", "t.idl", "-", *ENCODE[3:]], {**ADD, "-": b"]"}, VALUES, STREAM),
    told("decode, another interface", DECODE, {**ADD, **OTHER}, "idl t.acf:1:1: Rule 40"),
    told("encode, another interface", ENCODE, {**ADD, **OTHER}, "idl t.acf:1:1: Rule 40"),
    told("decode, no file of the grammar", DECODE, {**ADD, "t.acf": b"interface t {"}, "idl t.acf:1:14: Syntax"),
    told("encode, no token", ENCODE, {**ADD, "t.acf": b"interface t {\n$ }"}, "idl t.acf:2:1: BadOctet"),
    told("encode, banned", ENCODE, {**ADD, "t.acf": b"interface t { [encode] add(); }"}, "idl t.acf:1:16: Banned encode"),
    told("decode, absent", DECODE, ADD, "absent: t.acf", 7),
    told("encode, absent", ENCODE, ADD, "absent: t.acf", 7),
    told("decode, an empty name", ["decode", "t.idl", "", *DECODE[3:]], ADD, "absent: ", 7),
    told("absent, before the operation", MISSING, ADD, "absent: t.acf", 7),
    told("refused, before the operation", MISSING, {**ADD, **OTHER}, "idl t.acf:1:1: Rule 40"),
    told("right, and no operation", MISSING, {**ADD, **ACF}, "idl t.idl: NoOperation none"),
    told("before the order of octets", ["decode", "t.idl", "t.acf", "add", "in", "middle"], {**ADD, **OTHER}, "words refused", 2),
    told("right, and a closed input", DECODE, {**ADD, **ACF}, "read fault", 3),
]

WITHOUT_NUMBERS = [
    without_numbers("interface t { none(); bare(); h([heap] b); }", "interface t version 0.0 uuid -", "op 0 none", "op 1 bare", "op 2 h"),
    without_numbers("interface t { none(§a); }"),
    without_numbers("interface t { bare(§a); }"),
    without_numbers("interface t { h(b, §a); }"),
]

CASES = WITHOUT_NUMBERS + READ + SYNTAX + BANNED + LEXED + PLACES_OF_FAULTS + NAMES + FIRST + list(at_places()) + COMMANDS
