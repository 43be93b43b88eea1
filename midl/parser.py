"""Reads the tokens of a file as declarations: the grammar that published files for MIDL and Samba's pidl use between them."""

from __future__ import annotations

import re
from typing import List, Optional, Sequence, Tuple

from .tokens import Place, Refused, Token
from .tree import (Attribute, Attributes, Body, Constant, Declarator, Field, File, Interface, Named, Operation, Pipe, Simple, Type, Typedef, find,
                   spelled)

SIGNS = ("unsigned", "signed")
WIDTHS = ("int", "long", "short", "small", "hyper", "char", "__int64", "__int32", "__int16", "__int8", "__int3264", "double")
OTHERS = ("boolean", "byte", "void", "handle_t", "wchar_t", "float")
BODIES = ("struct", "union", "enum", "bitmap")
NOTHING = ("const", "volatile", "far", "FAR", "near", "NEAR", "IN", "OUT", "OPTIONAL", "__stdcall", "__cdecl", "_stdcall", "_cdecl", "__RPC_FAR", "RPC_ENTRY", "WINAPI",
           "STDMETHODCALLTYPE", "APIENTRY", "PASCAL", "pascal", "extern", "EXTERN_C", "__declspec", "DECLSPEC_UUID", "__RPC_API", "RPC_VAR_ENTRY")
SAL = re.compile(r"_(In|Out|Inout|Outptr|Field|Ret|Reserved|Maybe|Maybenull|Notnull|Null|Deref|Success|Check|Must|Post|Pre|Pre_|When|At|Use|Struct)\w*_"
                 r"|__(in|out|inout|deref|deref_\w+|field_\w+|reserved|RPC__\w+|(in|out|inout)_\w+|range|success|nullterminated|nullnullterminated)")
PIDL_WORDS = ("uint8", "uint16", "uint32", "uint3264", "uint1632", "udlong", "dlong", "NTTIME", "WERROR", "charset", "bitmap", "policy_handle", "pyhelper")
SKIPPED_BLOCKS = ("library", "coclass", "dispinterface", "module", "namespace", "runtimeclass", "declare", "apicontract", "delegate", "attribute", "midl_interface")
FUNCTION, BIT_FIELD = -1, -2  # in the place of stars: forms that have no equivalent


class Parser:
    """Reads one file."""

    def __init__(self, tokens: Sequence[Token], name: str) -> None:
        self.tokens = [t for t in tokens if t.kind != "line"]
        self.tokens += [Token("end", "", self.tokens[-1].place if self.tokens else Place(name, 1, 1))] * 4
        self.at = 0
        self.file = File(name)
        words = {t.text for t in self.tokens if t.kind == "word"}
        self.file.is_pidl = any(word in words for word in PIDL_WORDS)
        self.default = "unique"  # the pointer_default of the interface that is read

    # Tokens

    def peek(self, ahead: int = 0) -> str:
        return self.tokens[self.at + ahead].text

    def token(self, ahead: int = 0) -> Token:
        return self.tokens[self.at + ahead]

    def next(self) -> Token:
        token = self.tokens[self.at]
        if token.kind != "end":
            self.at += 1
        return token

    def eat(self, *texts: str) -> Optional[Token]:
        return self.next() if self.peek() in texts and self.token().kind != "end" else None

    def need(self, text: str) -> Token:
        token = self.next()
        if token.text != text:
            raise Refused(token.place, f"{text!r} was expected, not {token.text!r}")
        return token

    def word(self) -> Token:
        token = self.next()
        if token.kind != "word":
            raise Refused(token.place, f"a name was expected, not {token.text!r}")
        return token

    def until(self, *ends: str) -> Tuple[Token, ...]:
        """The tokens before the first of some marks that is in no bracket."""
        found: List[Token] = []
        depth = 0
        while depth or self.peek() not in ends:
            token = self.next()
            if token.kind == "end":
                raise Refused(token.place, "the file ends within brackets")
            depth += {"(": 1, "[": 1, "{": 1, ")": -1, "]": -1, "}": -1}.get(token.text, 0)
            found.append(token)
        return tuple(found)

    def group(self, close: str) -> Tuple[Tuple[Token, ...], ...]:
        """What is in the bracket that opens here, divided at its commas."""
        self.next()
        found = [self.until(",", close)]
        while self.next().text == ",":
            found.append(self.until(",", close))
        return tuple(found)

    def skip_block(self, why: str) -> None:
        """Leaves out a declaration: to its semicolon, or to the end of its braces."""
        self.file.skipped.append((self.token().place, why))
        while self.peek() not in (";", "{", "") or self.token().kind == "text":
            self.next()
        if self.eat(";") or self.token().kind == "end":
            return
        self.need("{")
        self.until("}")
        self.need("}")
        self.eat(";")

    def pass_noise(self) -> None:
        """Words that mean nothing for the octets."""
        while self.token().kind == "word" and (self.peek() in NOTHING or SAL.fullmatch(self.peek())):
            self.next()
            if self.peek() == "(":
                self.group(")")

    # Attributes and types

    def attributes(self) -> Attributes:
        """All lists of attributes in a row."""
        found: List[Attribute] = []
        self.pass_noise()
        while self.peek() == "[":
            self.next()
            while not self.eat("]"):
                if self.eat(","):
                    continue
                token = self.next()
                if token.kind not in ("word", "text"):
                    raise Refused(token.place, f"an attribute was expected, not {token.text!r}")
                found.append(Attribute(token.text, self.group(")") if self.peek() == "(" else None, token.place))
            self.pass_noise()
        return tuple(found)

    def type(self) -> Type:
        """A type: simple, named, or with a body."""
        attributes = self.attributes()
        place = self.token().place
        if self.peek() in BODIES:
            return self.body(attributes)
        if self.eat("pipe"):
            return Pipe(self.type(), place)
        if self.peek() == "SAFEARRAY" and self.peek(1) == "(":
            self.next()
            self.group(")")
            return Named("SAFEARRAY", "", place)
        self.eat("interface")
        words: List[str] = []
        while self.peek() in SIGNS + WIDTHS + NOTHING:
            token = self.next()
            if token.text in SIGNS + WIDTHS:
                words.append(token.text)
        if not words and self.peek() in OTHERS:
            words.append(self.next().text)
        if words == ["unsigned"] and self.token().kind == "word" and self.token(1).kind == "word":  # pidl: unsigned before a name
            words = []
        found: Type = Simple(tuple(words), place) if words else Named(self.word().text, "", place)
        self.pass_noise()
        return found

    def body(self, attributes: Attributes) -> Type:
        """A struct, union, enum or bitmap, or the name of one."""
        kind = self.next()
        inner = self.attributes()
        name = self.next().text if self.token().kind == "word" and self.peek() != "switch" else ""
        found = Body(kind.text, name, attributes + inner, kind.place)
        if kind.text == "union" and self.eat("switch"):
            self.need("(")
            found.tag = (self.type(), self.word().text, "")
            self.need(")")
            if self.token().kind == "word":
                found.tag = (found.tag[0], found.tag[1], self.next().text)
        if self.peek() != "{" and found.tag is None:
            if not name:
                raise Refused(kind.place, f"a {kind.text} without name and body")
            self.pass_noise()
            return Named(name, kind.text, kind.place)
        self.need("{")
        while not self.eat("}"):
            if kind.text in ("enum", "bitmap"):
                self.enumerator(found)
            elif kind.text == "union":
                self.arm(found)
            else:
                self.member(found)
        self.pass_noise()
        self.file.pointer_defaults[id(found)] = self.default
        if name:
            self.file.tags.setdefault(name, found)
        for index, (token, _) in enumerate(found.values):
            self.file.constants.setdefault(token.text, (found, index))
        return found

    def enumerator(self, found: Body) -> None:
        """A name with its value."""
        if self.eat(","):
            return
        self.attributes()
        token = self.word()
        found.values.append((token, self.until(",", "}") if self.eat("=") else ()))

    def member(self, found: Body) -> None:
        """The members of one declaration."""
        if self.peek() in ("cpp_quote", "midl_pragma"):
            self.next()
            self.group(")")
            return
        if self.eat(";"):
            return
        attributes = self.attributes()
        type = self.type()
        while True:
            found.fields.append(Field(attributes, type, self.declarator()))
            if not self.eat(","):
                break
        self.need(";")

    def arm(self, found: Body) -> None:
        """An arm, with its labels."""
        labels: List[Optional[Tuple[Token, ...]]] = []
        while self.peek() in ("case", "default"):
            labels.append(self.until(":") if self.next().text == "case" else None)
            self.need(":")
        attributes = self.attributes()
        for attribute in attributes:
            if attribute.name == "case":
                labels += list(attribute.arguments or ())
            elif attribute.name == "default":
                labels.append(None)
        if not labels and found.fields and found.tag:
            labels = []
        rest = tuple(a for a in attributes if a.name not in ("case", "default"))
        place = self.token().place
        if self.eat(";"):
            found.fields.append(Field(rest, None, Declarator("", 0, (), place), labels))
            return
        type = self.type()
        found.fields.append(Field(rest, type, self.declarator(), labels))
        self.need(";")

    def declarator(self) -> Declarator:
        """Stars, a name and bounds. What has no name gets the empty one."""
        stars = 0
        place = self.token().place
        self.pass_noise()
        while self.eat("*"):
            stars += 1
            self.pass_noise()
        if self.peek() == "(":  # a pointer to a function: none of it is sent
            start = self.token().place
            inside = self.group(")")[0]
            self.until(";", ",", ")")
            return Declarator(next((t.text for t in inside if t.kind == "word" and t.text not in NOTHING), ""), FUNCTION, (), start)
        name = self.next() if self.token().kind == "word" else None
        bounds: List[Tuple[Token, ...]] = []
        while self.peek() == "[":
            self.next()
            bounds.append(self.until("]"))
            self.need("]")
        if self.peek() == ":" and name is not None:
            self.until(";", ",")
            return Declarator(name.text, BIT_FIELD, (), name.place)
        self.pass_noise()
        return Declarator(name.text if name else "", stars, tuple(bounds), name.place if name else place)

    # Declarations

    def read(self) -> File:
        """The whole file."""
        while self.token().kind != "end":
            self.declaration(None)
        return self.file

    def declaration(self, inside: Optional[Interface]) -> None:
        """One declaration, in an interface or outside of all."""
        if self.eat(";"):
            return
        if self.peek() in ("cpp_quote", "midl_pragma", "midl_echo"):
            self.next()
            if self.peek() != "(":
                self.next()
            self.group(")")
            self.eat(";")
            return
        if self.peek() in ("import", "importlib", "include"):
            self.imported(self.next())
            return
        if self.peek() == "const" or (self.peek() == "extern" and self.peek(1) == "const"):
            self.constant()
            return
        start = self.at
        attributes = self.attributes()
        if self.peek() in SKIPPED_BLOCKS and (self.token(1).kind == "word" or self.peek() == "declare") and self.peek(1) != "(":
            self.skip_block(f"{self.peek()} is left out")
        elif self.peek() == "interface" and self.token(1).kind == "word" and self.peek(2) not in ("*", "("):
            self.interface(attributes)
        elif self.eat("typedef"):
            self.typedef(attributes + self.attributes())
        elif start < self.at and self.token().kind == "end":
            raise Refused(self.token().place, "the file ends after attributes")
        else:
            self.body_or_operation(attributes, inside)

    def imported(self, word: Token) -> None:
        """The names of imported files."""
        for token in self.until(";") if word.text != "importlib" else ():
            if token.kind == "text":
                self.file.imports.append(token)
        if word.text == "importlib":
            self.group(")")
        self.eat(";")

    def interface(self, attributes: Attributes) -> None:
        """An interface with its declarations, or its name alone."""
        place = self.next().place
        name = self.word().text
        if self.eat(";"):
            return
        base = self.next().text if self.eat(":") else ""
        if self.eat(";"):
            return
        while self.peek() not in ("{", ""):
            self.next()
        found = Interface(attributes, name, base, place)
        given = find(attributes, "pointer_default")
        self.default = spelled(given.arguments[0]) if given and given.arguments else "unique"
        self.need("{")
        while not self.eat("}"):
            if self.token().kind == "end":
                raise Refused(self.token().place, f"interface {name} has no end")
            self.declaration(found)
        self.default = "unique"
        self.eat(";")
        self.file.interfaces.append(found)

    def typedef(self, attributes: Attributes) -> None:
        """The names that one typedef gives."""
        if self.peek() == "interface":
            self.skip_block("a name for an interface is left out")
            return
        type = self.type()
        if self.eat(";"):
            return
        while True:
            declarator = self.declarator()
            if self.peek() == "(" or declarator.stars < 0:
                self.skip_block("a type of functions")
                return
            found = Typedef(attributes, type, declarator)
            self.file.pointer_defaults[id(found)] = self.default
            if not (isinstance(type, Named) and type.kind and type.name == declarator.name and not declarator.stars):
                self.file.types.setdefault(declarator.name, found)
            if isinstance(type, Body) and not type.name and not declarator.stars and not declarator.bounds:
                type.name = declarator.name
            if not self.eat(","):
                break
        self.need(";")

    def constant(self) -> None:
        """A constant; one that is no number is not kept."""
        place = self.token().place
        self.type()
        declarator = self.declarator()
        value = self.until(";") if self.eat("=") else ()
        self.need(";")
        self.file.constants.setdefault(declarator.name, Constant(declarator.name, value, place))

    def body_or_operation(self, attributes: Attributes, inside: Optional[Interface]) -> None:
        """A struct, union or enum by itself, or an operation."""
        type = self.type()
        if isinstance(type, Body):
            type.attributes = attributes + type.attributes
        if self.eat(";"):
            return
        self.pass_noise()
        stars = 0
        while self.eat("*"):
            stars += 1
            self.pass_noise()
        name = self.word()
        if inside is None:
            if self.peek() != "(":
                raise Refused(name.place, f"no declaration begins with {name.text}")
            self.skip_block("a function outside of all interfaces")
            return
        self.need("(")
        parameters: List[Field] = []
        while not self.eat(")"):
            if self.peek() == "void" and self.peek(1) == ")":
                self.next()
                continue
            its = self.attributes()
            its_type = self.type()
            declarator = self.declarator()
            if not declarator.name:
                declarator = Declarator(f"unnamed{len(parameters)}", declarator.stars, declarator.bounds, declarator.place)
            parameters.append(Field(its, its_type, declarator))
            if self.peek() != ")":
                self.need(",")
        self.pass_noise()
        self.need(";")
        inside.operations.append(Operation(attributes, type, stars, name.text, parameters, name.place))
