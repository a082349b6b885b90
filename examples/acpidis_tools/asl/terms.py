"""A line of terms of a listing as one of ASL."""

import itertools
import re
from collections import namedtuple

from acpidis_tools import aml, standard
from acpidis_tools.asl import language
from acpidis_tools.listing import NAME, WORD
from acpidis_tools.terms import terms_in

NUMBER = re.compile(r"0x(?:[0-9A-F]{2}){1,8}")
ESCAPE = re.compile(r"\\x([0-9A-F]{2})")
# What ASL has as a part of other terms alone.
ALONE = re.compile(
    r'0x[0-9A-F]+|".*"|Zero|One|Ones|Revision|Debug|Local[0-7]|Arg[0-6]|(?:Buffer|Package|VarPackage) \(.*'
)
STORAGE = re.compile(r"Local[0-7]|Arg[0-6]")
METHOD = re.compile(rf"Method \(({NAME.pattern}|), ([0-7]), (NotSerialized|Serialized), ([0-9]|1[0-5])\) \{{")
EXTERNAL = re.compile(rf"External \(({NAME.pattern}|), 0x([0-9A-F]{{2}}), 0x0([0-7])\)")
BRACKET = re.compile(r'"[^"]*"|[({})]')
# So many brackets stand open at most: a listing has 512 levels of terms.
DEEPEST = 600
# A name on a line: its arguments there, whether it is a value, or a call in ASL; of an External's the word of its type
Named = namedtuple("Named", "name count is_value is_call word", defaults=[0, False, False, ""])
# Where a term stands: in which word's brackets, of which kind, as which part (as in aml.PARTS), and the place of that
Part = namedtuple("Part", "word mark kind place")
OUTSIDE = Part("", "", "T", 0)


def quoted(inner, tell):
    """A text of the listing, without its quotes, as one of ASL."""
    for code in ESCAPE.findall(inner):
        if code == "00" or code > "7F":
            tell("a text with bytes that aren't ASCII")
    shown = lambda found: "\\" + chr(int(found[1], 16)) if found[1] in ("22", "5C") else found[0]
    return f'"{ESCAPE.sub(shown, inner)}"'


def picked(words, value, what, tell):
    """The word of a number, where ASL has one."""
    if value < len(words):
        return words[value]
    tell(f"{what} {value}")
    return words[0]


def plain(name, tell):
    """A name, where ASL doesn't take it for a word of its own."""
    if not name:
        tell("an empty name")
    if name in language.TAKEN:
        tell(f"the name {name}, which is a word of ASL")
    return name


def declared(name, word, count=0):
    """The External of a name, of a type and with a count of arguments."""
    arguments = f", UnknownObj, {{{', '.join(['UnknownObj'] * count)}}}" if count else ""
    return f"External ({name}, {word}{arguments})"


def spelled(term):
    """A term as the listing has it."""
    if term is None:
        return ""
    inner = [f" ({', '.join(map(spelled, term.arguments))})"] if term.arguments else []
    if term.braced is not None:
        texts = (f"{it:02X}" if isinstance(it, int) else spelled(it) for it in term.braced)
        inner.append(f" {{{', '.join(texts)}}}")
    return "".join([term.word, *inner])


class Turner:
    """Turns a line, term by term, and keeps its names. A line that is none of a listing is a ValueError."""

    def __init__(self, revision, tell):
        self.revision, self.tell, self.names = revision, tell, []

    def line(self, text):
        """A line of one term, which may open a block, as one of ASL."""
        if text.startswith(("Method (", "External (")):
            form = METHOD.fullmatch(text) or EXTERNAL.fullmatch(text)
            if not form:
                raise ValueError("none of a listing")
            return self.method(*form.groups()) if form.re is METHOD else self.external(*form.groups())
        if ALONE.fullmatch(text):
            self.tell("a value that nothing takes")
        opens = " {" if text.endswith(" {") else ""
        steps = ({"(": 1, "{": 1, ")": -1, "}": -1}.get(found[0], 0) for found in BRACKET.finditer(text))
        is_deep = max(itertools.accumulate(steps), default=0) > DEEPEST
        found = [] if is_deep else terms_in(WORD.split(text.removesuffix(opens)))
        if len(found) != 1 or spelled(found[0]) + opens != text:
            raise ValueError("none of a listing")
        turned = self.term(found[0], OUTSIDE) + opens
        if found[0].word in aml.OPENERS and not self.names:
            raise ValueError("none of a listing")
        if NAME.fullmatch(text):
            turned, self.names = turned + " ()", [Named(text, is_value=True, is_call=True)]
        return turned

    def method(self, name, count, rule, level):
        self.names = [Named(name, int(count))]
        level = f", {level}" if level != "0" else ""
        return f"Method ({plain(name, self.tell)}, {count}, {rule}{level}) {{"

    def external(self, name, kind, digit):
        word, count = picked(language.OBJECTS, int(kind, 16), "an External of the type", self.tell), int(digit)
        if count and word != "MethodObj":
            self.tell(f"an External of the type {word} with arguments")
        self.names = [Named(name, count, is_call=word == "MethodObj", word=word)]
        return declared(plain(name, self.tell), word, count)

    def term(self, term, part):
        text, kinds = self.word(term, part), aml.PARTS.get(term.word, "")
        if term.arguments:
            kinds = kinds.ljust(len(term.arguments), "T")
            places = enumerate(zip(kinds, term.arguments))
            texts = [self.part(it, Part(term.word, "(", kind, place)) for place, (kind, it) in places]
            while texts and not texts[-1]:  # targets that aren't there
                texts.pop()
            text += f" ({', '.join(texts)})"
        if term.braced is not None:
            text += f" {{{', '.join(self.braced(term))}}}"
        return text

    def braced(self, term):
        """The bytes of a Buffer, or the elements of a package."""
        is_bytes = isinstance(term.braced, bytes)
        if term.word not in language.SIZED or is_bytes and term.word != "Buffer":
            raise ValueError("none of a listing")
        for place, it in enumerate(term.braced):
            yield f"0x{it:02X}" if is_bytes else self.part(it, Part(term.word, "{", "T", place))
        size = term.argument(0)
        if size and size.number is not None and len(term.braced) > size.number:
            self.tell(f"a {term.word} of more than its size")

    def part(self, term, part):
        """A part, which may be a target or a name that isn't there."""
        if term is not None:
            return self.term(term, part)
        if part.mark == "(" and part.kind == "N":
            self.tell("an empty name")
        elif part.mark != "(" or part.kind != "S":
            raise ValueError("none of a listing")
        elif part.word in language.TARGETED or (part.word, part.place) == ("CondRefOf", 0):
            self.tell(f"{part.word} without a target")
        return ""

    def word(self, term, part):
        token = term.word
        if (part.word, part.mark) == ("VarPackage", "(") and term.number in range(256):
            self.tell("a VarPackage of a constant size")
        if NAME.fullmatch(token):
            if (part.word, part.place) == ("Name", 1):
                self.tell("a name as the value of a Name")
            is_call = bool(term.arguments)
            is_value = is_call or (part.mark, part.kind) == ("(", "T")
            self.names.append(Named(token, len(term.arguments), is_value, is_call))
            return plain(token, self.tell)
        # Whether ASL takes it as a part of the word in front of the bracket
        if part.mark and (token == "Load" or token == "Debug" and part.kind in "TD"):
            self.tell(f"{token} as a value")
        elif token in language.PICKY.get((part.word, part.place), ()):
            self.tell(f"{part.word} of {token}")
        elif part.word == "DerefOf" and not (token in language.REFERENCES or STORAGE.fullmatch(token)):
            self.tell("DerefOf of what is no reference")
        if token[0] == '"':
            return quoted(token[1:-1], self.tell)
        if NUMBER.fullmatch(token):
            return self.number(token, part)
        if token not in aml.PARTS:
            raise ValueError("none of a listing")
        return language.RENAMED.get(token, token)

    def number(self, token, part):
        value, width = int(token, 16), len(token) // 2 - 1
        if part.kind.isdigit():
            return self.fixed(token, value, part)
        if width == 8 and self.revision < 2:
            self.tell(f"{token} in a table of revision {self.revision}, whose integers have 4 bytes")
        elif width > 1 and value < 1 << 4 * width:
            self.tell(f"{token}, which is wider than it needs to be")
        return token

    def fixed(self, token, value, part):
        """A number of a width of its own, for most of which ASL has words."""
        word, place = part.word, part.place
        if word == "OperationRegion":
            if value not in standard.SPACES and value < standard.FIRST_OF_VENDORS:
                self.tell(f"a region in the space {token}")
            return standard.SPACES.get(value, token)
        if word == "Match":
            return picked(language.MATCHES, value, "Match by the operator", self.tell)
        if language.FLAGS.get(word) == place:  # of a field list (20.2.5.2)
            if value & 0x80:
                self.tell("bit 7 of a field list's flags")
            access = picked(standard.ACCESS_TYPES, value & 15, "the access type", self.tell)
            update = picked(standard.UPDATE_RULES, value >> 5 & 3, "the update rule", self.tell)
            return f"{access}, {standard.LOCK_RULES[value >> 4 & 1]}, {update}"
        if word == "Mutex" and value > language.MOST_SYNC_LEVEL:
            self.tell(f"a Mutex of the level {value}")
        return token
