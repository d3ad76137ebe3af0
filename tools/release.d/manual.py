# SPDX-License-Identifier: Apache-2.0
"""Makes a page of the manual, NAME(3), of a header in C: its comments are the text, its declarations the code.

The comment at the head of the header is the description. Each comment after it stands above the declarations that
follow it, to the next comment or empty line. Of inline functions the page has what is called, and not how it works.
"""

import re
import time
from collections import namedtuple

# A comment, and the lines of code below it; either may be empty.
Part = namedtuple("Part", "text code")
BUILD = "cc service.c $(pkg-config --cflags --libs otel_c)"
LEFT_OUT = re.compile(r"^#\s*(include|ifn?def|if|endif|else|define \w+_H\b|undef)|^extern \"C\"|^}$|^/\* SPDX")


class NoHeader(Exception):
    """Why no page is made."""


def parts_of(header):
    """The parts of a header, in order."""
    lines = iter(header.splitlines())
    found = [Part([], [])]
    for line in lines:
        if not line.strip() or LEFT_OUT.match(line):
            found.append(Part([], []))
        elif line.startswith("/*"):
            found.append(Part(comment_from(line, lines), []))
        else:
            found[-1].code.extend(declaration_from(line, lines))
    return [it for it in found if it.text or it.code]


def comment_from(line, lines):
    """The lines of a comment that begins with a line, without its signs."""
    taken = [line[2:]]
    while "*/" not in taken[-1]:
        taken.append(next(lines, "*/"))
    taken[-1] = taken[-1][: taken[-1].index("*/")]
    return [it.rstrip() for it in taken]


def declaration_from(line, lines):
    """The lines of a declaration that begins with a line; of a function with a body those in front of it."""
    taken = [line]
    if line.startswith("#"):
        while taken[-1].endswith("\\"):
            taken.append(next(lines, ""))
        return taken
    while not is_whole(taken):
        taken.append(next(lines, ";"))
    text = "\n".join(taken)
    if re.search(r"\)\s*\{", text):
        text = re.split(r"\s*\{", text, maxsplit=1)[0] + ";"
    return text.split("\n")


def is_whole(taken):
    """Whether lines are a whole declaration: all brackets are closed, and a semicolon or a body ends it."""
    code = re.sub(r"/\*.*?\*/|//[^\n]*|\"[^\"\n]*\"", "", "\n".join(taken), flags=re.S)
    is_closed = all(code.count(opens) == code.count(closes) for opens, closes in ("{}", "()", "[]"))
    has_end = code.rstrip().endswith((";", "}"))
    return is_closed and has_end and "/*" not in code


def paragraphs(text):
    """The paragraphs of a comment, each a list of lines."""
    found = [[]]
    for line in text:
        if line.strip():
            found[-1].append(line)
        else:
            found.append([])
    return [it for it in found if it]


def is_code(paragraph):
    """Whether all lines of a paragraph are further in than those of a comment's text."""
    return all(line.startswith("     ") for line in paragraph)


def escaped(line):
    """A line as roff has it."""
    line = line.replace("\\", "\\e").replace("-", "\\-").replace("^", "\\(ha").replace("~", "\\(ti")
    line = line.replace("`", "\\(ga").replace("'", "\\(aq")
    return f"\\&{line}" if line.startswith(".") else line


def code_block(lines):
    """Lines as they stand, further in."""
    return [".PP", ".nf", ".RS 4", *(escaped(it) if it.strip() else "" for it in lines), ".RE", ".fi"]


def text_block(text):
    """A comment as text; what of it is code as it stands."""
    written = []
    for paragraph in paragraphs(text):
        if is_code(paragraph):
            written += code_block([it[5:] for it in paragraph])
        else:
            written += [".PP", *(escaped(it.strip()) for it in paragraph)]
    return written


def heading(parts):
    """What the head of a header says: its first sentence, and the rest."""
    if not parts or not parts[0].text or parts[0].code:
        raise NoHeader("no comment stands at its head")
    summary, colon, rest = re.sub(r"\s+", " ", " ".join(paragraphs(parts[0].text)[0])).strip().partition(": ")
    return summary.rstrip("."), parts[0].text


def date_of(moment):
    return time.strftime("%Y-%m-%d", time.gmtime(moment))


def page_of(name, header, version, moment):
    """The page of the header `name`, of this version and moment."""
    parts = parts_of(header)
    summary, description = heading(parts)
    title = name.upper()
    written = ['.\\" Made of the comments in the header by tools/release.']
    written += [f'.TH "{title}" 3 "{date_of(moment)}" "otel {version}" "Library Functions"']
    # No name is to be broken in two.
    written += [".nh", ".ad l", ".SH NAME", f"{name} \\- {escaped(summary)}"]
    written += [".SH SYNOPSIS", ".nf", f".B #include <{name}>", ".PP", escaped(BUILD), ".fi"]
    written += [".SH DESCRIPTION", *text_block(description)[1:]]
    written += [".SH DECLARATIONS"]
    for part in parts[1:]:
        written += text_block(part.text)
        written += code_block(part.code) if part.code else []
    return "\n".join(written) + "\n"
