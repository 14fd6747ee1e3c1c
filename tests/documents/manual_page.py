"""Makes the manual pages of muxsim: docs/muxsim.1 from docs/MUXSIM.md and from those sections of docs/FORMATS.md and
docs/COMMANDS.md that its users need beside it, and docs/muxsim.3, on the library for C, from docs/EMBED.md. It knows only
the Markdown that these pages use: sections, paragraphs, lists, tables, definitions, code, bold words and links."""
import re

# The sections that come after OPTIONS.
TEXTS = ["Lines and words", "Versions", "Programs text", "Transcript text", "Live sessions", "Drivers", "Limits"]

# The page is set without hyphens, which would be in doubt within the words of a command.
FIRST = r"""'\" t
.\" Made from docs/MUXSIM.md, docs/FORMATS.md and docs/COMMANDS.md by tests/documents/run --make.
.TH MUXSIM 1 "" "muxsim 0.1.0" "User Commands"
.\" A terminal has no pages, so that no row of a table is split.
.if n .pl 9999
.nh
.ad l
"""

FIRST_OF_LIBRARY = r"""'\" t
.\" Made from docs/EMBED.md by tests/documents/run --make.
.TH MUXSIM 3 "" "muxsim 0.1.0" "Library Functions"
.\" A terminal has no pages, so that no row of a table is split.
.if n .pl 9999
.nh
.ad l
.SH NAME
muxsim \- a STREAMS multiplexer configuration for programs in C
.SH SYNOPSIS
.nf
\fB#include <muxsim.h>\fR
\fB#include <muxsim/stropts.h>\fR

cc prog.c $(pkg\-config \-\-cflags \-\-libs \-\-static muxsim)
.fi
"""

# The sections of docs/EMBED.md that the page of the library has.
OF_LIBRARY = ["C", "The calls of STREAMS", "Calls and commands", "Refusals and errno"]

BLOCK = r"```\n(?:.*\n)*?```\n|(?:(?:    .*)?\n)*    .*\n|(?:.+\n)+"


def sections(page):
    """Returns the text of each section of a page by its title, in their order."""
    parts = re.split(r"^## (.*)\n", page, flags=re.M)
    return dict(zip(parts[1::2], parts[2::2]))


def literal(text):
    """Escapes the characters that troff would replace."""
    for plain, escaped in [("\\", r"\e"), ("-", r"\-"), ("'", r"\(aq"), ("`", r"\(ga"), ("^", r"\(ha"), ("~", r"\(ti")]:
        text = text.replace(plain, escaped)
    return text


def protected(text):
    """Makes lines text that begin like requests."""
    return re.sub(r"^(?=[.'])", r"\\&", text, flags=re.M)


def link(match):
    """Returns the words of a link. One to a section that the page has becomes the section's title."""
    title = match[2].replace("-", " ").capitalize() if match[2] else ""
    return title.upper() if title in TEXTS else match[1]


def inline(text):
    """Translates the text of a paragraph or of a cell. Code and bold words become bold."""
    text = re.sub(r"\[([^]]*)\]\([^)#]*#?([^)]*)\)", link, text)
    pieces = re.split(r"`([^`]*)`", text)
    pieces[1::2] = [rf"\fB{literal(piece)}\fR" for piece in pieces[1::2]]
    pieces[0::2] = [re.sub(r"\*\*(.*?)\*\*", r"\\fB\1\\fR", piece, flags=re.S) for piece in pieces[0::2]]
    return protected("".join(pieces).replace(" - ", r" \- "))


def verbatim(lines):
    """Shows lines as they are."""
    return ".PP\n.RS 4\n.nf\n" + protected(literal("\n".join(lines))) + "\n.fi\n.RE\n"


def table(lines):
    """Translates a table. One of two columns becomes a list."""
    head, _, *rows = [[inline(cell.strip()) for cell in line.split("|")[1:-1]] for line in lines]
    if len(head) == 2:
        return "".join(f".TP 8\n{first}\n{second}\n" for first, second in rows)
    columns = ["l" if max(map(len, column)) < 20 else "lx" for column in zip(head, *rows)]
    rows = ["\t".join(f"T{{\n{cell}\nT}}" if cell else "" for cell in row) for row in [head, *rows]]
    return ".PP\n.TS\n" + " ".join(columns) + ".\n" + "\n".join([rows[0], "_", *rows[1:]]) + "\n.TE\n"


def bullets(lines):
    """Translates a list."""
    items = re.split(r"^- ", "\n".join(lines), flags=re.M)[1:]
    return "".join(".IP \\(bu 2\n" + inline(re.sub(r"^  ", "", item.strip(), flags=re.M)) + "\n" for item in items)


def definition(lines):
    """Translates a term, and below it its definition, which begins with a colon."""
    start = next(at for at, line in enumerate(lines) if line.startswith(": "))
    text = "\n".join(line[2:] for line in lines[start:])
    return f".TP 8\n{inline(' '.join(lines[:start]))}\n{inline(text)}\n"


def block(text):
    """Translates what has empty lines around it. Paragraphs that name definitions are for readers of the sources."""
    lines = text.strip("\n").split("\n")
    if lines[0] == "```":
        return verbatim(lines[1:-1])
    if lines[0].startswith("    "):
        return verbatim([line[4:] for line in lines])
    if lines[0].startswith("|"):
        return table(lines)
    if lines[0].startswith("- "):
        return bullets(lines)
    if any(line.startswith(": ") for line in lines):
        return definition(lines)
    return "" if lines[0].startswith("Definition") else ".PP\n" + inline("\n".join(lines)) + "\n"


def section(title, text):
    """Translates a section."""
    return f".SH {title}\n" + "".join(map(block, re.findall(BLOCK, text)))


def manual_page(muxsim, formats, commands):
    """Returns the manual page for the texts of the three pages."""
    others, made = {**sections(commands), **sections(formats)}, [FIRST]
    for title, text in sections(muxsim).items():
        if title == "NAME":
            made.append(".SH NAME\n" + " ".join(inline(text).split()) + "\n")
        elif title != "INSTALLATION":
            made.append(section(title, text.replace("./muxsim", "muxsim")))
        if title == "OPTIONS":
            made += [section(name.upper(), others[name]) for name in TEXTS]
    return "".join(made)


def library_page(embed):
    """Returns the manual page of the library for the text of docs/EMBED.md."""
    texts = sections(embed)
    others = ".SH SEE ALSO\nmuxsim(1). The headers describe each call.\n"
    return FIRST_OF_LIBRARY + "".join(section(name.upper(), texts[name]) for name in OF_LIBRARY) + others
