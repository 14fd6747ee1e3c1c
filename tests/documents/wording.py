"""Finds phrases that documents and comments of this project avoid.

Their readers are engineers who don't know the project, and should have to read no sentence twice. Authors who write
contracts all day tend to sentences whose subject is a clause, and to phrases of their own in place of words that every
engineer knows. PHRASES lists the phrases that came back again and again, each with what to write instead. Such a phrase
isn't always wrong, so the file `allowed` has the number of places that may have one. It only falls."""
import re

PHRASES = [
    (r"^(?:What|Who|Whoever|Where|Which) [a-z][^?]*$", "begin the sentence with a noun"),
    (r"^Of (?!course)", "begin the sentence with a noun"),
    (r"\bwant(?:s|ed|ing)? of memory\b|\bmemory (?:is|was|were) wanting\b", "out of memory"),
    (r"\bcan(?:not|'t)? be had\b", "is valid, is available"),
    (r"\b(?:is|are|was|were|be) told\b", "is reported, is shown"),
    (r"(?<!there )\b(?:is|are) none\b", "is not a .."),
    (r"\bbut (?:for|of)\b", "except"),
    (r"\b(?:stand|stands|stood)\b(?! for\b)", "is, exists"),
    (r"\bof no form\b|\bat fault\b", "malformed, invalid"),
    (r"\bone too many\b", "over the limit"),
    (r"\b(?:come|comes|came) (?:of|by|to)\b", "results from, uses, reaches"),
    (r"\bbehind\b", "after"),
    (r"\bturned down\b", "rejected"),
    (r"\bhas (?:the|this|each|its) \w+ (?:performed|read|written|told|run)\b", "performs, reads, writes .."),
]

# How a comment begins, by the end of the file's name. Scripts have no such end.
COMMENTS = {
    ".rt": r"//[/!]?",
    ".antt": r"--",
    ".c": r"//|/\*|^ \*",
    ".h": r"//|/\*|^ \*",
    ".py": r"(?:^|\s)#",
    "": r"(?:^|\s)#",
}


def prose(path, lines):
    """Yields the prose of a file, line by line with the number: a document without headings and code, or comments."""
    ending = re.search(r"(?:\.\w+)?$", path)[0]
    fenced = False
    for number, line in enumerate(lines, start=1):
        if ending == ".md":
            fenced ^= line.startswith("```")
            if not fenced and not line.startswith(("#", "    ")):
                yield number, line
        elif ending in COMMENTS:
            comment = re.split(COMMENTS[ending], line, maxsplit=1)[1:]
            if comment:
                yield number, comment[0]


def found(path, lines):
    """Yields each phrase that the prose of a file should not have: its line, the phrase, and what to write instead."""
    for number, line in prose(path, lines):
        for sentence in re.split(r"(?<=[.:;])\s", re.sub(r"`[^`]*`", "`", line)):
            for pattern, instead in PHRASES:
                for match in re.finditer(pattern, sentence.strip(" -")):
                    yield number, match[0], instead
