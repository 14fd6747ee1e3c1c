"""The damage that is done to a text

A text is a string with a character for each byte."""

CLASSES = ["abcdefghijklmnopqrstuvwxyz", "ABCDEFGHIJKLMNOPQRSTUVWXYZ", "0123456789", " ", "\n", "=-"]
ALPHABET = "".join(CLASSES)


def others(byte, chance):
    """Other bytes of the formats: one of each class, or of any where the class has no other; without chance all."""
    if not chance:
        return [other for other in ALPHABET if other != byte]
    classes = [[other for other in letters if other != byte] for letters in CLASSES]
    chosen = [chance.choice(letters) for letters in classes if letters]
    left = [other for other in ALPHABET if other not in [byte, *chosen]]
    return chosen + chance.sample(left, len(CLASSES) - len(chosen))


def damaged(text, chance):
    """The text after each damage, and what was done to it."""
    texts = {text: "as it is"}

    def add(what, changed):
        texts.setdefault(changed, what)

    for place, byte in enumerate(text):
        before, after = text[:place], text[place + 1:]
        add(f"its first {place} bytes", before)
        for other in ["\xff", *others(byte, chance)]:
            add(f"byte {place} replaced by {other!r}", before + other + after)
    lines = text.splitlines(True)
    for number, line in enumerate(lines, 1):
        before, after = lines[:number - 1], lines[number:]
        add(f"line {number} left out", "".join(before + after))
        add(f"line {number} doubled", "".join(before + [line, line] + after))
        add(f"line {number} exchanged with the next", "".join(before + after[:1] + [line] + after[1:]))
    for changed in spaced(text):
        add("other spaces and line ends", changed)
    for version in "123":
        header, rest = lines[0].rstrip("\n"), "".join(lines[1:])
        add(f"its header of version {version}", f"{header[:-1]}{version}\n{rest}")
    return texts


def spaced(text):
    """The text with other spaces, line ends and lines: everywhere, at each place, in front and behind."""
    texts = [text.replace("\n", end) for end in ["\r\n", "\r", "\n\n", ""]]
    texts += [text.replace(" ", space) for space in ["\t", "  ", "", "\xa0"]] + [text.upper()]
    texts += [front + text for front in ["\n", " ", "\0", "\t", "\xef\xbb\xbf", "end\n"]]
    texts += [text + behind for behind in ["\n", " ", "\0", "\xff", "\r\n", "end", "end\n", "exit\n", text]]
    for place, byte in enumerate(text):
        before, after = text[:place], text[place + 1:]
        texts += [before + space + after for space in ["\t", "  ", ""] if byte == " "]
        texts += [before + end + after for end in ["\r\n", " \n", "\n ", "\n\n", ""] if byte == "\n"]
    return texts
