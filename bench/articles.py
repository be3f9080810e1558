"""A schema of five hundred elements, of the kind that articles and invoices have, and documents of it.

Three hundred elements hold a text. The others hold choices and sequences of twenty elements, in four tiers: most of the
twenty are texts, some are of lower tiers, and one may be of the same tier or the element itself, where it may be left
out. All is drawn with a seed, so each run makes the same. A schema is written as types of a script and in RELAX NG, a
document in the text form of forests and as XML."""

import random

SUBJECTS = (
    "article author invoice order customer supplier delivery payment tax product section table figure reference issue "
    "journal address account line discount contract subject review licence notice"
).split()
PARTS = (
    "id title date name code note total amount status list group entry detail summary heading caption body item text link"
).split()
WORDS = (
    "the of and a to in is was he for it with as his on be at by had not are but from or have an they which one you were "
    "all her she there would their we him been has when who will no more if out so up said what its about than into them"
).split()
ROOT = "collection"
TEXTS, TIERS, A_TIER, PARTS_OF_ONE = 300, 4, 50, 20
DEEPEST = 12


class Schema:
    """The names of the elements, and the content of each: "text", or a kind with its parts."""

    def __init__(self, seed):
        draw = random.Random(seed)
        self.names = [f"{subject}_{part}" for subject in SUBJECTS for part in PARTS]
        draw.shuffle(self.names)
        self.contents = [("text",)] * TEXTS
        for tier in range(TIERS):
            for _ in range(A_TIER):
                self.contents.append(self.content(draw, tier, len(self.contents)))
        tops = range(TEXTS + (TIERS - 1) * A_TIER, TEXTS + TIERS * A_TIER)
        self.names.append(ROOT)
        self.contents.append(("star", ("alt", [("element", top) for top in draw.sample(tops, PARTS_OF_ONE)])))

    def content(self, draw, tier, own):
        lower = range(TEXTS, TEXTS + tier * A_TIER)
        chosen = draw.sample(lower, 6) if tier > 0 else []
        chosen += draw.sample(range(TEXTS), PARTS_OF_ONE - len(chosen))
        draw.shuffle(chosen)
        parts = [("element", index) for index in chosen]
        first = TEXTS + tier * A_TIER
        again = ("element", draw.choice((own, draw.randrange(first, first + A_TIER)))) if tier in (1, 2) else None
        kind = draw.random()
        if kind < 0.4:
            if again is not None:
                parts[-1] = again
            texts = [("text",)] if kind < 0.15 else []
            return ("star", ("alt", texts + parts))
        if kind < 0.9:
            return ("seq", self.sequence(draw, parts, again))
        return ("alt", [("seq", self.sequence(draw, parts[:10], None)), ("seq", self.sequence(draw, parts[10:], again))])

    @staticmethod
    def sequence(draw, parts, again):
        """Parts behind one another, some of them in choices, and some that may be left out or repeated."""
        row = []
        while parts:
            count = draw.choice((1, 1, 1, 1, 2, 3))
            part = parts[0] if count == 1 or len(parts) == 1 else ("alt", parts[:count])
            parts = parts[count:]
            repeated = draw.choice(("", "", "", "opt", "opt", "star", "plus"))
            row.append((repeated, part) if repeated else part)
        if again is not None:
            row.insert(draw.randrange(len(row) + 1), ("star", again))
        return row

    def type_name(self, index):
        return self.names[index].title()

    def as_type(self, content):
        kind = content[0]
        if kind == "text":
            return "string"
        if kind == "element":
            return self.type_name(content[1])
        if kind in ("seq", "alt"):
            return "(" + ("," if kind == "seq" else "|").join(self.as_type(part) for part in content[1]) + ")"
        return self.as_type(content[1]) + {"opt": "?", "star": "*", "plus": "+"}[kind]

    def as_pattern(self, content):
        kind = content[0]
        if kind == "text":
            return "<text/>"
        if kind == "element":
            return f'<ref name="{self.type_name(content[1])}"/>'
        tag = {"seq": "group", "alt": "choice", "opt": "optional", "star": "zeroOrMore", "plus": "oneOrMore"}[kind]
        parts = content[1] if kind in ("seq", "alt") else [content[1]]
        return f"<{tag}>" + "".join(self.as_pattern(part) for part in parts) + f"</{tag}>"

    def write(self, script, pattern):
        """Writes the schema as a script, whose input type it is, and in RELAX NG."""
        with open(script, "w") as types, open(pattern, "w") as grammar:
            grammar.write('<grammar xmlns="http://relaxng.org/ns/structure/1.0">\n')
            grammar.write(f'<start><ref name="{ROOT.title()}"/></start>\n')
            for index, (name, content) in enumerate(zip(self.names, self.contents)):
                types.write(f"TYPE {self.type_name(index)} = {name}[{self.as_type(content)}];\n")
                grammar.write(f'<define name="{self.type_name(index)}"><element name="{name}">')
                grammar.write(self.as_pattern(content) + "</element></define>\n")
            types.write(f"INPUT {ROOT.title()} DO SKIP\n")
            grammar.write("</grammar>\n")


class Documents:
    """Writes documents of a schema, drawn with a seed."""

    def __init__(self, schema, seed):
        self.schema = schema
        self.draw = random.Random(seed)

    def text(self, index):
        kind = index % 10
        if kind < 2:
            return f"{self.draw.randrange(10_000)}.{self.draw.randrange(100):02}"
        if kind < 4:
            return f"2024-{self.draw.randrange(1, 13):02}-{self.draw.randrange(1, 29):02}"
        return " ".join(self.draw.choices(WORDS, k=self.draw.randrange(1, 5 if kind < 9 else 30)))

    def trees(self, index, content, depth, plain, tagged):
        """Adds a member of a content to the trees of an element, in both forms."""
        kind = content[0]
        if kind == "text":
            text = self.text(index)
            plain.append(f'"{text}"')
            tagged.append(text)
        elif kind == "element":
            element = self.element(content[1], depth + 1)
            plain.append(element[0])
            tagged.append(element[1])
        elif kind == "seq":
            for part in content[1]:
                self.trees(index, part, depth, plain, tagged)
        elif kind == "alt":
            self.trees(index, self.draw.choice(content[1]), depth, plain, tagged)
        else:
            for _ in range(self.times(kind, depth)):
                self.trees(index, content[1], depth, plain, tagged)

    def times(self, kind, depth):
        if depth >= DEEPEST:
            return 1 if kind == "plus" else 0
        if kind == "opt":
            return self.draw.randrange(2)
        return self.draw.choice((0, 0, 1, 2, 4)) if kind == "star" else self.draw.choice((1, 1, 2, 3))

    def element(self, index, depth):
        plain, tagged = [], []
        self.trees(index, self.schema.contents[index], depth, plain, tagged)
        name = self.schema.names[index]
        return f"{name}[{','.join(plain)}]", f"<{name}>{''.join(tagged)}</{name}>"

    def write(self, size, document, xml, behind=""):
        """Writes a document of about `size` bytes, and its XML. A name `behind` is that of a last, empty element."""
        choices = self.schema.contents[-1][1][1]
        with open(document, "w") as plain, open(xml, "w") as tagged:
            plain.write(ROOT + "[")
            tagged.write(f"<{ROOT}>")
            length, between, too_long = len(ROOT) + 2, "", 0
            while too_long < 30:
                text, tags = self.element(self.draw.choice(choices)[1], 1)
                if length + len(text) + 1 > size:
                    too_long += 1
                    continue
                plain.write(between + text)
                tagged.write(tags)
                length, between = length + len(text) + 1, ","
            if behind:
                plain.write(f"{between}{behind}[]")
                tagged.write(f"<{behind}/>")
            plain.write("]")
            tagged.write(f"</{ROOT}>")
