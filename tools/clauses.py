"""The clauses and the documentation of public functions, as the sources have them: what `contracts` and `proofs` read.

A clause is given as (kind, name, text, documentation, theorem). The kind is `clause` of a public function, or of one in a public trait or
an impl of a trait; `private` of a function that no other crate sees; and `ghost` of a ghost member. It is a theorem's where the function
takes nothing, returns nothing and does nothing.
"""

import re

WORD = re.compile(r"(//[^\n]*|\s+|/\*.*?\*/)|b?\"(?:\\.|[^\"\\])*\"|b?'(?:\\.|[^'\\\n])'|b?'\\[^']*'|->|=>|\w+|.", re.S)


class Source:
    """The words of a file of Rattle, without its comments; `docs` has those that document what follows."""

    def __init__(self, text):
        self.words, self.spaced, self.docs, blank, said = [], [], {}, "", []
        for it in WORD.finditer(text):
            if not it[1]:
                if said:
                    self.docs[len(self.words)] = " ".join(said)
                self.words.append(it[0])
                self.spaced.append(blank + it[0])
                said = []
            elif it[1].startswith("///"):
                said.append(it[1][3:].strip())
            blank = " " if it[1] else ""

    def text(self, at, end):
        return "".join(self.spaced[at:end]).strip()

    def behind(self, at):
        """Returns the place after the word at `at`, or after what it opens."""
        depth = 0
        while True:
            depth += (self.words[at] in "([{") - (self.words[at] in ")]}")
            at += 1
            if not depth:
                return at

    def up_to(self, at, *ends):
        """Returns the first place from `at` on at which one of the words is outside of brackets."""
        while self.words[at] not in ends:
            at = self.behind(at)
        return at

    def clauses(self, at, end, owner, is_open):
        """Gives the clauses from `at` to `end`, also those in impls, traits and modules."""
        public, doc, end = False, "", len(self.words) if end is None else end
        while at < end:
            word, doc = self.words[at], self.docs.get(at, doc)
            if word == "pub":
                public, at = self.words[at + 1] != "(", at + 1
            elif word in ("impl", "trait"):
                body = self.up_to(at, "{")
                head = self.text(at + 1, body).partition(" where ")[0]
                is_trait = public if word == "trait" else bool(re.search(r"\bfor [^<]", head))
                yield from self.clauses(body + 1, self.behind(body) - 1, f"{head}::", is_trait)
                public, doc, at = False, "", self.behind(body)
            elif word == "ghost" and owner and self.words[at + 1] != "use":
                last = self.up_to(at, ";")
                yield "ghost", owner + self.words[at + 1], self.text(at + 2, last), doc, False
                doc, at = "", last + 1
            elif word == "fn":
                kind, name, takes = "clause" if public or is_open else "private", owner + self.words[at + 1], self.words.index("(", at)
                at, found = self.up_to(at, "requires", "ensures", "ghost", "{", ";"), []
                is_law = at == takes + 2
                while self.words[at] in ("requires", "ensures", "ghost"):
                    opens = self.up_to(at, "{")
                    if self.words[at] != "ghost":
                        found.append((f"{name} {self.text(at, opens)}", self.text(opens + 1, self.behind(opens) - 1)))
                    at = self.behind(opens)
                is_law = is_law and self.words[at:at + 2] == ["{", "}"]
                yield from ((kind, *it, doc, is_law) for it in found)
                public, doc, at = False, "", self.behind(at)
            else:
                public, doc = public and word not in (";", "}"), "" if word in (";", "}") else doc
                at += 1
