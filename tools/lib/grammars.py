"""The grammar of a crate, read from its rows, with the sets that are told of it."""

import os
import re

ROOT = os.path.dirname(os.path.dirname(os.path.dirname(os.path.realpath(__file__))))
CRATES = ["vd_grammar19", "vd_grammar93"]
END = "END"


def constants(*path):
    """The symbols of a file, in the order of their numbers."""
    with open(os.path.join(ROOT, "crates", *path)) as f:
        found = re.findall(r"const (\w+): Symbol = (\d+);", f.read())
    return [name for name, number in sorted(found, key=lambda pair: int(pair[1])) if name != "TERMINALS"]


class Grammar:
    """Terminals, nonterminals and productions of a crate; what is empty, first and follow. Each production is a left side, a
    right side and its action."""

    def __init__(self, crate):
        self.terminals = constants("vd_shapes", "src", "terminals.rt")
        self.nonterminals = constants(crate, "src", "nonterminals.rt")
        with open(os.path.join(ROOT, "crates", crate, "src", "rows.rt")) as f:
            body = re.search(r"\$pick! \{(.*?)\n    \} \};", f.read(), re.S).group(1)
        found = re.findall(r"(\w+)\s*=>([\w\s]*);\s*([\w()]+)\s*;", body)
        self.productions = [(left, right.split(), action) for left, right, action in found]
        self.start = self.nonterminals[0]
        self.number = {s: i for i, s in enumerate(self.terminals + self.nonterminals + [END])}
        self.rows_of = {n: [] for n in self.nonterminals}
        for index, (left, _, _) in enumerate(self.productions):
            self.rows_of[left].append(index)
        self.find_sets()

    def ordered(self, symbols):
        return sorted(symbols, key=lambda s: self.number[s])

    def first_of(self, symbols):
        """What texts of symbols side by side can begin with, and whether they can be empty."""
        found = set()
        for s in symbols:
            if s not in self.rows_of:
                return found | {s}, False
            found |= self.first[s]
            if s not in self.empty:
                return found, False
        return found, True

    def find_sets(self):
        """The least sets that the productions allow, by going over them until nothing is added."""
        self.empty = set()
        self.first = {n: set() for n in self.nonterminals}
        self.follow = {n: set() for n in self.nonterminals}
        self.follow[self.start].add(END)
        grows = True
        while grows:
            before = self.size()
            for left, right, _ in self.productions:
                found, empty = self.first_of(right)
                self.first[left] |= found
                if empty:
                    self.empty.add(left)
                for i, s in enumerate(right):
                    if s in self.rows_of:
                        behind, empty = self.first_of(right[i + 1:])
                        self.follow[s] |= behind | (self.follow[left] if empty else set())
            grows = self.size() != before

    def size(self):
        return len(self.empty) + sum(map(len, self.first.values())) + sum(map(len, self.follow.values()))

    def ranks(self):
        """The least ranks: what can stand first on a right side has a lower one, and some right side has only terminals,
        what can be empty, and what has a lower one."""
        below = {n: set() for n in self.nonterminals}
        for left, right, _ in self.productions:
            for s in right:
                if s not in self.rows_of:
                    break
                below[left].add(s)
                if s not in self.empty:
                    break
        ranks = {}
        while len(ranks) < len(self.nonterminals):
            known = set(ranks)
            level = [n for n in self.nonterminals if n not in known and below[n] <= known and any(
                all(s not in self.rows_of or s in self.empty or s in known for s in self.productions[i][1])
                for i in self.rows_of[n])]
            if not level:
                raise SystemExit("the grammar has no ranks: it is left recursive, or a nonterminal has no text")
            rank = 1 + max(ranks.values(), default=-1)
            for n in level:
                ranks[n] = rank
        return ranks
