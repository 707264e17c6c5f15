#!/usr/bin/env python3
"""check_certificate.py FILE CERT [--from F]: an independent checker of certificates that a system has no Petri net of a class.

FILE is a system, CERT a certificate. F is the form of FILE: `apt` for a system in the form of APT files (the default), `graph` for a
state graph, `words` for a list of words. The checker follows docs/certificates.md and docs/formats.md alone and shares nothing with the
program `regions`. It needs Python 3.8 or later, and no library.

Exit status: 0  the certificate holds: it prints `accepted: no net of class CLASS`
             1  the certificate doesn't hold: it prints `refused: line N: ` and why
             2  wrong arguments, or a file that can't be read, or FILE isn't of the form F: it prints why to standard error

Example:     python3 tools/check_certificate.py examples/cycle3.apt examples/cycle3-plain.cert

Numbers have any size here, so rule 4 of a leaf (sums within 128 bits) isn't checked; what is accepted besides is right too.
"""
import sys
from pathlib import Path

MOST_BYTES, MOST_STATES, MOST_LABELS, MOST_ARCS = 16_777_216, 4096, 256, 262_144
NAME_BYTES = frozenset("abcdefghijklmnopqrstuvwxyzABCDEFGHIJKLMNOPQRSTUVWXYZ0123456789_")


class BadFile(Exception):
    """FILE isn't of its form, or can't be read."""


class Refused(Exception):
    """The certificate doesn't hold."""


def require(holds, why, error=Refused):
    if not holds:
        raise error(why)


# ---- the system file

def tokens(text):
    """Returns the tokens of a system file in order: names, words that begin with a dot, texts in quotes, and marks."""
    found, at = [], 0
    while at < len(text):
        c = text[at]
        if c in " \t\r\n":
            at += 1
        elif text.startswith("//", at):
            end = text.find("\n", at)
            at = len(text) if end < 0 else end
        elif text.startswith("/*", at):
            end = text.find("*/", at + 2)
            require(end >= 0, "a comment has no end", BadFile)
            at = end + 2
        else:
            end = token_end(text, at)
            found.append(text[at:end])
            at = end
    return found


def token_end(text, at):
    """Returns where the token that begins at `at` ends."""
    c = text[at]
    if c == '"':
        end = text.find('"', at + 1)
        require(end >= 0, "a text in quotes has no end", BadFile)
        return end + 1
    if text.startswith("->", at):
        return at + 2
    if c in "[]{},=:*":
        return at + 1
    begin = at + 1 if c == "." else at
    end = begin
    while end < len(text) and text[end] in NAME_BYTES:
        end += 1
    require(end > begin, "a byte that begins no token", BadFile)
    require(end - begin <= 255, "a name of more than 255 bytes", BadFile)
    return end


def is_name(token):
    return token[0] in NAME_BYTES


class AptFile:
    """The reading of a system file: its states, labels and arcs by name, in order, and its initial state."""

    def __init__(self, text):
        self.tokens, self.at = tokens(text), 0
        self.types, self.states, self.labels, self.marked, self.arcs = [], [], [], [], []
        while self.at < len(self.tokens):
            section = self.next()
            if section == ".type":
                self.types.append(self.name())
            elif section == ".states":
                while self.at_name():
                    state = self.name()
                    self.states.append(state)
                    self.marked += [state for key, value in self.options() if key == "initial" and value in (None, "true", '"true"')]
            elif section == ".labels":
                while self.at_name():
                    self.labels.append(self.name())
                    self.options()
            elif section == ".arcs":
                while self.at_name():
                    self.arcs.append((self.name(), self.name(), self.name()))
                    self.options()
            else:  # any other word and a text are passed over
                require(section[0] == ".", "expected a section", BadFile)
                require(self.next()[0] == '"', "expected a text in quotes", BadFile)
        self.check()
        self.initial = self.marked[0]

    def next(self):
        require(self.at < len(self.tokens), "the file ends too early", BadFile)
        self.at += 1
        return self.tokens[self.at - 1]

    def at_name(self):
        return self.at < len(self.tokens) and is_name(self.tokens[self.at])

    def name(self):
        token = self.next()
        require(is_name(token), "expected a name", BadFile)
        return token

    def options(self):
        """Reads the option list, if there is one here, and returns its keys with their values (None where there is no value)."""
        found = []
        if self.at == len(self.tokens) or self.tokens[self.at] != "[":
            return found
        self.at += 1
        token = self.next()
        while token != "]":
            require(is_name(token), "expected a name in an option list", BadFile)
            key, value, token = token, None, self.next()
            if token == "=":
                value, token = self.next(), self.next()
                require(is_name(value) or value[0] == '"', "expected a value", BadFile)
            found.append((key, value))
            require(token in (",", "]"), "expected , or ]", BadFile)
            if token == ",":
                token = self.next()
                require(is_name(token), "expected a name in an option list", BadFile)
        return found

    def check(self):
        require(self.types and set(self.types) <= {"LTS", "TS"}, "no type LTS", BadFile)
        require(len(set(self.states)) == len(self.states), "a state is declared twice", BadFile)
        require(len(set(self.labels)) == len(self.labels), "a label is declared twice", BadFile)
        require(len(set(self.marked)) == 1, "there is not one initial state", BadFile)
        states, labels = set(self.states), set(self.labels)
        require(all(q in states and t in labels and r in states for q, t, r in self.arcs), "an arc of unknown names", BadFile)


# ---- state graphs and lists of words

def words_of(line):
    """Returns the texts between the blanks of a line."""
    return [word for word in line.replace("\t", " ").replace("\r", " ").split(" ") if word]


def is_plain(word):
    return 1 <= len(word) <= 255 and NAME_BYTES.issuperset(word)


class GraphFile:
    """The reading of a state graph. States and labels are in the order in which arcs first name them."""

    def __init__(self, text):
        self.arcs, self.initial, begun, ended = [], None, False, False
        for number, line in enumerate(text.split("\n"), 1):
            words = words_of(line.partition("#")[0].replace("{", " { ").replace("}", " } "))
            if not begun:
                begun = words == [".state", "graph"]
                require(not words or words[0][0] == ".", "line %d: a line of another form" % number, BadFile)
            elif words == [".end"]:
                ended = True
                break
            elif len(words) == 4 and words[:2] == [".marking", "{"] and is_plain(words[2]) and words[3] == "}" and self.initial is None:
                self.initial = words[2]
            elif words:
                require(len(words) == 3 and all(map(is_plain, words)), "line %d: a line of another form" % number, BadFile)
                self.arcs.append(tuple(words))
        require(ended, "no `.end` after `.state graph`", BadFile)
        require(self.initial is not None, "no marking", BadFile)
        named = [state for q, _, r in self.arcs for state in (q, r)] or [self.initial]
        require(self.initial in named, "no arc names the marked state", BadFile)
        self.states = list(dict.fromkeys(named))
        self.labels = list(dict.fromkeys(t for _, t, _ in self.arcs))


class WordFile:
    """The reading of a list of words: the tree of their prefixes, `s0` the empty word."""

    def __init__(self, text):
        self.states, self.initial, targets = ["s0"], "s0", {}
        for number, line in enumerate(text.split("\n"), 1):
            state, words = "s0", words_of(line)
            for label in words if not (words and words[0][0] == "#") else []:
                require(is_plain(label), "line %d: a label that is no name" % number, BadFile)
                if (state, label) not in targets:
                    targets[state, label] = "s%d" % len(self.states)
                    self.states.append(targets[state, label])
                state = targets[state, label]
        self.arcs = [(state, label, target) for (state, label), target in targets.items()]
        self.labels = list(dict.fromkeys(label for _, label, _ in self.arcs))


FORMS = {"apt": AptFile, "graph": GraphFile, "words": WordFile}


# ---- the system

class System:
    """A system read from a text of one of the three forms: states and labels by name, in order, arcs, and the initial state."""

    def __init__(self, text, form="apt"):
        require(len(text) <= MOST_BYTES, "longer than 16,777,216 bytes", BadFile)
        file = FORMS[form](text)
        self.states, self.labels, self.arcs, self.initial = file.states, file.labels, set(file.arcs), file.initial
        within = len(self.states) <= MOST_STATES and len(self.labels) <= MOST_LABELS and len(self.arcs) <= MOST_ARCS
        require(within, "more states, labels or arcs than a system may have", BadFile)
        self.known = {"s": set(self.states), "t": set(self.labels)}
        self.leaving = {(q, t) for q, t, _ in self.arcs}
        self.reached = self.reach()

    def reach(self):
        """Returns the states that arcs lead to from the initial state."""
        leads = {}
        for q, _, r in self.arcs:
            leads.setdefault(q, []).append(r)
        reached, new = {self.initial}, [self.initial]
        while new:
            for r in leads.get(new.pop(), ()):
                if r not in reached:
                    reached.add(r)
                    new.append(r)
        return reached


# ---- the class

class NetClass:
    """The conditions of a class. `bound` and `marking` are numbers, or None."""

    def __init__(self, text):
        self.pure = self.plain = self.nonbranching = False
        self.bound = self.marking = None
        for word in text.split(",") if text != "none" else []:
            number, _, condition = word.partition("-")
            if word in ("pure", "plain"):
                require(not getattr(self, word), "no class")
                setattr(self, word, True)
            elif word == "output-nonbranching":
                require(not self.nonbranching, "no class")
                self.nonbranching = True
            elif word == "safe" or condition == "bounded":
                require(self.bound is None, "no class")
                self.bound = 1 if word == "safe" else class_number(number)
            else:
                require(condition == "marking" and self.marking is None, "no class")
                self.marking = class_number(number)

    def text(self):
        """Returns the text of the class with its words in order."""
        words = ["pure"] * self.pure + ["plain"] * self.plain
        if self.bound is not None:
            words.append("safe" if self.bound == 1 else "%d-bounded" % self.bound)
        if self.marking is not None:
            words.append("%d-marking" % self.marking)
        words += ["output-nonbranching"] * self.nonbranching
        return ",".join(words) or "none"


def class_number(text):
    """Returns the number from 1 to 255, without a leading 0, that the text is."""
    require(text.isascii() and text.isdigit() and text[0] != "0" and len(text) <= 3 and int(text) <= 255, "no class")
    return int(text)


# ---- the certificate

# What follows the word of a reason, a split and a row (for a row, also what precedes its word):
#   s  a state         t  a label
#   m  a multiplier    v  the number of a split    d  a depth: the number of a split on the way from the root
REASONS = {"unreachable": "s", "fork": "stss", "event": "st", "states": "ss"}
SPLITS = {"tokens": "sv", "effect": "tv", "start": "v"}
ROWS = {"arc": "msts", "tokens": "ms", "cap": "ms", "up": "mt", "down": "mt", "makes": "mt", "stop": "ms", "block": "m",
        "empty": "m", "full": "ms", "keep": "m", "apart": "m", "above": "md"}
RANGES = {"m": (1 - 2**127, 2**127 - 1), "v": (1 - 2**63, 2**63 - 1), "d": (0, 2**32 - 1)}


class Split:
    """A split above a node: its form (`tokens`, `effect` or `start`), the name that the form is of, its number, and the side."""

    def __init__(self, form, name, number):
        self.form, self.name, self.number, self.high = form, name, number, False


class Checker:
    """Reads a certificate line by line, and checks it as it goes. `line` is the number of the line that was read last."""

    def __init__(self, system, text):
        self.system, self.lines, self.line = system, text.split("\n"), 0

    def take(self):
        """Returns the words of the next line, which a line feed ends."""
        require(self.line + 1 < len(self.lines), "a line is missing, or isn't ended")
        self.line += 1
        return self.lines[self.line - 1].split(" ")

    def values(self, words, kinds):
        """Returns the words as names of the system and numbers in their ranges, in the order of the kinds."""
        require(kinds is not None and len(words) == len(kinds), "a line of another form")
        found = []
        for word, kind in zip(words, kinds):
            if kind in "st":
                require(word in self.system.known[kind], "a name that the system hasn't")
                found.append(word)
            else:
                digits = word[1:] if word.startswith("-") else word
                plain = digits.isascii() and digits.isdigit() and (digits[0] != "0" or word == "0")
                require(plain, "not a number")
                low, high = RANGES[kind]
                require(len(digits) <= 39 and low <= int(word) <= high, "a number out of its range")
                found.append(int(word))
        return found

    def check(self):
        """Returns the text of the class of which the system has no net."""
        version = self.take()
        require(version in (["certificate", "1"], ["certificate", "2"]), "a line of another form")
        words = self.take()
        require(len(words) == 2 and words[0] == "class", "a line of another form")
        self.net_class = NetClass(words[1])
        require(version[1] == "2" or self.net_class.marking is None, "an N-marking class in version 1")
        self.reason, *words = self.take()
        self.check_reason(self.values(words, REASONS.get(self.reason)))
        require(self.take() == ["end"], "expected `end`")
        require(self.lines[self.line:] == [""], "something follows `end`")
        return self.net_class.text()

    def check_reason(self, names):
        system, self.names = self.system, names
        consumers = system.labels if self.net_class.nonbranching else [None]
        if self.reason == "unreachable":  # no arcs lead from the initial state to S
            require(names[0] not in system.reached, "the state can be reached")
        elif self.reason == "fork":  # there are the arcs S T S1 and S T S2, and S1 isn't S2
            s, t, s1, s2 = names
            require({(s, t, s1), (s, t, s2)} <= system.arcs and s1 != s2, "there is no such fork")
        elif self.reason == "event":  # no arc of T leaves S, and its one case is refuted; the consumer is T
            self.s, self.t = names
            require((self.s, self.t) not in system.leaving, "the label has an arc at the state")
            self.check_case(None, self.t)
        else:  # S isn't S', and each case is refuted: two orders, and in an output-nonbranching class a consumer for each label
            self.s, self.other = names
            require(self.s != self.other, "the two states are one")
            require(consumers, "there is no case")
            for order in (0, 1):
                for consumer in consumers:
                    self.check_case(order, consumer)

    def check_case(self, order, consumer):
        """Checks a case: its tree in preorder. `path` has the splits above the next node, outermost first."""
        require(self.take() == ["case"], "expected `case`")
        self.order, self.consumer = order, consumer
        path, done = [], False
        while not done:
            word, *words = self.take()
            if word == "split":
                path.append(self.split(words))
            else:
                require([word, *words] == ["leaf"], "expected `split` or `leaf`")
                self.check_leaf(path)
                while path and path[-1].high:  # both sides of the innermost split are done
                    path.pop()
                done = not path
                if path:
                    path[-1].high = True

    def split(self, words):
        form = words[0] if words else ""
        *name, number = self.values(words[1:], SPLITS.get(form))
        # a split on the start is allowed only if the class has an N-marking
        require(form != "start" or self.net_class.marking is not None, "a split on the start in a class without N-marking")
        return Split(form, name[0] if name else None, number)

    def check_leaf(self, path):
        """Checks that the rows of a leaf add up to a negative constant."""
        sums, constants = {}, 0
        for k, word, values in self.rows():
            # rule 1: the row is allowed there
            terms, constant = self.row(word, values, path)
            # rule 2: the multiplier of each row but `arc` is at least 1
            require(word == "arc" or k >= 1, "a multiplier that isn't positive")
            constants += k * constant
            for coefficient, variable in terms:
                sums[variable] = sums.get(variable, 0) + k * coefficient
        # rule 3: for each M(Q) and each E(T) the multiplied coefficients add up to 0, and the multiplied constants to a number below 0
        require(not any(sums.values()) and constants < 0, "the rows of this leaf add up to no contradiction")
        # rule 4 (the sums of absolute values are at most 2^127 - 1) isn't needed with numbers of any size

    def rows(self):
        """Reads the rows of a leaf one after another: multiplier, word, and the values that follow it."""
        # a row begins with its multiplier; a set, since an empty line begins with no character, and "" is in every string
        while self.line + 1 < len(self.lines) and self.lines[self.line][:1] in {*"-0123456789"}:
            multiplier, *words = self.take()
            word = words[0] if words else ""
            k, *values = self.values([multiplier, *words[1:]], ROWS.get(word))
            yield k, word, values

    def row(self, word, values, path):
        """Returns the terms and the constant of a row, which add up to at least 0 (to 0 for an `arc`). Refuses a row that isn't allowed there."""
        net_class, event = self.net_class, self.reason == "event"
        q = values[0] if values else None
        neither = not net_class.pure and not net_class.plain
        plain_alone = net_class.plain and not net_class.pure
        if word == "arc":  # M(Q) + E(T) - M(Q') = 0; the system has this arc; a firing adds the effect
            q, t, r = values
            self.allowed((q, t, r) in self.system.arcs)
            return [(1, tokens_at(q)), (1, effect_of(t)), (-1, tokens_at(r))], 0
        if word == "tokens":  # M(Q) >= 0; always
            return [(1, tokens_at(q))], 0
        if word == "cap":  # k - M(Q) >= 0; the class is k-bounded
            self.allowed(net_class.bound is not None)
            return [(-1, tokens_at(q))], net_class.bound
        if word == "up":  # 1 - E(T) >= 0; the class is plain; T puts at most 1
            self.allowed(net_class.plain)
            return [(-1, effect_of(q))], 1
        if word == "down":  # E(T) + 1 >= 0; the class is plain; T takes at most 1
            self.allowed(net_class.plain)
            return [(1, effect_of(q))], 1
        if word == "makes":  # E(T) >= 0; the class is output-nonbranching, T isn't the consumer; T takes nothing
            self.allowed(net_class.nonbranching and q != self.consumer)
            return [(1, effect_of(q))], 0
        if word == "stop":  # M(Q) - M(S) - 1 >= 0; event S T, neither pure nor plain, an arc of T leaves Q: T takes at most M(Q), more than M(S)
            self.allowed(event and neither and (q, self.t) in self.system.leaving)
            return [(1, tokens_at(q)), (-1, tokens_at(self.s))], -1
        if word == "block":  # -M(S) - E(T) - 1 >= 0; event S T, the class is pure: T takes -E(T), more than M(S)
            self.allowed(event and net_class.pure)
            return [(-1, tokens_at(self.s)), (-1, effect_of(self.t))], -1
        if word == "empty":  # -M(S) >= 0; event S T, plain and not pure: T takes 1, more than M(S)
            self.allowed(event and plain_alone)
            return [(-1, tokens_at(self.s))], 0
        if word == "full":  # M(Q) - 1 >= 0; event S T, plain and not pure, an arc of T leaves Q: T takes 1 at Q
            self.allowed(event and plain_alone and (q, self.t) in self.system.leaving)
            return [(1, tokens_at(q))], -1
        if word == "keep":  # -E(T) >= 0; event S T, plain and not pure: T takes 1 and puts at most 1
            self.allowed(event and plain_alone)
            return [(-1, effect_of(self.t))], 0
        if word == "apart":  # order 0: M(S') - M(S) - 1 >= 0; order 1: M(S) - M(S') - 1 >= 0; states S S'
            self.allowed(not event)
            less, more = (self.s, self.other) if self.order == 0 else (self.other, self.s)
            return [(1, tokens_at(more)), (-1, tokens_at(less))], -1
        # above D; there is a split number D on the way from the root to the leaf, 0 the root
        self.allowed(q < len(path))
        return self.side(path[q])

    def side(self, split):
        """Returns the row of a split's side. Low side: V - form >= 0; high side: form - V - 1 >= 0. On the start both numbers are times N."""
        step = self.net_class.marking if split.form == "start" else 1
        variable = effect_of(split.name) if split.form == "effect" else tokens_at(split.name or self.system.initial)
        if split.high:
            return [(1, variable)], -step * split.number - step
        return [(-1, variable)], step * split.number

    @staticmethod
    def allowed(holds):
        require(holds, "a row that isn't allowed there")


def tokens_at(state):
    return ("M", state)


def effect_of(label):
    return ("E", label)


# ---- the command line

def read(name):
    try:
        return Path(name).read_bytes().decode("latin-1")
    except OSError as error:
        raise BadFile("%s can't be read: %s" % (name, error.strerror)) from None


def read_system(name, form):
    text = read(name)
    try:
        return System(text, form)
    except BadFile as why:
        raise BadFile("%s is no %s: %s" % (name, {"apt": "system file", "graph": "state graph", "words": "list of words"}[form], why)) from None


def files_and_form(arguments):
    """Returns the two files and the form of the first, or None if the arguments are others."""
    files, form = list(arguments), "apt"
    if "--from" in files[:-1]:
        at = files.index("--from")
        form = files[at + 1]
        del files[at:at + 2]
    return (*files, form) if len(files) == 2 and "--from" not in files and form in FORMS else None


def main(arguments):
    if arguments in (["--help"], ["-h"]):
        print(__doc__)
        return 0
    given = files_and_form(arguments)
    if given is None:
        print("usage: check_certificate.py FILE CERT [--from apt|graph|words] (see --help)", file=sys.stderr)
        return 2
    file, cert, form = given
    try:
        checker = Checker(read_system(file, form), read(cert))
    except BadFile as why:
        print(why, file=sys.stderr)
        return 2
    try:
        print("accepted: no net of class " + checker.check())
        return 0
    except Refused as why:
        print("refused: line %d: %s" % (max(checker.line, 1), why))
        return 1


if __name__ == "__main__":
    sys.exit(main(sys.argv[1:]))
