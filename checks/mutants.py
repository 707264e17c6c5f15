#!/usr/bin/env python3
"""Changes one rule of tools/check_certificate.py at a time, and prints which pairs of tools/certificates catch each change.

    checks/mutants.py

A change replaces texts of the checker, each of which has to be there once, by others. A pair catches it if the changed checker accepts
what `verdicts.tsv` refuses, or refuses what it accepts; one that fails refuses, as its exit status says. The last line counts the changes. The status is 1 if one isn't caught, but for
those that change no answer, which are listed with the reason.
"""
import os
import sys
import types

sys.dont_write_bytecode = True
from corpus import verdicts  # noqa: E402
from systems import TOP  # noqa: E402

MORE, LESS = 'accepts more', 'accepts less'

# the rule of docs/certificates.md, the direction, then texts of the checker, each with what replaces it
CHANGES = (
    ('the first line', MORE, 'require(version in (["certificate", "1"], ["certificate", "2"]), "a line of another form")', 'require(version[:1] == ["certificate"] and len(version) == 2, "a line of another form")'),
    ('the first line', LESS, '(["certificate", "1"], ["certificate", "2"])', '(["certificate", "1"],)'),
    ('version 2 of any class', LESS, 'require(version[1] == "2" or self.net_class.marking is None,', 'require((version[1] == "2") == (self.net_class.marking is not None),'),
    ('no marking in version 1', MORE, 'require(version[1] == "2" or self.net_class.marking is None, "an N-marking class in version 1")', 'pass'),
    ('the line of the class', MORE, 'require(len(words) == 2 and words[0] == "class", "a line of another form")', 'require(len(words) == 2, "a line of another form")'),
    ('words of a class', MORE, 'require(not getattr(self, word), "no class")', 'pass'),
    ('words of a class', MORE, 'require(not self.nonbranching, "no class")', 'pass'),
    ('words of a class', MORE, 'require(self.bound is None, "no class")', 'pass'),
    ('words of a class', MORE, 'require(condition == "marking" and self.marking is None, "no class")', 'require(condition == "marking", "no class")'),
    ('words of a class', MORE, 'require(condition == "marking" and self.marking is None, "no class")', 'require(self.marking is None, "no class")'),
    ('a bound in front of -bounded', LESS, 'elif word == "safe" or condition == "bounded":', 'elif word == "safe":'),
    ('safe is the bound 1', MORE, 'self.bound = 1 if word == "safe"', 'self.bound = 0 if word == "safe"'),
    ('safe is the bound 1', LESS, 'self.bound = 1 if word == "safe"', 'self.bound = 2 if word == "safe"'),
    ('numbers of a class', MORE, 'text[0] != "0" and len(text) <= 3', 'len(text) <= 3'),
    ('numbers of a class', MORE, 'and len(text) <= 3 and int(text) <= 255', 'and len(text) <= 3'),
    ('numbers of a class', LESS, 'int(text) <= 255', 'int(text) <= 254'),
    ('numbers of a class', MORE, 'text.isascii() and text.isdigit() and text[0] != "0"', 'text.isascii() and text[-1:].isdigit() and text[0] != "0"'),
    ('a line feed ends each line', MORE, 'require(self.line + 1 < len(self.lines), "a line is missing, or isn\'t ended")', 'require(self.line < len(self.lines), "a line is missing, or isn\'t ended")',
     'self.lines[self.line:] == [""]', 'self.lines[self.line:] in ([""], [])'),
    ('one blank between words', MORE, 'return self.lines[self.line - 1].split(" ")', 'return self.lines[self.line - 1].split()'),
    ('no line end of Windows', MORE, 'self.lines, self.line = system, text.split("\\n"), 0', 'self.lines, self.line = system, text.replace("\\r", "").split("\\n"), 0'),
    ('the last line', MORE, 'require(self.take() == ["end"], "expected `end`")', 'self.take()'),
    ('nothing follows', MORE, 'require(self.lines[self.line:] == [""], "something follows `end`")', 'pass'),
    ('nothing follows', MORE, 'self.lines[self.line:] == [""]', 'not "".join(self.lines[self.line:])'),
    ('as many words as the form has', MORE, 'require(kinds is not None and len(words) == len(kinds), "a line of another form")', 'require(kinds is not None and len(words) >= len(kinds), "a line of another form")'),
    ('names of the system', MORE, 'require(word in self.system.known[kind], "a name that the system hasn\'t")', 'pass'),
    ('names of states and of labels', MORE, 'word in self.system.known[kind]', 'word in self.system.known["s"] | self.system.known["t"]'),
    ('no leading 0', MORE, '(digits[0] != "0" or word == "0")', 'digits != ""'),
    ('0 is a number', LESS, '(digits[0] != "0" or word == "0")', 'digits[0] != "0"'),
    ('-0 is no number', MORE, '(digits[0] != "0" or word == "0")', '(digits[0] != "0" or digits == "0")'),
    ('no sign +', MORE, 'digits = word[1:] if word.startswith("-") else word', 'digits = word[1:] if word[:1] in {"-", "+"} else word'),
    ('numbers may be negative', LESS, 'digits = word[1:] if word.startswith("-") else word', 'digits = word'),
    ('multipliers up to 2^127 - 1', MORE, '"m": (1 - 2**127, 2**127 - 1)', '"m": (-2**127, 2**127)'),
    ('multipliers up to 2^127 - 1', LESS, '"m": (1 - 2**127, 2**127 - 1)', '"m": (1 - 2**127, 2**127 - 2)'),
    ('multipliers from -(2^127 - 1)', LESS, '"m": (1 - 2**127, 2**127 - 1)', '"m": (2 - 2**127, 2**127 - 1)'),
    ('multipliers of 128 bits', LESS, '"m": (1 - 2**127, 2**127 - 1)', '"m": (1 - 2**63, 2**63 - 1)'),
    ('numbers of splits up to 2^63 - 1', MORE, '"v": (1 - 2**63, 2**63 - 1)', '"v": (1 - 2**63, 2**63)'),
    ('numbers of splits up to 2^63 - 1', LESS, '"v": (1 - 2**63, 2**63 - 1)', '"v": (1 - 2**63, 2**63 - 2)'),
    ('numbers of splits from -(2^63 - 1)', MORE, '"v": (1 - 2**63, 2**63 - 1)', '"v": (-2**63, 2**63 - 1)'),
    ('numbers of splits from -(2^63 - 1)', LESS, '"v": (1 - 2**63, 2**63 - 1)', '"v": (0, 2**63 - 1)'),
    ('depths from 0', MORE, '"d": (0, 2**32 - 1)', '"d": (-2**32, 2**32 - 1)'),
    ('unreachable', MORE, 'require(names[0] not in system.reached, "the state can be reached")', 'pass'),
    ('unreachable', LESS, 'require(names[0] not in system.reached, "the state can be reached")', 'require(False, "")'),
    ('unreachable from the initial state alone', MORE, 'reached, new = {self.initial}, [self.initial]', 'reached, new = set(), [self.initial]'),
    ('unreachable by any number of arcs', MORE, '                    new.append(r)\n', ''),
    ('fork: both arcs', MORE, '{(s, t, s1), (s, t, s2)} <= system.arcs', '(s, t, s1) in system.arcs'),
    ('fork: both arcs', MORE, '{(s, t, s1), (s, t, s2)} <= system.arcs', '(s, t, s2) in system.arcs'),
    ('fork: two states', MORE, '<= system.arcs and s1 != s2', '<= system.arcs'),
    ('fork in either order', LESS, '<= system.arcs and s1 != s2', '<= system.arcs and s1 < s2'),
    ('event: no arc of the label', MORE, 'require((self.s, self.t) not in system.leaving, "the label has an arc at the state")', 'pass'),
    ('event: its one case', MORE, '            self.check_case(None, self.t)\n', '            self.take()\n'),
    ('event: its label consumes', MORE, 'self.check_case(None, self.t)', 'self.check_case(None, None)'),
    ('event: its label consumes', LESS, 'self.check_case(None, self.t)', 'self.check_case(None, q if (q := None) else system.labels[0])'),
    ('states: two of them', MORE, 'require(self.s != self.other, "the two states are one")', 'pass'),
    ('states in either order', LESS, 'require(self.s != self.other, "the two states are one")', 'require(self.s < self.other, "the two states are one")'),
    ('states: a case', MORE, 'require(consumers, "there is no case")', 'pass'),
    ('states: two orders', MORE, 'for order in (0, 1):', 'for order in (0,):'),
    ('states: the orders in order', MORE, 'for order in (0, 1):', 'for order in (0, 0):'),
    ('states: a case for each consumer', MORE, 'for consumer in consumers:', 'for consumer in consumers[:1]:'),
    ('states: a case for each consumer', MORE, 'for consumer in consumers:', 'for consumer in consumers[-1:]:'),
    ('states: consumers in order', LESS, 'for consumer in consumers:', 'for consumer in consumers[::-1]:'),
    ('states: consumers of output-nonbranching alone', LESS, 'consumers = system.labels if self.net_class.nonbranching else [None]', 'consumers = system.labels or [None]'),
    ('the line of a case', MORE, 'require(self.take() == ["case"], "expected `case`")', 'self.take()'),
    ('the line of a leaf', MORE, 'require([word, *words] == ["leaf"], "expected `split` or `leaf`")', 'require(word == "leaf", "expected `split` or `leaf`")'),
    ('two sides of a split', MORE, 'while path and path[-1].high:  # both sides', 'while path:  # both sides'),
    ('the low side first', MORE, 'self.form, self.name, self.number, self.high = form, name, number, False', 'self.form, self.name, self.number, self.high = form, name, number, True'),
    ('splits on the start with a marking alone', MORE, 'require(form != "start" or self.net_class.marking is not None, "a split on the start in a class without N-marking")', 'pass'),
    ('splits on the start', LESS, 'require(form != "start" or self.net_class.marking is not None,', 'require(form != "start",'),
    ('splits on tokens', LESS, '"tokens": "sv", "effect": "tv", "start": "v"', '"effect": "tv", "start": "v"'),
    ('splits on effects', LESS, '"tokens": "sv", "effect": "tv", "start": "v"', '"tokens": "sv", "start": "v"'),
    ('positive multipliers', MORE, 'require(word == "arc" or k >= 1,', 'require(word == "arc" or k >= 0,'),
    ('positive multipliers', MORE, 'require(word == "arc" or k >= 1, "a multiplier that isn\'t positive")', 'pass'),
    ('multipliers of arcs may be negative', LESS, 'require(word == "arc" or k >= 1,', 'require(k >= 1,'),
    ('multipliers of arcs may be 0', LESS, 'require(word == "arc" or k >= 1,', 'require(k >= 1 or word == "arc" and k,'),
    ('a row counts as often as it is there', LESS, 'constants += k * constant', 'constants = k * constant'),
    ('variables cancel', MORE, 'require(not any(sums.values()) and constants < 0,', 'require(constants < 0,'),
    ('tokens cancel', MORE, 'not any(sums.values())', 'not any(n for (kind, _), n in sums.items() if kind == "E")'),
    ('effects cancel', MORE, 'not any(sums.values())', 'not any(n for (kind, _), n in sums.items() if kind == "M")'),
    ('tokens cancel exactly', MORE, 'not any(sums.values())', 'not any(n for n in sums.values() if n > 0)'),
    ('tokens cancel exactly', MORE, 'not any(sums.values())', 'not any(n for n in sums.values() if n < 0)'),
    ('the constant is below 0', MORE, 'and constants < 0,', 'and constants <= 0,'),
    ('the constant is below 0', LESS, 'and constants < 0,', 'and constants < -1,'),
    ('the constant is below 0', MORE, 'and constants < 0,', 'and constants != 0,'),
    ('sums of more than 64 bits', MORE, 'sums[variable] = sums.get(variable, 0) + k * coefficient', 'sums[variable] = (sums.get(variable, 0) + k * coefficient) % 2**64'),
    ('sums of more than 128 bits', MORE, 'sums[variable] = sums.get(variable, 0) + k * coefficient', 'sums[variable] = (sums.get(variable, 0) + k * coefficient) % 2**128'),
    ('arc: of the system', MORE, 'self.allowed((q, t, r) in self.system.arcs)', 'self.allowed((q, t) in self.system.leaving)'),
    ('arc: of the system', MORE, 'self.allowed((q, t, r) in self.system.arcs)', 'pass'),
    ('arc: its three terms', LESS, 'return [(1, tokens_at(q)), (1, effect_of(t)), (-1, tokens_at(r))], 0', 'return [(1, tokens_at(q)), (-1, effect_of(t)), (-1, tokens_at(r))], 0'),
    ('M(Q) and E(T) of one name are two variables', MORE, 'return ("M", state)', 'return ("E", state)'),
    ('numbers of digits alone', MORE, 'digits.isascii() and digits.isdigit()', 'digits.isascii() and digits.replace("_", "").isdigit()'),
    ('constants of more than 64 bits', MORE, 'constants += k * constant', 'constants = (constants + k * constant + 2**63) % 2**64 - 2**63'),
    ('constants of more than 128 bits', MORE, 'constants += k * constant', 'constants = (constants + k * constant + 2**127) % 2**128 - 2**127'),
    ('constants are multiplied', MORE, 'constants += k * constant', 'constants += constant'),
    ('sums are whole numbers of any size', MORE, 'sums[variable] = sums.get(variable, 0) + k * coefficient', 'sums[variable] = sums.get(variable, 0) + float(k * coefficient)'),
    ('states: the orders hold the consumers', MORE, 'for order in (0, 1):\n                for consumer in consumers:', 'for consumer in consumers:\n                for order in (0, 1):'),
    ('states: consumers in the order of the labels', MORE, 'for consumer in consumers:', 'for consumer in sorted(consumers, key=str):'),
    ('states: labels without arcs are consumers', MORE, 'for consumer in consumers:', 'for consumer in [c for c in consumers if c in {None, *(t for _, t, _ in system.arcs)}]:'),
    ('cap: not of a marking', MORE, 'self.allowed(net_class.bound is not None)\n            return [(-1, tokens_at(q))], net_class.bound',
     'self.allowed(net_class.bound or net_class.marking)\n            return [(-1, tokens_at(q))], net_class.bound or net_class.marking'),
    ('above: splits by depth, not in preorder', MORE, 'path, done = [], False', 'path, done, self.all = [], False, []', 'path.append(self.split(words))', 'path.append(self.split(words))\n                self.all.append(path[-1])',
     'self.allowed(q < len(path))\n        return self.side(path[q])', 'self.allowed(q < len(self.all))\n        return self.side(self.all[q])'),
    ('above: counted from 0', MORE, 'self.allowed(q < len(path))\n        return self.side(path[q])', 'self.allowed(1 <= q <= len(path))\n        return self.side(path[q - 1])'),
    ('splits of any depth', LESS, 'path.append(self.split(words))', 'path.append(self.split(words))\n                require(len(path) <= 16, "")'),
    ('tokens: at any state', LESS, 'if word == "tokens":  # M(Q) >= 0; always', 'if word == "tokens" and not self.allowed(q == self.system.initial):  # M(Q) >= 0; always'),
    ('cap: in a bounded class', MORE, 'self.allowed(net_class.bound is not None)\n            return [(-1, tokens_at(q))], net_class.bound', 'return [(-1, tokens_at(q))], net_class.bound or 0'),
    ('cap: the bound', MORE, 'return [(-1, tokens_at(q))], net_class.bound', 'return [(-1, tokens_at(q))], net_class.bound - 1'),
    ('cap: the bound', LESS, 'return [(-1, tokens_at(q))], net_class.bound', 'return [(-1, tokens_at(q))], net_class.bound + 1'),
    ('up: in a plain class', MORE, 'self.allowed(net_class.plain)\n            return [(-1, effect_of(q))], 1', 'return [(-1, effect_of(q))], 1'),
    ('up: at most 1', MORE, 'return [(-1, effect_of(q))], 1', 'return [(-1, effect_of(q))], 0'),
    ('up: at most 1', LESS, 'return [(-1, effect_of(q))], 1', 'return [(-1, effect_of(q))], 2'),
    ('down: in a plain class', MORE, 'self.allowed(net_class.plain)\n            return [(1, effect_of(q))], 1', 'return [(1, effect_of(q))], 1'),
    ('down: at least -1', MORE, 'return [(1, effect_of(q))], 1', 'return [(1, effect_of(q))], 0'),
    ('down: at least -1', LESS, 'return [(1, effect_of(q))], 1', 'return [(1, effect_of(q))], 2'),
    ('makes: in an output-nonbranching class', MORE, 'self.allowed(net_class.nonbranching and q != self.consumer)', 'self.allowed(q != self.consumer)'),
    ('makes: not of the consumer', MORE, 'self.allowed(net_class.nonbranching and q != self.consumer)', 'self.allowed(net_class.nonbranching)'),
    ('makes: of all labels but the consumer', LESS, 'self.allowed(net_class.nonbranching and q != self.consumer)', 'self.allowed(net_class.nonbranching and q == self.system.labels[-1] and q != self.consumer)'),
    ('makes: at least 0', MORE, '            return [(1, effect_of(q))], 0', '            return [(1, effect_of(q))], -1'),
    ('stop: of an event', MORE, 'self.allowed(event and neither and (q, self.t) in self.system.leaving)\n            return [(1, tokens_at(q)), (-1, tokens_at(self.s))], -1', 'self.allowed(neither)\n            return [(1, tokens_at(q)), (-1, tokens_at(self.s))], -1'),
    ('stop: in a class neither pure nor plain', MORE, 'self.allowed(event and neither and (q, self.t) in self.system.leaving)', 'self.allowed(event and (q, self.t) in self.system.leaving)'),
    ('stop: not in a pure class', MORE, 'neither = not net_class.pure and not net_class.plain', 'neither = not net_class.plain'),
    ('stop: not in a plain class', MORE, 'neither = not net_class.pure and not net_class.plain', 'neither = not net_class.pure'),
    ('stop: where the label has an arc', MORE, 'self.allowed(event and neither and (q, self.t) in self.system.leaving)', 'self.allowed(event and neither)'),
    ('stop: at least one more', MORE, 'return [(1, tokens_at(q)), (-1, tokens_at(self.s))], -1', 'return [(1, tokens_at(q)), (-1, tokens_at(self.s))], -2'),
    ('stop: at least one more', LESS, 'return [(1, tokens_at(q)), (-1, tokens_at(self.s))], -1', 'return [(1, tokens_at(q)), (-1, tokens_at(self.s))], 0'),
    ('block: in a pure class', MORE, 'self.allowed(event and net_class.pure)', 'self.allowed(event)'),
    ('block: of an event', MORE, 'self.allowed(event and net_class.pure)\n            return [(-1, tokens_at(self.s)), (-1, effect_of(self.t))], -1', 'self.allowed(net_class.pure)\n            return [(-1, tokens_at(self.s)), (-1, effect_of(getattr(self, "t", self.system.labels[0])))], -1'),
    ('block: more than is there', LESS, 'return [(-1, tokens_at(self.s)), (-1, effect_of(self.t))], -1', 'return [(-1, tokens_at(self.s)), (-1, effect_of(self.t))], 0'),
    ('block: more than is there', MORE, 'return [(-1, tokens_at(self.s)), (-1, effect_of(self.t))], -1', 'return [(-1, tokens_at(self.s)), (-1, effect_of(self.t))], -2'),
    ('empty: in a plain class that isn\'t pure', MORE, 'self.allowed(event and plain_alone)\n            return [(-1, tokens_at(self.s))], 0', 'self.allowed(event)\n            return [(-1, tokens_at(self.s))], 0'),
    ('empty, full, keep: not in a pure class', MORE, 'plain_alone = net_class.plain and not net_class.pure', 'plain_alone = net_class.plain'),
    ('empty, full, keep: in a plain class', MORE, 'plain_alone = net_class.plain and not net_class.pure', 'plain_alone = not net_class.pure'),
    ('empty: no token', MORE, 'return [(-1, tokens_at(self.s))], 0', 'return [(-1, tokens_at(self.s))], -1'),
    ('full: where the label has an arc', MORE, 'self.allowed(event and plain_alone and (q, self.t) in self.system.leaving)', 'self.allowed(event and plain_alone)'),
    ('full: in a plain class that isn\'t pure', MORE, 'self.allowed(event and plain_alone and (q, self.t) in self.system.leaving)', 'self.allowed(event and (q, self.t) in self.system.leaving)'),
    ('full: a token', MORE, 'return [(1, tokens_at(q))], -1', 'return [(1, tokens_at(q))], -2'),
    ('full: a token', LESS, 'return [(1, tokens_at(q))], -1', 'return [(1, tokens_at(q))], 0'),
    ('keep: in a plain class that isn\'t pure', MORE, 'self.allowed(event and plain_alone)\n            return [(-1, effect_of(self.t))], 0', 'self.allowed(event)\n            return [(-1, effect_of(self.t))], 0'),
    ('keep: no gain', MORE, 'return [(-1, effect_of(self.t))], 0', 'return [(-1, effect_of(self.t))], -1'),
    ('keep: no gain', LESS, 'return [(-1, effect_of(self.t))], 0', 'return [(-1, effect_of(self.t))], 1'),
    ('apart: of two states', MORE, '            self.allowed(not event)\n', '            if event:\n                return [], -1\n'),
    ('apart: by the order', LESS, 'if self.order == 0 else (self.other, self.s)', 'if self.order == 1 else (self.other, self.s)'),
    ('apart: by the order', MORE, '(self.s, self.other) if self.order == 0 else (self.other, self.s)', '(self.s, self.other)'),
    ('apart: at least one more', LESS, 'return [(1, tokens_at(more)), (-1, tokens_at(less))], -1', 'return [(1, tokens_at(more)), (-1, tokens_at(less))], 0'),
    ('apart: at least one more', MORE, 'return [(1, tokens_at(more)), (-1, tokens_at(less))], -1', 'return [(1, tokens_at(more)), (-1, tokens_at(less))], -2'),
    ('above: a split on the way', MORE, 'self.allowed(q < len(path))\n        return self.side(path[q])', 'return self.side(path[q]) if q < len(path) else ([], -1)'),
    ('above: counted from the root', LESS, 'return self.side(path[q])', 'return self.side(path[len(path) - 1 - q])'),
    ('above: the last split too', LESS, 'self.allowed(q < len(path))', 'self.allowed(q + 1 < len(path))'),
    ('the high side', MORE, 'return [(1, variable)], -step * split.number - step', 'return [(1, variable)], -step * split.number - step - 1'),
    ('the high side', LESS, 'return [(1, variable)], -step * split.number - step', 'return [(1, variable)], -step * split.number'),
    ('the low side', MORE, 'return [(-1, variable)], step * split.number', 'return [(-1, variable)], step * split.number - 1'),
    ('the low side', LESS, 'return [(-1, variable)], step * split.number', 'return [(-1, variable)], step * split.number + 1'),
    ('splits on the start are times N', LESS, 'step = self.net_class.marking if split.form == "start" else 1', 'step = 1'),
    ('splits on the start alone are times N', MORE, 'step = self.net_class.marking if split.form == "start" else 1', 'step = self.net_class.marking or 1'),
    ('a split on the start is on its tokens', LESS, 'tokens_at(split.name or self.system.initial)', 'tokens_at(split.name or self.system.states[-1])'),
    ('a split on an effect', LESS, 'variable = effect_of(split.name) if split.form == "effect"', 'variable = tokens_at(split.name) if split.form == "effect"'),
)

# no pair can show these: why
SAME = {
    ('multipliers up to 2^127 - 1', LESS): 'with so large a multiplier the sums pass 2^127 - 1, which a checker may refuse',
    ('multipliers from -(2^127 - 1)', LESS): 'the same',
}


def checker(text):
    """The checker of this text, as a module."""
    module = types.ModuleType('changed_checker')
    exec(compile(text, 'check_certificate.py', 'exec'), module.__dict__)  # pylint: disable=exec-used
    return module


def accepts(module, texts):
    """Whether the checker accepts the pair. One that fails refuses it."""
    try:
        module.Checker(module.System(texts[0]), texts[1]).check()
        return True
    except Exception:  # pylint: disable=broad-except
        return False


def read(path):
    with open(path, encoding='latin-1', newline='') as file:
        return file.read()


def main():
    text = read(os.path.join(TOP, 'tools', 'check_certificate.py'))
    pairs = [(stem, [read(path) for path in files], line.startswith('accepted')) for stem, files, line, either in verdicts() if not either]
    caught, missed, stale = 0, [], []
    for rule, direction, *texts in CHANGES:
        changed = text
        for old, new in zip(texts[::2], texts[1::2]):
            if changed.count(old) != 1:
                stale.append(f'{rule}: {old!r} is there {changed.count(old)} times')
            changed = changed.replace(old, new)
        module = checker(changed)
        by = [stem for stem, pair, accepted in pairs if accepts(module, pair) != accepted]
        print(f'{rule} ({direction}): {len(by)} pairs{": " + ", ".join(by[:4]) if by else ""}')
        caught += bool(by)
        if not by and (rule, direction) not in SAME:
            missed.append(f'{rule} ({direction}): {texts[-1]!r}')
    print('\n'.join(stale + [f'not caught: {name}' for name in missed]))
    print(f'{len(CHANGES)} changes, {caught} caught, {len(missed)} not caught')
    return 1 if missed or stale else 0


if __name__ == '__main__':
    sys.exit(main())
