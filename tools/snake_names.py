#!/usr/bin/env python3
"""Spell the repository's own definitions, fields and lemmas as the library spells its words: in snake case.

Run once, at the top, after the port's script. A name in lower camel case (countAt) and a lemma with dashes (bytes-read-back) get `_`; a name that begins
with a capital, a fact or a type, stays. Where two names would fall together the lemma gets `_lem`."""
import collections, glob, re, sys

IDENT = r"[^\W\d][\w'\-ᵇʳ₀-₉]*"
HEAD = re.compile(r"^(?:  (?=\S))?(?:(?:abbrev|unfoldable|pub|opaque|rec|ruleset)\s+)*([^\s:(){}=]+)\s*:")
RULES = re.compile(r"^(?:pub )?ruleset ([^\s=]+) =")
BOUND = {'standsAtTwo', 'secondHolds', 'thirdHolds'}  # parameters of a module and of a record
FIELD = re.compile(r"^\s+(?:pub )?([^\s:(){}=]+)\s*:")
# a lemma that the port's script had already spelled as the definition beside it will be
FIRST = {'crates/card_laws/proofs/PacketBytes.antt': {'ending_of': 'ending_of_lem'}}
# fields and constructors that would stand beside a definition of the same name
OTHER = {'power-on': 'by_power_on', 'not-refused': 'unrefused', 'past-warning': 'beyond_warning', 'short-index': 'index_short', 'stale-index': 'index_stale'}
# the library's own lemma of the same name
KEPT = {'and-true': 'crates/image/proofs/HeaderLaws.antt'}
# words of the English of comments and pages, never a citation there
PLAIN = {'power-on', 'load-unload', 'mode-select', 'mode-sense', 'prevent-allow', 'one-back', 'past-warning', 'no-repeat'}


def snake(name):
    if name[0].isupper():
        return name
    return re.sub(r'(?<=[a-z0-9])([A-Z])', lambda m: '_' + m.group(1).lower(), name).replace('-', '_')


def own_names():
    names = collections.defaultdict(set)
    for path in sorted(glob.glob('crates/*/specs/*.antt') + glob.glob('crates/*/proofs/*.antt')):
        for line in open(path):
            m = HEAD.match(line)
            if m:
                names[m.group(1)].add(path)
            m = RULES.match(line)
            if m:
                names[m.group(1)].add(path)
            m = FIELD.match(line)
            if m and '/specs/' in path and line.lstrip()[:2] != '--':
                names[m.group(1)].add(path)
    for name in BOUND:
        names[name].add('a parameter')
    return names


def mapping(names):
    spelled, taken = {}, collections.defaultdict(list)
    for name in sorted(names):
        if re.fullmatch(IDENT, name) and snake(name) != name:
            taken[snake(name)].append(name)
    for new, olds in taken.items():
        for old in olds:
            # a definition keeps the plain name; a lemma beside it takes the ending
            clash = len(olds) > 1 or new in names
            spelled[old] = OTHER.get(old, new + '_lem' if clash and '-' in old else new)
    return spelled


def turn(text, spelled, generated, comments):
    def each(m):
        word, before = m.group(0), text[max(0, m.start() - 40):m.start()]
        if word not in spelled:
            return word
        if '-' in word and generated and before.endswith('.') and not re.search(r'Rattle[\w.+]*\.$', before):
            return word
        if '-' in word and (word in PLAIN) and in_comment(text, m.start(), comments):
            return word
        return spelled[word]
    return re.sub(r"(?<![\w'\-])" + IDENT, each, text)


def in_comment(text, at, marks):
    start = text.rfind('\n', 0, at) + 1
    return any(mark in text[start:at] for mark in marks)


def main():
    for path, words in FIRST.items():
        text = open(path).read()
        for old, new in words.items():
            text = re.sub(r"(?<![\w'\-.])" + old + r"(?![\w'\-])", new, text)
        open(path, 'w').write(text)
    spelled = mapping(own_names())
    if '--list' in sys.argv:
        for old, new in sorted(spelled.items()):
            print(old, new)
        return
    top = glob.glob('crates/*/specs/*.antt') + glob.glob('crates/*/proofs/*.antt')
    inner = [p for p in glob.glob('crates/*/proofs/**/*.antt', recursive=True) if p not in top]
    source = glob.glob('crates/*/src/**/*.rt', recursive=True)
    edits = glob.glob('crates/*/must-fail/*.edit')
    for path in top + inner + source + edits:
        text = open(path).read()
        here = {k: v for k, v in spelled.items() if KEPT.get(k) != path}
        new = turn(text, here, path in inner, ['//'] if path in source else ['-- ', '//'])
        if new != text:
            open(path, 'w').write(new)
    for path in glob.glob('*.md') + glob.glob('docs/**/*.md', recursive=True):
        text = open(path).read()
        new = re.sub(r'`[^`\n]+`', lambda m: turn(m.group(0), {k: v for k, v in spelled.items() if k not in PLAIN}, False, []), text)
        if new != text:
            open(path, 'w').write(new)


main()
