#!/usr/bin/env python3
"""Brings the repository's own definitions and lemmas to the spelling of today's library.

Run once, at the top, after the kit's own script. A word is in snake case; a dash stays only behind a type's name
(Sets-stand). Names that Rattle makes (goals, invariants, measures, steps of the code) are left as they are.
"""
import collections
import glob
import re
import sys

DEFINED = re.compile(r'^(?: {2}){0,2}(?:(?:abbrev|unfoldable|pub|data|record|ruleset) )*([^\s:(){}⟨⟩,]+)(?: \{[^}]*\}| \([^)]*\))* :(?: |$)(.*)')
# where the plain spelling would fall together with another name
SPECIAL = {
    'in-play': 'in_play_lem',
    'last-card': 'last_card_lem',
    'line-says': 'line_says_lem',
    'oneMore': 'counted_on',
    'if-middle': 'if_middle_lem',
    'loop-end': 'loop_end_lem',
    'map-getD': 'map_get_or',
}
WORD = r"A-Za-z0-9_'◌"


def snake(name):
    out = re.sub(r'(?<=[a-z0-9])([A-Z])', lambda m: '_' + m.group(1).lower(), name)
    return out.replace('-', '_')


def wanted(name, kind):
    if kind.startswith('goal.') or kind.startswith('need.') or not re.match(r'^[a-z]', name):
        return False
    return '-' in name or re.search(r'[a-z0-9][A-Z]', name)


def main():
    files = [f for f in glob.glob('crates/**/*', recursive=True) if f.endswith(('.antt', '.rt', '.edit')) and '/out/' not in f]
    proofs = [f for f in files if f.endswith('.antt')]
    every, names, own_fields = collections.defaultdict(set), {}, set()
    for f in proofs:
        for line in open(f, encoding='utf-8'):
            m = DEFINED.match(line)
            if not m or line.lstrip().startswith('--'):
                continue
            every[m.group(1)].add(f)
            if re.match(r' {2,4}pub ', line):
                own_fields.add(m.group(1))
            if wanted(m.group(1), m.group(2)):
                names[m.group(1)] = SPECIAL.get(m.group(1), snake(m.group(1)))
    # other names of words, as in 'use M.{a as b}'
    for f in files:
        for other in re.findall(r' as ([a-z][A-Za-z]*)', '\n'.join(l for l in open(f, encoding='utf-8') if re.match(r'(ghost )?use ', l))):
            if wanted(other, ''):
                names[other] = snake(other)
    # goals that are answered keep their names everywhere
    for f in proofs:
        for line in open(f, encoding='utf-8'):
            for goal in re.findall(r"\b(?:goal|need)\.([^\s]+)", line):
                names.pop(goal, None)
    back = collections.defaultdict(list)
    for old, new in names.items():
        back[new].append(old)
    for new, olds in sorted(back.items()):
        if len(olds) > 1 or new in every:
            print('fall together:', new, olds, sorted(every.get(new, ())))
    camel = {o: n for o, n in names.items() if '-' not in o}
    dashed = {o: n for o, n in names.items() if '-' in o}
    find_camel = re.compile(r"(?<![%s-])(%s)(?![%s-])" % (WORD, '|'.join(map(re.escape, sorted(camel, key=len, reverse=True))) or '(?!)', WORD))
    # in an answer a dashed name behind a dot is a step of the code, unless it is a field of the repository's own
    fields = {o for o in dashed if o in own_fields}
    find_dashed = re.compile(r"(?<![%s.-])(%s)(?![%s-])" % (WORD, '|'.join(map(re.escape, sorted(dashed, key=len, reverse=True))) or '(?!)', WORD))
    find_field = re.compile(r"(?<=\.)(%s)(?![%s-])" % ('|'.join(map(re.escape, sorted(dashed, key=len, reverse=True))) or '(?!)', WORD))
    for f in files:
        text = open(f, encoding='utf-8').read()
        new = find_camel.sub(lambda m: camel[m.group(1)], text)
        answers = re.search(r'/proofs/.*/', f)
        new = find_dashed.sub(lambda m: dashed[m.group(1)], new)
        new = find_field.sub(lambda m: dashed[m.group(1)] if not answers or m.group(1) in fields else m.group(0), new)
        if new != text and '--dry' not in sys.argv:
            open(f, 'w', encoding='utf-8').write(new)
    for f in glob.glob('docs/*.md') + ['README.md']:
        text = open(f, encoding='utf-8').read()
        new = find_camel.sub(lambda m: camel[m.group(1)], text)
        if new != text and '--dry' not in sys.argv:
            open(f, 'w', encoding='utf-8').write(new)
    print(len(names), 'names')
    if '--list' in sys.argv:
        for o, n in sorted(names.items()):
            print(o, n)


main()
