#!/usr/bin/env python3
"""Brings the definitions and lemmas of this repository to the spelling of today's kit, once, after the kit's own script: `powerOf` is `power_of`, and
`raised-step` is `raised_step`. Names of src/, names that a library has, and names that the kit makes of the source keep theirs, and a dash stays behind a
capital, as in `Fits-one`. Run at the top: `python3 tools/respell.py`. It prints what falls together, and does nothing a second time."""
import collections
import glob
import re

DECLARED = re.compile(r'^\s*(?:(?:unfoldable|abbrev|pub|record|data|ruleset)\s+)*([^\s(){}\[\];,.:]+)(?:\s*:|(?:\s*\([^)]*\))+\s*:|(?:\s*\{[^}]*\})+\s*:)')
WORD = re.compile(r"[^\s(){}\[\];,.·`\"]+")
USE = re.compile(r'^\s*(?:ghost )?use\s+([^\s;]+?)(?:\.\{([^}]*)\})?(?:\s+as\s+(\S+))?;?\s*$')
# Lemmas that the kit's script gave a name that now belongs to a definition.
SHADOWED = {
    'crates/text/proofs/Lengths.antt': {'digits_from': 'digits_from_lem'},
    'crates/dense/proofs/AsPrinted.antt': {'on_line': 'on_line_lem'},
}


def spelled(name):
    """A name as today's kit spells it."""
    if re.match(r'^[a-z].*[A-Z]', name) and name.isascii():
        name = re.sub(r'(?<=[a-z0-9])([A-Z]+)', lambda m: '_' + m.group(1), name)
        name = re.sub(r'([A-Z]+)([A-Z][a-z])', r'\1_\2', name).lower() if not re.search(r'-', name) else name.lower()
    if name.isascii() and re.match(r"^[a-z0-9][a-z0-9_'-]*$", name):
        name = name.replace('-', '_')
    return name


def own_crates():
    return {line.split(':')[0].split()[0] for line in open('crates.txt') if line.strip() and not line.startswith('#')}


def declared(files):
    names = set()
    for path in files:
        for line in open(path):
            found = DECLARED.match(line)
            if found and '--' not in found.group(1):
                names.add(found.group(1))
            found = USE.match(line)
            if found and found.group(3):
                names.add(found.group(3))
    return names


def lent(text, own):
    """The names that a file takes from a library."""
    names = set()
    for line in text.splitlines():
        found = USE.match(line)
        if not found:
            continue
        parts = found.group(1).split('.')
        if parts[0] == 'Rattle' and len(parts) > 1 and parts[1] in own:
            continue
        for name in (found.group(2) or '').split(','):
            for word in name.split(' as ')[:1]:
                names.add(word.strip())
    return names


def turned(text, renamed):
    return WORD.sub(lambda found: renamed.get(found.group(0), found.group(0)), text)


def clauses(text):
    """The parts of a source file that are antt: its ghost imports and what stands in the braces of its clauses."""
    for found in re.finditer(r'^ghost use [^\n]*$', text, re.M):
        yield found.start(), found.end()
    for found in re.finditer(r'\b(?:requires|ensures)\*?(?: \w+)? \{', text):
        depth, at = 1, found.end()
        while depth:
            depth += {'{': 1, '}': -1}.get(text[at], 0)
            at += 1
        yield found.end(), at - 1


def in_source(text, renamed):
    out, at = [], 0
    for start, end in sorted(clauses(text)):
        out += [text[at:start], turned(text[start:end], renamed)]
        at = end
    return ''.join(out + [text[at:]])


def main():
    own = own_crates()
    library = [p for p in glob.glob('crates/*/specs/**/*.antt', recursive=True) + glob.glob('crates/*/proofs/**/*.antt', recursive=True) if not p.endswith('/Proof.antt')]
    proofs = glob.glob('crates/*/proofs/**/Proof.antt', recursive=True)
    sources = glob.glob('crates/*/src/**/*.rt', recursive=True)
    names = declared(library)
    renamed = {old: spelled(old) for old in names if spelled(old) != old}
    # A lemma that would have the name of what it is about.
    taken = {renamed.get(old, old) for old in names if '-' not in old}
    renamed.update({old: new + '_lem' for old, new in renamed.items() if '-' in old and new in taken})
    for path in library + proofs + sources:
        text = open(path).read()
        here = {old: new for old, new in renamed.items() if old not in lent(text, own)}
        if any(old in text for old in here):
            here.update(SHADOWED.get(path, {}))
        words = set(WORD.findall(text))
        new = in_source(text, here) if path.endswith('.rt') else turned(text, here)
        origins = collections.defaultdict(set)
        for word in words:
            origins[here.get(word, word)].add(word)
        for name, olds in origins.items():
            if len(olds) > 1 and any(old in here for old in olds):
                print(f'{path}: {name} of {", ".join(sorted(olds))}')
        if new != text:
            open(path, 'w').write(new)


if __name__ == '__main__':
    main()
