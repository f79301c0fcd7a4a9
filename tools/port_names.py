#!/usr/bin/env python3
"""Brings this repository's own definitions and lemmas to the spelling of today's Rattle: words in snake case.

Run once, at the top, right after the toolchain's port.py, before any edit by hand (docs/PORT.md). It goes by text:
 - it lists what specs/ and proofs/*.antt define (functions, lemmas, fields, constructors; not what a function's folder
   of proofs/ defines, nor what Rattle makes), and gives each a name in snake case: lookFrom -> look_from, root-passes -> root_passes;
 - where a definition and a lemma would fall together, the lemma gets _lem behind its name (accepted-network -> accepted_network_lem);
 - it writes the new names into .antt files, into the ghost parts of .rt files and into the pages, there within backticks alone.
Functions of src/, exported C names, strings, inputs, outputs, types and modules keep their names. How the must-fail edits were turned stands in docs/PORT.md.
"""
import os, re, sys, collections, json

ROOT = 'crates'
IDENT = r"[^\s:{}()\[\];,.λ→`\"]+"
SIG = re.compile(r'^(\s*)((?:(?:abbrev|unfoldable|pub|syntax)\s+)*)(' + IDENT + r') :(?=\s)')
FIELDS = re.compile(r'^\s+(?:pub )?((?:' + IDENT + r' )*' + IDENT + r') :(?=\s)')
# chosen by hand: what would fall together with a name of the library, or read badly
CHOSEN = json.load(open(os.path.join(os.path.dirname(os.path.realpath(__file__)), 'port_names.json')))


def walk(ending, top=ROOT):
    for d, ds, fs in os.walk(top):
        ds[:] = sorted(x for x in ds if x not in ('out', '.git', 'target'))
        for f in sorted(fs):
            if f.endswith(ending):
                yield os.path.join(d, f)


def own_folder(p):
    """Is it a file of a function's proof: proofs/F/.."""
    return '/proofs/' in p and '/' in p.split('/proofs/', 1)[1]


def snake(n):
    n = re.sub(r'·open$', '_open', n)
    n = re.sub(r'(?<=[a-z0-9])([A-Z])(?=[a-z0-9_\-\']|$)', lambda m: '_' + m.group(1).lower(), n)
    n = re.sub(r"(?<=[\w'])-(?=\w)", '_', n)
    if re.match(r'^[A-Z][a-z]', n) and n.endswith('_open'):
        n = n[0].lower() + n[1:]
    return n


def defined():
    """name -> where it is defined"""
    found = collections.defaultdict(set)
    for p in walk('.antt'):
        if own_folder(p):
            continue
        block = None
        for line in open(p, encoding='utf-8'):
            if line.lstrip().startswith('--'):
                continue
            if re.match(r'^\s*(pub )?(data|record) ', line):
                block = len(line) - len(line.lstrip())
                m = re.match(r'^\s*(?:pub )?(?:data|record) (' + IDENT + ')', line)
                continue
            if block is not None and line.strip() and len(line) - len(line.lstrip()) <= block:
                block = None
            if block is not None:
                m = FIELDS.match(line)
                if m:
                    for n in m.group(1).split():
                        found[n].add(p)
                continue
            m = SIG.match(line)
            if m:
                found[m.group(3)].add(p)
    return found


def wants(n):
    if n in CHOSEN:
        return True
    if n.endswith('·open'):
        return True
    if re.match(r'^[A-Z][a-z]', n):  # a fact or a type keeps its capital
        return False
    return bool(re.search(r"[A-Za-z0-9_'\]]-[A-Za-z]", n) or re.search(r'^[a-z0-9][a-z0-9]*[A-Z]', n) or re.search(r"[a-z]-\d", n))


def plan():
    found = defined()
    new = {}
    for n in found:
        if wants(n):
            new[n] = CHOSEN.get(n, snake(n))
    # which fall together
    by = collections.defaultdict(list)
    for n in found:
        by[new.get(n, n)].append(n)
    for to, ns in by.items():
        if len(ns) > 1:
            for n in ns:
                if '-' in n and n not in CHOSEN:
                    new[n] = to + '_lem'
    return {a: b for a, b in new.items() if a != b}, found


WORD = re.compile(r"[^\s(){}\[\];,.\"λ`]+")
USE = re.compile(r'^\s*(?:pub )?(?:ghost )?use ([^\s{}]+?)(?:\.\{([^}]*)\})?(?: as (\S+?))?;?$')


def turned(text, new, ok=lambda t, before: True):
    """The names of a piece of code, turned."""
    return WORD.sub(lambda m: new[m.group(0)] if m.group(0) in new and ok(m.group(0), text[:m.start()]) else m.group(0), text)


def quoted(text, new):
    """The names of a text: within backticks, and those that are no words of any language."""
    text = re.sub(r'`[^`\n]*`', lambda m: turned(m.group(0), new), text)
    return WORD.sub(lambda m: new[m.group(0)] if m.group(0) in new and re.search('[a-z][A-Z]', m.group(0)) else m.group(0), text)


def imports(text):
    """The names that a file takes one by one, of this repository and of others, and its names for modules."""
    own, others, aliases = set(), set(), set()
    for line in text.split('\n'):
        m = USE.match(line)
        if not m:
            continue
        ours = re.match(r'Rattle\.(\w+)\.', m.group(1)) and os.path.isdir(os.path.join(ROOT, m.group(1).split('.')[1]))
        for n in (m.group(2) or '').split(','):
            n = n.strip()
            if n:
                (own if ours else others).add(n.split(' as ')[0])
                if ' as ' in n:
                    others.add(n.split(' as ')[1])
        if ours and m.group(3):
            aliases.add(m.group(3))
    return own, others, aliases


def antt(p, text, new, fields):
    own, others, aliases = imports(text)
    out = []
    if own_folder(p):
        here = {m.group(3) for m in (SIG.match(l) for l in text.split('\n')) if m}
        ok = lambda t, before: t not in here and (t in own or (before.endswith('.') and (t in fields or re.search(r'[\w\'-]+$', before[:-1]) and re.search(r"[\w'-]+$", before[:-1]).group(0) in aliases)))
    else:
        ok = lambda t, before: True
    for line in text.split('\n'):
        code, dash, note = line.partition('-- ') if re.search(r'(^|\s)-- ', line) else (line, '', '')
        out.append(turned(code, new, ok) + dash + quoted(note, new))
    text = '\n'.join(out)
    clash = {new[n] for n in new if n in own} & others
    if not own_folder(p):
        clash |= {new[m.group(3)] for m in (SIG.match(l) for l in text.split('\n')) if m and m.group(3) in new} & others
    return text, clash


def rust(text, new):
    out = []
    clause = False
    for line in text.split('\n'):
        code, dash, note = line.partition('//') if re.search(r'(^|\s)//', line) else (line, '', '')
        head = code.strip()
        if re.match(r'(ghost|requires|ensures|invariant)\b', head):
            clause = True
        elif head in ('{', '') or head.endswith(' {') and not clause:
            clause = False
        if clause:
            code = turned(code, new)
            if code.rstrip().endswith((';', '}')):
                clause = False
        out.append(code + dash + quoted(note, new))
    return '\n'.join(out)


def main():
    new, found = plan()
    if '--list' in sys.argv:
        for a in sorted(new):
            print(a, new[a], len(found[a]), sorted(found[a])[0])
        return
    fields = {n for n in new if any('/specs/' in p for p in found[n])}
    for p in walk('.antt'):
        old = open(p, encoding='utf-8').read()
        text, clash = antt(p, old, new, fields)
        if clash:
            print('falls together with a name of the library:', p, sorted(clash))
        if text != old:
            open(p, 'w', encoding='utf-8').write(text)
    for p in walk('.rt'):
        old = open(p, encoding='utf-8').read()
        text = rust(old, new)
        if text != old:
            open(p, 'w', encoding='utf-8').write(text)
    for top in ('docs',):
        for p in list(walk('.md', top)) + ['README.md']:
            old = open(p, encoding='utf-8').read()
            text = re.sub(r'`[^`\n]*`', lambda m: turned(m.group(0), new), old)
            if text != old:
                open(p, 'w', encoding='utf-8').write(text)


if __name__ == '__main__':
    main()
