#!/usr/bin/env python3
"""Brings the repository's own definitions and lemmas to today's spelling, once, after port.py: words in snake case, types in camel case.

Functions of src/, exported C names, strings, inputs and outputs keep their names. Two names that would fall together in one file are told
apart by KEEP, or the lemma or the specification's word gets `_lem`. Run at the top of the repository.
"""
import collections
import glob
import re
import sys

WORD = r"[A-Za-z0-9_'?₀-₉₊-₎Α-ωµ⁺₀ᴰ·-]"
TOKEN = re.compile(r"(?<![A-Za-z0-9_'?₀-₉Α-ωᴰ·-])([A-Za-zΑ-ω]" + WORD + r"*)")
DECLARED = re.compile(
    r"^\s*(?:(?:abbrev|unfoldable)\s+)?(?:pub\s+)?(data |record )?([A-Za-zΑ-ω]" + WORD + r"*)\s*(?:[({].*)?:(?:\s|$)")

# Names that would fall together, or that the rule would spell badly.
CHOSEN = {
    'fewPairs': 'has_few_pairs',
    'edgeTable': 'is_edge_table',
    'nodeTable': 'is_node_table',
    'onStatic': 'is_on_static',
    'in-turn': 'is_in_turn',
    'in-range': 'in_range',
    'isLoop': 'is_loop_form',
    'None-of': 'NoneOf',
    'Low-step': 'LowStep',
    'Holds-steps': 'HoldsSteps',
    'All-readable': 'AllReadable',
    'Goes_on': 'GoesOn',
    'Within-law': 'WithinLaw',
    'After-law': 'AfterLaw',
    'At-line': 'AtLine',
    'In-line': 'InLine',
    'Of-rows': 'OfRows',
    'Rows-below': 'RowsBelow',
    'Line-ok': 'LineOk',
    'Nearer-wf': 'Nearer-wf',
    'first-named': 'first_named_law',
    'second-named': 'second_named_law',
    'on-static': 'static_event',
    'on-name': 'named_event',
    'is-refused': 'is_refused_with',
    'edge-table': 'edges_table',
    'node-table': 'nodes_table',
}


def snake(name):
    def part(p):
        if not re.match(r"[a-zα-ω]", p):
            return p
        return re.sub(r"(?<=[a-z0-9₀-₉])([A-Z])", lambda m: '_' + m.group(1).lower(), p)
    return '-'.join(part(p) for p in name.split('-'))


def files():
    of = lambda *ps: sorted(f for p in ps for f in glob.glob(p, recursive=True) if '/out/' not in f)
    return (of('crates/*/specs/**/*.antt', 'crates/*/proofs/**/*.antt'), of('crates/*/src/**/*.rt'), of('crates/*/must-fail/*.edit'),
            of('tests/edits/**/*.edit', 'README.md', 'docs/*.md', 'docs/landings/*.md'))


def is_lemma_file(f):
    return re.match(r'crates/[^/]+/proofs/', f) is not None


def declared(texts):
    where = collections.defaultdict(set)
    for f, text in texts.items():
        for line in text.split('\n'):
            if line.startswith(('use ', 'mod ', 'pub mod', '--')):
                continue
            m = DECLARED.match(line)
            if m:
                where[m.group(2)].add(f)
    return where


def without_strings(text):
    return re.sub(r'"(?:[^"\\\n]|\\.)*"', '""', text)


def main():
    antt, rt, edits, texts = files()
    read = lambda fs: {f: open(f, encoding='utf-8').read() for f in fs}
    proofs, code = read(antt), read(rt)
    where = declared(proofs)
    by_file = {f: set(TOKEN.findall(t)) for f, t in proofs.items()}
    by_file.update({f: set(TOKEN.findall(without_strings(t))) for f, t in code.items()})
    of_token = collections.defaultdict(set)
    for f, ts in by_file.items():
        for t in ts:
            of_token[t].add(f)

    rust = set()
    for t in code.values():
        t = re.sub(r'//[^\n]*', '', without_strings(t))
        rust |= set(re.findall(r'\b(?:fn|let|mut|mod|const|for|struct|enum)\s+([A-Za-z_]\w*)', t))
        rust |= set(re.findall(r'\b([a-z_]\w*)\s*:\s*[&A-Za-z\[]', t))

    names = {}
    for name, fs in where.items():
        in_specs = any('/specs/' in f for f in fs)
        new = CHOSEN.get(name) or snake(name)
        if name not in CHOSEN and in_specs and not re.match('[A-ZΑ-Ω]', name):
            new = new.replace('-', '_')
        if new != name:
            names[name] = new
    # an alias with a middle dot
    for f, ts in by_file.items():
        for t in ts:
            if '·' in t:
                a, b = t.split('·', 1)
                names[t] = snake(a[0].lower() + a[1:]) + '_' + snake(b)

    taken = set(of_token)
    fall = collections.defaultdict(list)
    for a, b in names.items():
        fall[b].append(a)
    said = []
    only_lemma = lambda x: bool(where.get(x)) and all(is_lemma_file(f) for f in where[x])
    for new, olds in sorted(fall.items()):
        rivals = sorted(olds) + ([new] if new in taken and new not in names else [])
        if len(rivals) < 2:
            continue
        # what keeps the plain name: a name of src/, then a name of specs/, then a lemma's
        in_code = lambda x: x in rust
        rivals.sort(key=lambda x: (not in_code(x), only_lemma(x), x not in CHOSEN, x != new))
        given = {}
        for x in rivals:
            for name in (new, new + '_lem', new + '_law'):
                if name != new and (name in taken or name in names.values()):
                    continue
                if all(g != name or not of_token[x] & of_token[y] for y, g in given.items()):
                    break
            else:
                sys.exit(f'respell: no name for {x}')
            given[x] = name
            if name != new:
                said.append(f"respell: {x} -> {name}, for {new} is {[y for y in given if given[y] == new]}")
            if name != x and x in rust:
                sys.exit(f'respell: {x} is a name of src/')
            if name != x:
                names[x] = name
    for s in said:
        print(s)

    def respelled(text):
        return TOKEN.sub(lambda m: names.get(m.group(1), m.group(1)), text)

    def respelled_code(text):
        out, last = [], 0
        for m in re.finditer(r'"(?:[^"\\\n]|\\.)*"', text):
            out.append(respelled(text[last:m.start()]))
            out.append(m.group(0))
            last = m.end()
        out.append(respelled(text[last:]))
        return ''.join(out)

    changed = 0
    for f in antt + rt + edits + texts:
        old = open(f, encoding='utf-8').read()
        if f.endswith('.antt'):
            new = respelled(old)
        elif f.endswith('.md'):
            new = re.sub(r'`[^`\n]*`', lambda m: m.group(0) if '/' in m.group(0) else respelled(m.group(0)), old)
        else:
            new = respelled_code(old)
        if new != old:
            changed += 1
            open(f, 'w', encoding='utf-8').write(new)
    print(f"respell: {len(names)} names, {changed} files")
    if '--names' in sys.argv:
        for a, b in sorted(names.items()):
            print(a, b)


main()
