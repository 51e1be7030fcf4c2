#!/usr/bin/env python3
"""Brings the text of must-fail edits to today's spelling, once, after port.py and tools/respell.py; prints those that still do not stand."""
import glob
import os
import re

WORDS = {
    'getD': 'get_or', 'getElem?': 'get_elem?', 'liveIn': 'live_in', 'stepOf': 'step_of', 'isLocal': 'is_local', 'placeOf': 'place_of',
    'pairAt': 'pair_at', 'startSet': 'start_set', 'bitOf': 'bit_of', 'edgeAt': 'edge_at', 'rowsOf': 'rows_of', 'rowsAt': 'rows_at',
    'endOf': 'end_of', 'stepsOf': 'steps_of', 'List·Memᴰ': 'Memᴰ', 'not-last': 'not_last', 'deskOf': 'desk_of', 'refusedBy': 'refused_by',
    'judgeOf': 'judge_of', 'none-above': 'none_above', 'at-own': 'at_own', 'not-live': 'not_live', 'too-many': 'too_many',
}
TOKEN = re.compile(r"(?<![A-Za-z0-9_'?₀-₉ᴰ·-])([A-Za-z][A-Za-z0-9_'?₀-₉ᴰ·-]*)")


def today(text):
    text = text.replace('′', "'")
    text = TOKEN.sub(lambda m: WORDS.get(m.group(1), m.group(1)), text)
    # projections are written tight
    text = re.sub(r"(?<=[A-Za-z0-9_')₀-₉]) \.(?=[A-Za-z0-9_])", '.', text)
    text = re.sub(r"\(([A-Za-z_][A-Za-z0-9_'₀-₉]*(?:\.[A-Za-z0-9_'₀-₉-]+)+)\)", r"\1", text)
    text = re.sub(r"·([a-z_]+)\.specs\.", r".specs.", text) if 'Rattle·' in text else text
    text = text.replace('Rattle·', 'Rattle.')
    text = re.sub(r"Rattle\.([a-z_]+)·specs\.specs", r"Rattle.\1.specs", text)
    return text


def main():
    for f in sorted(glob.glob('crates/*/must-fail/*.edit') + glob.glob('tests/edits/*/*.edit')):
        crate = 'crates/' + f.split('/')[1 if f.startswith('crates') else 2]
        lines = open(f, encoding='utf-8').read().split('\n')
        new, text = [], None
        for line in lines:
            if line.startswith('file: '):
                p = os.path.join(crate, line[6:].strip())
                text = open(p, encoding='utf-8').read() if os.path.exists(p) else ''
            if line.startswith('old: ') and text.count(line[5:]) != 1:
                line = 'old: ' + today(line[5:])
            elif line.startswith('new: '):
                if not line[5:].rstrip().endswith(('{', ';')) or ' .' in line:
                    line = 'new: ' + today(line[5:])
            if line.startswith('old: '):
                old = line[5:]
                if text.count(old) != 1:
                    print(f"{f} {text.count(old)} | {old}")
            elif line.startswith('new: ') and text.count(old) == 1:
                text = text.replace(old, line[5:])
            new.append(line)
        if new != lines:
            open(f, 'w', encoding='utf-8').write('\n'.join(new))


main()
