"""What came of it, in a line for each sheet; which sheets are not there; and what is worth a look though nothing is wrong with it.

The verdicts are those of the programs, in words. A note changes none of them: a policy that can't be broken, or that nothing opens, is
respected for want of anything to watch (model checkers call such a pass vacuous).
"""

import os

import sheets
from folders import ALLOWED, REFUSED, VIOLATED
from sheets import OFFENDING, OPEN, OUTLINE_SHEET, POLICY_SHEET, SANDBOX, TRACE_SHEET

HALTED = 20


def refused_sheet(rows):
    """The sheet that a printed line says is refused; none where it is none."""
    return next((kind for kind in sheets.SHEETS for row in rows[:1] if row[1] == kind.answer), None)


def sheet_words(kind, row, after):
    place = f" at line {row[0]}" if row[0] else ""
    return f"{kind.file}: refused{place}, with {row[2]}; {after}."


def trace_words(folder, rows):
    """The verdict on a trace that was judged."""
    violated = [row for row in rows if row[1] == VIOLATED]
    refused = [row for row in rows if row[1] == REFUSED and row[2] != HALTED]
    halted = sum(row[1:] == (REFUSED, HALTED) for row in rows)
    out = f"{folder.trace_name}: "
    if violated:
        out += f"violated at line {violated[0][0]}, {folder.names.tell('policy', violated[0][2])}."
    elif refused:
        out += f"{sheets.counted(len(rows), 'step')}, none violated."
    else:
        out += f"{sheets.counted(len(rows), 'step')}, all allowed." if rows else "no steps."
    if refused:
        first = "the first at" if len(refused) > 1 else "at"
        out += f" {sheets.counted(len(refused), 'step')} refused, {first} line {refused[0][0]} with {refused[0][2]}."
    if halted:
        out += f" {sheets.counted(halted, 'step')} after it not judged."
    return out


def outline_words(folder, row):
    """The verdict on an outline that was checked."""
    if row[1] == ALLOWED:
        return f"{OUTLINE_SHEET.file}: accepted."
    return f"{OUTLINE_SHEET.file}: refused: some run breaks {folder.names.tell('policy', row[2])}."


def verdicts(folder, told):
    """A line for each sheet that was looked at, by the sheet. `told` has the printed rows by the program's word: monitor, check or
    policies."""
    rows = next(iter(told.values()), [])
    if refused_sheet(rows) is POLICY_SHEET:
        return {POLICY_SHEET: sheet_words(POLICY_SHEET, rows[0], "nothing was judged or checked")}
    out = {}
    if "policies" in told:
        edges = sheets.Policies(folder.data[POLICY_SHEET]).edges
        out[POLICY_SHEET] = f"policies.txt: {sheets.counted(len(edges), 'edge')}, well written."
    for word, kind, after in (("monitor", TRACE_SHEET, "nothing was judged"), ("check", OUTLINE_SHEET, "it was not checked")):
        rows = told.get(word)
        if rows is None:
            continue
        if refused_sheet(rows):
            out[kind] = sheet_words(kind, rows[0], after)
        else:
            out[kind] = trace_words(folder, rows) if kind is TRACE_SHEET else outline_words(folder, rows[0])
    return out


def absent(folder):
    """A line for each sheet that is not there, by the sheet; also for one that is there by another name."""
    try:
        there = sorted(os.listdir(folder.path))
    except OSError:
        there = []
    out = {}
    for kind in sheets.SHEETS:
        path = os.path.join(folder.path, kind.file)
        if os.path.exists(path):
            continue
        like = [name for name in there if name.lower() in (kind.file, kind.file + ".txt") and name != kind.file]
        if os.path.islink(path):
            out[kind] = f"{kind.file}: a link to a file that is not there."
        elif like:
            out[kind] = f"{kind.file}: not there, but {like[0]} is: a sheet is read by its exact name."
        else:
            out[kind] = f"{kind.file}: not there."
    return out


def ending(folder, told, whole):
    """The lines at the end: what is worth a look, and then one for each sheet; with `whole` also for those that are not there."""
    kinds = [kind for word, kind in (("monitor", TRACE_SHEET), ("check", OUTLINE_SHEET)) if word in told]
    each = {**(absent(folder) if whole else {}), **verdicts(folder, told)}
    return [f"worth a look: {note}" for note in notes(folder, kinds)] + [each[kind] for kind in sheets.SHEETS if kind in each]


# ---- worth a look


def rows_of(folder, kind):
    """The rows of a sheet; none where it is not there or refused."""
    try:
        return sheets.read_sheet(kind, folder.data[kind])[1] if folder.data[kind] else None
    except sheets.Refused:
        return None


def reached(edges):
    """The states that edges lead to from state 0."""
    found, more = {0}, True
    while more:
        new = {edge[5] for edge in edges if edge[1] in found} - found
        found |= new
        more = bool(new)
    return found


def notes(folder, kinds):
    """What is worth a look in the policies and in those of the other sheets that were looked at."""
    policies = rows_of(folder, POLICY_SHEET)
    if policies is None:
        return []
    edges = {}
    for edge in policies:
        edges.setdefault(edge[0], []).append(edge)
    tell, found = folder.names.tell, []
    for kind in kinds:
        rows = rows_of(folder, kind)
        if rows is None:
            continue
        what = folder.trace_name if kind is TRACE_SHEET else kind.file
        opened = {row[1] for row in rows if row[0] == OPEN} if kind is TRACE_SHEET else {row[2] for row in rows if row[1] == SANDBOX}
        if not opened:
            found.append(f"{what} opens no policy, so it can break none")
        idle = sorted(opened - edges.keys())
        found += [f"{what} opens {tell('policy', policy)}, which has no edge and can't be broken" for policy in idle]
    for policy in sorted(edges):
        if not reached(edges[policy]) & set(OFFENDING):
            found.append(f"{tell('policy', policy)} has no way from state 0 to an offending state (6 or 7), and can't be broken")
    return found
