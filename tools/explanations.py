"""The words for what the monitor and the checker printed, for tools/explain.

They are derived from the sheets alone. Where that does not lead to what was printed there are no words, but a `Differs`.
"""

import sheets
from folders import ALLOWED, REFUSED, VIOLATED, Differs, meaning, read_sheets, same, sheet_refused
from names import broken_by, edge_words, node_words, step_words
from refusals import refusal
from sheets import OFFENDING
from violations import Run, violated


def step_refused(run, line, step, number, why):
    """A refused step. A number is told in full once, and then in a line; of those after a violation none but the first is told."""
    entry = meaning(number)
    first = number not in run.told
    run.told.add(number)
    if number == 20:
        last = len(run.steps) + 1
        lines = f"lines {line} to {last}" if line < last else f"line {line}"
        return [f"{run.folder.trace_name}, {lines}: not judged, 20: {entry.meaning}, {why[0]}"] if first else []
    if not first:
        # the reason without the lines that it quotes
        return [f"{run.at(line)}: refused, {number}: " + "; ".join(words.strip() for words in why if not words.startswith("   "))]
    words = "" if number == 21 else step_words(run.names, step)
    quoted = run.folder.quote(sheets.TRACE_SHEET, line, words)
    return [f"{run.at(line)}: refused, {number}: {entry.meaning}"] + quoted + why + [
        "  the step is no part of the past, and the run goes on",
        f"  usually mended so: {entry.mended}",
    ]


def judged(run, line, step, row):
    """The words for one printed line, after it was held to what the sheets lead to. The run is followed along."""
    refused = refusal(run, step)
    if refused:
        same((line, REFUSED, refused[0]), row, run.at(line))
        run.refused[line] = (step, refused[0])
        return step_refused(run, line, step, *refused)
    run.past.take(line, step)
    broken = run.past.broken()
    same((line, VIOLATED, broken[0]) if broken else (line, ALLOWED, 0), row, run.at(line))
    if not broken:
        return []
    run.halted = line
    return violated(run, line, step, broken[0])


def whole_sheets_refused(folder, kind, rows):
    """The policies and the rows of the other sheet; or none and the words, where one is refused."""
    tables, refused = read_sheets(folder, kind)
    if tables:
        return tables, None
    kind, why = refused
    same((why.line, kind.answer, why.number), rows[0] if len(rows) == 1 else None, kind.file)
    if kind in folder.refused:
        return None, [(rows[0], [f"{kind.file}: refused, {why.number}, as above"])]
    folder.refused.add(kind)
    return None, [(rows[0], sheet_refused(folder, kind, why))]


def followed(run, rows):
    """Each step of a run as it was judged: (line, step, row, words), with the run's past up to it."""
    if len(rows) != len(run.steps):
        raise Differs(f"{run.folder.trace_name} has {len(run.steps)} steps, but {len(rows)} lines were printed")
    for line, (step, row) in enumerate(zip(run.steps, rows), 2):
        yield line, step, row, judged(run, line, step, row)


def explain_monitor(folder, rows):
    tables, told = whole_sheets_refused(folder, sheets.TRACE_SHEET, rows)
    if told:
        return told
    return [(row, words) for _, _, row, words in followed(Run(folder, *tables), rows)]


def explain_check(folder, rows):
    tables, told = whole_sheets_refused(folder, sheets.OUTLINE_SHEET, rows)
    if told:
        return told
    policies, nodes = tables
    if len(rows) != 1 or rows[0][:2] not in ((0, ALLOWED), (0, VIOLATED)):
        raise Differs(f"{sheets.OUTLINE_SHEET.file} is no refused sheet, but {rows[0] if rows else 'nothing'} was printed")
    if rows[0][1] == ALLOWED:
        same((0, ALLOWED, 0), rows[0], sheets.OUTLINE_SHEET.file)
        return [(rows[0], [])]
    return [(rows[0], outline_refused(folder, policies, nodes, rows[0][2]))]


def explain_nodes(folder, rows):
    """A refused expression by itself, with no policies."""
    why = folder.typed.refused if folder.typed else None
    if why is None:
        raise Differs("the expression is refused, but no rule of it is broken")
    same((why.line, sheets.OUTLINE_SHEET.answer, why.number), rows[0] if len(rows) == 1 else None, sheets.OUTLINE_SHEET.file)
    return [(rows[0], sheet_refused(folder, sheets.OUTLINE_SHEET, why))]


def explain_policies(folder, rows):
    """The policies alone: the checker was given them with an outline of one node, an end."""
    folder.data[sheets.OUTLINE_SHEET] = b"node kind a b\n0 0 0 0\n"
    return explain_check(folder, rows)


def outline_refused(folder, policies, nodes, policy):
    told = folder.names.tell("policy", policy)
    first = [f"{sheets.OUTLINE_SHEET.file}: refused: some run leaves {told} open and broken"]
    if folder.marks is not None:
        first.append(f"  {broken_by(folder.names, folder.marks, policy)}")
    return [*first, *opened_words(folder, policies, nodes, policy), "  ./wiforekun why FOLDER shows a shortest run that does"]


def opened_words(folder, policies, nodes, policy):
    """A policy that some run breaks while it is open: where it is opened, and which edges lead to an offending state."""
    edges, pairs = policies.edges, sheets.pair_policies(policies.edges)
    told = folder.names.tell("policy", policy)
    opened = [place for place, node in enumerate(nodes) if node[1] == sheets.SANDBOX and node[2] == policy]
    into = [line for line, edge in enumerate(edges, 2) if edge[0] == policy and edge[5] in OFFENDING]
    if not opened or not into:
        raise Differs(f"policy {policy} was printed, but it has no sandbox or no edge to an offending state")
    out = [f"  {told} is opened by"]
    for place in opened:
        out += folder.quote(sheets.OUTLINE_SHEET, place + 2, node_words(folder.names, nodes[place]), 4)
    if policies.local:
        out.append("  the sheet is local: where it is opened and is not open, all its instances go back to state 0")
    out.append("  and these edges lead to an offending state of it (policies.txt)")
    for line in into:
        out += folder.quote(sheets.POLICY_SHEET, line, edge_words(folder.names, edges[line - 2], pairs), 4)
    return out
