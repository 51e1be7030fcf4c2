"""The refusals of a step, each with its reason in words, for tools/explain. They are derived from the steps above it alone."""

import sheets
from sheets import CLOSE, CREATE, EVENT, MOST_LIVE, MOST_UNCLOSED, OPEN, POLICIES, RETIRE, STATICS


def halted(run, step):
    return run.halted and [f"since {run.at(run.halted)}"]


def out_of_range(run, step):
    ranges = sheets.STEP_FIELDS.get(step[0])
    inside = ranges and all(least <= value <= most for value, (_, least, most) in zip(step[1:], ranges))
    return None if inside else ["  a value is outside its field's range"]


def is_create(step):
    return step[0] == EVENT and step[1] == CREATE


def create_static(run, step):
    return is_create(step) and step[2] < STATICS and [f"  resource {step[2]} is static (0 to {STATICS - 1}) and always there"]


def create_not_above(run, step):
    created, retired = run.past.created, run.past.retired
    highest = max(created, default=None)
    if not is_create(step) or highest is None or step[2] > highest:
        return None
    told = f"  the highest resource created so far is {highest}, at {run.at(created[highest])}; only one above it can be created here"
    if step[2] not in created:
        return [told]
    gone = f", and retired at {run.at(retired[step[2]])}" if step[2] in retired else ""
    return [f"  resource {step[2]} was created at {run.at(created[step[2]])}{gone}"] + ([told] if step[2] != highest else [])


def why_not_live(run, resource):
    """Why a dynamic resource can't be used or retired; none where it can."""
    created, retired = run.past.created, run.past.retired
    if resource in retired:
        return [f"  resource {resource} was retired at {run.at(retired[resource])}", *run.quoted(retired[resource], 4)]
    if resource in created:
        return None
    tried = [line for line, (row, _) in run.refused.items() if is_create(row) and row[2] == resource]
    if tried:
        return [f"  the create of resource {resource} at {run.at(tried[-1])} was refused, with {run.refused[tried[-1]][1]}"]
    return [f"  resource {resource} is dynamic ({STATICS} and up), and no line above creates it"]


def retire_not_live(run, step):
    kind, resource, _ = step
    if kind != RETIRE:
        return None
    if resource < STATICS:
        return [f"  resource {resource} is static (0 to {STATICS - 1}) and always there"]
    return why_not_live(run, resource)


def event_not_live(run, step):
    kind, action, resource = step
    if kind != EVENT or action == CREATE or resource < STATICS:
        return None
    return why_not_live(run, resource)


def not_open(run, step):
    kind, policy, _ = step
    if kind != CLOSE or run.past.openings(policy):
        return None
    opened, closed = run.past.counts[policy]
    return [f"  policy {policy} is not open: {sheets.counted(opened, 'opening')} and {sheets.counted(closed, 'closing')} above"]


def not_newest(run, step):
    kind, policy, _ = step
    if kind != CLOSE or run.past.unclosed[-1][0] == policy:
        return None
    opened, (newest, line) = run.past.openings(policy)[-1], run.past.unclosed[-1]
    return [
        f"  policy {policy} was opened at {run.at(opened)}",
        *run.quoted(opened, 4),
        f"  the newest unclosed opening is that of policy {newest} at {run.at(line)}; only policy {newest} can be closed here",
        *run.quoted(line, 4),
    ]


def too_many_live(run, step):
    if not is_create(step) or len(run.past.live()) < MOST_LIVE:
        return None
    retired = len(run.past.retired)
    more = f" ({retired} more {'is' if retired == 1 else 'are'} retired)" if retired else ""
    return [f"  {MOST_LIVE} dynamic resources are created above and not retired{more}"]


def too_many_openings(run, step):
    unclosed = run.past.unclosed
    if step[0] != OPEN or len(unclosed) < MOST_UNCLOSED:
        return None
    each = [(len(run.past.openings(policy)), policy) for policy in range(POLICIES)]
    told = sheets.listed([f"{count} of policy {policy}" for count, policy in each if count])
    return [
        f"  {len(unclosed)} openings are not closed ({told}): the oldest at {run.at(unclosed[0][1])}, the newest at {run.at(unclosed[-1][1])}",
    ]


# the refusals of a step, in the order in which they are looked at: the number, and the lines of the reason where it is its case
STEP_REFUSALS = [
    (20, halted),
    (21, out_of_range),
    (22, create_static),
    (27, create_not_above),
    (28, retire_not_live),
    (24, event_not_live),
    (25, not_open),
    (26, not_newest),
    (30, too_many_live),
    (32, too_many_openings),
]


def refusal(run, step):
    """The number with which a step is refused, and why; none where it is judged."""
    for number, case in STEP_REFUSALS:
        why = case(run, step)
        if why:
            return number, why
    return None
