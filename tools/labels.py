"""How an event, a step, a node and a policy are written in pictures: the same everywhere, in the form of the outlines that are typed as
expressions, with names in the place of numbers."""

from sheets import BACK, CLOSE, CREATE, EITHER, END, EVENT, FRESH, LOOP, NAMED, ON_OTHERS, ON_STATIC, ON_X, ON_Y, RETIRE, SANDBOX
from sheets import STATIC, STATICS, THEN


def action_label(names, action):
    return names.words.get(("action", action)) or ("create" if action == CREATE else str(action))


def resource_label(names, resource):
    return names.get("resource", resource) or (f"s{resource}" if resource < STATICS else str(resource))


def policy_label(names, policy):
    name = names.get("policy", policy)
    return f"policy {policy}: {name}" if name else f"policy {policy}"


def event_label(names, action, resource):
    return f"{action_label(names, action)}({resource})"


def edge_label(names, edge, pair=False):
    """The event that an edge is about; other resources than x are written ¬x, other than x and y ¬x¬y."""
    _, _, action, on, who, _ = edge
    seen = {ON_X: "x", ON_Y: "y", ON_OTHERS: "¬x¬y" if pair else "¬x"}
    return event_label(names, action, resource_label(names, who) if on == ON_STATIC else seen[on])


def step_label(names, step):
    kind, a, b = step
    if kind == EVENT:
        return event_label(names, a, resource_label(names, b))
    if kind == RETIRE:
        return f"retire {resource_label(names, a)}"
    return ("close " if kind == CLOSE else "open ") + (names.get("policy", a) or f"policy {a}")


def node_label(names, node):
    _, kind, a, b = node
    return {
        END: "end",
        STATIC: event_label(names, a, resource_label(names, b)),
        NAMED: event_label(names, a, f"n{b}"),
        THEN: ";",
        EITHER: "either",
        LOOP: "loop",
        BACK: f"back to {a}",
        FRESH: f"fresh n{a}",
        SANDBOX: f"sandbox {names.get('policy', a) or a}",
    }[kind]
