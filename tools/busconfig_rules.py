"""One rule of dbus-daemon, given by its attributes, as a rule of our policy."""

import re

WELL_KNOWN = ("well-known name", re.compile(r"[A-Za-z_-][A-Za-z0-9_-]*(\.[A-Za-z_-][A-Za-z0-9_-]*)+"), 255)
INTERFACE = ("interface", re.compile(r"[A-Za-z_][A-Za-z0-9_]*(\.[A-Za-z_][A-Za-z0-9_]*)+"), 255)
MEMBER = ("member", re.compile(r"[A-Za-z_][A-Za-z0-9_]*"), 255)
PATH = ("path", re.compile(r"/|(/[A-Za-z0-9_]+)+"), float("inf"))

# The attributes that become literals, in the order of our text.
LITERALS = {
    "send": [("send_destination", "name", WELL_KNOWN), ("send_path", "path", PATH),
             ("send_interface", "interface", INTERFACE), ("send_member", "member", MEMBER)],
    "receive": [("receive_sender", "name", WELL_KNOWN), ("receive_path", "path", PATH),
                ("receive_interface", "interface", INTERFACE), ("receive_member", "member", MEMBER)],
}
TYPES = {"*": "any", "method_call": "call", "signal": "signal"}
REPLIES = ("method_return", "error")

# Which rule an attribute makes.
KINDS = {"own": "own", "own_prefix": "own", "user": "connect", "group": "connect", "eavesdrop": None}
KINDS.update({f"{side}_{rest}": side for side in LITERALS for rest in ("type", "requested_reply")})
KINDS.update({name: side for side, literals in LITERALS.items() for name, _, _ in literals})

UNSAID = {
    "send_destination_prefix": "our transaction rules have no prefixes",
    "send_error": "our rules know no error names",
    "receive_error": "our rules know no error names",
    "send_broadcast": "our rules do not tell a signal to everybody from one to a peer",
    "min_fds": "our rules do not count descriptors",
    "max_fds": "our rules do not count descriptors",
    "log": "our rules write no log",
}


class Refused(Exception):
    """What our form cannot say, or nobody can read, and why."""


def shown(text):
    """A text inside a line: nothing long or unprintable stands in it."""
    short = "".join(c if c.isprintable() else "\ufffd" for c in text[:200])
    return short + "..." if len(text) > 200 else short


def literal(key, form, value):
    what, pattern, most = form
    if not pattern.fullmatch(value) or len(value) > most:
        raise Refused(f'{key}="{shown(value)}" is no {what}')
    return value


def truth(attributes, key, usual):
    value = attributes.get(key)
    if value not in (None, "true", "false"):
        raise Refused(f"{key} is true or false, not {shown(value)}")
    return usual if value is None else value == "true"


def kind_of(attributes):
    """Whether the attributes make a connect, own, send or receive rule."""
    if not attributes:
        raise Refused("a rule has at least one attribute")
    reasons = [f"{name}: {UNSAID[name]}" for name in attributes if name in UNSAID]
    reasons += [f"there is no attribute {shown(name)}" for name in attributes if name not in {**UNSAID, **KINDS}]
    if reasons:
        raise Refused("; ".join(reasons))
    # An eavesdrop that stands alone makes a receive rule; beside others it belongs to them.
    kinds = {KINDS[name] for name in attributes} - {None} or {"receive"}
    if len(kinds) > 1 or kinds & {"own", "connect"} and len(attributes) > 1:
        raise Refused(f"{' and '.join(attributes)} cannot stand in one rule")
    return kinds.pop()


def connect_rule(start, context, attributes, ids):
    if context not in ("default", "mandatory"):
        raise Refused("who may connect is said in a policy of context default or mandatory only")
    (key, value), = attributes.items()
    if value == "*":
        return f"connect {start} any"
    return f"connect {start} {'uid' if key == 'user' else 'gid'} {ids.number(key, value)}"


def own_rule(start, attributes):
    (key, value), = attributes.items()
    if key == "own" and value == "*":
        return f"own {start} any"
    return f"own {start} {'name' if key == 'own' else 'prefix'} {literal(key, WELL_KNOWN, value)}"


def transaction_rule(start, allows, side, attributes):
    """The rule, unless it is one of replies, and what is to be said beside it."""
    eavesdrop = truth(attributes, "eavesdrop", False)
    # dbus-daemon's own default: an allow is about awaited replies, a deny about all others.
    awaited = truth(attributes, f"{side}_requested_reply", allows)
    message_type = attributes.get(f"{side}_type", "*")
    if message_type not in TYPES and message_type not in REPLIES:
        raise Refused(f"{side}_type: there is no message type {shown(message_type)}")
    if f"{side}_member" in attributes and not {f"{side}_interface", f"{side}_path"} & attributes.keys():
        raise Refused("dbus-daemon takes a member only beside an interface or a path")
    if eavesdrop and not allows:
        raise Refused("eavesdrop: nobody eavesdrops here, so there is nothing to deny")
    # The attribute means nothing in rules of calls or signals alone.
    if allows != awaited and message_type in ("*", *REPLIES):
        what = "drops every reply that is not awaited" if allows else "passes every reply that is awaited"
        raise Refused(f"{side}_requested_reply: the guard {what}, whatever a rule says")
    given = [(key, name, form, attributes[key]) for key, name, form in LITERALS[side] if key in attributes]
    texts = [f"{name}={literal(key, form, value)}" for key, name, form, value in given if value != "*"]
    if message_type in REPLIES:
        return None, [reply_note(allows, texts)]
    rule = " ".join([f"transaction {start} {side} {TYPES[message_type]}"] + texts)
    return rule, rule_notes(allows, eavesdrop, side, message_type, texts)


def reply_note(allows, texts):
    if not allows:
        return "denies replies that nobody awaits; the guard always drops those (rule 7.9)"
    if texts:
        raise Refused(f"the guard passes every reply that is awaited, not only those of {' '.join(texts)}")
    return "lets awaited replies pass, as the guard always does; it drops all others (rule 7.9)"


def rule_notes(allows, eavesdrop, side, message_type, texts):
    if eavesdrop:
        yield "eavesdrop is left out: nobody eavesdrops here, and replies that nobody awaits are dropped"
    if not allows and message_type == "*" and not texts:
        yield ("in dbus-daemon awaited replies stop here too, until a later rule lets them pass; "
               "the guard passes them (rule 7.9)")
    if side == "receive" and "name=org.freedesktop.DBus" in texts:
        yield "what the bus itself sends is the host's, so this rule never decides"
