"""The rules of a policy (oslo.policy, narrowed): their grammar, and what they allow."""

import re
import sys

from second_reading.words import OpeningRefused

# A chain of rules may be as long as there are rules.
sys.setrecursionlimit(20000)


# --- The rules of a policy (oslo.policy, narrowed) ---

PARTY = "rule:admin_required or rule:trust_party"
OWNER = "rule:admin_or_owner"
SUBJECT = "rule:admin_required or rule:service_role or rule:token_subject"
DEFAULT_RULES = {
    "admin_or_owner": "rule:admin_required or rule:owner",
    "admin_required": "role:admin",
    "default": "rule:admin_required",
    "identity:check_token": SUBJECT,
    "identity:validate_token": SUBJECT,
    "identity:check_user_in_group": OWNER,
    "identity:get_user": OWNER,
    "identity:list_groups_for_user": OWNER, "identity:list_user_projects": OWNER,
    "identity:create_application_credential": "rule:owner",
    "identity:delete_application_credential": OWNER,
    "identity:get_application_credential": OWNER,
    "identity:list_application_credentials": OWNER,
    "identity:create_trust": "@",
    "identity:delete_trust": "rule:admin_required or user_id:%(target.trust.trustor_user_id)s",
    "identity:get_domain": "rule:admin_required or user_domain_id:%(target.domain.id)s",
    "identity:get_project": "rule:admin_required or project_id:%(target.project.id)s",
    "identity:get_region": "@",
    "identity:get_trust": PARTY,
    "identity:list_trusts": PARTY,
    "identity:list_roles_for_trust": PARTY,
    "identity:list_regions": "@",
    "identity:list_revoke_events": "rule:admin_required or rule:service_role",
    "identity:revoke_token": "rule:admin_required or rule:token_subject",
    "owner": "user_id:%(user_id)s",
    "service_role": "role:service",
    "token_subject": "user_id:%(target.token.user_id)s",
    "trust_party": "user_id:%(target.trust.trustor_user_id)s or user_id:%(target.trust.trustee_user_id)s",
}
FILLED = re.compile(r"%\(([^)]+)\)s")
ALWAYS, NEVER = ("always",), ("never",)


class NoRule(Exception):
    """A text is no rule."""


def rule_tokens(text):
    """Words between white space, of which leading and trailing parentheses are tokens of their own."""
    tokens = []
    for word in re.split("[ \t\r\n]+", text):
        inner = word.lstrip("(")
        tokens += ["("] * (len(word) - len(inner))
        check = inner.rstrip(")")
        tokens += ([check] if check else []) + [")"] * (len(inner) - len(check))
    return tokens


def is_quoted(text):
    """A text begins and ends with the same quote."""
    return len(text) >= 2 and text[0] == text[-1] and text[0] in "'\""


def check_tree(token):
    """The tree of a check."""
    if is_quoted(token):
        raise NoRule
    if token == "@":
        return ALWAYS
    kind, colon, text = token.partition(":")
    if not colon:
        return NEVER
    if kind in ("", "http", "https"):
        raise NoRule
    if kind == "rule":
        return ("rule", text)
    if "%" in FILLED.sub("", text):
        raise NoRule
    return ("role", text) if kind == "role" else ("compare", kind, text)


class RuleReader:
    """Reads the tokens of a rule: `or` binds loosest, then `and`, then `not`."""

    def __init__(self, tokens):
        self.tokens, self.place = tokens, 0

    def meets(self, operator):
        """The next token is this operator, and is taken."""
        found = self.place < len(self.tokens) and self.tokens[self.place].lower() == operator
        self.place += found
        return found

    def joined(self, operator, part, depth):
        """Parts joined by an operator, grouped to the left."""
        tree = part(depth)
        while self.meets(operator):
            tree = (operator, tree, part(depth))
        return tree

    def or_rule(self, depth):
        """`or-rule` of the grammar."""
        return self.joined("or", self.and_rule, depth)

    def and_rule(self, depth):
        """`and-rule` of the grammar."""
        return self.joined("and", self.not_rule, depth)

    def not_rule(self, depth):
        """`not-rule` of the grammar; so many parentheses and `not` are open around it."""
        if depth > 64 or self.place == len(self.tokens):
            raise NoRule
        if self.meets("not"):
            return ("not", self.not_rule(depth + 1))
        if self.meets("("):
            tree = self.or_rule(depth + 1)
            if not self.meets(")"):
                raise NoRule
            return tree
        if self.tokens[self.place].lower() in ("and", "or", ")"):
            raise NoRule
        self.place += 1
        return check_tree(self.tokens[self.place - 1])


def rule_tree(text):
    """The tree of a rule's text: always for the empty one, never for a text that is no rule."""
    if text == "":
        return ALWAYS
    reader = RuleReader(rule_tokens(text))
    try:
        tree = reader.or_rule(0)
        return tree if reader.place == len(reader.tokens) and len(text.encode()) <= 4096 else NEVER
    except NoRule:
        return NEVER


def names_in(tree):
    """The rules that a tree names."""
    if tree[0] == "rule":
        return [tree[1]]
    return [name for part in tree[1:] if isinstance(part, tuple) for name in names_in(part)]


def filled(text, target):
    """A text with what the target has under its keys, or None where it lacks one."""
    if any(key not in target for key in FILLED.findall(text)):
        return None
    return FILLED.sub(lambda match: target[match[1]], text)


def compared(kind, credentials):
    """What the kind of a comparison stands for: a quoted text, a literal, or a credential."""
    if is_quoted(kind):
        return kind[1:-1]
    if kind in ("True", "False", "None") or re.fullmatch("[0-9]+", kind):
        return kind
    return credentials.get(kind)


class Policy:
    """The rules of a policy, over the default ones."""

    def __init__(self, texts):
        self.trees = {name: rule_tree(text) for name, text in {**DEFAULT_RULES, **texts}.items()}
        if len(self.trees) > 1024:
            raise OpeningRefused("Policy", "TooMany")
        for name in sorted(self.trees):
            if self.reaches(name):
                raise OpeningRefused("Policy", "Cycle", name)

    def meant(self, name):
        """The rule that a name means: its own, or else `default`."""
        return name if name in self.trees else "default"

    def reaches(self, name):
        """Whether a rule reaches itself, from name to name."""
        seen, left = set(), [name]
        while left:
            for other in map(self.meant, names_in(self.trees[left.pop()])):
                if other == name:
                    return True
                if other not in seen:
                    seen.add(other)
                    left.append(other)
        return False

    def allows(self, action, credentials, roles, target):
        """Whether the rule of an action holds."""

        def holds(tree):
            if tree[0] in ("always", "never"):
                return tree == ALWAYS
            if tree[0] == "not":
                return not holds(tree[1])
            if tree[0] in ("and", "or"):
                return (all if tree[0] == "and" else any)([holds(part) for part in tree[1:]])
            if tree[0] == "rule":
                return holds(self.trees[self.meant(tree[1])])
            text = filled(tree[-1], target)
            if tree[0] == "role":
                return text is not None and text.encode().lower() in [name.encode().lower() for name in roles]
            return text is not None and compared(tree[1], credentials) == text

        return holds(("rule", action))
