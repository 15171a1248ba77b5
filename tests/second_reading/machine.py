"""A plain, slow reading of the identity server: what each call answers, by lists and walks.

It is written from docs/DEFINITIONS.md, docs/FORMATS.md, docs/DECISIONS.md and the public standards (Identity API v3, OS-TRUST,
OS-INHERIT, OS-REVOKE, the Fernet specification, oslo.policy, HOTP and TOTP), and shares nothing with the program or its
definitions. Whoever wants to know what the server should answer asks a `Machine`:

    machine = Machine(opening_text, salts)
    status, fields, body = machine.call("GET", "/v3/users", "", [("X-Auth-Token", token)], b"", reading, draw, folder)

`salts` has 16 bytes for each plain password of the opening file. `reading` is the clock's, in seconds since 1970; `draw` is 64
bytes, or None where the random bytes failed; `folder` is what a reading of the key folder finds, a content under each index, or
None where the reading failed. Nothing here is fast, and nothing is safe to serve with.
"""

from second_reading.words import CAUSES, LAST_READING, REASONS, Refusal
from second_reading.routes import DRAWING, FOR_ONESELF, action_of, command_of
from second_reading.state import Invalid, text_of_body
from second_reading.commands import Commands


class Machine(Commands):
    """The state: rows, grants, revocations, ring, highest moment and number of changes; and what each call answers."""

    # A call.

    def call(self, method, path, query="", headers=(), body=b"", reading=0, draw=None, folder=None):
        """The status, the fields and the body that answer a request."""
        try:
            call = command_of(method, path, query, headers, body)
            call.draw, call.folder = draw, folder
            outcome = self.step(call, reading)
            fields = [("X-Subject-Token", outcome.text)] if outcome.text is not None else []
            status, told = outcome.status, outcome.body
        except Refusal as refusal:
            status, told, fields = self.refused(refusal)
        data = text_of_body(told) if told is not None else b""
        first = [("Content-Length", str(len(data))), ("Content-Type", "application/json")] if told is not None else []
        return status, first + [("Vary", "X-Auth-Token")] + fields, b"" if method == "HEAD" else data

    def refused(self, refusal):
        """The status, the body and the own fields of a refusal."""
        status, message = CAUSES[refusal.cause]
        fields = []
        if status == 401:
            fields = [("WWW-Authenticate", f'Keystone uri="{self.settings["url"]}/v3"')]
        if status == 405:
            fields = [("Allow", refusal.told[0])]
        return status, {"error": {"code": status, "message": message.format(*refusal.told), "title": REASONS[status]}}, fields

    def step(self, call, reading):
        """The checks of a call in their order, and its change where all pass."""
        self.high = max(self.high, min(reading, LAST_READING))
        self.require_outside(call)
        action = action_of(call.command, call.about)
        if action is not None or call.command == "show_catalog":
            self.require_tokens(call)
        if action is not None:
            self.require_rule(call, "identity:" + action)
        outcome = getattr(self, "do_" + call.command)(call)
        if outcome.change is not None:
            self.require_events(outcome.change, call.command in FOR_ONESELF)
            self.apply(outcome.change)
        return outcome

    def require_outside(self, call):
        """Random bytes where the command draws, and a folder that could be read where it is loaded."""
        draws = call.command in DRAWING or call.command == "update" and call.about == "user"
        if draws and call.draw is None:
            raise Refusal("Random")
        if call.command == "load_keys" and call.folder is None:
            raise Refusal("KeyDir")

    def require_tokens(self, call):
        """The caller's token, and then the token that the command is about."""
        if call.auth is None:
            raise Refusal("NoToken")
        try:
            call.caller = self.validity(call.auth)
        except Invalid as invalid:
            raise Refusal("CallerToken", *invalid.args) from None
        if call.command in ("validate", "check", "revoke_token"):
            try:
                call.subject = self.validity(call.subject_text, call.is_late())
            except Invalid as invalid:
                raise Refusal("SubjectToken", *invalid.args) from None

    def require_rule(self, call, action):
        """The rule of the action holds."""
        names = [self.row("role", role)["name"] for role in call.caller.roles]
        if not self.policy.allows(action, self.credentials(call.caller.payload), names, self.target(call)):
            raise Refusal("Rule", action)


def wire(reply, close=False):
    """The bytes of a response (RFC 9112): the status line, the fields, an empty line and the body."""
    status, fields, body = reply
    lines = [f"HTTP/1.1 {status} {REASONS[status]}"] + [f"{name}: {value}" for name, value in fields]
    lines += ["Connection: close"] if close else []
    return "".join(line + "\r\n" for line in lines + [""]).encode() + body
