"""What users hold beside their passwords (Identity API v3): application credentials, secrets of one-time codes, and rules of the
methods that they have to log in by."""

from second_reading.words import Refusal
from second_reading.ciphers import bare_text, time_text
from second_reading.codes import base32_text, codes_at
from second_reading.opening import derived
from second_reading.state import Outcome, State, made_id


class Holdings(State):
    """How these come and go, and what a login by them shows."""

    # Application credentials.

    def appcred_object(self, row):
        """What is told of an application credential."""
        expires = time_text(row["expires"]) if row["expires"] is not None else None
        return {"description": row["description"], "expires_at": expires, "id": row["id"], "name": row["name"],
                "links": self.self_link(f"users/{row['user']}/application_credentials", row["id"]), "project_id": row["project"],
                "roles": [self.titled("role", role) for role in row["roles"]], "unrestricted": row["unrestricted"],
                "user_id": row["user"]}

    def with_own_name(self, user, name):
        """The application credential of a user with a name, or None."""
        return next((row for row in self.rows["appcred"] if (row["user"], row["name"]) == (user, name)), None)

    def standing_appcred(self, call):
        """The application credential that a path names, behind its user; one of another user stands for nobody else."""
        user, each = call.ids
        self.standing("user", user)
        row = self.standing("appcred", each)
        if row["user"] != user:
            raise Refusal("Absent", "appcred", each)
        return row

    def require_unrestricted(self, call):
        """The caller's token is of no application credential that is restricted."""
        credential = call.caller.payload["credential"]
        self.refuse_if(credential is not None and not self.row("appcred", credential)["unrestricted"], "Prohibited")

    def do_create_appcred(self, call):
        """A new application credential, by the checks in their order."""
        body, user, payload = call.body, call.ids[0], call.caller.payload
        self.require_unrestricted(call)
        self.standing("user", user)
        self.scope_unless(payload["kind"] in (2, 5), "Absent")
        roles = call.caller.roles
        if body["roles"] is not None:
            roles = self.roles_named(body["roles"], "application_credential.roles")
        self.refuse_if(not roles, "NoRoles")
        row = {"id": made_id(call.draw[:16]), "user": user, "project": payload["project"], "roles": roles,
               **{name: body[name] for name in ("name", "description", "expires", "unrestricted")}}
        self.refuse_if(not self.has_credential_roles(row), "RoleLost")
        self.refuse_if(self.is_over(row), "Expired")
        other = self.with_own_name(user, row["name"])
        if other is not None:
            raise Refusal("NameTaken", other["id"])
        self.require_new("appcred", row["id"])
        secret = bare_text(call.draw[32:]) if body["secret"] is None else body["secret"]
        row["secret"] = self.fresh(call, secret)
        told = {**self.appcred_object(row), "secret": secret}
        return Outcome(201, {"application_credential": told}, ("put", "appcred", row))

    def do_list_appcreds(self, call):
        """The application credentials of a user."""
        self.standing("user", call.ids[0])
        told = [self.appcred_object(row) for row in self.rows["appcred"] if row["user"] == call.ids[0]]
        return Outcome(200, self.listing("application_credentials", told, call))

    def do_get_appcred(self, call):
        """An application credential, told."""
        return Outcome(200, {"application_credential": self.appcred_object(self.standing_appcred(call))})

    def do_delete_appcred(self, call):
        """The end of an application credential."""
        self.require_unrestricted(call)
        return Outcome(204, None, ("drop", "appcred", self.standing_appcred(call)["id"]))

    def credential_named(self, name):
        """The application credential that a login names, or None."""
        if "id" in name:
            return self.row("appcred", name["id"])
        user = self.homed_named("user", name["user"])
        return self.with_own_name(user["id"], name["name"]) if user is not None else None

    def shows_secret(self, row, secret):
        """The application credential, where it stands, is in time, has this secret, and its user is enabled."""
        if row is None or self.is_over(row) or not self.is_on("user", row["user"]):
            raise Refusal("Credentials")
        salt, rounds, _ = row["secret"]
        if derived(secret, salt, rounds) != row["secret"]:
            raise Refusal("Credentials")
        return row

    def credential_into(self, payload, scope):
        """The scope of an application credential; a login by one asks for no other."""
        row = self.row("appcred", payload["credential"])
        self.scope_unless(scope["kind"] == "none", "Absent")
        self.require_project(row["project"])
        self.scope_unless(self.has_credential_roles(row), "NoRoles")
        payload.update(kind=5, project=row["project"])

    # Secrets of one-time codes, and rules of methods.

    def secret_object(self, row):
        """What is told of a secret."""
        return {"blob": base32_text(row["secret"]), "id": row["id"], "links": self.self_link("credentials", row["id"]),
                "project_id": None, "type": "totp", "user_id": row["user"]}

    def do_create_secret(self, call):
        """A new secret of a user."""
        self.standing("user", call.body["user"])
        row = {"id": made_id(call.draw[:16]), **call.body}
        self.require_new("secret", row["id"])
        return Outcome(201, {"credential": self.secret_object(row)}, ("put", "secret", row))

    def do_list_secrets(self, call):
        """All secrets."""
        return Outcome(200, self.listing("credentials", [self.secret_object(row) for row in self.rows["secret"]], call))

    def do_get_secret(self, call):
        """A secret, told."""
        return Outcome(200, {"credential": self.secret_object(self.standing("secret", call.ids[0]))})

    def do_delete_secret(self, call):
        """The end of a secret."""
        self.standing("secret", call.ids[0])
        return Outcome(204, None, ("drop", "secret", call.ids[0]))

    def shows_code(self, row, code):
        """The user, where it stands, is enabled and has a secret whose code this is."""
        if row is None or not self.is_on("user", row["id"]):
            raise Refusal("Credentials")
        secrets = [each["secret"] for each in self.rows["secret"] if each["user"] == row["id"]]
        if not any(code in codes_at(secret, self.high) for secret in secrets):
            raise Refusal("Credentials")
        return row

    def are_enough(self, user, methods):
        """The methods are all that one of the user's rules asks for, where it has any that are enabled."""
        said = self.method_rules.get(user)
        if said is None or not said["enabled"] or not said["rules"]:
            return True
        given = {name for bit, name in ((1, "password"), (4, "totp")) if methods & bit}
        return any(rule <= given for rule in said["rules"])
