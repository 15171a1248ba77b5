"""The words of the identity server: limits, causes and their messages."""

LIMITS = {"domain": 1024, "project": 65536, "user": 65536, "group": 16384, "member": 262144, "role": 1024, "implication": 8192,
          "grant": 262144, "trust": 65536, "event": 262144, "region": 256, "service": 1024, "endpoint": 8192,
          "appcred": 65536, "secret": 65536}
SELF_REVOCATIONS = 131072
LEVELS = 5
REDELEGATIONS = 3
LAST_SECOND = 253402300799
LAST_READING = 253370764799
EXPIRED_WINDOW = 172800
EVENT_GRACE = 174600
LAST_INDEX = 999999999
METHOD_RULES = 16
KINDS = ("domain", "project", "user", "group", "role")
CATALOG = ("region", "service", "endpoint")
OF_USERS = ("appcred", "secret")
METHODS = ("GET", "HEAD", "POST", "PATCH", "PUT", "DELETE")

REASONS = {200: "OK", 201: "Created", 204: "No Content", 300: "Multiple Choices", 400: "Bad Request",
           401: "Unauthorized", 403: "Forbidden", 404: "Not Found", 405: "Method Not Allowed", 409: "Conflict",
           411: "Length Required", 413: "Request Entity Too Large",
           431: "Request Header Fields Too Large", 503: "Service Unavailable", 505: "HTTP Version Not Supported"}
UNAUTHORIZED = "The request you have made requires authentication."
CAUSES = {
    "NotJson": (400, "The body is not JSON."),
    "Missing": (400, "{} is missing."),
    "Kind": (400, "{} has the wrong type."),
    "Range": (400, "{} is out of range."),
    "NoToken": (401, UNAUTHORIZED),
    "CallerToken": (401, UNAUTHORIZED),
    "Credentials": (401, UNAUTHORIZED),
    "ScopeRefused": (401, UNAUTHORIZED),
    "Rule": (403, "You are not authorized to perform the requested action: {}."),
    "Immutable": (403, "{} cannot be changed."),
    "Refused": (403, "Refused: {}."),
    "Absent": (404, "Could not find {}: {}."),
    "SubjectToken": (404, "Could not find token."),
    "NoRoute": (404, "The resource could not be found."),
    "NoMethod": (405, "The method is not allowed."),
    "NameTaken": (409, "The name is taken by {}."),
    "Keys": (409, "The key folder is refused: {}."),
    "Full": (503, "The {} table is full."),
    "IdTaken": (503, "The drawn id is taken."),
    "Random": (503, "No random bytes."),
    "KeyDir": (503, "The key folder failed."),
}
CAUSES_OF_BYTES = {
    400: "The request is malformed.",
    411: "Chunked bodies are not taken.",
    413: "The body is too large.",
    431: "The head is too large.",
    505: "The version is not supported.",
}


class Refusal(Exception):
    """The first cause for which a request is refused, and what its message tells."""

    def __init__(self, cause, *told):
        super().__init__(cause, *told)
        self.cause, self.told = cause, told


class OpeningRefused(Exception):
    """The first cause for which an opening file is refused."""
