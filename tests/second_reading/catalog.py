"""The service catalog (Identity API v3, regions, services and endpoints): its rows, and what a project sees of them."""

import re

from second_reading.words import Refusal
from second_reading.state import Outcome, State, made_id

PLACE = re.compile(r"[$%]\((?:project_id|tenant_id)\)s")
# The fields of a row that a change may give, each with its name in the row.
CHANGED = {
    "region": (("description", "description"),),
    "service": (("type", "type"), ("name", "name"), ("description", "description"), ("enabled", "enabled")),
    "endpoint": (("region_id", "region"), ("interface", "interface"), ("url", "url"), ("enabled", "enabled")),
}
UNCHANGED = {
    "region": (("id", "id"), ("parent_region_id", "parent")),
    "service": (("id", "id"),),
    "endpoint": (("id", "id"), ("service_id", "service")),
}


def filled_url(url, project):
    """A URL with the project's id in each of its places, or None where it has one and there is no project."""
    if project is None:
        return None if PLACE.search(url) else url
    return PLACE.sub(lambda _: project, url)


class Catalog(State):
    """Regions, services and endpoints: how they come and change, and the catalog of a project."""

    def object_of_catalog(self, kind, row):
        """What is told of a row; a region goes by two names in an endpoint."""
        told = {"id": row["id"], "links": self.self_link(kind + "s", row["id"])}
        if kind == "region":
            return {**told, "description": row["description"], "parent_region_id": row["parent"]}
        if kind == "service":
            return {**told, **{name: row[name] for name in ("type", "name", "description", "enabled")}}
        return {**told, "service_id": row["service"], "region": row["region"], "region_id": row["region"],
                **{name: row[name] for name in ("interface", "url", "enabled")}}

    def catalog_of(self, project):
        """The enabled services by id, each with its enabled endpoints by id whose URL fills."""
        return [{"id": row["id"], "name": row["name"], "type": row["type"], "endpoints": self.offers_of(row["id"], project)}
                for row in self.rows["service"] if row["enabled"]]

    def offers_of(self, service, project):
        """What the catalog of a project has of the endpoints of a service."""
        offers = []
        for row in self.rows["endpoint"]:
            url = filled_url(row["url"], project)
            if row["service"] == service and row["enabled"] and url is not None:
                offers.append({"id": row["id"], "interface": row["interface"], "region": row["region"],
                               "region_id": row["region"], "url": url})
        return offers

    def do_show_catalog(self, call):
        """The catalog of the caller's own scope; without a scope it is empty."""
        payload = call.caller.payload
        told = self.catalog_of(payload["project"]) if payload["kind"] != 0 else []
        return Outcome(200, self.listing("catalog", told, call))

    def row_of_body(self, call):
        """The row that a body makes. Of a region alone the body may give the id."""
        kind, body, drawn = call.about, call.body, made_id(call.draw[:16])
        if kind == "region":
            return {"id": body.get("id", drawn), "parent": body.get("parent_region_id"),
                    "description": body.get("description", "")}
        if kind == "service":
            return {"id": drawn, "type": body["type"], "name": body.get("name", ""),
                    "description": body.get("description", ""), "enabled": body.get("enabled", True)}
        return {"id": drawn, "service": body["service_id"], "region": body.get("region_id"), "interface": body["interface"],
                "url": body["url"], "enabled": body.get("enabled", True)}

    def require_named(self, kind, row):
        """What a row names stands: the region above it, or its service and its region."""
        if kind == "region" and row["parent"] is not None:
            self.standing("region", row["parent"])
        if kind == "endpoint":
            self.standing("service", row["service"])
            if row["region"] is not None:
                self.standing("region", row["region"])

    def create_in_catalog(self, call):
        """A new region, service or endpoint; an id that is given is free, which is tested before there is room."""
        kind, row = call.about, self.row_of_body(call)
        self.require_named(kind, row)
        if kind == "region" and "id" in call.body and self.row("region", row["id"]) is not None:
            raise Refusal("NameTaken", row["id"])
        self.require_new(kind, row["id"])
        return Outcome(201, {kind: self.object_of(kind, row)}, ("put", kind, row))

    def update_in_catalog(self, call, row):
        """A change of one of these."""
        kind, body = call.about, call.body
        self.require_unchanged(body, row, UNCHANGED[kind])
        new = {**row, **{name: body[field] for field, name in CHANGED[kind] if field in body}}
        self.require_named(kind, new)
        return Outcome(200, {kind: self.object_of(kind, new)}, ("put", kind, new))

    def holds_something(self, region):
        """A region or an endpoint lies in a region."""
        return any(row["parent"] == region for row in self.rows["region"]) or any(
            row["region"] == region for row in self.rows["endpoint"])
