#!/usr/bin/env python3
"""Lets OpenStack's dashboard, Horizon, log people in at a server over examples/cloud.json, and show what it tells of identities.

    tests/dashboard.py [PROGRAM]

An administrator logs in and sees the projects and the users; a member sees its own project and itself; a wrong password lets nobody in. Where Debian's openstack-dashboard is not installed (`apt-get
install openstack-dashboard`), nothing is tried. The program is bin/ks of this repository; a word or the environment's KS names another.
The exit status is 1 where something is otherwise.
"""

import os
import re
import sys
import tempfile
import warnings

sys.dont_write_bytecode = True
from cloud import require_module, try_application
from served import require

require_module("openstack_dashboard", "openstack-dashboard")

# Nothing is kept on a disk, and no page is made smaller.
SETTINGS = """\
from openstack_dashboard.settings import *

OPENSTACK_KEYSTONE_URL = "{url}"
OPENSTACK_KEYSTONE_MULTIDOMAIN_SUPPORT = True
SESSION_ENGINE = "django.contrib.sessions.backends.signed_cookies"
CACHES = {{"default": {{"BACKEND": "django.core.cache.backends.locmem.LocMemCache"}}}}
SECRET_KEY = "of the dashboard's own cookies"
ALLOWED_HOSTS = ["*"]
COMPRESS_ENABLED = COMPRESS_OFFLINE = False
"""

# The pages of an administrator, and the names that each shows.
WANTED = [
    ("/identity/", ["admin", "demo", "service"]),
    ("/identity/users/", ["admin", "demo", "glance", "neutron", "nova"]),
]


def dashboard(url, folder):
    """What makes a browser of the dashboard that asks the server at this URL."""
    with open(os.path.join(folder, "dashboard_settings.py"), "w", encoding="utf-8") as file:
        file.write(SETTINGS.format(url=url))
    sys.path.insert(0, folder)
    warnings.simplefilter("ignore")
    os.environ["DJANGO_SETTINGS_MODULE"] = "dashboard_settings"
    import django

    django.setup()
    from django.test import Client

    return Client


def logged_in(browser, name, password):
    """The browser, and whether its user was let in: the page behind the login is then another one."""
    form = {"username": name, "password": password, "domain": "Default", "region": "default", "auth_type": "credentials"}
    return browser.post("/auth/login/", form).status_code == 302


def names_at(browser, path):
    """The names of the rows that a page shows."""
    response = browser.get(path, follow=True)
    require(response.status_code == 200, f"{path} has the status {response.status_code}")
    return re.findall('data-display="([^"]*)"', response.content.decode())


def try_administrator(_server, browser_of):
    """An administrator sees all."""
    browser = browser_of()
    require(logged_in(browser, "admin", "secret"), "the administrator was not let in")
    for path, wanted in WANTED:
        names = names_at(browser, path)
        require(sorted(names) == wanted, f"{path} shows {names}")


def try_member(_server, browser_of):
    """A member of a project sees it, and of the users itself."""
    browser = browser_of()
    require(logged_in(browser, "demo", "demo"), "a member was not let in")
    for path in ("/identity/", "/identity/users/"):
        names = names_at(browser, path)
        require(names == ["demo"], f"{path} shows a member {names}")


def try_wrong(_server, browser_of):
    """A wrong password lets nobody in."""
    browser = browser_of()
    require(not logged_in(browser, "admin", "wrong"), "a wrong password was let in")
    response = browser.get("/identity/")
    require(response.status_code == 302 and "/auth/login/" in response["Location"], "a page was shown to nobody")


if __name__ == "__main__":
    with tempfile.TemporaryDirectory() as folder:
        tries = (try_administrator, try_member, try_wrong)
        try_application("dashboard", "OpenStack's Horizon", lambda url: dashboard(url, folder), tries)
