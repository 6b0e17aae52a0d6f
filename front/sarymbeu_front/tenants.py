"""Whose request it is."""
import re

from aiohttp import web

from .faults import Fault

HEADER, NOBODY = "X-Scope-OrgID", "fake"
TENANT = re.compile(r"[A-Za-z0-9!\-_.*'()]{1,150}")


def tenant_of(request: web.Request) -> str:
    """The tenant of a request. Raises Fault 400 where it is no tenant id (docs/FORMATS.md)."""
    tenant = request.headers.get(HEADER, NOBODY)
    if TENANT.fullmatch(tenant) is None or tenant in (".", ".."):
        raise Fault(400, f"{HEADER}: no tenant id: 1 to 150 letters, digits and !-_.*'() are, and neither . nor ..\n")
    return tenant
