#!/usr/bin/python3
"""A plain server for comparison: appends each body to a file, syncs it, and answers 204. front/bench/plain_server.py PORT FILE"""
import os
import sys

from aiohttp import web


async def push(request: web.Request) -> web.Response:
    """Keeps a body."""
    os.write(file, await request.read() + b"\n")
    os.fdatasync(file)
    return web.Response(status=204)


file = os.open(sys.argv[2], os.O_WRONLY | os.O_CREAT | os.O_APPEND)
application = web.Application(client_max_size=1 << 24)
application.add_routes([web.post("/loki/api/v1/push", push)])
web.run_app(application, host="127.0.0.1", port=int(sys.argv[1]), print=None)
