"""Answers in Loki's shape."""
import json
import time

from aiohttp import web

from .labels import labels_of


def success(data: object) -> web.Response:
    """An answer with this data."""
    text = json.dumps({"status": "success", "data": data}, separators=(",", ":"), ensure_ascii=False)
    return web.Response(text=text, content_type="application/json")


def streams(entries: list[dict], looked_at: int, size: int, began: float) -> dict:
    """Entries, which stand in their order, by stream.

    With how many entries were looked at, the bytes of their lines, and when that began, by time.monotonic().
    """
    values: dict[str, list[list[str]]] = {}
    for entry in entries:
        values.setdefault(entry["stream"], []).append([entry["stamp"], entry["line"]])
    result = [{"stream": labels_of(name), "values": found} for name, found in values.items()]
    seconds = max(time.monotonic() - began, 1e-6)
    summary = {
        "bytesProcessedPerSecond": int(size / seconds),
        "linesProcessedPerSecond": int(looked_at / seconds),
        "totalBytesProcessed": size,
        "totalLinesProcessed": looked_at,
        "totalEntriesReturned": len(entries),
        "execTime": seconds,
    }
    return {"resultType": "streams", "result": result, "stats": {"summary": summary}}


def two(seconds: float) -> dict:
    """The answer to `vector(1)+vector(1)`, by which Grafana looks whether a source is well."""
    return {"resultType": "vector", "result": [{"metric": {}, "value": [seconds, "2"]}], "stats": {"summary": {}}}
