"""Loki's HTTP API in front of `ingestd`, which it runs as its child over pipes. Nothing here is proved: see docs/FRONT.md."""
