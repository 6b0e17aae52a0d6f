"""`python3 -m sarymbeu_front [OPTIONS] SETTINGS FOLDER`: see docs/FRONT.md."""
import asyncio
import logging
import sys

from .server import serve
from .settings import read_settings


def main() -> int:
    """Runs the front, and gives the status to end with."""
    settings = read_settings(sys.argv[1:])
    logging.basicConfig(level=logging.INFO, format="%(asctime)s %(levelname)s %(message)s", stream=sys.stderr)
    return asyncio.run(serve(settings))


def end() -> None:
    """Runs the front, and ends with its status."""
    sys.exit(main())


if __name__ == "__main__":
    end()
