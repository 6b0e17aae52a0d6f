"""Settings of the front: words of its command line, with Loki's names where Loki has them."""
import argparse
import dataclasses
from dataclasses import dataclass

from .stamps import duration

SETTINGS_FILE, FOLDER = "settings_file", "folder"
# As many as a program has shards at most: more would wait for each other.
MAX_CHANNELS = 64


@dataclass(frozen=True)
class Settings:
    """All settings. Durations are in nanoseconds, sizes in bytes."""

    settings_file: str
    folder: str
    program: str
    channels: int
    listen_address: str
    listen_port: int
    shutdown_timeout: int
    flush_check_period: int
    checkpoint_duration: int
    checkpoint_log_bytes: int
    flush_on_shutdown: bool
    max_entries_limit: int
    max_concurrent: int
    max_lookback_period: int
    query_timeout: int
    max_waiting_bytes: int
    remembered_answers: int
    structured_metadata: str
    access_log: bool

    def page(self) -> str:
        """All settings, one a line, as YAML."""
        return "".join(f"{name}: {value}\n" for name, value in dataclasses.asdict(self).items())


def _duration(text: str) -> int:
    try:
        nanoseconds = duration(text)
    except ValueError as fault:
        raise argparse.ArgumentTypeError(str(fault)) from None
    if nanoseconds == 0:
        raise argparse.ArgumentTypeError("a duration above 0 is wanted")
    return nanoseconds


def _above_zero(text: str) -> int:
    if not (text.isascii() and text.isdigit() and int(text) > 0):
        raise argparse.ArgumentTypeError(f"{text!r} is no whole number above 0")
    return int(text)


def _channels(text: str) -> int:
    if _above_zero(text) > MAX_CHANNELS:
        raise argparse.ArgumentTypeError(f"at most {MAX_CHANNELS} are wanted")
    return int(text)


def _parser() -> argparse.ArgumentParser:
    parser = argparse.ArgumentParser(prog="sarymbeu-front", description="Loki's HTTP API in front of ingestd.")
    parser.add_argument(SETTINGS_FILE, metavar="SETTINGS", help="the program's settings file; /dev/null gives its defaults")
    parser.add_argument(FOLDER, metavar="FOLDER", help="where the program keeps logs and store")
    durations = {
        "server.graceful-shutdown-timeout": ("shutdown_timeout", "30s", "how long a shutdown waits for requests"),
        "ingester.flush-check-period": ("flush_check_period", "30s", "between sweeps, each with an unforced flush"),
        "ingester.checkpoint-duration": ("checkpoint_duration", "5m", "between checkpoints"),
        "querier.engine.max-lookback-period": ("max_lookback_period", "30s", "how far an instant query looks back"),
        "querier.query-timeout": ("query_timeout", "1m", "the longest time of a query"),
    }
    numbers = {
        "server.http-listen-port": ("listen_port", 3100, "the port"),
        "checkpoint-log-bytes": ("checkpoint_log_bytes", 1 << 26, "a checkpoint where the logs have grown by this"),
        "validation.max-entries-limit": ("max_entries_limit", 5000, "the highest limit of a query"),
        "querier.max-concurrent": ("max_concurrent", 4, "how many queries are worked on at once"),
        "max-waiting-bytes": ("max_waiting_bytes", 1 << 27, "bytes of pushes that wait, beyond which they get 503"),
        "remembered-answers": ("remembered_answers", 10000, "answers to pushes that are kept"),
    }
    texts = {
        "program": ("program", "ingestd", "the program"),
        "server.http-listen-address": ("listen_address", "127.0.0.1", "the address"),
    }
    flags = {
        "ingester.flush-on-shutdown": ("flush_on_shutdown", "a forced flush at the end"),
        "log.access": ("access_log", "a line on standard error for each request"),
    }
    for kind, options in ((_duration, durations), (_above_zero, numbers), (str, texts)):
        for name, (member, default, text) in options.items():
            parser.add_argument(f"--{name}", dest=member, type=kind, default=default, help=f"{text} (%(default)s)")
    for name, (member, text) in flags.items():
        parser.add_argument(f"--{name}", dest=member, action="store_true", help=text)
    channels = "channels to the program; of several the first has sweeps, flushes and checkpoints alone (%(default)s)"
    parser.add_argument("--channels", type=_channels, default=1, help=channels)
    metadata = "what is done with entries that have structured metadata: refused, or dropped and counted (%(default)s)"
    parser.add_argument("--structured-metadata", choices=("refuse", "drop"), default="refuse", help=metadata)
    return parser


def read_settings(words: list[str]) -> Settings:
    """The settings that these words give. Writes to standard error and ends with status 2 where they are not understood."""
    parser = _parser()
    chosen = parser.parse_args(words)
    if chosen.listen_port > 65535:
        parser.error("a port is below 65536")
    return Settings(**vars(chosen))
