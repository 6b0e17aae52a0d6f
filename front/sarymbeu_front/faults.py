"""Answers that are not what was asked for."""

# The program's refusals that are the sender's fault: BadSelector, TooWide, BadTenant, BadStamp, BadCommand, Metadata.
SENDER_FAULTS = (8, 9, 30, 31, 33, 34)


class Fault(Exception):
    """Ends the work on a request.

    `status` is that of HTTP, `text` says why, for whoever sent the request. `retry_after` is in seconds, where the same
    request may succeed later without a change.
    """

    def __init__(self, status: int, text: str, retry_after: int | None = None):
        super().__init__(text)
        self.status = status
        self.text = text
        self.retry_after = retry_after


def unavailable(text: str) -> Fault:
    """503, to be tried again after a second."""
    return Fault(503, text, retry_after=1)


def refused(what: str, refusal: dict) -> Fault:
    """400 where the program refuses what was asked for by the sender's fault, else 500."""
    return Fault(400 if refusal["number"] in SENDER_FAULTS else 500, f"the program refuses the {what}: {refusal}\n")
