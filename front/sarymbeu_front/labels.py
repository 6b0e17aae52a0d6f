"""Labels as texts: what agents write, and canonical names (docs/FORMATS.md)."""
import re

from .scan import Scanner

# Wider than a label name may be: which names are refused is for the program to say.
ANY_NAME = re.compile(r"[^\s{}=,\"`]+")
# A label in a canonical name, and what is escaped in its value.
PAIR = re.compile(r'(\w+)="([^"\\]*(?:\\.[^"\\]*)*)"', re.ASCII)
ESCAPED = re.compile(r"\\(.)")


def canonical_name(labels: dict[str, str]) -> str:
    """The canonical name of `labels`. A label with an empty value is as good as none."""
    pairs = sorted((name.encode("utf-8", "surrogatepass"), name, value) for name, value in labels.items() if value)
    return "{" + ", ".join(f'{name}="{escaped(value)}"' for _, name, value in pairs) + "}"


def escaped(value: str) -> str:
    """`value` as it stands between quotes in selectors and canonical names."""
    return value.replace("\\", "\\\\").replace('"', '\\"').replace("\n", "\\n")


def unescaped(value: str) -> str:
    """What stands so between quotes in a canonical name."""
    return ESCAPED.sub(lambda found: "\n" if found[1] == "n" else found[1], value) if "\\" in value else value


def labels_of(name: str) -> dict[str, str]:
    """The labels of a canonical name, as the program spells it; sooner than by `read_labels`, for there may be many."""
    return {label: unescaped(value) for label, value in PAIR.findall(name)}


def read_labels(text: str) -> tuple[dict[str, str], int]:
    """The labels of `{a="1", b="2"}`, and how many bytes in it became U+FFFD. Raises Unread with the place of a fault."""
    scanner, labels = Scanner(text), {}
    if not scanner.take("{"):
        raise scanner.fault(f"{{ is wanted, not {scanner.rest()}")
    while not scanner.take("}"):
        if labels and not scanner.take(","):
            raise scanner.fault(f", or }} is wanted, not {scanner.rest()}")
        if labels and scanner.take("}"):
            break
        name = scanner.name(ANY_NAME)
        if name in labels:
            raise scanner.fault(f"the label {name} comes twice", scanner.at - len(name))
        if not scanner.take("="):
            raise scanner.fault(f"= is wanted, not {scanner.rest()}")
        labels[name] = scanner.quoted()
    scanner.space()
    if scanner.at < len(text):
        raise scanner.fault(f"the end is wanted, not {scanner.rest()}")
    return labels, scanner.mended
