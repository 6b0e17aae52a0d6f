"""Texts that are read and written: labels, queries, times, durations."""
import pytest

from sarymbeu_front.faults import Fault
from sarymbeu_front.labels import canonical_name, labels_of, read_labels
from sarymbeu_front.logql import read_query
from sarymbeu_front.scan import Unread
from sarymbeu_front.stamps import duration, is_stamp, moment, rfc3339


@pytest.mark.parametrize(
    "labels",
    [
        {"a": "1"}, {"b": "2", "a": "1"}, {"m": 'a"b\\c\nd'}, {"u": "ä€😀"}, {"tab": "a\tb\r"},
        {"a": "\\n\\\n", "b": "\\"}, {"_9": '", b="c', "c": "{}", "d": 'e="f", g="'},
    ],
)  # fmt: skip
def test_canonical_names_are_read_as_they_are_written(labels):
    name = canonical_name(labels)
    assert read_labels(name) == (labels, 0) and labels_of(name) == labels


def test_a_canonical_name_is_that_of_the_formats():
    assert canonical_name({"m": 'a"b\\c\nd', "empty": ""}) == '{m="a\\"b\\\\c\\nd"}'


@pytest.mark.parametrize(
    "text, value",
    [
        (r'{a="\t\x41\101\u00e4\U0001F600\a\v"}', "\tAAä😀\x07\x0b"),
        (r'{a="\xc3\xa4"}', "ä"),
        ("{a=`raw\\n`}", "raw\\n"),
        ('{ a = "1" , }', "1"),
    ],
)
def test_escapes_of_go_are_read(text, value):
    assert read_labels(text) == ({"a": value}, 0)


def test_bytes_that_are_no_text_are_mended_and_counted():
    assert read_labels(r'{a="\xff\xfe"}') == ({"a": "\ufffd\ufffd"}, 2)


@pytest.mark.parametrize(
    "text, column",
    [("a", 1), ("{a}", 3), ('{a="1" b="2"}', 8), ('{a="1"', 7), ('{a="1", a="2"}', 9), (r'{a="\q"}', 5), ('{a="1"}x', 8)],
)
def test_labels_have_the_place_of_their_fault(text, column):
    with pytest.raises(Unread) as fault:
        read_labels(text)
    assert fault.value.column == column


def test_a_query_is_read():
    query = read_query('{app="web", env!="dev"} |= "a\\"b" != `c` |= ""')
    assert query.selector() == '{app="web", env!="dev"}'
    assert query.keeps('xa"b') and not query.keeps('a"bc') and not query.keeps("ab")


@pytest.mark.parametrize(
    "text, line, column",
    [
        ("", 1, 1),
        ("{}", 1, 2),
        ('{a=~"x"}', 1, 3),
        ('{a!~"x"}', 1, 3),
        ('{a!="x"}', 1, 1),
        ('{a=""}', 1, 1),
        ('{a="x",}', 1, 8),
        ('{a="x"} |~ "y"', 1, 9),
        ('{a="x"} |= "y" | json', 1, 16),
        ('{a="x"} |= "y" or "z"', 1, 16),
        ('{a="x"}\n  | json', 2, 3),
        ('count_over_time({a="x"}[5m])', 1, 1),
        ('{a="x"} |= "y', 1, 12),
    ],
)
def test_what_is_not_understood_has_its_place(text, line, column):
    with pytest.raises(Unread) as fault:
        read_query(text)
    assert (fault.value.line, fault.value.column) == (line, column), str(fault.value)


@pytest.mark.parametrize(
    "text, stamp",
    [
        ("1700000000000000001", 1700000000000000001),
        ("1700000000", 1700000000 * 10**9),
        ("1700000000.000000001", 1700000000000000001),
        ("1.5", 1500000000),
        ("1e3", 1000 * 10**9),
        ("2023-11-14T22:13:20.000000001Z", 1700000000000000001),
        ("2023-11-15T00:13:20+02:00", 1700000000 * 10**9),
        ("-5", 0),
        ("99999999999999999999", 2**63),
    ],
)
def test_times_are_read_to_the_nanosecond(text, stamp):
    assert moment("start", text) == stamp


@pytest.mark.parametrize("text", ["", "now", "2023-11-14", "2023-13-14T22:13:20Z", "1,5", "0x10", "nan", "٣"])
def test_what_is_no_time_is_refused(text):
    with pytest.raises(Fault) as fault:
        moment("start", text)
    assert fault.value.status == 400 and fault.value.text.startswith("start:")


def test_times_are_written_as_loki_writes_them():
    assert [rfc3339(stamp) for stamp in (0, 1500000000, 1)] == [
        "1970-01-01T00:00:00Z", "1970-01-01T00:00:01.5Z", "1970-01-01T00:00:00.000000001Z",
    ]  # fmt: skip


def test_durations():
    assert duration("1h30m") == 5400 * 10**9 and duration("1.5s") == 1500000000 and duration("10ms") == 10**7
    for text in ("", "5", "s", "1h-3m", "1 h"):
        with pytest.raises(ValueError):
            duration(text)


@pytest.mark.parametrize("text, is_one", [("0", True), (str(2**63 - 1), True), (str(2**63), False), ("", False), ("-1", False)])
def test_stamps(text, is_one):
    assert is_stamp(text) == is_one and not is_stamp(5) and not is_stamp("٣") and not is_stamp("0" * 20)
