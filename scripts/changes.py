"""`#[since]` and `#[until]` of fields and variants: what scripts/new_type reads of them."""

from collections import namedtuple

# The versions from which a field or a variant is there, and from which it is gone, or nothing; and the words of the
# default.
Change = namedtuple("Change", "since until default line")
MOST = 65535


def number_of(word, words, line, told):
    """The version in `#[since(2)]` or `#[until(3)]`."""
    if not words or not words[0].isdigit() or not 2 <= int(words[0]) <= MOST:
        told.fault(line, f"`#[{word}(..)]` takes a version from 2 to {MOST}, such as `#[{word}(2)]`")
        return None
    return int(words[0])


def of_since(words, line, told):
    """The version in `#[since(2, default = 5)]`, and the words of the default."""
    version, rest = number_of("since", words, line, told), words[1:]
    if not rest:
        return version, None
    if rest[:3] != [",", "default", "="] or len(rest) < 4:
        told.fault(line, "write `#[since(2)]` or `#[since(2, default = 5)]`")
        return version, None
    return version, rest[3:]


def taken(found, told):
    """The change that attributes tell of, if they do, and the other attributes."""
    since = until = default = place = None
    others = []
    for inner, line in found:
        word, words = (inner or [""])[0], inner[2:-1]
        if word == "since" and inner[1:2] == ["("]:
            (since, default), place = of_since(words, line, told), line
        elif word == "until" and inner[1:2] == ["("]:
            until, place = number_of(word, words, line, told), line
        else:
            others.append((inner, line))
    if since and until and until <= since:
        told.fault(place, f"`#[until({until})]` is not behind `#[since({since})]`: such a field was never there")
    return Change(since, until, default, place) if place else None, others


def is_there(part, version):
    """Whether the field or variant is there in the version; of the newest one, where none is given."""
    change = part.change
    if change is None:
        return True
    if version is None:
        return change.until is None
    return (change.since or 1) <= version and (change.until is None or version < change.until)
