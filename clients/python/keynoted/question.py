"""One question: who asks, about which attributes, among which values. Its requests are sent at once."""

from __future__ import annotations

from typing import Iterable, List, Mapping, Optional, Sequence, Tuple

from .arguments import Text, attributes_of, texts_of, values_of
from .errors import LinkEnded
from .wire import PRIVATE, VERSION, Reply, Request, asked_of, words_of


class Desk:
    """The session of a connection on which its questions are asked, and how many private assertions it has had."""

    def __init__(self, number: int) -> None:
        self.number, self.made = number, 0


class Question:
    """A question that leaves nothing behind: it begins with CLEAR and PIN, and its private assertions are retracted.

    It is asked by QUERY, or by WATCH, which keeps copies, or by CRITICAL. Its answer counts only where each request
    before it was taken: else the first refusal is raised.
    """

    def __init__(self, principals: Iterable[Text], attributes: Mapping[Text, Text], values: Sequence[str],
                 private: Iterable[Text], order: Optional[Tuple[str, ...]], word: bytes = b"QUERY") -> None:
        self._word = word
        self._principals = texts_of(principals, "principals")
        self._attributes = attributes_of(attributes)
        self._private = texts_of(private, "private")
        self._values = values_of(values, order)
        self.size = 3 + len(self._principals) + len(self._attributes) + 2 * len(self._private)

    def requests(self, desk: Desk) -> List[Request]:
        """The requests on this session. The ids of private assertions are those that follow on the ones it has had."""
        session = b"%d" % desk.number
        made = [Request(words_of(b"CLEAR", session)), Request(words_of(b"PIN", session), None, VERSION)]
        made += [Request(words_of(b"ASSERT", session, b"%d" % len(it)), it, PRIVATE) for it in self._private]
        made += [Request(words_of(b"AUTH", session, it)) for it in self._principals]
        made += [set_of(session, *pair) for pair in self._attributes]
        made.append(asked_of(self._word, session, self._values))
        ids = range(desk.made + 1, desk.made + 1 + len(self._private))
        return made + [Request(words_of(b"RETRACT", session, b"p%d" % it)) for it in ids]

    def settle(self, desk: Desk, requests: Sequence[Request], replies: Sequence[Reply]) -> None:
        """Sees that these replies leave no private assertion behind; else the connection mustn't be used again."""
        count = len(self._private)
        taken = [it.lines[0] for it in replies[2:2 + count] if it.lines[0].startswith(b"OK ")]
        if taken != [b"OK p%d" % (desk.made + it) for it in range(1, len(taken) + 1)]:
            raise LinkEnded("private assertions have other numbers than those that follow")
        if count and len(replies) == len(requests):
            gone = [it.lines[0] for it in replies[-count:]]
            if gone != [b"OK"] * len(taken) + [b"NO 12 unknown"] * (count - len(taken)):
                raise LinkEnded("a private assertion wasn't retracted")
        desk.made += len(taken)

    def answer(self, requests: Sequence[Request], replies: Sequence[Reply]) -> Tuple[Reply, Request]:
        """The reply to what is asked, and its request; the first refusal of one before it is raised."""
        last = self.size - len(self._private) - 1
        for request, reply in zip(requests[:last], replies):
            reply.raise_refusal(request)
        replies[last].raise_refusal(requests[last])
        return replies[last], requests[last]


def set_of(session: bytes, name: bytes, value: bytes) -> Request:
    """SET, or SETX for a value with an end of line, which SET would lose."""
    if b"\n" in value or b"\r" in value:
        return Request(words_of(b"SETX", session, name, value.hex().encode()))
    return Request(words_of(b"SET", session, name, value))
