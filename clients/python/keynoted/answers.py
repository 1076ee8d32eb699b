"""What questions come to: values by their indices, with the rows that prove them, or with what they hang on."""

from __future__ import annotations

import functools
from typing import NamedTuple, Tuple

NUMBER = rb"(0|[1-9][0-9]{0,8})"


class Row(NamedTuple):
    """A row of a proof: this assertion gives its authorizer this level."""

    level: int
    id: str
    principal: bytes


@functools.total_ordering
class Value:
    """A value of a question, by its index among the question's values.

    It is compared with values of its question by their order there: `value >= "log"` is `value.at_least("log")`.
    """

    def __init__(self, index: int, values: Tuple[str, ...]) -> None:
        self.index, self.values = index, values

    @property
    def name(self) -> str:
        return self.values[self.index]

    def at_least(self, value: str) -> bool:
        """Whether it is this value of the question or a higher one; ValueError where that has no such value."""
        return self.index >= self._index_of(value)

    def _index_of(self, value: object) -> int:
        if isinstance(value, Value) and value.values == self.values:
            return value.index
        if isinstance(value, str) and value in self.values:
            return self.values.index(value)
        raise ValueError(f"{value!r} is none of the query's values {','.join(self.values)}")

    def __eq__(self, value: object) -> bool:
        return self.index == self._index_of(value)

    def __lt__(self, value: object) -> bool:
        return self.index < self._index_of(value)

    __hash__ = None  # type: ignore[assignment]

    def __bool__(self) -> bool:
        raise TypeError("an answer is neither true nor false: compare it with a value, as in answer.at_least('yes')")

    def __repr__(self) -> str:
        return f"<{self.name}: {self.index} of {','.join(self.values)}>"


class News(Value):
    """What a standing query comes to at a version of the credentials. No rows prove it."""

    def __init__(self, index: int, values: Tuple[str, ...], version: int) -> None:
        super().__init__(index, values)
        self.version = version

    def __repr__(self) -> str:
        return f"<{self.name}: {self.index} of {','.join(self.values)}, version {self.version}>"


class Answer(News):
    """The value of a query at a version of the credentials, with the rows that prove it."""

    def __init__(self, index: int, values: Tuple[str, ...], version: int, rows: Tuple[Row, ...]) -> None:
        super().__init__(index, values, version)
        self.rows = rows


class Critical(NamedTuple):
    """The value of a question, and the ids of the assertions without each of which it would be lower."""

    value: Value
    ids: Tuple[str, ...]
