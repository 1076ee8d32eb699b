"""The arguments of the library: what has a wrong type is a `TypeError` that names it."""

from __future__ import annotations

import os
from typing import Iterable, List, Mapping, NoReturn, Optional, Sequence, Tuple, Union

Text = Union[str, bytes]
Path = Union[str, "os.PathLike[str]"]


def refuse(name: str, wanted: str, found: object) -> NoReturn:
    raise TypeError(f"{name}: {wanted} wanted, and this is of type {type(found).__name__}")


def bytes_of(text: Text, name: str) -> bytes:
    """The bytes of a text."""
    if isinstance(text, str):
        return text.encode("utf-8", "surrogateescape")
    if isinstance(text, bytes):
        return text
    refuse(name, "a text or bytes are", text)


def texts_of(texts: Iterable[Text], name: str) -> List[bytes]:
    if isinstance(texts, (str, bytes)) or not hasattr(texts, "__iter__"):
        refuse(name, "a list of texts is", texts)
    return [bytes_of(it, name) for it in texts]


def attributes_of(attributes: Mapping[Text, Text]) -> List[Tuple[bytes, bytes]]:
    if not isinstance(attributes, Mapping):
        refuse("attributes", "a mapping of names to values is", attributes)
    pairs = attributes.items()
    return [(bytes_of(name, "attributes"), bytes_of(value, f"attributes[{name!r}]")) for name, value in pairs]


def values_of(values: Sequence[str], order: Optional[Tuple[str, ...]]) -> Tuple[str, ...]:
    """The values of a query, the lowest first; `order` is that of the connection, where it was told one."""
    if isinstance(values, (str, bytes)) or not hasattr(values, "__iter__"):
        refuse("values", "a list of texts, the lowest first, is", values)
    for value in values:
        if not isinstance(value, str):
            refuse("values", "for each value a text is", value)
        if "," in value:
            raise ValueError(f"a comma would part the value in two: {value!r}")
    found = tuple(values)
    if not found and order:
        return order
    if not found:
        raise ValueError("values: none are named, and the connection was told no order")
    if order and (found[0] != order[0] or list(found) != [it for it in order if it in found]):
        raise ValueError(f"the values {','.join(found)} aren't in the order of this connection, {','.join(order)}, "
                         f"or don't begin with its lowest, {order[0]}")
    return found


def order_of(values: Sequence[str]) -> Optional[Tuple[str, ...]]:
    """The order that a connection is told, if any."""
    return values_of(values, None) if values else None


def number_of(number: int, name: str) -> int:
    """A number of the protocol, which has at most nine digits."""
    if not isinstance(number, int) or isinstance(number, bool):
        refuse(name, "a number is", number)
    if not 0 <= number < 1_000_000_000:
        raise ValueError(f"{name}: a number from 0 to 999,999,999 is wanted, and this is {number}")
    return number


def limit_of(timeout: Optional[float], name: str) -> Optional[float]:
    if timeout is not None and (not isinstance(timeout, (int, float)) or isinstance(timeout, bool)):
        refuse(name, "a number of seconds or None is", timeout)
    return timeout


def size_of(size: int) -> int:
    """How many connections a pool has."""
    if not isinstance(size, int) or isinstance(size, bool):
        refuse("size", "a number is", size)
    if size < 1:
        raise ValueError(f"size: a number from 1 is wanted, and this is {size}")
    return size


def path_of(path: Path, name: str) -> str:
    if not isinstance(path, (str, os.PathLike)):
        refuse(name, "the name of a file is", path)
    return os.fspath(path)
