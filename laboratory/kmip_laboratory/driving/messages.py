"""Requests and responses as values, whatever version they are said in."""

from __future__ import annotations

from dataclasses import dataclass
from typing import NamedTuple, Optional, Union

from .numbers import Option, Reason, Status, Tag

Version = tuple[int, int]


class Name(NamedTuple):
    """A name: its value, and its type (1 is an uninterpreted text, 2 a URI)."""

    value: str
    kind: int = 1


class Attribute(NamedTuple):
    """One attribute: a number or, for Name, a name."""

    tag: Tag
    value: Union[int, Name]


@dataclass(frozen=True)
class Material:
    """The object of a Register or of a Get: its type, bytes and what its Key Block says."""

    object_type: int
    value: bytes
    algorithm: Optional[int] = None
    length: Optional[int] = None


@dataclass(frozen=True)
class Ask:
    """One item of a request. `attributes` are those given, or the filters of a Locate."""

    operation: int
    identifier: Optional[str] = None
    attributes: tuple[Attribute, ...] = ()
    references: tuple[Tag, ...] = ()
    maximum: Optional[int] = None
    code: int = 1
    object_type: Optional[int] = None
    material: Optional[Material] = None
    batch_id: Optional[bytes] = None


@dataclass(frozen=True)
class Request:
    """A request: its version, its items, and what it says of batches."""

    version: Version
    asks: tuple[Ask, ...]
    option: Optional[Option] = None
    ordered: Optional[bool] = None


@dataclass(frozen=True)
class Answer:
    """One item of a response; `operation` is None where a whole message is refused."""

    operation: Optional[int]
    status: Status = Status.SUCCESS
    reason: Optional[int] = None
    identifiers: tuple[str, ...] = ()
    attributes: tuple[Attribute, ...] = ()
    object_type: Optional[int] = None
    material: Optional[Material] = None
    batch_id: Optional[bytes] = None


@dataclass(frozen=True)
class Response:
    """A response: its version, its Time Stamp and its items."""

    version: Version
    stamp: int
    answers: tuple[Answer, ...]


class Refused(Exception):
    """An item fails, with this reason."""

    def __init__(self, reason: Reason) -> None:
        super().__init__(reason.name)
        self.reason = reason
