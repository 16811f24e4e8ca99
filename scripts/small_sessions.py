"""Small sessions, and the rows that check them, for the scripts beside it: requests and answers by few words, and the lines of a verdict.

The first call of a session is answered at 1700000000, which is 2023-11-14T22:13:20Z.
"""
import kmip_files as kmip
from kmip_files import CREATE, FAILED, GET, GET_ATTRIBUTES, LOCATE, REGISTER, REVOKE, SYMMETRIC_KEY, Session, answer, ask, declaration_header, entry, identifier, structure, turn
from program_rows import Row

STAMP = 1_700_000_000
# The usage mask Encrypt and Decrypt.
MASK = 12
# Two keys of 128 bits, which differ in the last byte, and one of 64.
K = bytes(range(16))
J = K[:15] + b"\x1f"
SHORT = K[:8]
# Two rows of the cause table.
WRONG_STATE, TAKEN_NAME = kmip.row(0x2A, 2), kmip.row(0x2B, 3)
# The status of a run that prints a line with this first word, if it isn't a yes but for some items.
STATUSES = {"yes": 0, "no": 1, "outside": 2, "witness": 2, "malformed": 2, "gave": 4}
STATE, DEACTIVATION_DATE, INITIAL_DATE, ACTIVATION_DATE = 0x42008D, 0x42002F, 0x420039, 0x420001


def checked(name: str, session: Session, lines: str, witness: bytes | None = None) -> Row:
    """A check; the witness takes the calls as they were added, if it is not given."""
    files = {"transcript": session.transcript(), "declaration": session.declaration(), "witness": session.witness() if witness is None else witness}
    return Row(name, ["check", *files], files, lines + "\n", status_of(lines))


def searched(name: str, session: Session, lines: str, *options: str, made: bytes | None = None) -> Row:
    """A search, and the witness that it makes."""
    files = {"transcript": session.transcript(), "declaration": session.declaration()}
    return Row(name, ["search", *files, "made", *options], files, lines + "\n", status_of(lines), made)


def status_of(lines: str) -> int:
    """The status of a run that prints these lines."""
    words = [line.split(" ")[0].removesuffix(":") for line in lines.splitlines()]
    return 1 if lines.startswith("yes but for ") else next(STATUSES[word] for word in words if word in STATUSES)


def session(
    *calls: tuple[bytes, bytes | None], declared: tuple[bytes, ...] = (), unique: bool = False, overlapping: bool = False, tolerance: int | None = None, unjudged: int = 1
) -> Session:
    return Session([declaration_header(unique, tolerance, unjudged), *declared], list(calls), overlapping)


def witness(*turns: bytes, version: int = 1) -> bytes:
    return kmip.witness_header(version) + b"".join(turns)


def call(asks: bytes | list[bytes], answers: bytes | list[bytes] | None, second: int = 0, option: int | None = None, ordered: bool | None = None) -> tuple[bytes, bytes | None]:
    """A call of one item or of several, answered so many seconds after the stamp; without answers it stays open."""
    asked = kmip.request(*([asks] if isinstance(asks, bytes) else asks), option=option, ordered=ordered)
    return asked, None if answers is None else answered(answers, second)


def answered(answers: bytes | list[bytes], second: int = 0) -> bytes:
    return kmip.response(STAMP + second, *([answers] if isinstance(answers, bytes) else answers))


def no(turn: int, call: int, item: int, why: str, second: int = 0) -> str:
    """The lines of a refusal at a turn that was answered so many seconds after the stamp."""
    return f"no: turn {turn} call {call} item {item} why {why}\nat 2023-11-14T22:13:{20 + second:02}Z"


def named(names: tuple[str, ...]) -> list[bytes]:
    return [kmip.attributes(names=names)] if names else []


def object_type(number: int = SYMMETRIC_KEY) -> bytes:
    return kmip.enumeration(0x420057, number)


def create(bits: int = 128) -> bytes:
    return ask(CREATE, object_type(), kmip.attributes(bits=bits, mask=MASK))


def register(material: bytes = K, *names: str) -> bytes:
    return ask(REGISTER, object_type(), *named(names), kmip.symmetric_key(material, 128))


def get(*names: str) -> bytes:
    return ask(GET, *map(identifier, names))


def shown(name: str, material: bytes = K, status: int = kmip.SUCCESS) -> bytes:
    """What a Get shows."""
    return answer(GET, object_type(), identifier(name), kmip.symmetric_key(material, 128), status=status)


def on(operation: int, *names: str) -> bytes:
    """An operation that asks for an object alone."""
    return ask(operation, *map(identifier, names))


def done(operation: int, name: str, status: int = kmip.SUCCESS) -> bytes:
    return answer(operation, identifier(name), status=status)


def failed(operation: int, reason: int) -> bytes:
    return answer(operation, status=FAILED, reason=reason)


def revoke(name: str, code: int) -> bytes:
    return ask(REVOKE, identifier(name), structure(0x420081, kmip.enumeration(0x420082, code)))


def look(attribute: int, name: str = "k1") -> bytes:
    """A Get Attributes of one attribute."""
    return ask(GET_ATTRIBUTES, identifier(name), kmip.enumeration(0x42013B, attribute))


def seen(*attributes: bytes, name: str = "k1") -> bytes:
    return answer(GET_ATTRIBUTES, identifier(name), structure(0x420125, *attributes))


def state(number: int) -> bytes:
    return seen(kmip.enumeration(STATE, number))


def locate(*parts: bytes, names: tuple[str, ...] = ("n",)) -> bytes:
    return ask(LOCATE, *parts, kmip.attributes(names=names))


def most(number: int) -> bytes:
    return kmip.integer(0x42004F, number)


def listed(*names: str) -> bytes:
    return answer(LOCATE, *map(identifier, names))


K1 = entry("k1")
CREATED = call(create(), done(CREATE, "c1"))
REGISTERED = call(register(), done(REGISTER, "r1"))
