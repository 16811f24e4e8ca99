"""FORMATS, The three files, Record faults, Messages and Outside: what is recorded, and what isn't judged."""
from __future__ import annotations
from enum import Enum
from hashlib import sha256
from itertools import zip_longest
from typing import Any, Iterator
from objects import (ACTS, BLANK, NOT, REVOKE_COMPROMISED, TABLE, WORDS, Identifier, Object, kinds_of_attributes,
                     read_attributes)
from ttlv import (ACTIVATE, BOOLEAN, CREATE, DATES, DESTROY, DISCOVER_VERSIONS, ENUMERATION, FAILED, GET,
                  GET_ATTRIBUTES, LOCATE, MAKING, NO_ANSWER, NOTHING, ON_AN_OBJECT, PENDING, POLL, QUERY, REGISTER,
                  REVOKE, SECRET_DATA, STOP, STRUCTURE, SUCCESS, SYMMETRIC_KEY, UNDONE, UNREADABLE, Ended, Item,
                  Outside, Row, Tag, described, differ, is_exactly, item_at, kinds_of, refuse)

Fault = Enum("Fault", "Ttlv Header Number EndWithoutBegin SecondEnd Unused Identifier Entry Calls Device "
                      "Memory Seal NoClose Order")
MOST_CALLS, SEAL_LENGTH, NEVER = 100_000, 32, 1 << 63
(REFUSED, SET_ASIDE, UNKNOWN), (EVERYONE, MAY_HIDE, MUST_HIDE) = (1, 2, 3), (1, 2, 3)
NOT_FOUND, WRONG_STATE, TAKEN_NAME, ALL_OF_THE_CALL = 1, 2, 3, 0
OWN = (Tag.NAME, Tag.ALGORITHM, Tag.LENGTH, Tag.MASK, Tag.ACTIVATION, Tag.DEACTIVATION)
ENTRY, SEALED = "IDENTIFIER OBJECT_TYPE=2,7 ATTRIBUTES KEY_MATERIAL?", "SEALED_AT SEAL"
# Of each file, for each version, the header and the records behind it.
FORMS = {name: [described(it) for it in texts] for name, texts in {
    "transcript": (
        "TRANSCRIPT(VERSION=1) BEGIN(CALL CLIENT MESSAGE) END(CALL MESSAGE)",
        f"TRANSCRIPT(VERSION=2 RECORDING SEGMENT PREVIOUS) BEGIN(CALL CLIENT MESSAGE {SEALED}) "
        f"END(CALL MESSAGE {SEALED}) NOTE(NOTE_KIND=1-5 NOTE_TEXT {SEALED}) CLOSE(RECORDS {SEALED})"),
    "declaration": (
        f"DECLARATION(VERSION=1 UNIQUE_NAMES) ROW(REASON CAUSE=1-3) ENTRY({ENTRY})",
        "DECLARATION(VERSION=2 UNIQUE_NAMES UNJUDGED=1-3 TOLERANCE=0-86400 VISIBILITY=1-3) "
        "ROW(REASON CAUSE=1-3) ALLOW_LINE(ACT=1-6 STATE=1-6 ALLOW=1-3) OWN_LINE(REFERENCE) "
        f"ENTRY({ENTRY} OWNER?) ASIDE_ENTRY(IDENTIFIER)"),
    "witness": (
        "WITNESS(VERSION=1) TURN(CALL FILL*(ITEM SHOWN))",
        "WITNESS(VERSION=2) TURN(CALL ANSWER? FILL*(ITEM SHOWN))",
        "WITNESS(VERSION=3) TURN(CALL ANSWER? PLACE* FILL*(ITEM SHOWN))",
        "WITNESS(VERSION=4) TURN(CALL ANSWER? PLACE* MOMENT? FILL*(ITEM SHOWN) "
        "BIRTH*(ITEM ATTRIBUTES) ASIDE*)")}.items()}
STAGES = {Tag.ROW: 1, Tag.ALLOW_LINE: 2, Tag.OWN_LINE: 3, Tag.ENTRY: 4, Tag.ASIDE_ENTRY: 4}

def records_of(name: str, data: bytes) -> Iterator[tuple[str, Item, bytes]]:
    """The records of a file with their bytes, the header first; and ahead of each how a fault of it is told."""
    at, fault, allowed = 0, Fault.Header, [it[0] for it in FORMS[name]]
    while at < len(data) or at == 0:
        where = f"malformed: {name} offset {at} kind"
        item, after = item_at(data, at, len(data), name) if data else (NOTHING, 0)
        form = next((it for it in allowed if is_exactly(item, it)), None)
        refuse(where, [(form is None, fault)])
        if at == 0:
            fault, allowed = Fault.Entry, [one for it in FORMS[name] if it[0] == form for one in it[1:]]
        yield where, item, data[at:after]
        at = after

class Call:
    """A call: its number, its client, its messages, and where its marks are; an open one has no response."""
    def __init__(self, mark: Item, at: int) -> None:
        self.number, self.client, self.request = map(mark.get, (Tag.CALL, Tag.CLIENT, Tag.MESSAGE))
        self.begin, self.end = at, NEVER
        self.response: bytes | None = None

def read_transcript(data: bytes) -> tuple[list[Call], str]:
    """The calls of a transcript, in the order of their begin marks, and the line that tells its last seal."""
    calls, records = dict[int, Call](), records_of("transcript", data)
    where, header, raw = next(records)
    is_sealed, segment, previous = header.get(Tag.VERSION) == 2, header.get(Tag.SEGMENT), header.get(Tag.PREVIOUS)
    is_odd = is_sealed and (segment < 1 or len(previous) != SEAL_LENGTH or (segment == 1) == any(previous))
    refuse(where, [(is_odd, Fault.Header)])
    seal, moment, count, is_closed = sha256(raw).digest(), -NEVER, 0, not is_sealed
    for at, (where, item, raw) in enumerate(records):
        number, message, shown, now = map(item.get, (Tag.CALL, Tag.MESSAGE, Tag.SEAL, Tag.SEALED_AT))
        begins, ends, closes = (item.tag == it for it in (Tag.BEGIN, Tag.END, Tag.CLOSE))
        known, seal = calls.get(number), sha256(seal + raw[:-SEAL_LENGTH]).digest()
        refuse(where, (
               (is_sealed and (is_closed or len(shown) != SEAL_LENGTH), Fault.Entry),
               (is_sealed and (shown != seal or closes and item.get(Tag.RECORDS) != count), Fault.Seal),
               (is_sealed and now < moment, Fault.Order),
               ((begins or ends) and number < 1 or begins and known, Fault.Number),
               (begins and len(calls) == MOST_CALLS, Fault.Calls),
               (ends and known is None, Fault.EndWithoutBegin),
               (ends and known and known.response is not None, Fault.SecondEnd)))
        moment, count, is_closed = now, count + 1, closes or not is_sealed
        if begins:
            calls[number] = Call(item, at)
        elif known is not None:
            known.end, known.response = at, message
    refuse(f"malformed: transcript offset {len(data)} kind", [(not is_closed, Fault.NoClose)])
    told = "".join(chr(it) if 32 <= it <= 126 and it not in b'"\\' else f"\\x{it:02x}"
                   for it in header.get(Tag.RECORDING, "").encode())
    return [*calls.values()], f"\nsealed: {told} segment {segment} head {seal.hex()}" if is_sealed else ""

def identity_of(client: str) -> str:
    """Who a client is: its text up to the first blank or slash."""
    return client.replace("/", " ").split(" ")[0]

def entry_of(item: Item) -> Object | None:
    """The object that an entry declares, or None where it can't; of another record one that is nobody's."""
    held, key, owner = item.inner(Tag.ATTRIBUTES), item.get(Tag.KEY_MATERIAL), item.get(Tag.OWNER)
    has = {**read_attributes(held.children), Tag.OBJECT_TYPE: item.get(Tag.OBJECT_TYPE)}
    made = Object(has, [] if key is None else [key], None if owner is None else identity_of(owner))
    is_wrong = any(it.tag not in (*OWN, *DATES) for it in held.children) or any(kinds_of_attributes(held))
    may_be = key is None if Tag.DESTROY in has else made.admits(made.secret)
    return made if may_be and not is_wrong else None

class Declaration:
    """What the server held at the start, and its rules: what becomes of what isn't judged, who sees whose objects,
    causes of reasons, words for cells of the table, what the server itself gives at birth, and more."""
    def __init__(self, data: bytes) -> None:
        records, stage = records_of("declaration", data), 0
        _, header, _ = next(records)
        self.unique_names, self.tolerance = header.get(Tag.UNIQUE_NAMES), header.get(Tag.TOLERANCE, 0)
        self.unjudged, self.visibility = header.get(Tag.UNJUDGED, REFUSED), header.get(Tag.VISIBILITY, EVERYONE)
        self.rows, self.lines, self.own = list[tuple[int, int]](), dict[tuple[int, int], str](), list[int]()
        self.entries: dict[Identifier, Any] = {BLANK: BLANK} if self.unjudged == UNKNOWN else {}
        for where, item, _ in records:
            identifier, own, state = map(item.get, (Tag.IDENTIFIER, Tag.REFERENCE, Tag.STATE))
            before, stage, cell = stage, STAGES[item.tag], (ACTS[item.get(Tag.ACT, 1) - 1], state)
            entry = BLANK if item.tag == Tag.ASIDE_ENTRY else entry_of(item)
            is_odd = (stage < before, TABLE.get(cell) == NOT, cell in self.lines or own in self.own,
                      item.tag == Tag.OWN_LINE and own not in OWN,
                      entry is None or entry == BLANK and self.unjudged == REFUSED)
            refuse(where, ((any(is_odd), Fault.Entry), (identifier in self.entries, Fault.Identifier)))
            if item.tag == Tag.ROW:
                self.rows.append((item.get(Tag.REASON), item.get(Tag.CAUSE)))
            elif item.tag == Tag.ALLOW_LINE:
                self.lines[cell] = WORDS[item.get(Tag.ALLOW) - 1]
            elif item.tag == Tag.OWN_LINE:
                self.own.append(own)
            elif entry is not None:
                self.entries[identifier] = entry
        self.rows = self.rows or [(1, NOT_FOUND)]

def read_witness(data: bytes) -> list[Item]:
    """The turns of a witness."""
    turns: list[Item] = []
    for where, item, _ in records_of("witness", data):
        refuse(where, [(item.tag == Tag.TURN and item.get(Tag.CALL) < 1, Fault.Number)])
        turns.append(item)
    return turns[1:]

OBJECTS = {Tag.KEY: SYMMETRIC_KEY, Tag.SECRET: SECRET_DATA}
IDENTIFIER, KIND = "IDENTIFIER!IdentifierForm?", "OBJECT_TYPE=2,7!ObjectType"
OBJECT = ("KEY|SECRET(KEY_BLOCK(WRAPPING!Wrapped? KEY_FORMAT=1-2!Format ALGORITHM? LENGTH? "
          "KEY_VALUE!Format(KEY_MATERIAL!Format)))")
MADE, OF_A_KEY = "SHOWN(OBJECT_TYPE? IDENTIFIER!IdentifierForm)", "ALGORITHM!Attribute LENGTH!Attribute MASK!Attribute"
# Of each judged operation the payload of its request, and that of its response.
PAYLOADS = {operation: (described(asked), described(shown)) for operation, asked, shown in (
    (CREATE, f"ASKED(OBJECT_TYPE=2!ObjectType ATTRIBUTES({OF_A_KEY}))", MADE),
    (REGISTER, f"ASKED({KIND} ATTRIBUTES? {OBJECT})", MADE),
    (LOCATE, "ASKED?(MAXIMUM? ATTRIBUTES?)", "SHOWN?(IDENTIFIER!IdentifierForm*)"),
    (GET, f"ASKED?({IDENTIFIER} WRAPPING_ASKED!Wrapped?)", f"SHOWN({KIND}? {IDENTIFIER} {OBJECT})"),
    (GET_ATTRIBUTES, f"ASKED?({IDENTIFIER})", f"SHOWN?({IDENTIFIER} ATTRIBUTES?)"),
    (REVOKE, f"ASKED({IDENTIFIER} REVOCATION(REVOCATION_CODE))", f"SHOWN?({IDENTIFIER})"),
    *((operation, f"ASKED?({IDENTIFIER})", f"SHOWN?({IDENTIFIER})") for operation in (ACTIVATE, DESTROY)))}
OF_REQUEST, OF_RESPONSE, OF_ASK, OF_ANSWER, PERHAPS_SHOWN = map(described, (
    "OPTION=1-3? BATCH_ORDER?", "STAMP", "OPERATION", "OPERATION? STATUS=0-3 REASON?", "SHOWN?"))

def object_in(payload: Item, is_there: bool = True) -> tuple[int | None, Item, list[bytes]]:
    """The object in a payload, if there is to be one: its kind, its Key Block, and its key bytes, if there are any."""
    found = payload.first(*OBJECTS) or NOTHING
    block = found.inner(Tag.KEY_BLOCK) if is_there else NOTHING
    material = block.inner(Tag.KEY_VALUE).get(Tag.KEY_MATERIAL)
    return OBJECTS.get(found.tag, 0) if is_there else None, block, [] if material is None else [material]

class Place:
    """A place of a call, where request and response have an item, or one of them; NOTHING is the other. Of the
    request what is asked, with operation 0 where that can't be read, and whether it names none, or the Enumeration
    that means the placeholder; of the answer whether it is done, and what is said, NOTHING where none is read."""
    def __init__(self, number: int, ask: Item, answer: Item) -> None:
        self.number, self.ask, self.answer = number, ask, answer
        number = ask.get(Tag.OPERATION)
        self.operation, self.has_operation, self.asked = number or 0, number is not None, ask.inner(Tag.ASKED)
        self.identifier, named = self.asked.get(Tag.IDENTIFIER), self.asked.first(Tag.IDENTIFIER)
        self.names_none = named is None or (named.type, named.value) == (ENUMERATION, 1)
        self.kind, self.block, self.secret = object_in(self.asked, self.operation == REGISTER)
        code = self.asked.inner(Tag.REVOCATION).get(Tag.REVOCATION_CODE)
        self.act = REVOKE_COMPROMISED if self.operation == REVOKE and code in (2, 3) else self.operation
        self.given = (*self.asked.inner(Tag.ATTRIBUTES).children, *self.block.every(Tag.ALGORITHM, Tag.LENGTH))
        status, shown = answer.get(Tag.STATUS), answer.inner(Tag.SHOWN).children
        self.status = NO_ANSWER if answer is NOTHING else status if status in range(4) else UNREADABLE
        self.answers_to, is_silent = answer.get(Tag.OPERATION), answer.first(Tag.OPERATION) is None
        is_own = ask is not NOTHING and (is_silent or self.answers_to == self.operation)
        self.is_done = is_own and status in (SUCCESS, UNDONE)
        is_read = self.is_done and self.operation in PAYLOADS and (status == SUCCESS or shown)
        self.said = Item(Tag.SHOWN, STRUCTURE, None, shown) if is_read else NOTHING

def kinds_of_ask(it: Place, is_lenient: bool, is_unordered: bool) -> Iterator[Outside]:
    """The kinds that hold for a request item; leniently the Enumeration that means the placeholder has none."""
    held, kind = it.asked.inner(Tag.ATTRIBUTES), it.asked.get(Tag.OBJECT_TYPE)
    own = kinds_of(it.ask, *OF_ASK, *PAYLOADS.get(it.operation, [()])[0])
    yield from (one for one in own if one != Outside.IdentifierForm or not (is_lenient and it.names_none))
    if it.operation in (*MAKING, LOCATE):
        yield from kinds_of_attributes(held, it.operation in MAKING, it.operation == LOCATE)
    pairs = [(held.get(tag), it.block.get(tag)) for tag in (Tag.ALGORITHM, Tag.LENGTH)]
    if it.operation in MAKING and differ((held.get(Tag.OBJECT_TYPE), kind), (it.kind, kind), *pairs):
        yield Outside.Disagree
    if is_unordered and it.names_none and it.operation in ON_AN_OBJECT:
        yield Outside.Unordered

def kinds_of_answer(it: Place) -> Iterator[Outside]:
    """The kinds that hold for a response item."""
    is_judged = it.is_done and it.operation in PAYLOADS
    shown = () if not is_judged else PERHAPS_SHOWN if it.said is NOTHING else PAYLOADS[it.operation][1]
    yield from kinds_of(it.answer, *OF_ANSWER, *shown)
    if it.status == PENDING:
        yield Outside.Pending
    if it.is_done and not is_judged and it.operation not in (QUERY, DISCOVER_VERSIONS):
        yield Outside.Operation
    if it.operation == GET_ATTRIBUTES:
        yield from kinds_of_attributes(it.said.inner(Tag.ATTRIBUTES))

def opened(data: bytes, tag: int, header_tag: int, *rows: Row) -> tuple[Item, list[Item], set[Outside]]:
    """The header of the message that bytes are; its items, none where its Batch Count isn't theirs; and the kinds that
    hold for it itself."""
    try:
        message, taken = item_at(data, 0, len(data), "message")
    except Ended:
        message, taken = NOTHING, 0
    header, items = message.inner(header_tag), message.every(Tag.BATCH_ITEM)
    if taken != len(data) or message.tag != tag or header is NOTHING:
        return NOTHING, [], {Outside.NotAMessage}
    version, count = header.inner(Tag.PROTOCOL), header.get(Tag.BATCH_COUNT)
    is_other, is_off = (version.get(Tag.MAJOR), version.get(Tag.MINOR)) != (2, 1), not count or count != len(items)
    tests = (is_other, Outside.Version), (is_off, Outside.Count)
    return header, [] if is_off else items, {*kinds_of(header, *rows), *(kind for holds, kind in tests if holds)}

class Step:
    """A call as its turn takes it, which has the response of an open one: all places, those that are answered, the
    first that failed; of both messages the kinds that hold for themselves and for their items; whether the call
    can be read, by them and in this turn; and which places are set aside by the turn, or passed."""
    def __init__(self, call: Call, turn: Item, is_lenient: bool) -> None:
        self.call, self.turn, self.asides = call, turn, turn.values(Tag.ASIDE) if is_lenient else []
        self.fills = [(it.get(Tag.ITEM), it.inner(Tag.SHOWN)) for it in turn.every(Tag.FILL)]
        self.births = [(it.get(Tag.ITEM), it.inner(Tag.ATTRIBUTES)) for it in turn.every(Tag.BIRTH)]
        is_aside, is_open = ALL_OF_THE_CALL in self.asides, call.response is None
        answer = turn.get(Tag.ANSWER) if is_open and not is_aside else call.response
        header, asks, kinds = opened(call.request, Tag.REQUEST, Tag.REQUEST_HEADER, *OF_REQUEST)
        self.option, pending = header.get(Tag.OPTION, STOP), header.first(Tag.ASYNCHRONOUS) or NOTHING
        self.is_unordered = header.get(Tag.BATCH_ORDER) is False and len(asks) > 1
        self.allows_pending = (pending.type, pending.value) in ((BOOLEAN, True), (ENUMERATION, 1), (ENUMERATION, 2))
        header, answers, own_kinds = opened(answer or b"", Tag.RESPONSE, Tag.RESPONSE_HEADER, *OF_RESPONSE)
        self.stamp, pairs = header.get(Tag.STAMP, 0), zip_longest(asks, answers, fillvalue=NOTHING)
        self.places = [Place(at, *pair) for at, pair in enumerate(pairs, 1)]
        asked, shown = self.places[:len(asks)], self.places[:len(answers)]
        self.answered = asked[:len(shown)]
        self.first_failed = next((it.number for it in shown if it.status == FAILED), None)
        self.refuses_message = [(it.status, it.answers_to) for it in shown] == [(FAILED, None)]
        self.kinds = ([kinds, *({*kinds_of_ask(it, is_lenient, self.is_unordered)} for it in asked)],
                      [own_kinds, *({*kinds_of_answer(it)} for it in shown)])
        self.is_readable = not kinds | own_kinds and UNREADABLE not in [it.status for it in shown]
        self.is_read = self.is_readable and not is_aside
        self.moment = turn.get(Tag.MOMENT, self.stamp) if self.is_read else None
        odd = [it.number for it, *both in zip(self.answered, *(each[1:] for each in self.kinds)) if any(both)]
        polls = [it.number for it in self.answered if it.operation == POLL and is_lenient]
        self.passed = {*self.asides, *odd, *polls}
