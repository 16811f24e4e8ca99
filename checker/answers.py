"""PROFILE, Why an answer is impossible, Locate, Refusals, Who sees what, What is set aside: the items of a run."""
from enum import Enum
from typing import Any, Counter, Iterable, Iterator
from files import EVERYONE, MUST_HIDE, NOT_FOUND, TAKEN_NAME, WRONG_STATE, Declaration, Place, Step, object_in
from objects import BLANK, MUST, NOT, TABLE, Identifier, Object, disagree, read_attributes
from ttlv import (CHANGING, ENUMERATION, FAILED, GET, GET_ATTRIBUTES, LOCATE, MAKING, NOTHING, ON_AN_OBJECT, PENDING,
                  SINGLE, STRUCTURE, SUCCESS, TEXT, UNDONE, Item, Tag, are_once_of, differ, refuse)

Why = Enum("Why", "EarlierCallLate StampRunsBack BatchShape OperationDiffers NoSuchObject WrongState "
                  "IdentifierTaken NameTaken BytesDiffer LengthImpossible AttributeDiffers "
                  "AttributeMissing ListedWrongly ListedTooFew ReasonUnfounded EchoDiffers NotVisible")
Whys = Iterator[tuple[object, Why]]
FILTERS = (Tag.NAME, Tag.OBJECT_TYPE, Tag.STATE, Tag.ALGORITHM, Tag.LENGTH)

class Run:
    """How far a run has come: the inventory, with what is aside; whether judging is over; how items were judged;
    of the call how a no begins, the date that it tells, its client, its moment, and what the placeholder holds."""
    def __init__(self, declared: Declaration) -> None:
        self.declared, self.things, self.is_over, self.ways = declared, {**declared.entries}, False, Counter[str]()
        self.no, self.date, self.client, self.now = "", "", "", 0
        self.held: Identifier = None
    def refuse(self, item: int, tests: Iterable[tuple[object, Enum]]) -> None:
        """Ends the run where an item is impossible for one of these reasons."""
        refuse(f"{self.no} item {item} why", tests, f"\nat {self.date}", 1)
    def find(self, identifier: Identifier) -> Any:
        """The object of an identifier; BLANK where that is aside or isn't known, None where there is none."""
        is_named = isinstance(identifier, str)
        return self.things.get(identifier, self.things.get(BLANK)) if is_named else identifier
    def word(self, it: Place, found: Object) -> str:
        """What the rules say of an operation in the state of its object."""
        cell = it.act, found.at(self.now)[Tag.STATE]
        return self.declared.lines.get(cell, TABLE[cell])
    def objects(self, are_seen: bool = False) -> dict[Identifier, Object]:
        """The objects of the inventory, or those that aren't hidden from the call."""
        objects = ((name, it) for name, it in self.things.items() if isinstance(it, Object))
        return {name: it for name, it in objects if not (are_seen and self.hides(it))}
    def hides(self, it: Any) -> bool:
        """Whether there is an object, and it is hidden from the call."""
        is_other = isinstance(it, Object) and it.owner not in (None, self.client)
        return is_other and self.declared.visibility != EVERYONE
    def set_aside(self, *identifiers: Identifier) -> None:
        """Sets identifiers aside, and all where one isn't known."""
        if BLANK in identifiers:
            self.things.clear()
        self.things.update((it, BLANK) for it in identifiers if it is not None)
    def meant(self, it: Place) -> Identifier:
        """The identifier that an item is about: asked for, held or, if what is held isn't known, shown."""
        held = it.said.get(Tag.IDENTIFIER, BLANK) if self.held == BLANK else self.held
        return held if it.identifier is None else it.identifier
    def is_about_aside(self, it: Place) -> bool:
        """Whether an item is possible whatever it answers, since what it is about is aside or unknown."""
        return self.is_over or it.operation in ON_AN_OBJECT and self.find(self.meant(it)) == BLANK

def is_founded(run: Run, it: Place, meant: Identifier) -> bool:
    """Whether the reason of a failed answer is founded."""
    found, is_on_object = run.find(meant), it.operation in ON_AN_OBJECT
    causes = [cause for number, cause in run.declared.rows if number == it.answer.get(Tag.REASON)]
    if not causes or is_on_object and (meant is None or run.hides(found)):
        return True
    is_judged = is_on_object and not (it.operation == GET_ATTRIBUTES and it.asked.first(Tag.REFERENCE))
    names, known = read_attributes(it.given)[Tag.NAME], run.objects(run.declared.visibility == MUST_HIDE).values()
    is_taken = BLANK in run.things.values() or any(names & one.has[Tag.NAME] for one in known)
    holds = {
        NOT_FOUND: not is_judged or not isinstance(found, Object) or Tag.DESTROY in found.has,
        WRONG_STATE: not is_judged or isinstance(found, Object) and run.word(it, found) != MUST,
        TAKEN_NAME: it.operation not in MAKING or is_taken}
    return any(holds[cause] for cause in causes)

def born(run: Run, it: Place) -> Object:
    """The object that a Create or Register adds: the client's who asked for it."""
    fixed = {Tag.OBJECT_TYPE: it.asked.get(Tag.OBJECT_TYPE), Tag.INITIAL: run.now}
    return Object({**read_attributes(it.given), **fixed}, it.secret, run.client)

def whys_of_making(run: Run, it: Place) -> Whys:
    """Why a Create or Register is impossible."""
    made, live = born(run, it), [one.has for one in run.objects(True).values() if Tag.DESTROY not in one.has]
    is_taken = any(made.has[Tag.NAME] & one[Tag.NAME] for one in live)
    yield it.said.get(Tag.IDENTIFIER) in run.objects(), Why.IdentifierTaken
    yield run.declared.unique_names and is_taken, Why.NameTaken
    yield not made.admits(made.secret), Why.LengthImpossible
    yield differ((it.said.get(Tag.OBJECT_TYPE), made.has[Tag.OBJECT_TYPE])), Why.EchoDiffers

def whys_of_list(run: Run, it: Place, listed: list[Identifier]) -> Whys:
    """Why the list of a Locate is impossible; nothing must be listed if it asks for more than is judged."""
    has, most = {name: one.at(run.now) for name, one in run.objects().items()}, it.asked.get(Tag.MAXIMUM)
    wanted = {tag: one for tag, one in read_attributes(it.given).items() if tag in FILTERS}
    are_too_many = len({*listed}) < len(listed) or most is not None and 0 < most < len(listed)
    is_wrong = any(run.find(name) is None or name in has and disagree(has[name], wanted) for name in listed)
    yield are_too_many or is_wrong, Why.ListedWrongly
    parts, tags = [one.tag for one in it.asked.children], [one.tag for one in it.given if one.tag != Tag.NAME]
    are_judged = are_once_of(tags, FILTERS) and are_once_of(parts, (Tag.ATTRIBUTES, Tag.MAXIMUM))
    due = {name for name in run.objects(True) if wanted.keys() <= has[name].keys() and Tag.DESTROY not in has[name]
           and not disagree(has[name], wanted)}
    yield are_judged and not due <= {*listed} and (most is None or len(listed) < most), Why.ListedTooFew

def whys_of_get(_run: Run, it: Place, found: Object) -> Whys:
    """Why what a Get shows is impossible."""
    kind, block, secret = object_in(it.said)
    shown = read_attributes(block.every(Tag.ALGORITHM, Tag.LENGTH) + it.said.every(Tag.OBJECT_TYPE))
    yield found.secret and found.secret != secret, Why.BytesDiffer
    yield not found.secret and not found.admits(secret), Why.LengthImpossible
    yield disagree(found.has, shown) or kind != found.has[Tag.OBJECT_TYPE], Why.AttributeDiffers

def whys_of_attributes(run: Run, it: Place, found: Object) -> Whys:
    """Why what a Get Attributes shows is impossible."""
    has, shown = found.at(run.now), read_attributes(it.said.inner(Tag.ATTRIBUTES).children)
    yield disagree(has, shown), Why.AttributeDiffers
    asked = [one for one in it.asked.children if one is not it.asked.first(Tag.IDENTIFIER)]
    is_plain = all((one.tag, one.type) == (Tag.REFERENCE, ENUMERATION) for one in asked)
    wanted = {one.value for one in asked} if asked else {*has}
    are_there = shown.keys() >= wanted & has.keys() and (Tag.NAME not in wanted or has[Tag.NAME] <= shown[Tag.NAME])
    yield is_plain and Tag.DESTROY not in has and not are_there, Why.AttributeMissing

SHOWING = {GET: whys_of_get, GET_ATTRIBUTES: whys_of_attributes}

def whys(run: Run, it: Place, meant: Identifier) -> Whys:
    """Why an item is impossible; little of it is judged where it is about what is aside."""
    found, judged = run.find(meant), 0 if run.is_about_aside(it) else it.operation
    about = it.said.values(Tag.IDENTIFIER) if judged == LOCATE else [meant] if judged in ON_AN_OBJECT else []
    yield it.answers_to not in (None, it.operation), Why.OperationDiffers
    if it.status == FAILED:
        yield judged and not is_founded(run, it, meant), Why.ReasonUnfounded
    elif judged in MAKING:
        yield from whys_of_making(run, it)
    elif judged == LOCATE:
        yield from whys_of_list(run, it, about)
    elif judged in ON_AN_OBJECT:
        yield found is None, Why.NoSuchObject
        yield run.word(it, found) == NOT, Why.WrongState
        if it.said is not NOTHING and judged in SHOWING:
            yield from SHOWING[judged](run, it, found)
        yield differ((it.said.get(Tag.IDENTIFIER), meant)), Why.EchoDiffers
    yield differ((it.ask.get(Tag.BATCH_ID), it.answer.get(Tag.BATCH_ID))), Why.EchoDiffers
    is_hidden = it.status != FAILED and any(run.hides(run.find(name)) for name in about)
    yield is_hidden and run.declared.visibility == MUST_HIDE, Why.NotVisible

def take(run: Run, it: Place) -> None:
    """Takes an item, where it is possible, and leaves the run as that does."""
    meant, shown = run.meant(it), it.said.values(Tag.IDENTIFIER)
    run.refuse(it.number, whys(run, it, meant))
    found = run.find(meant)
    if run.is_about_aside(it) or it.status == FAILED:
        is_lost = it.operation in CHANGING and it.status != FAILED and meant == BLANK
        run.set_aside(BLANK if is_lost else None)
    elif it.operation in MAKING:
        run.things[shown[0]], run.held = born(run, it), shown[0]
    elif it.operation == LOCATE:
        run.held = shown[0] if len(shown) == 1 else None
    elif it.operation == GET and it.said is not NOTHING:
        found.secret[:] = object_in(it.said)[2]
    elif it.operation in CHANGING:
        run.things[meant] = found.left_by(it.act, run.now)

IDENTIFIERS, ON_ATTRIBUTES = (Tag.IDENTIFIER, Tag.PRIVATE, Tag.PUBLIC, Tag.LINKED), (0xD, 0xE, 0xF, 0x30, 0x31)
LOOKS, CHANGES, MAKES, MAY_CREATE, ENDS = "looks", "changes", "makes", "may create", "ends judging"
# The sorts of operations by their numbers; every other may create.
SORTS = {number: sort for sort, numbers in (
    (LOOKS, "0A 0B 08 0C 09 10 11 17 18 1E 1F 20 21 22 23 24 25 26 27 2B 2C 2D 2E 2F 38 39 3B"),
    (CHANGES, "12 13 14 15 16 0D 0E 0F 30 31"), (MAKES, "01 03"), (ENDS, "32 33 34 36 37"),
) for number in bytes.fromhex(numbers)}

def texts_in(item: Item) -> list[str]:
    """The Texts under identifier tags anywhere in an item."""
    own = [it.value for it in item.every(*IDENTIFIERS) if it.type == TEXT]
    return own + [text for it in item.children for text in texts_in(it)]

def sort_of(it: Place) -> str:
    """What an operation may do; one of attributes looks where it names one alone, which isn't judged."""
    references, news = it.asked.every(Tag.REFERENCE)[:1], it.asked.every(Tag.NEW_ATTRIBUTE)[:1]
    named = [{ENUMERATION: one.value, STRUCTURE: 0}.get(one.type, Tag.NAME) for one in references]
    named += [one.children[0].tag if len(one.children) == 1 else Tag.NAME for one in news]
    is_other = named and not {Tag.NAME, Tag.IDENTIFIER, *SINGLE} & {*named}
    return LOOKS if it.operation in ON_ATTRIBUTES and is_other else SORTS.get(it.operation, MAY_CREATE)

def pass_place(run: Run, it: Place, is_unordered: bool) -> None:
    """What a passed place leaves."""
    sort, payload = sort_of(it), it.answer.first(Tag.SHOWN) or Item(Tag.SHOWN, STRUCTURE)
    asked, shown, held = texts_in(it.asked), payload.get(Tag.IDENTIFIER, BLANK), [run.held] if it.names_none else []
    if run.is_over or it.status == FAILED:
        return
    if sort == ENDS or it.status == PENDING and sort != LOOKS:
        run.is_over = True
    elif it.operation == LOCATE:
        listed = [one.value if one.type == TEXT else BLANK for one in payload.every(Tag.IDENTIFIER)]
        run.set_aside(*(one for one in listed if one != BLANK and one not in run.things))
        is_empty = not listed and it.status == SUCCESS and payload.type == STRUCTURE
        run.held = listed[0] if len(listed) == 1 and it.status != PENDING else None if is_empty else BLANK
    elif it.status == PENDING:
        run.held = BLANK
    elif sort == CHANGES:
        means = [] if is_unordered else held
        texts = [one for one in (it.identifier, *means, shown) if isinstance(one, str)]
        run.set_aside(*asked, *(texts[:1] or means or [BLANK]))
    elif sort == MAKES:
        run.held = shown
        run.set_aside(shown)
    elif sort == MAY_CREATE:
        named = {(one.type, one.value) for one in it.asked.every(*IDENTIFIERS) if one.type != TEXT}
        is_lost = it.status == UNDONE and not payload.children or named - {(ENUMERATION, 1)}
        run.set_aside(*asked, *texts_in(payload), *held, *([BLANK] if is_lost else []))
        run.held = BLANK

def pass_call(run: Run, step: Step) -> None:
    """What a call leaves that is unreadable."""
    asks = [it for it in step.places if it.ask is not NOTHING]
    statuses = {it.status for it in step.places if it.answer is not NOTHING}
    if run.is_over or statuses == {FAILED}:
        return
    if not asks:
        run.set_aside(BLANK)
    elif ENDS in map(sort_of, asks) or PENDING in statuses or not statuses and step.allows_pending:
        run.is_over = True
    else:
        for it in asks:
            made = it.answer.inner(Tag.SHOWN).get(Tag.IDENTIFIER, BLANK)
            named = [it.asked.get(Tag.IDENTIFIER, BLANK), *texts_in(it.asked)]
            run.set_aside(*{CHANGES: named, MAKES: [made], MAY_CREATE: [BLANK]}.get(sort_of(it), []))
