"""PROFILE, Batches, Order and time, Moments and Births; FORMATS, Witness faults: the turns of a witness."""
import time
from enum import Enum
from itertools import accumulate
from typing import Iterator
from answers import Run, Why, pass_call, pass_place, take
from files import ALL_OF_THE_CALL, NEVER, PAYLOADS, REFUSED, Call, Declaration, Place, Step, identity_of
from objects import kinds_of_attributes
from ttlv import (CONTINUE, FAILED, LOCATE, MAKING, NO_ANSWER, NOTHING, PENDING, POLL, SUCCESS, UNDO, UNDONE,
                  Item, Outside, Tag, are_once_of, first_of, kinds_of, refuse)

Misfit = Enum("Misfit", "UnknownCall Twice LeftOut FillNotWanted FillMissing FillForm AnswerNotWanted "
                        "AnswerMissing AnswerForm OrderNotWanted OrderForm MomentForm BirthNotWanted "
                        "BirthForm AsideForm")
FIRST_MOMENT, LAST_MOMENT = -377705023201, 253402207200

def date_of(moment: int) -> str:
    """A moment as its date, or in decimal where it has none that is printed."""
    if not FIRST_MOMENT <= moment <= LAST_MOMENT:
        return str(moment)
    date = time.gmtime(moment)
    year = f"{date.tm_year:04}" if date.tm_year >= 0 else f"-{-date.tm_year:06}"
    return year + time.strftime("-%m-%dT%H:%M:%SZ", date)

def misfits(step: Step, declared: Declaration) -> Iterator[tuple[object, Misfit]]:
    """What may be wrong with the turn of a step, in the order of the tests."""
    turn, is_open, is_lenient = step.turn, step.call.response is None, declared.unjudged != REFUSED
    places, asides, has_answer = turn.values(Tag.PLACE), turn.values(Tag.ASIDE), turn.first(Tag.ANSWER) is not None
    is_told, allowed = is_open and ALL_OF_THE_CALL not in step.asides, {Outside.Operation} if is_lenient else set()
    are_inside = step.is_readable and all(it <= allowed for it in step.kinds[1])
    yield has_answer and not is_open, Misfit.AnswerNotWanted
    yield is_told and not has_answer, Misfit.AnswerMissing
    yield is_told and not are_inside, Misfit.AnswerForm
    is_near = step.is_read and abs(turn.get(Tag.MOMENT, step.stamp) - step.stamp) <= declared.tolerance
    yield turn.first(Tag.MOMENT) and not is_near, Misfit.MomentForm
    answered = [it.number for it in step.answered if step.is_read]
    is_last = step.option == CONTINUE or step.first_failed in (None, *places[-1:])
    yield places and not (step.is_read and step.is_unordered and not step.refuses_message), Misfit.OrderNotWanted
    yield places and not (sorted(places) == answered and is_last), Misfit.OrderForm
    done = [it for it in step.answered if step.is_read and it.is_done and it.number not in step.passed]
    wanted = {it.number: PAYLOADS[it.operation][1][0].fields for it in done
              if it.said is NOTHING and it.operation in (*MAKING, LOCATE)}
    yield not are_once_of([at for at, _ in step.fills], wanted), Misfit.FillNotWanted
    yield len(step.fills) < len(wanted), Misfit.FillMissing
    yield any(kind for at, it in step.fills for kind in kinds_of(it, *wanted[at])), Misfit.FillForm
    made = [it.number for it in done if it.operation in MAKING]
    yield not are_once_of([at for at, _ in step.births], made), Misfit.BirthNotWanted
    are_own = all(it.children and {one.tag for one in it.children} <= {*declared.own} for _, it in step.births)
    have_kinds = any(kind for _, it in step.births for kind in kinds_of_attributes(it, is_client=True))
    yield not are_own or have_kinds, Misfit.BirthForm
    are_places = asides == [ALL_OF_THE_CALL] or are_once_of(asides, answered)
    yield asides and not (are_places and is_lenient), Misfit.AsideForm

def steps_of(calls: list[Call], turns: list[Item], declared: Declaration) -> list[Step]:
    """The steps that the turns of a witness take, where no message ends the audit and the witness has no fault."""
    is_lenient, steps = declared.unjudged != REFUSED, dict[int, Step]()
    own = {it.get(Tag.CALL): it for it in reversed(turns)}
    known = {it.number: Step(it, own.get(it.number, NOTHING), is_lenient) for it in calls}
    for step in [] if is_lenient else known.values():
        for side, each in [*zip(("request", "response"), step.kinds)][:1 if step.call.response is None else 2]:
            for at, kinds in enumerate(each):
                where = f"outside: call {step.call.number} {side} item {at} kind"
                refuse(where, [(kind in kinds, kind) for kind in Outside])
    for at, turn in enumerate(turns, 1):
        where, number = f"witness: at {at} kind", turn.get(Tag.CALL)
        refuse(where, ((number not in known, Misfit.UnknownCall), (number in steps, Misfit.Twice)))
        refuse(where, misfits(known[number], declared))
        steps[number] = known[number]
        for it in steps[number].answered:
            it.said = dict(steps[number].fills).get(it.number, it.said)
            it.given = dict(steps[number].births).get(it.number, NOTHING).children + it.given
    left_out = [it.number for it in calls if it.response is not None and it.number not in steps]
    refuse(f"witness: at {[*left_out, 0][0]} kind", [(left_out, Misfit.LeftOut)])
    return [*steps.values()]

def count(run: Run, step: Step, it: Place, is_aside: bool) -> None:
    """Counts how an item is judged, which is about what is aside or not."""
    asked, answered = (kinds[0] | kinds[it.number] for kinds in step.kinds)
    way = first_of((
        (asked or it.operation not in PAYLOADS, "request"), (not step.is_readable or answered, "answer"),
        (not step.is_read or it.number in step.asides, "witness"), (is_aside, "object"))) or "judged"
    run.ways[way] += 1
    run.ways["but for"] += step.is_read and way == "witness"

def shapes_of(step: Step, it: Place) -> set[int]:
    """The statuses with which a place has its shape."""
    failed, is_last_only = step.first_failed, step.option != CONTINUE
    if it.ask is NOTHING or is_last_only and failed is not None and it.number > failed:
        return {NO_ANSWER}
    done = UNDONE if step.option == UNDO and failed is not None else SUCCESS
    return {FAILED, done, *([PENDING] if step.allows_pending else [])}

def take_call(run: Run, step: Step) -> None:
    """Takes a call, where it is possible, and counts how its items are judged."""
    kept = dict(run.things)
    run.client, run.now, run.held = identity_of(step.call.client), step.moment or 0, None
    if not step.is_read:
        pass_call(run, step)
        run.ways["but for"] += ALL_OF_THE_CALL in step.asides and (step.is_readable or step.call.response is None)
    if not step.is_read or step.refuses_message:
        for it in step.answered:
            count(run, step, it, step.is_read and run.is_about_aside(it))
        return
    unshaped = [it for it in step.places if it.status not in shapes_of(step, it)][:1]
    order = [step.places[at - 1] for at in step.turn.values(Tag.PLACE)] or step.answered
    for it in unshaped + order if step.is_unordered else sorted({*order, *unshaped}, key=lambda it: int(it.number)):
        run.refuse(it.number, [(it in unshaped, Why.BatchShape)])
        count(run, step, it, run.is_about_aside(it))
        if it.number not in step.passed:
            take(run, it)
        else:
            is_other = it.has_operation and it.operation != POLL and it.answers_to not in (None, it.operation)
            run.refuse(it.number, [(is_other, Why.OperationDiffers)])
            pass_place(run, it, step.is_unordered)
    if step.option == UNDO and step.first_failed is not None:
        run.things = kept

def judge(declared: Declaration, steps: list[Step]) -> Run:
    """The run of these steps, where each answer is possible."""
    run, moment = Run(declared), -NEVER
    first_ends = [*accumulate((it.call.end for it in reversed(steps)), min, initial=NEVER)][::-1]
    for at, step in enumerate(steps, 1):
        run.no, run.date = f"no: turn {at} call {step.call.number}", date_of(step.stamp) if step.is_read else "none"
        now = moment if step.moment is None else step.moment
        run.refuse(0, ((first_ends[at] < step.call.begin, Why.EarlierCallLate), (now < moment, Why.StampRunsBack)))
        moment = now
        take_call(run, step)
    return run
