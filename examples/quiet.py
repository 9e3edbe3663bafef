#!/usr/bin/env python3
"""Searches every interleaving of a few workers for a run that is ended as quiet while a letter is still to be handled
(docs/RUNS.md, 'A run that has nothing left to do'). With one question there is one, and with two there is none.

usage: examples/quiet.py      (some seconds)
"""

import sys
from typing import NamedTuple

READ, LOOK, POST, WAKE, ANSWER, CHECK = range(6)  # what a worker does next
MOST = 6  # how often is asked, so that the search ends


class Worker(NamedTuple):
    """Where a worker is in its turn, its answer, the question that it read, whether its last turn was idle, and the letter that it holds."""

    next: int = READ
    answer: int = 0
    read: int = 0
    idle: bool = False
    letter: int = -1  # how many more are posted after this one


class State(NamedTuple):
    """The workers, the letters in the queue of each, how often was asked and woken, and the question: its number, how often workers had
    been woken before the first, and which of the two it is."""

    workers: tuple
    queues: tuple
    asked: int = 0
    woken: int = 0
    question: tuple = None

    def but(self, i, worker, **changes):
        """This state with another worker i."""
        return self._replace(workers=replaced(self.workers, i, worker), **changes)


def replaced(items, i, item):
    return items[:i] + (item,) + items[i + 1 :]


def steps(state, i, questions):
    """The states after a step of worker i; None stands for the end of the run as quiet."""
    me = state.workers[i]
    if me.next == READ:
        yield state.but(i, me._replace(next=LOOK, read=state.asked))
    elif me.next == LOOK and state.queues[i]:
        letter, *rest = state.queues[i]
        yield state.but(i, me._replace(next=POST, letter=letter), queues=replaced(state.queues, i, tuple(rest)))
    elif me.next == LOOK:
        yield state.but(i, me._replace(next=ANSWER))
    elif me.next == POST and me.letter > 0:
        for j in range(len(state.workers)):
            if j != i:
                queue = state.queues[j] + (me.letter - 1,)
                yield state.but(i, me._replace(next=WAKE, letter=-1), queues=replaced(state.queues, j, queue))
    elif me.next == POST:
        yield state.but(i, me._replace(next=WAKE, letter=-1))
    elif me.next == WAKE:
        awake = me._replace(next=READ, idle=False)
        yield state.but(i, awake._replace(answer=0), woken=state.woken + 1) if me.idle else state.but(i, awake)
    elif me.next == ANSWER:
        yield state.but(i, me._replace(next=READ if i else CHECK, answer=me.read, idle=True))
    else:
        yield check(state, me._replace(next=READ), questions)


def check(state, me, questions):
    """The state after worker 0 has asked, or looked at the answers."""
    number, woken, which = state.question or (0, -1, 0)
    is_void = woken != state.woken
    if not is_void and any(worker.answer < number for worker in state.workers):
        return state.but(0, me)
    if not is_void and which == questions:
        return None
    if state.asked == MOST:
        return state.but(0, me)
    question = (state.asked + 1, state.woken, 1) if is_void else (state.asked + 1, woken, which + 1)
    return state.but(0, me, asked=state.asked + 1, question=question)


def is_busy(state):
    return any(state.queues) or any(worker.letter > 0 for worker in state.workers)


def ends_wrongly(questions, workers, letters):
    """Whether some run of these workers, in which so many letters follow from the first, is ended as quiet while it is busy."""
    first = State(tuple(Worker() for _ in range(workers)), ((letters,),) + ((),) * (workers - 1))
    seen, left = {first}, [first]
    while left:
        state = left.pop()
        for i in range(workers):
            for after in steps(state, i, questions):
                if after is None and is_busy(state):
                    return True
                if after is not None and after not in seen:
                    seen.add(after)
                    left.append(after)
    return False


if __name__ == "__main__":
    rows = ((1, 2, 3, True), (2, 2, 3, False), (2, 3, 2, False))
    wrong = [row for row in rows if ends_wrongly(*row[:3]) != row[3]]
    print("quiet.py:", f"{len(rows)} searches, as they should end" if not wrong else f"wrong: {wrong}")
    sys.exit(1 if wrong else 0)
