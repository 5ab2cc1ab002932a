"""The steps of a caller and of its workers over the mailboxes between them, each by its name in the listing.

A step is what other threads can come between: an access to a signal, a flag or a thread, or the begin or the end of a call of the queue. Of
the queue it has what its contract says: a push takes effect at its end, where the queue isn't full, and waits while the other end is in a
call; `try_pop` takes what is there, and may find nothing while the other end is in a call. `park` puts a thread to sleep only if the word
is the one that it was given, and the thread is woken by `wake_one`, or for no reason.
"""
from collections import namedtuple

NOT_GIVEN, GIVEN, ASLEEP = range(3)
CALLER, WORKER = 1, 2  # the ends of a queue, as bits

# A message is ("ask", round) or ("answer", round); `inside` are the ends that are in a call of the queue.
Mailbox = namedtuple("Mailbox", "message inside asked answered closed", defaults=[None, 0, NOT_GIVEN, NOT_GIVEN, False])
# `at` is the step that comes next; `work` is the round of the work that was taken.
Worker = namedtuple("Worker", "at work", defaults=[None])
# `who` is the worker with which it deals, `left` how many works are to be asked for yet, `busy` are the workers that were asked before; `ends`
# says that no round comes any more.
Caller = namedtuple("Caller", "at who round left idle busy ends", defaults=[0, 0, 0, (), (), False])
State = namedtuple("State", "caller workers mailboxes")

UNMADE, ENDED = "unmade", "ended"
FAULTS = {
    "no token is kept for a thread that doesn't sleep yet": "unkept",
    "a waiting thread takes a token away unseen": "blind",
    "a token is given before its message is there": "order",
    "a mailbox is closed before the last work is taken": "early",
    "a mailbox is closed without a token": "silent",
}


class Wrong(Exception):
    """What no run may come to."""


class Model:
    """So many workers are asked for, of which each may not start, and then so many rounds: each of any number of works, each may be the last,
    and after each work there may be no memory to keep its worker. `fault` is one of FAULTS, if one is planted."""

    def __init__(self, workers, rounds, fault=None):
        self.number, self.rounds, self.fault = workers, rounds, FAULTS.get(fault)

    def first(self):
        return State(Caller("spawn"), (Worker(UNMADE),) * self.number, (Mailbox(),) * self.number)

    def is_final(self, state):
        return state.caller.at == ENDED

    def steps(self, state):
        """Each step that may come next: its name, whether it is a sleep that ends for no reason, and the state after it."""
        yield from self.of_caller(state, state.caller)
        for who, worker in enumerate(state.workers):
            if worker.at not in (UNMADE, ENDED):
                yield from self.of_worker(state, who, worker, state.mailboxes[who])

    # ---- signals and the queue

    def given(self, box, signal):
        """The mailbox after the first step of `give`, and whether a thread is to be woken."""
        sleeps = getattr(box, signal) == ASLEEP
        return box if self.fault == "unkept" and not sleeps else box._replace(**{signal: GIVEN}), sleeps

    def waited(self, box, signal, at):
        """A step of `wait`: the next one, and the mailbox. It is past its end at 'pop'."""
        word = getattr(box, signal)
        match at:
            case "lie":
                return "token", box._replace(**{signal: ASLEEP}) if word == NOT_GIVEN or self.fault == "blind" else box
            case "token":
                return ("pop", box._replace(**{signal: NOT_GIVEN})) if word == GIVEN else ("park", box)
            case "park":
                return "sleep" if word == ASLEEP else "token", box

    @staticmethod
    def popped(box, end):
        """How a call of `try_pop` may end: with the message or None, and the mailbox then."""
        after = box._replace(inside=box.inside & ~end)
        if box.message is None or after.inside:
            yield None, after
        if box.message is not None:
            yield box.message, after._replace(message=None)

    @staticmethod
    def pushed(box, end, message):
        """How a push may end."""
        after = box._replace(inside=box.inside & ~end)
        if box.message is None:
            yield after._replace(message=message)
        elif not after.inside:
            raise Wrong("a push finds the queue full")

    # ---- a worker

    def of_worker(self, state, who, worker, box):
        def to(at, box, work=None):
            workers, boxes = list(state.workers), list(state.mailboxes)
            workers[who], boxes[who] = Worker(at, work), box
            return State(state.caller, tuple(workers), tuple(boxes))

        match worker.at:
            case "lie" | "token" | "park":
                yield f"wait.{worker.at}", False, to(*self.waited(box, "asked", worker.at))
            case "sleep":
                yield "wait.park", True, to("token", box)
            case "pop":
                yield "take.pop", False, to("take", box._replace(inside=box.inside | WORKER))
            case "take":
                for message, after in self.popped(box, WORKER):
                    is_work = message is not None and message[0] == "ask"
                    yield "take.pop", False, to("push", after, message[1]) if is_work else to("load", after)
            case "load":
                yield "is_closed.load", False, to(ENDED if box.closed else "lie", box)
            case "push":
                yield "answer.push", False, to("answer", box._replace(inside=box.inside | WORKER), worker.work)
            case "answer":
                yield from (("answer.push", False, to("swap", after)) for after in self.pushed(box, WORKER, ("answer", worker.work)))
            case "swap":
                after, sleeps = self.given(box, "answered")
                yield "give.swap", False, to("wake" if sleeps else "lie", after)
            case "wake":
                woken = to("lie", box)
                is_asleep = state.caller.at == "sleep" and state.caller.who == who
                yield "give.wake", False, woken._replace(caller=state.caller._replace(at="token")) if is_asleep else woken

    # ---- the caller

    def of_caller(self, state, caller):
        match caller.at:
            case "spawn":
                yield from self.spawn(state, caller)
            case "begin":
                yield "run_round_by.begin", False, self.at_end(state, caller)
                for works in range(len(caller.idle) + 1) if caller.round < self.rounds else ():
                    yield "run_round_by.begin", False, self.to_next(state, caller._replace(left=works))
            case "keep":
                yield "do_works.keep", False, self.to_next(state, caller._replace(idle=(*caller.idle, caller.who)))
                yield "do_works.keep", False, state._replace(caller=caller._replace(at="store", ends=True))
            case "join":
                if state.workers[caller.who].at in (UNMADE, ENDED):
                    last = caller.who + 1 == self.number
                    yield "end.join", False, state._replace(caller=Caller(ENDED) if last else caller._replace(who=caller.who + 1))
            case "push" | "ask" | "swap" | "wake" | "store" | "close" | "rouse":
                yield from self.of_asking(state, caller, state.mailboxes[caller.who])
            case "lie" | "token" | "park" | "sleep" | "pop" | "hear":
                yield from self.of_hearing(state, caller, state.mailboxes[caller.who])

    def spawn(self, state, caller):
        """A thread is made, or none from here on."""
        begun = caller._replace(at="begin", who=0)
        yield "start_one.spawn", False, state._replace(caller=begun)
        workers, idle = list(state.workers), (*caller.idle, caller.who)
        workers[caller.who] = Worker("lie")
        next_one = begun if caller.who + 1 == self.number else caller._replace(who=caller.who + 1)
        yield "start_one.spawn", False, State(next_one._replace(idle=idle), tuple(workers), state.mailboxes)

    def to_next(self, state, caller):
        """To the next work of the round, or to the next answer, of which the last work's comes first, or to the round's end."""
        if caller.left:
            *idle, who = caller.idle
            at = "swap" if self.fault == "order" else "push"
            caller = caller._replace(at=at, who=who, left=caller.left - 1, idle=tuple(idle), busy=(*caller.busy, who))
        elif caller.busy:
            caller = caller._replace(at="lie", who=caller.busy[-1], busy=caller.busy[:-1])
        elif caller.ends:
            return self.at_end(state, caller)
        else:
            caller = caller._replace(at="begin", who=0, round=caller.round + 1)
        return state._replace(caller=caller)

    def at_end(self, state, caller):
        """To the next mailbox that the pool's end closes, or to its first thread."""
        caller, is_open = caller._replace(round=0, ends=True), [who for who in caller.idle if not state.mailboxes[who].closed]
        if not is_open:
            return state._replace(caller=caller._replace(at="join", who=0, idle=()))
        return state._replace(caller=caller._replace(at="store", who=is_open[0], idle=tuple(is_open[1:])))

    def of_asking(self, state, caller, box):
        """The caller asks for a work, or closes a mailbox."""
        to = lambda at, box: self.with_box(state, caller._replace(at=at), box)
        past = lambda box: self.to_next(self.with_box(state, caller, box), caller)
        match caller.at:
            case "push":
                yield "ask.push", False, to("ask", box._replace(inside=box.inside | CALLER))
            case "ask":
                for after in self.pushed(box, CALLER, ("ask", caller.round)):
                    yield "ask.push", False, past(after) if self.fault == "order" else to("swap", after)
            case "store":
                after = box._replace(closed=True)
                yield "drop.store", False, past(after) if self.fault == "silent" else to("close", after)
            case "swap" | "close":
                after, sleeps = self.given(box, "asked")
                is_ask = caller.at == "swap"
                if sleeps:
                    yield "give.swap", False, to("wake" if is_ask else "rouse", after)
                else:
                    yield "give.swap", False, self.given_to(state, caller, after, is_ask)
            case "wake" | "rouse":
                workers = list(state.workers)
                if workers[caller.who].at == "sleep":
                    workers[caller.who] = Worker("token")
                yield "give.wake", False, self.given_to(state._replace(workers=tuple(workers)), caller, box, caller.at == "wake")

    def given_to(self, state, caller, box, is_ask):
        """After a token that the caller gave."""
        state = self.with_box(state, caller, box)
        if is_ask and self.fault in ("order", "early"):
            return state._replace(caller=caller._replace(at="push" if self.fault == "order" else "store"))
        return self.to_next(state, caller)

    def of_hearing(self, state, caller, box):
        """The caller waits for an answer."""
        to = lambda at, box: self.with_box(state, caller._replace(at=at), box)
        match caller.at:
            case "lie" | "token" | "park":
                yield f"wait.{caller.at}", False, to(*self.waited(box, "answered", caller.at))
            case "sleep":
                yield "wait.park", True, to("token", box)
            case "pop":
                yield "hear.pop", False, to("hear", box._replace(inside=box.inside | CALLER))
            case "hear":
                for message, after in self.popped(box, CALLER):
                    if message and message != ("answer", caller.round):
                        raise Wrong(f"in round {caller.round} the caller hears {message}")
                    yield "hear.pop", False, to("keep" if message else "lie", after)

    @staticmethod
    def with_box(state, caller, box):
        boxes = list(state.mailboxes)
        boxes[caller.who] = box
        return State(caller, state.workers, tuple(boxes))
