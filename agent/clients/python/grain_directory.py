"""A client of grain-directory-agent: activations of grains, over the agent's Unix socket. Python's standard library is enough.

    agent = Agent("/run/grain-directory/agent.sock")
    with agent.activate("user/ann") as work:      # Taken says where it is instead
        work.check()                              # before each effect: Lost, unless work is allowed now
        store.write(..., token=work.token)        # a store that refuses a lower token than its highest is safe from frozen processes

Work ends with its `with`; only then the agent gives the grain to others. When the agent is fenced or leaves, `work.ends` is set; when it is fenced,
`check` raises Lost, and the connection is hung up once all works have ended. The next call connects anew. One Agent serves many threads: of two that
activate one grain the second is refused, by `yours`.

Each call waits for as many seconds as its `timeout` says, else as the Agent's does, else for as long as it takes. Behind that it raises TimeoutError,
and what was asked goes on: a grain that nobody waits for any more is given up, and a work that was to end has ended."""

import math
import queue
import select
import socket
import threading
import time
from contextlib import suppress

PAUSE = 0.02  # seconds until an end that was refused is asked for again, where nobody waits for it any more
ENOUGH = 1_000_000  # nanoseconds of a margin for which no better one is looked for
RDHUP = 0x2000  # POLLRDHUP


def clock():
    """Nanoseconds since boot, by the clock of the agent's deadlines."""
    return time.clock_gettime_ns(time.CLOCK_BOOTTIME)


class Refused(Exception):
    """The agent refuses, by a code and with words that say what to do; all is as it was."""

    def __init__(self, code="", *why):
        super().__init__(" ".join((code, *why)))
        self.code = code


class Taken(Exception):
    """The grain is active elsewhere, as the activation that is named."""


class Lost(Exception):
    """The activation is lost: end its work."""


class Limit:
    """How long a caller waits."""

    def __init__(self, seconds):
        self.until = None if seconds is None else time.monotonic() + seconds

    def left(self):
        return None if self.until is None else max(0.0, self.until - time.monotonic())


class Work:
    """An activation of this process. Its work may go on while `check` doesn't raise; `ends` is set when it is to end."""

    def __init__(self, connection, hold, activation, token):
        self.grain, self.activation, self.token, self.ends = hold.grain, activation, int(token), threading.Event()
        self.connection, self.hold, self.goes_on, self.ended = connection, hold, True, None

    def check(self):
        """Waits for nothing, and asks the kernel whether the agent has hung up."""
        if not (self.goes_on and self.connection.may()):
            raise Lost(self.grain)

    def deactivate(self, timeout=None):
        self._end(f"deactivate {self.grain}", timeout)

    def migrate(self, silo="any", timeout=None):
        """Its work has ended here, and goes on at another silo, where an application serves. Where `ended` is "removed" afterwards, that may be
        yet to come, or never: who wants the grain activates it."""
        self._end(f"migrate {self.grain} {silo}", timeout)

    def _end(self, question, timeout, is_left=False):
        with suppress(Lost):
            self.connection.end(self.hold, question, self.connection.agent.limit(timeout), is_left)

    def __enter__(self):
        return self

    def __exit__(self, *_):
        with suppress(TimeoutError):  # its work has ended, and is ended behind that
            self._end(f"deactivate {self.grain}", None, is_left=True)


class Hold:
    """What a connection has of a grain: it is asked for, has a work, or an end, and is over."""

    def __init__(self, grain):
        self.grain, self.work, self.end, self.is_over = grain, None, None, False


class End:
    """An end of a grain that is under way. There is one at a time, and all who want it wait for that one."""

    def __init__(self, is_left):
        self.answered, self.fault = threading.Event(), None
        self.is_left = is_left  # somebody waits no longer: it is asked for until it comes


class Question:
    """One that is under way. `hears` is called with its answer, under the connection's lock, in the order of the agent's lines."""

    def __init__(self, hears):
        self.answer, self.hears = queue.SimpleQueue(), hears

    def wait(self, limit):
        try:
            words = self.answer.get(timeout=limit.left())
        except queue.Empty:
            raise TimeoutError("the agent hasn't answered yet") from None
        if words is None or words[:2] == ["refused", "lost"]:
            raise Lost("the agent is fenced, or gone")
        if words[0] == "refused":
            raise Refused(*words[1:])
        return words


class Connection:
    """A connection to the agent, with a thread that reads and one that writes."""

    def __init__(self, agent, limit):
        self.agent, self.until, self.margin, self.is_lost, self.is_ending = agent, 0, math.inf, False, False
        self.lock, self.tag, self.questions, self.holds, self.out = threading.Lock(), 0, {}, {}, queue.Queue(256)
        self.socket = socket.socket(socket.AF_UNIX)
        self.socket.settimeout(limit.left())
        try:
            self.socket.connect(agent.path)
            self.socket.settimeout(None)
        except BaseException:
            self.socket.close()
            raise
        for what in (self.read, self.write):
            threading.Thread(target=what, daemon=True).start()
        try:
            self.compare_clocks(limit)
            if agent.moved:
                self.ask(" ".join(["serve", *agent.kinds]), limit)
        except BaseException:
            self.lose()
            raise

    def compare_clocks(self, limit):
        """The agent's clock has to show a time between two looks at this one. It may be ahead of this one by no more than the time between the first
        look and its own, which is the margin of each deadline; a quicker answer makes that smaller."""
        for _ in range(5):
            before = clock()
            now = int(self.ask("clock", limit)[1])
            if not before <= now <= clock():
                raise OSError("the agent's clock isn't this process's: they have to run in one time namespace")
            self.margin = min(self.margin, now - before)
            if self.margin <= ENOUGH:
                break

    def may(self):
        return not self.is_lost and clock() < self.until - self.margin and not self.is_hung_up()

    def is_hung_up(self):
        """Whether the agent has hung up, or has said its last, by the kernel's word: what it said before needn't be read yet."""
        try:
            poll = select.poll()
            poll.register(self.socket, RDHUP)
            return bool(poll.poll(0))
        except (OSError, ValueError):
            return True

    def put(self, text, limit, hears=None):
        """Asks a question; raises where it isn't asked."""
        question = Question(hears)
        with self.lock:
            if self.is_lost:
                raise Lost(text)
            self.tag += 1
            tag = str(self.tag)
            self.questions[tag] = question
        try:
            self.out.put(f"{tag} {text}\n".encode(), timeout=limit.left())
        except queue.Full:
            with self.lock:
                self.questions.pop(tag, None)
            raise TimeoutError("the agent reads no question") from None
        return question

    def ask(self, text, limit):
        return self.put(text, limit).wait(limit)

    def activate(self, grain, limit):
        hold = self.begin(grain, limit)
        question = None
        try:
            question = self.put(f"activate {grain}", limit, lambda words: self.granted(hold, words))
            words = question.wait(limit)
            if words[0] == "taken":
                raise Taken(words[1])
        except BaseException as fault:
            with self.lock:
                if question is None:
                    self.drop(hold)
                elif isinstance(fault, TimeoutError) and hold.work and not hold.end and not hold.is_over:
                    return hold.work  # it came just then
                elif not isinstance(fault, (Refused, Taken, Lost)):
                    self.end_left(hold)
            raise
        if hold.work is None:
            raise Refused("yours", "this connection has it already")
        return hold.work

    def begin(self, grain, limit):
        """Has a grain asked for, once an end of it that is under way has come."""
        while True:
            with self.lock:
                if self.is_lost:
                    raise Lost(grain)
                hold = self.holds.get(grain)
                if hold is None:
                    hold = self.holds[grain] = Hold(grain)
                    return hold
                end = hold.end
            if end is None:
                raise Refused("yours", "this connection has it, or asks for it already")
            if not end.answered.wait(limit.left()):
                raise TimeoutError(f"{grain} still ends")

    def granted(self, hold, words):
        """Takes the answer to `activate`. The lock is held, as in `work`, `drop`, `end_left` and `end_answered`."""
        if hold.work or hold.end or hold.is_over:  # it moved here meanwhile, or was given up
            return
        if words[0] == "firm":
            self.work(hold, words)
        else:
            self.drop(hold)

    def work(self, hold, words):  # firm ACTIVATION GRAIN token V
        work = hold.work = Work(self, hold, words[1], words[4])
        if self.is_ending:
            work.ends.set()
        return work

    def drop(self, hold, fault=None):
        if not hold.is_over:
            hold.is_over = True
            if hold.work:
                hold.work.goes_on = False
            if hold.end:
                hold.end.fault = fault
                hold.end.answered.set()
            del self.holds[hold.grain]
            self.hang_up()

    def moved_here(self, words):
        with self.lock:
            hold = self.holds.get(words[2])
            if hold and hold.end:
                return  # the agent reads that end yet
            if hold and hold.work:
                raise ValueError("what is here can't move here")
            hold = hold or self.holds.setdefault(words[2], Hold(words[2]))
            work = self.work(hold, words)
            if not self.agent.moved:
                self.end_left(hold)
        if self.agent.moved:
            threading.Thread(target=self.agent.moved, args=(work,), daemon=True).start()

    def end(self, hold, text, limit, is_left):
        """Ends a work, or waits for an end that is under way. Where the agent refuses, all is as it was, unless somebody waits no longer."""
        with self.lock:
            if self.is_lost:
                self.drop(hold)
            if hold.is_over:
                return
            end, is_first = hold.end, hold.end is None
            if is_first:
                hold.work.goes_on = False
                end = hold.end = End(is_left)
            end.is_left |= is_left
        question = None
        try:
            if is_first:
                question = self.put(text, limit, lambda words: self.end_answered(hold, words))
            if not end.answered.wait(limit.left()):
                raise TimeoutError(f"{hold.grain} still ends")
        except BaseException:
            with self.lock:
                if not end.answered.is_set():
                    end.is_left = True
                    if is_first and question is None:
                        self.again(hold)
                    raise
        if end.fault:
            raise end.fault

    def end_left(self, hold):
        """Has a grain ended that nobody waits for."""
        if not hold.is_over and not hold.end:
            if hold.work:
                hold.work.goes_on = False
            hold.end = End(True)
            self.again(hold, 0)

    def again(self, hold, pause=PAUSE):
        def ask():
            with suppress(Lost):
                self.put(f"deactivate {hold.grain}", Limit(None), lambda words: self.end_answered(hold, words))

        timer = threading.Timer(pause, ask)
        timer.daemon = True
        timer.start()

    def end_answered(self, hold, words):
        end = hold.end
        if hold.is_over or words[:2] == ["refused", "lost"]:
            return  # all is lost
        if words[0] != "refused" or end.is_left and words[1] in ("802", "803"):  # or it isn't this connection's
            if hold.work:
                hold.work.ended = words[-1] if words[0] != "refused" else "absent"
            self.drop(hold)
        elif end.is_left:
            self.again(hold)
        else:
            hold.end, hold.work.goes_on, end.fault = None, True, Refused(*words[1:])
            end.answered.set()

    def hang_up(self):
        if self.is_lost and not self.holds:
            with suppress(OSError):
                self.socket.shutdown(socket.SHUT_RDWR)
            self.socket.close()
            with suppress(queue.Full):
                self.out.put_nowait(None)

    def write(self):
        with suppress(OSError):
            while (line := self.out.get()) is not None:
                self.socket.sendall(line)

    def read(self):
        """Takes the agent's lines until it hangs up, says that all is lost, or says what nobody understands."""
        try:
            with self.socket.makefile("r") as lines:
                for line in lines:
                    if not self.take(*line.split()):
                        break
        except (OSError, ValueError, TypeError, IndexError, KeyError):
            pass
        self.lose()

    def take(self, tag, what, *words):
        if tag != "event":
            with self.lock:
                question = self.questions[tag]
                if question.hears:
                    question.hears([what, *words])
                del self.questions[tag]
            question.answer.put([what, *words])
        elif what == "valid":
            self.until = max(self.until, int(words[0]))
        elif what == "firm":
            self.moved_here([what, *words])
        elif what == "leaving":
            self.end_works()
        return tag != "event" or what != "lost"

    def end_works(self):
        with self.lock:
            self.is_ending = True
            for hold in self.holds.values():
                if hold.work:
                    hold.work.ends.set()

    def lose(self):
        self.end_works()
        with self.lock:
            self.is_lost = True
            for question in self.questions.values():
                question.answer.put(None)
            self.questions.clear()
            for hold in [hold for hold in self.holds.values() if hold.end or not hold.work]:
                self.drop(hold, Lost(hold.grain))
            self.hang_up()


class Agent:
    """The agent of this machine. moved(work), if given, is called in a thread of its own with each grain that moves here, of these kinds or all."""

    def __init__(self, path, moved=None, kinds=(), timeout=None):
        self.path, self.moved, self.kinds, self.timeout, self.lock, self.last = path, moved, kinds, timeout, threading.Lock(), None

    def limit(self, timeout):
        return Limit(self.timeout if timeout is None else timeout)

    def connection(self, limit):
        left = limit.left()
        if not self.lock.acquire(timeout=-1 if left is None else left):
            raise TimeoutError("the agent can't be connected to yet")
        try:
            if self.last is None or self.last.is_lost:
                self.last = Connection(self, limit)
            return self.last
        finally:
            self.lock.release()

    def ask(self, question, timeout=None):
        """The words of the agent's answer."""
        limit = self.limit(timeout)
        return self.connection(limit).ask(question, limit)

    def activate(self, grain, timeout=None):
        """The Work of a grain; raises Taken, Refused, Lost, OSError, or TimeoutError."""
        limit = self.limit(timeout)
        return self.connection(limit).activate(grain, limit)

    def find(self, grain, fresh=False, timeout=None):
        """Where a grain is active, or None. It may be an old hint, unless it is asked for fresh."""
        words = self.ask(f"find {grain}{' fresh' if fresh else ''}", timeout)
        return words[1] if words[0] == "at" else None
