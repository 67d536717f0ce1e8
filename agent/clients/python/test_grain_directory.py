"""Tests the client over a socket of its own: python3 -m unittest, in this folder."""

import os
import socket
import tempfile
import threading
import time
import unittest

import grain_directory
from grain_directory import Agent, Lost, Refused, Taken, clock

grain_directory.ENOUGH = 3600 * 10**9  # one question for the clock


class Case(unittest.TestCase):
    def setUp(self):
        self.folder = tempfile.TemporaryDirectory()
        self.path = os.path.join(self.folder.name, "s")
        self.listener = socket.socket(socket.AF_UNIX)
        self.listener.bind(self.path)
        self.listener.listen()
        self.agent = Agent(self.path)

    def tearDown(self):
        self.listener.close()
        self.folder.cleanup()

    def asks(self, call):
        """Calls the client in a thread; what it answers, or raises, comes into the list."""
        said = []

        def run():
            try:
                said.append(call())
            except Exception as fault:
                said.append(fault)

        thread = threading.Thread(target=run, daemon=True)
        thread.start()
        return thread, said

    def accept(self, ahead=0):
        """Takes a connection, with a clock that is ahead of this one."""
        self.conn, _ = self.listener.accept()
        self.conn.settimeout(5)
        self.lines = self.conn.makefile("r")
        self.hears("1 clock")
        self.says(f"1 clock {clock() + ahead}")

    def hears(self, line):
        self.assertEqual(self.lines.readline(), line + "\n")

    def says(self, *lines):
        self.conn.sendall("".join(line + "\n" for line in lines).encode())

    def ends(self, thread, said):
        thread.join(5)
        return said[0]

    def firm(self, seconds, tag=2, is_new=True):
        """A work that may go on for so long."""
        asked = self.asks(lambda: self.agent.activate("user/ann"))
        if is_new:
            self.accept()
        self.hears(f"{tag} activate user/ann")
        self.says(f"event valid {clock() + int(seconds * 1e9)}", f"{tag} firm S!1 user/ann token 7")
        return self.ends(*asked)

    def test_deadline(self):
        work = self.firm(0.1)
        self.assertEqual((work.activation, work.token), ("S!1", 7))
        work.check()
        time.sleep(0.12)
        self.assertRaises(Lost, work.check)

    def test_lost(self):
        work = self.firm(60)
        self.says("event lost cut off")
        self.assertTrue(work.ends.wait(5))
        self.assertRaises(Lost, work.check)
        self.conn.settimeout(0.05)
        with self.assertRaises(TimeoutError):  # it hangs up when its work has ended, and not before
            self.conn.recv(1)
        work.deactivate()
        self.conn.settimeout(5)
        self.assertEqual(self.conn.recv(1), b"")
        again = self.firm(60)  # over another connection
        again.check()

    def test_leaving(self):
        work = self.firm(60)
        self.says("event leaving")
        self.assertTrue(work.ends.wait(5))
        work.check()
        asked = self.asks(lambda: work.migrate("10.0.0.2:1@1"))
        self.hears("3 migrate user/ann 10.0.0.2:1@1")
        self.says("3 ended user/ann absent")
        self.ends(*asked)
        self.assertEqual(work.ended, "absent")
        self.assertRaises(Lost, work.check)
        self.assertTrue(self.firm(60, 4, False).ends.is_set())

    def test_refused_end(self):
        work = self.firm(60)
        asked = self.asks(lambda: work.migrate("10.0.0.9:1@1"))
        self.hears("3 migrate user/ann 10.0.0.9:1@1")
        self.says("3 refused 807 the other silo isn't active")
        self.assertIsInstance(self.ends(*asked), Refused)
        work.check()  # it goes on
        asked = self.asks(work.deactivate)
        self.hears("4 deactivate user/ann")
        self.says("4 ended user/ann removed")
        self.assertIsNone(self.ends(*asked))
        self.assertEqual(work.ended, "removed")
        self.assertRaises(Lost, work.check)

    def test_answers(self):
        asked = self.asks(lambda: self.agent.find("user/ann"))
        self.accept()
        self.hears("2 find user/ann")
        self.says("2 at T!1 user/ann hint")
        self.assertEqual(self.ends(*asked), "T!1")
        for answer, fault in (("taken T!1 user/ann", Taken), ("refused 804 ask another agent", Refused)):
            asked = self.asks(lambda: self.agent.activate("user/ann"))
            tag = self.lines.readline().split()[0]
            self.says(f"{tag} {answer}")
            self.assertIsInstance(self.ends(*asked), fault)

    def test_moved(self):
        moved, came = [], threading.Event()
        self.agent = Agent(self.path, moved=lambda work: (moved.append(work), came.set()), kinds=("user", "cart"))
        asked = self.asks(lambda: self.agent.ask("status"))
        self.accept()
        self.hears("2 serve user cart")
        self.says("2 ok", "event firm S!2 user/eve token 9")
        self.hears("3 status")
        self.says("3 status S version 3 seen 3 settled 3 members 2 held 1")
        self.assertEqual(self.ends(*asked)[:4], ["status", "S", "version", "3"])
        self.assertTrue(came.wait(5))
        self.assertEqual((moved[0].grain, moved[0].token), ("user/eve", 9))

    def test_another_clock(self):
        for ahead in (1_000_000_000_000, -1_000_000_000):
            asked = self.asks(lambda: self.agent.activate("user/ann"))
            self.accept(ahead)
            fault = self.ends(*asked)
            self.assertIsInstance(fault, OSError)
            self.assertIn("time namespace", str(fault))

    def test_margin(self):
        """The agent may have read its clock as late as it can since it was asked: a work ends that much earlier."""
        asked = self.asks(lambda: self.agent.activate("user/ann"))
        self.conn, _ = self.listener.accept()
        self.conn.settimeout(5)
        self.lines = self.conn.makefile("r")
        self.hears("1 clock")
        time.sleep(0.06)
        self.says(f"1 clock {clock()}")
        self.hears("2 activate user/ann")
        self.says(f"event valid {clock() + 50_000_000}", "2 firm S!1 user/ann token 7")
        work = self.ends(*asked)
        self.assertRaises(Lost, work.check)
        self.says(f"event valid {clock() + 60_000_000_000}")
        self.until(lambda: self.may(work))

    def may(self, work):
        try:
            work.check()
            return True
        except Lost:
            return False

    def until(self, is_so):
        end = time.monotonic() + 5
        while not is_so():
            self.assertLess(time.monotonic(), end)
            time.sleep(0.001)

    def test_hung_up(self):
        """Whoever stood still sees that the agent has hung up, though its last lines aren't read yet."""
        work = self.firm(60)
        connection = work.connection
        with connection.lock:  # by which the reader stands still
            self.says("2 nobody asked for this")
            self.conn.shutdown(socket.SHUT_RDWR)
            self.assertFalse(connection.is_lost)
            self.assertRaises(Lost, work.check)

    def test_check_waits_for_nobody(self):
        work = self.firm(60)
        long = "x" * (1 << 20)
        asked = [self.asks(lambda: self.agent.find(long, timeout=0.5)) for _ in range(4)]  # more than the socket takes
        time.sleep(0.05)
        self.assertIsNone(self.ends(*self.asks(work.check)))
        for one in asked:
            self.assertIsInstance(self.ends(*one), TimeoutError)

    def test_nonsense(self):
        """What nobody understands ends in lost."""
        for line in ("77 ok", "", "event", "event valid soon", "event firm S!1 user/eve token", "3 firm"):
            work = self.firm(60)
            asked = self.asks(lambda: self.agent.activate("user/bob"))
            self.hears("3 activate user/bob")
            self.says(line)
            self.assertIsInstance(self.ends(*asked), Lost)
            self.assertTrue(work.ends.wait(5))
            self.assertRaises(Lost, work.check)
            work.deactivate()

    def test_one_end(self):
        """Of two who end a work at once one asks, and both hear the answer."""
        work = self.firm(60)
        moving = self.asks(lambda: work.migrate("S"))
        self.hears("3 migrate user/ann S")
        ending = self.asks(work.deactivate)
        time.sleep(0.05)
        self.assertRaises(Lost, work.check)
        self.says("3 refused 807 the other silo isn't active")
        for one in (moving, ending):
            self.assertEqual(str(self.ends(*one)), "807 the other silo isn't active")
        work.check()
        ending = self.asks(work.deactivate)
        self.hears("4 deactivate user/ann")  # and nothing before
        self.says("4 ended user/ann removed")
        self.assertIsNone(self.ends(*ending))

    def test_one_work(self):
        """A grain is one work: a second that asks is refused, be the first answered or not."""
        asked = self.asks(lambda: self.agent.activate("user/ann"))
        self.accept()
        self.hears("2 activate user/ann")
        with self.assertRaises(Refused) as refused:
            self.agent.activate("user/ann")
        self.assertEqual(refused.exception.code, "yours")
        self.says("2 firm S!1 user/ann token 7")
        self.ends(*asked)
        self.assertRaises(Refused, self.agent.activate, "user/ann")

    def test_giving_up(self):
        """Who waits no longer for a grain gives it up: no firm that crosses with that begins a work, and who asks anew waits for the end."""
        asked = self.asks(lambda: self.agent.activate("user/ann", timeout=0.1))
        self.accept()
        self.hears("2 activate user/ann")
        self.hears("3 deactivate user/ann")
        self.assertIsInstance(self.ends(*asked), TimeoutError)
        self.says(f"event valid {clock() + 60_000_000_000}", "2 firm S!1 user/ann token 7")
        asked = self.asks(lambda: self.agent.activate("user/ann"))
        time.sleep(0.02)
        self.says("3 refused busy ask again")
        self.hears("4 deactivate user/ann")  # nobody waits for it: it is asked for until it comes
        self.says("4 ended user/ann removed")
        self.hears("5 activate user/ann")
        self.says("5 firm S!2 user/ann token 7")
        work = self.ends(*asked)
        work.check()
        self.assertEqual(work.activation, "S!2")

    def test_left_end(self):
        """Who waits no longer for an end has ended its work all the same; so has who leaves its `with`."""
        work = self.firm(60)
        asked = self.asks(lambda: work.migrate("S", timeout=0.1))
        self.hears("3 migrate user/ann S")
        self.assertIsInstance(self.ends(*asked), TimeoutError)
        self.says("3 refused 807 it isn't active")
        self.hears("4 deactivate user/ann")
        self.assertRaises(Lost, work.check)
        self.says("4 ended user/ann removed")
        self.until(lambda: work.ended == "removed")
        work = self.firm(60, 5, False)
        asked = self.asks(lambda: work.__exit__(None, None, None))
        self.hears("6 deactivate user/ann")
        self.says("6 refused busy ask again")
        self.hears("7 deactivate user/ann")
        self.says("7 ended user/ann removed")
        self.assertIsNone(self.ends(*asked))


if __name__ == "__main__":
    unittest.main()
