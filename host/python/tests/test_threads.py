"""Threads on one store: figures as of one thread, readings that share, and turns in the order of asking."""
import os
import random
import signal
import sys
import threading
import time
import unittest

from bodies import sphere
from cauchy import RAW, Kernel, Store, Unfinished, mass, rho0
from cauchy.turns import Turns

RUNS = 1000
VERTICES, FACES = sphere(3)  # 512 faces


def kernel(place):
    return Kernel((20.0 * place, 10.0, -5.0 * place), 0.002 + 0.0005 * place, 900.0 + 10 * place, 1 + place % 2)


def work(store, places):
    """Puts kernels, advances and reads, as one of several threads; a reading may be refused as unfinished."""
    for place in places:
        store.put(place, Kernel((1, 2, 3), 0.01, 7, 1))
        store.put(place, kernel(place))
        store.advance(100)
        store.reweigh(place, 1000.0 + place)
        try:
            store.report(RAW)
        except Unfinished:
            pass
        store.density(rho0(), (1, 2, 3))
    for _ in store.work(700):
        store.track(RAW, [(1, 2, 3), (400, 500, 600)])


def figures(store):
    return store.report(mass(5e11)), store.list(rho0()), store.page(), bytes(store.floats), bytes(store.words)


class Threads(unittest.TestCase):
    def test_two_threads_give_the_figures_of_one(self):
        empty = Store(500, VERTICES, FACES)
        alone = empty.copy()
        work(alone, range(4))
        expected = figures(alone)
        interval = sys.getswitchinterval()
        sys.setswitchinterval(1e-5)
        try:
            wrong = sum(self.figures_of_two(empty.copy()) != expected for _ in range(RUNS))
        finally:
            sys.setswitchinterval(interval)
        self.assertEqual(wrong, 0, f"of {RUNS} runs")

    def figures_of_two(self, store):
        faults, start = [], threading.Barrier(2)

        def run(places):
            try:
                start.wait(10)
                work(store, places)
            except Exception as fault:  # told below, in the test's own thread
                faults.append(fault)

        threads = [threading.Thread(target=run, args=(places,)) for places in ((0, 2), (1, 3))]
        for thread in threads:
            thread.start()
        for thread in threads:
            thread.join()
        self.assertEqual(faults, [])
        return figures(store)


class Adoptions(unittest.TestCase):
    def test_work_in_threads_ends_in_the_very_store_of_ones_own(self):
        store = Store(500, VERTICES, FACES)
        for place in range(4):
            store.put(place, kernel(place), layer=place)
        whole = store.copy()
        whole.advance(2**64)
        workers = [store.copy() for _ in range(2)]

        def run(worker, places):
            for place in set(range(4)) - set(places):
                worker.clear(place)
            for _ in worker.work(700):
                for place in places:
                    self.assertIsNotNone(store.adopt(place, worker, place))

        threads = [threading.Thread(target=run, args=pair) for pair in zip(workers, ((0, 3), (1, 2)))]
        for thread in threads:
            thread.start()
        for thread in threads:
            thread.join()
        self.assertEqual(store.to_bytes(), whole.to_bytes())

    def test_an_advance_with_threads_leaves_the_very_store_of_a_plain_one(self):
        for count, done in ((0, 0), (1, 0), (5, 0), (5, 40), (5, 2**64)):
            store = Store(500, VERTICES, FACES)
            for place in range(count):
                store.put(5 * place, kernel(place), layer=place)
            store.advance(done)
            alone = store.copy()
            wanted = alone.advance(2**64)
            for threads in range(6):
                many = store.copy()
                self.assertEqual(many.advance_with(threads), wanted)
                self.assertEqual(many.to_bytes(), alone.to_bytes())
        self.assertRaises(ValueError, store.advance_with, -1)
        self.assertRaises(TypeError, store.advance_with, 1.5)

    def test_two_stores_that_adopt_from_each_other_do_not_wait_for_ever(self):
        stores = [Store(500, VERTICES, FACES) for _ in range(2)]
        for store in stores:
            store.put(0, kernel(0))

        def run(own, other):
            for _ in range(RUNS):
                own.adopt(1, other, 0)

        pairs = [(stores[0], stores[1]), (stores[1], stores[0]), (stores[0], stores[0])]
        threads = [threading.Thread(target=run, args=pair, daemon=True) for pair in pairs]
        for thread in threads:
            thread.start()
        for thread in threads:
            thread.join(60)
            self.assertFalse(thread.is_alive())
        self.assertEqual(stores[0].to_bytes(), stores[1].to_bytes())


class Processes(unittest.TestCase):
    def test_a_fork_has_a_store_of_its_own(self):
        store = Store(500, VERTICES, FACES)
        before = store.to_bytes()
        child = os.fork()
        if child == 0:
            try:
                store.put(0, kernel(0))
            finally:
                os._exit(store.to_bytes() == before)
        self.assertEqual((os.waitpid(child, 0)[1], store.to_bytes()), (0, before))


class Order(unittest.TestCase):
    """Turns alone, with threads that tell when they are in and leave when they are told."""

    def setUp(self):
        self.turns, self.told, self.threads = Turns(), [], []

    def start(self, name, alone):
        """A thread that asks, the last of all so far."""
        entered, leave, before = threading.Event(), threading.Event(), self.turns._asked.copy()

        def action():
            self.told.append(name)
            entered.set()
            leave.wait(10)

        self.threads.append(threading.Thread(target=self.turns.run, args=(alone, action)))
        self.threads[-1].start()
        until = time.monotonic() + 10
        while set(self.turns._asked) <= set(before) and time.monotonic() < until:
            time.sleep(0.001)
        return entered, leave

    def tearDown(self):
        for thread in self.threads:
            thread.join(10)
            self.assertFalse(thread.is_alive())

    def test_readings_share_and_a_writer_is_alone(self):
        first, second = self.start("first", False), self.start("second", False)
        self.assertTrue(first[0].wait(10) and second[0].wait(10))
        writer = self.start("writer", True)
        first[1].set()
        self.assertFalse(writer[0].wait(0.05))
        second[1].set()
        self.assertTrue(writer[0].wait(10))
        reading = self.start("reading", False)
        self.assertFalse(reading[0].wait(0.05))
        writer[1].set()
        self.assertTrue(reading[0].wait(10))
        reading[1].set()

    def test_turns_come_in_the_order_of_asking(self):
        names = ["reading", "writer", "later reading", "later writer", "last reading"]
        turns = [self.start(name, "writer" in name) for name in names]
        for _, leave in turns:
            leave.set()
        for thread in self.threads:
            thread.join(10)
        self.assertEqual(self.told, names)

    def test_a_turn_ends_with_an_error_inside(self):
        for alone in (False, True):
            with self.assertRaises(ZeroDivisionError):
                self.turns.run(alone, lambda: 1 / 0)
        self.assertEqual(self.turns.run(True, lambda: 5), 5)
        self.assertEqual(self.turns._asked, [])


class Interrupted(Exception):
    pass


@unittest.skipIf(sys.version_info < (3, 10), "a `with` of Python below 3.10 may lose its lock to a signal")
class Interrupts(unittest.TestCase):
    """A signal at any moment, as by Ctrl-C, leaves a store that goes on."""

    def setUp(self):
        def interrupt(*_):
            raise Interrupted

        kept = signal.signal(signal.SIGALRM, interrupt)
        self.addCleanup(signal.signal, signal.SIGALRM, kept)

    def test_no_one_waits_for_one_who_was_interrupted(self):
        store, pick = Store(500, VERTICES, FACES), random.Random(20)
        for _ in range(300):
            self.interrupt(store, pick.uniform(20e-6, 400e-6))
            other = threading.Thread(target=store.left, daemon=True)
            other.start()
            other.join(20)
            self.assertFalse(other.is_alive())

    def interrupt(self, store, after):
        try:
            signal.setitimer(signal.ITIMER_REAL, after)
            while True:
                store.reweigh(0, 1.0) if store.held(0) else store.put(0, kernel(0))
                store.density(RAW, (1, 2, 3))
        except Interrupted:
            pass


if __name__ == "__main__":
    unittest.main()
