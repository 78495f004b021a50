"""Other threads run while a call does, and calls in several threads don't disturb each other."""

import random
import threading
import time
from concurrent.futures import ThreadPoolExecutor

import oascanon
import pytest


@pytest.fixture(scope="module")
def large(top):
    """A file of half a million rectangles here and there, which takes a while."""
    data, made = (top / "examples/rectangle.oas").read_bytes(), random.Random(1)
    spelled = [bytes((low | 128, high)) for low in range(128) for high in range(128)]
    rectangles = (b"\x14\x7b\x01\x00\x0a\x14" + made.choice(spelled) + made.choice(spelled) for _ in range(500_000))
    return data[:37] + b"".join(rectangles) + data[-256:]


def longest_pause(thread):
    """Starts that thread. Returns for how many seconds this one stood still at most, until that one had ended."""
    longest, last, is_alive = 0.0, time.perf_counter(), True
    thread.start()
    while is_alive:
        is_alive, now = thread.is_alive(), time.perf_counter()
        longest, last = max(longest, now - last), now
    return longest


def share_of_a_call(data):
    """Makes a call in another thread. Returns for which share of it, at most, this one stood still."""
    seconds = []

    def work():
        begun = time.perf_counter()
        oascanon.key(data)
        seconds.append(time.perf_counter() - begun)

    return longest_pause(threading.Thread(target=work)) / seconds[0]


def test_other_threads_run(large):
    # If the call kept other threads from running, this one would stand still for all of it each time. A busy machine may stop
    # it too, but hardly five times.
    assert min(share_of_a_call(large) for _ in range(5)) < 1 / 2


def test_two_calls_at_once(large, top):
    small = (top / "examples/rectangle.oas").read_bytes()
    wanted = [oascanon.key(large), oascanon.key(small)]
    with ThreadPoolExecutor(4) as pool:
        assert [*pool.map(oascanon.key, [large, small] * 4)] == wanted * 4
