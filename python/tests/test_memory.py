"""What calls copy, and that others run meanwhile."""
import sys
import threading
import time
import tracemalloc
import unittest

import numpy

import rice121

SAMPLES = (numpy.arange(2**21) * 7919 % 5).astype("<u4")
# What the calls hold beside samples and code.
LITTLE = 100_000


def most_of(call):
    """The memory that a call takes at most, and what it returns."""
    tracemalloc.start()
    try:
        result = call()
        return tracemalloc.get_traced_memory()[1], result
    finally:
        tracemalloc.stop()


class Memory(unittest.TestCase):
    def test_copies(self):
        bound = SAMPLES.nbytes + SAMPLES.nbytes // 64
        most, code = most_of(lambda: rice121.encode(SAMPLES))
        self.assertLess(most, bound + len(code) + LITTLE)
        most, _ = most_of(lambda: rice121.encode(SAMPLES[::2]))
        self.assertLess(most, (bound + SAMPLES.nbytes + len(code)) // 2 + LITTLE)
        most, back = most_of(lambda: rice121.decode(code, SAMPLES.size, "<u4"))
        self.assertLess(most, SAMPLES.nbytes + LITTLE)
        most, same = most_of(lambda: rice121.decode(code, SAMPLES.size, "<u4", out=back))
        self.assertLess(most, LITTLE)
        self.assertTrue(same is back and (back == SAMPLES).all())

    def test_the_lock_is_released(self):
        interval, code = sys.getswitchinterval(), rice121.encode(SAMPLES)
        # (no thread has to give the lock away before so many seconds)
        sys.setswitchinterval(1000)
        try:
            for call in (lambda: rice121.encode(SAMPLES), lambda: rice121.decode(code, SAMPLES.size, "<u4"), lambda: rice121.decode_all(code, "<u4"),
                         lambda: rice121.Encoder("<u4").push(SAMPLES)):
                self.assertTrue(any(self.is_overtaken(call) for _ in range(20)))
            self.assertFalse(any(self.is_overtaken(lambda: sum(range(100000))) for _ in range(20)))
        finally:
            sys.setswitchinterval(interval)

    def is_overtaken(self, call):
        """Whether this thread goes on while another is in the call."""
        order = []
        thread = threading.Thread(target=lambda: (order.append("begin"), call(), order.append("end")))
        thread.start()
        while not order:
            time.sleep(0)
        order.append("meanwhile")
        thread.join()
        return order == ["begin", "meanwhile", "end"]


if __name__ == "__main__":
    unittest.main()
