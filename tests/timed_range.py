"""A range of cluster/ that measures the processor time of each of its calls."""
import time

from gsnap_worker import Range


class TimedRange(Range):
    def __init__(self, *args):
        super().__init__(*args)
        self.measured = []

    def call(self, number, events, name, *args):
        began = time.thread_time()
        found = super().call(number, events, name, *args)
        self.measured.append(time.thread_time() - began)
        return found

    def times(self):
        found, self.measured = self.measured, []
        return found
