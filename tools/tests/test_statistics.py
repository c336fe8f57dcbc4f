"""Estimates against tables and books, and the rows of a sweep as a frame of pandas."""
import math
import os
import random
import subprocess
import unittest

from here import TOOLS, Room
from motesim.analysis.estimates import mean_by_t, median_with_quartiles, share_by_wilson, student_t
from motesim.cells import line_of
from motesim.experiments.results import Head
from skips import interpreter_with

# Confidence, degrees of freedom, and the quantile in tables of Student's t.
OF_T = [(0.95, 1, 12.706), (0.95, 2, 4.303), (0.95, 4, 2.776), (0.95, 9, 2.262), (0.95, 29, 2.045), (0.95, 120, 1.980),
        (0.99, 1, 63.657), (0.99, 9, 3.250), (0.90, 9, 1.833), (0.90, 1, 6.314), (0.50, 10, 0.700),
        (0.95, 100_000, 1.960)]


class Estimates(unittest.TestCase):
    def test_students_t_is_that_of_the_tables(self) -> None:
        for confidence, freedom, value in OF_T:
            with self.subTest(confidence=confidence, freedom=freedom):
                self.assertAlmostEqual(student_t(confidence, freedom), value, delta=0.0006)

    def test_a_mean_by_hand(self) -> None:
        # The mean of 1 to 5 is 3, the standard deviation is the root of 2.5, and t for 4 degrees is 2.776.
        found = mean_by_t([1, 2, 3, 4, 5], 0.95)
        self.assertEqual((found.runs, found.middle), (5, 3))
        self.assertAlmostEqual((found.high or 0) - 3, 2.776 * math.sqrt(2.5 / 5), delta=0.001)
        self.assertAlmostEqual(3 - (found.low or 0), 2.776 * math.sqrt(2.5 / 5), delta=0.001)

    def test_one_run_and_equal_runs_have_no_interval(self) -> None:
        for values in [7.0], [7.0] * 9:
            self.assertEqual(mean_by_t(values, 0.95), (len(values), 7.0, None, None, 'none'))

    def test_intervals_hold_the_mean_as_often_as_they_say(self) -> None:
        chance = random.Random(7)
        for confidence in 0.5, 0.9, 0.95:
            for runs in 5, 20:
                found = [mean_by_t([chance.gauss(3, 2) for _ in range(runs)], confidence) for _ in range(1000)]
                held = sum((it.low or 0) <= 3 <= (it.high or 0) for it in found) / 1000
                self.assertAlmostEqual(held, confidence, delta=4 * math.sqrt(confidence * (1 - confidence) / 1000))

    def test_wilsons_score_is_that_of_the_books(self) -> None:
        for ones, low, high in (10, 0.722, 1.0), (5, 0.237, 0.763), (0, 0.0, 0.278), (1, 0.018, 0.404):
            found = share_by_wilson([1] * ones + [0] * (10 - ones), 0.95)
            self.assertEqual((round(found.low or 0, 3), round(found.high or 0, 3)), (low, high))

    def test_quartiles(self) -> None:
        for values, quartiles in (([7.0], (7.0, 7.0, 7.0)), ([1.0, 2.0], (1.25, 1.5, 1.75)),
                                  ([5.0, 1.0, 3.0, 2.0, 4.0], (2.0, 3.0, 4.0))):
            found = median_with_quartiles(values)
            self.assertEqual((found.low, found.middle, found.high), quartiles)


class Frames(Room):
    def test_a_frame_has_whole_numbers_with_gaps_and_digests_and_leaves_out_faults(self) -> None:
        interpreter = interpreter_with(self, 'pandas')
        head = Head('a', ['seed'], {'sent': 'sent', 'ratio': 'ratio'}, {}, '1', 'a', '')
        rows = [(1, 7, 0.5, None, None, None, 0, '1234567890123456'), (2, None, 0.25, None, None, None, 0, 'abc'),
                (3, None, None, 'no answer', None, None, 0, 'abc')]
        script = ('from motesim.analysis import frame\nruns = frame("net.csv")\n'
                  'print(len(runs), runs.ratio.mean(), runs.sent.dtype, runs.plan_sha256[0] + "")\n'
                  'print(len(frame("net.csv", with_errors=True)))')
        self.put('net.csv', head.text() + ''.join(line_of([*row, None, None, None]) for row in rows))
        done = subprocess.run([interpreter, '-B', '-c', script], cwd=self.room, capture_output=True, text=True,
                              env={**os.environ, 'PYTHONPATH': str(TOOLS)})
        self.assertEqual(done.stdout, '2 0.375 Int64 1234567890123456\n3\n', done.stderr)
        self.assertIn('frame: net.csv: left out: 1 of 3 runs, which have an error', done.stderr)
