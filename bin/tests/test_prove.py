"""bin/prove: two lanes, each crate once it can be, what is said where it ends, and that it goes on."""
from __future__ import annotations

import os
import signal
import time

from made_up import MadeUp


class Prove(MadeUp):
    def prove(self, *words: str, **env: str) -> tuple[int, str, str]:
        return self.run_to_end(f'{self.top}/bin/prove', *words, **env)

    def test_two_lanes(self) -> None:
        status, _, err = self.prove('--lanes', '2')
        self.assertEqual(status, 0, err)
        calls = self.calls()
        here = [call.split()[1] for call in calls if call.endswith(self.top_of(call)) and call.startswith('lib')]
        self.assertEqual(sorted(call.split()[1] for call in calls), ['beside', 'cadedit', 'high', 'low'])
        self.assertEqual(here, [it for it in here if it != 'cadedit'])
        self.assertEqual(calls[-1], 'run cadedit')
        self.assertIn('cadedit is proved and built: crates/cadedit/out/cadedit', err)
        self.assertTrue(self.is_executable('crates/cadedit/out/cadedit'))
        self.assertFalse(os.path.exists(f'{self.folder}/cache/lubjerf') and os.listdir(f'{self.folder}/cache/lubjerf'))

    def top_of(self, call: str) -> str:
        return call.split(' in ')[-1] if ' in ' in call else ''

    def test_one_lane_lowest_first(self) -> None:
        status, _, err = self.prove('--lanes', '1')
        self.assertEqual(status, 0, err)
        order = [call.split()[1] for call in self.calls()]
        self.assertEqual(set(order[:2]), {'low', 'beside'})
        self.assertEqual(order[2:], ['high', 'cadedit'])

    def test_a_crate_that_is_not_proved(self) -> None:
        for lanes in ('1', '2'):
            for crate in ('low', 'beside', 'high'):
                status, _, err = self.prove('--lanes', lanes, FAILS=crate)
                self.assertEqual(status, 1)
                self.assertIn('error: a goal is open', err)
                self.assertIn(f'{crate} was not proved or not built; ', err)
                self.assertFalse(self.is_executable('crates/cadedit/out/cadedit'))

    def test_interrupted(self) -> None:
        running = self.start(f'{self.top}/bin/prove', SECONDS_OF_LIB='20')
        end = time.monotonic() + 20
        while not self.calls() and time.monotonic() < end:
            time.sleep(0.02)
        os.kill(running.pid, signal.SIGINT)
        _, err = running.communicate(timeout=20)
        self.assertEqual(running.returncode, 130)
        self.assertIn('the next call goes on there', err)
        self.assertEqual(self.prove()[0], 0)

    def test_no_program_of_that_name(self) -> None:
        status, _, err = self.prove('low')
        self.assertEqual(status, 2)
        self.assertIn('low is no program of this repository', err)

    def test_no_kit(self) -> None:
        status, _, err = self.prove(PATH='/usr/bin:/bin')
        self.assertEqual(status, 1)
        self.assertIn('there is no `rt` on the path', err)

    def test_the_program_is_used(self) -> None:
        self.prove()
        self.assertEqual(self.run_to_end(f'{self.top}/bin/cadedit', f'{self.top}/examples/first.csv', PROVED_ONLY='1'),
                         (0, 'answers of first\n', ''))
