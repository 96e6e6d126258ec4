"""bin/gate-minutes: each crate once those below it passed, what each took, and what is said of a sum that isn't whole."""
from __future__ import annotations

import re

from made_up import MadeUp


class GateMinutes(MadeUp):
    def minutes(self, *words: str, **env: str) -> tuple[int, str, str]:
        return self.run_to_end(f'{self.top}/bin/gate-minutes', *words, **env)

    def test_all_crates_lowest_first(self) -> None:
        for lanes in ('1', '2'):
            status, out, err = self.minutes('--lanes', lanes)
            self.assertEqual(status, 0, err)
            calls = self.calls()
            self.assertEqual(sorted(it for it in calls if it.startswith('ended')),
                             [f'ended {it}' for it in ('beside', 'cadedit', 'cadedit_c', 'high', 'low')])
            for lower, upper in (('low', 'high'), ('beside', 'high'), ('high', 'cadedit'), ('high', 'cadedit_c')):
                self.assertLess(calls.index(f'ended {lower}'), calls.index(f'begun {upper}'))
            self.assertRegex(out.splitlines()[-1], r'^Whole gate: 0 processor minutes, 0 minutes by the clock$')
            open(f'{self.folder}/calls', 'w').close()

    def test_what_a_crate_takes(self) -> None:
        _, out, _ = self.minutes(BURNS='high')
        took = {name: int(seconds) for name, seconds in re.findall(r'^\| `(\w+)` \| (\d+) \|', out, re.M)}
        self.assertEqual(list(took)[0], 'high')
        self.assertEqual((took['high'], took['low']), (1, 0))

    def test_a_crate_and_those_below(self) -> None:
        _, out, _ = self.minutes('high')
        self.assertEqual({it.split()[1] for it in self.calls()}, {'low', 'beside', 'high'})
        self.assertRegex(out.splitlines()[-1], '^A part of the gate: ')

    def test_what_was_kept(self) -> None:
        _, out, _ = self.minutes(KEPT='low')
        self.assertRegex(out, r'\| `low` \| 0 \| 0 \| kept in part \|')
        self.assertRegex(out, r'\| `high` \| 0 \| 0 \| \|')
        self.assertRegex(out.splitlines()[-1], '^A part of the gate: ')

    def test_a_crate_that_does_not_pass(self) -> None:
        status, out, err = self.minutes(FAILS='beside')
        self.assertEqual(status, 1)
        self.assertIn('beside did not pass: ', err)
        self.assertIn('| `low` |', out)
        self.assertEqual({it.split()[1] for it in self.calls()}, {'low', 'beside'})

    def test_no_crate_of_that_name(self) -> None:
        self.assertEqual(self.minutes('nowhere')[0], 2)
