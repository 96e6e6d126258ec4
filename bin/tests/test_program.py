"""bin/program, bin/cadedit: which build runs, and what is said and kept where none can be made."""
from __future__ import annotations

import os
import signal
import time
from collections.abc import Callable

from made_up import WRONG_PROGRAM, MadeUp, write

NOT_PROVED = 'bin/cadedit: this build is not proved; bin/prove proves and builds the program\n'


class Program(MadeUp):
    def cadedit(self, **env: str) -> tuple[int, str, str]:
        return self.run_to_end(f'{self.top}/bin/cadedit', f'{self.top}/examples/first.csv', **env)

    def rooms(self) -> list[str]:
        return [it for it in os.listdir(f'{self.folder}/tmp') if 'unproved' in it]

    def text_of(self, path: str) -> str:
        with open(path, encoding='utf-8') as file:
            return file.read()

    def wait_for(self, is_so: Callable[[], object]) -> None:
        end = time.monotonic() + 20
        while not is_so() and time.monotonic() < end:
            time.sleep(0.02)
        self.assertTrue(is_so())

    def test_made_once_and_said_each_time(self) -> None:
        status, out, err = self.cadedit()
        self.assertEqual((status, out), (0, 'answers of first\n'))
        self.assertTrue(err.endswith(NOT_PROVED))
        self.assertEqual(self.cadedit(), (0, 'answers of first\n', NOT_PROVED))
        self.assertEqual(self.cadedit(UNPROVED_OK='1'), (0, 'answers of first\n', ''))
        self.assertEqual(self.calls(), ['try'])

    def test_a_faster_build_replaces_it(self) -> None:
        self.cadedit()
        made = f'{self.top}/out/unproved/cadedit'
        self.wait_for(lambda: self.text_of(made).endswith('# -O1\n'))
        self.wait_for(lambda: not self.rooms())
        self.assertEqual(self.cadedit(), (0, 'answers of first\n', NOT_PROVED))

    def test_proved_only(self) -> None:
        for _ in range(2):
            status, out, err = self.cadedit(PROVED_ONLY='1')
            self.assertEqual((status, out), (70, ''))
            self.assertIn('bin/prove proves and builds it', err)
            self.cadedit()  # Nor is one that was made used.
        self.make_proved()
        self.assertEqual(self.cadedit(PROVED_ONLY='1'), (0, 'answers of first\n', ''))

    def test_the_proved_program_while_no_source_is_newer(self) -> None:
        self.make_proved()
        self.assertEqual(self.cadedit(), (0, 'answers of first\n', ''))
        self.touch('crates/low/src/lib.rt')
        self.assertTrue(self.cadedit()[2].endswith(NOT_PROVED))
        self.assertEqual(self.calls(), ['try'])

    def test_a_source_that_was_removed(self) -> None:
        write(f'{self.top}/crates/low/src/more.rt', '')
        self.make_proved()
        os.remove(f'{self.top}/crates/low/src/more.rt')
        self.touch('crates/low/src')
        self.assertTrue(self.cadedit()[2].endswith(NOT_PROVED))

    def test_wrong_answers_are_not_kept(self) -> None:
        write(f'{self.folder}/module', WRONG_PROGRAM)
        status, out, err = self.cadedit()
        self.assertEqual((status, out), (70, ''))
        self.assertIn('`rt try` in crates/cadedit runs it once, and bin/prove', err)
        self.assertFalse(self.is_executable('out/unproved/cadedit'))
        self.assertEqual(self.rooms(), [])

    def test_a_kit_that_compiles_in_another_way(self) -> None:
        status, out, err = self.cadedit(SANITIZED='')
        self.assertEqual((status, out), (70, ''))
        self.assertIn("this kit's `rt try` compiles in another way", err)
        self.assertIn('`rt try` in crates/cadedit runs it once, and bin/prove', err)

    def test_no_kit(self) -> None:
        status, out, err = self.cadedit(PATH='/usr/bin:/bin')
        self.assertEqual((status, out), (70, ''))
        self.assertIn('there is no Rattle kit on this machine', err)

    def test_a_checkout_that_cannot_be_written(self) -> None:
        write(f'{self.top}/out', 'no folder')
        status, out, err = self.cadedit()
        self.assertEqual((status, out), (70, ''))
        self.assertIn("this checkout can't be written", err)

    def test_interrupted(self) -> None:
        running = self.start(f'{self.top}/bin/cadedit', f'{self.top}/examples/first.csv', SECONDS_OF_TRY='20')
        self.wait_for(self.calls)
        os.killpg(running.pid, signal.SIGINT)
        running.communicate(timeout=20)
        self.assertIn(running.returncode, (130, -signal.SIGINT))
        self.assertEqual(self.rooms(), [])
        self.assertEqual(self.cadedit()[:2], (0, 'answers of first\n'))

    def test_killed(self) -> None:
        running = self.start(f'{self.top}/bin/cadedit', f'{self.top}/examples/first.csv', SECONDS_OF_TRY='20')
        self.wait_for(self.calls)
        os.killpg(running.pid, signal.SIGKILL)
        running.communicate(timeout=20)
        self.assertEqual(len(self.rooms()), 1)
        self.assertEqual(self.cadedit()[:2], (0, 'answers of first\n'))
        self.wait_for(lambda: not self.rooms())

    def test_two_at_once(self) -> None:
        both = [self.start(f'{self.top}/bin/cadedit', f'{self.top}/examples/{job}.csv', SECONDS_OF_TRY='1')
                for job in ('first', 'block')]
        ends = [process.communicate(timeout=60) for process in both]
        self.assertEqual([out for out, _ in ends], ['answers of first\n', 'answers of block\n'])
        self.assertEqual(self.calls(), ['try'])
        self.assertEqual(sum('another call is building it' in err for _, err in ends), 1)

    def test_by_a_symbolic_link(self) -> None:
        self.make_proved()
        os.symlink(f'{self.top}/bin/cadedit', f'{self.folder}/cadedit')
        self.assertEqual(self.run_to_end(f'{self.folder}/cadedit', f'{self.top}/examples/block.csv'),
                         (0, 'answers of block\n', ''))

    def test_the_path_alone(self) -> None:
        self.make_proved()
        self.assertEqual(self.run_to_end(f'{self.top}/bin/program', 'cadedit'),
                         (0, f'{self.top}/crates/cadedit/out/cadedit\n', ''))
