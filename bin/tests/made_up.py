"""A checkout and a kit that are made up, so that scripts can be tried in seconds and where things go wrong.

The kit's `rt` compiles nothing: its "module" is a shell script, which its clang and its linker hand on.
"""
from __future__ import annotations

import os
import shutil
import signal
import stat
import subprocess
import tempfile
import unittest

TOP = os.path.dirname(os.path.dirname(os.path.dirname(os.path.realpath(__file__))))

# Answers a job with the file beside it, and standard input with `stored`.
PROGRAM = """#!/bin/sh
case "$*" in
    *.csv) cat "${1%.csv}.out" ;;
    *) echo stored ;;
esac
"""
WRONG_PROGRAM = '#!/bin/sh\necho wrong\n'

# As the kit's: it writes a module, and has it compiled and watched by AddressSanitizer.
RT_TRY = """
room=$(mktemp -d)
cd "$room"
cp "$MODULE" module.bc
echo try >> "$CALLS"
sleep "${SECONDS_OF_TRY:-0}"
"$(dirname "$0")/../toolchain/bin/clang" -c module.bc -o program.o $SANITIZED -O0
rm -r "$room"
echo run=ended
"""
RT = f"""#!/bin/sh
case $1 in
    try) {RT_TRY} ;;
    lib) echo "lib $(basename "$PWD") in $PWD" >> "$CALLS"; sleep "${{SECONDS_OF_LIB:-0}}"
         echo "fn $(basename "$PWD")::one: proved"
         [ "$(basename "$PWD")" != cadedit_c ] || {{ mkdir -p out; cat "$MODULE" > out/libcadedit_c.a; }}
         [ "$(basename "$PWD")" != "${{FAILS-}}" ] || {{ echo "error: a goal is open"; exit 1; }} ;;
    ci) echo "begun $2" >> "$CALLS"
        case " ${{BURNS-}} " in *" $2 "*) timeout 1 sh -c 'while :; do :; done' ;; esac
        case " ${{KEPT-}} " in *" $2 "*) echo "rt: $2 is kept: an earlier run" ;; esac
        echo "ended $2" >> "$CALLS"
        [ "$2" != "${{FAILS-}}" ] || {{ echo "error: a goal is open"; exit 1; }} ;;
    run) echo "run $(basename "$PWD")" >> "$CALLS"; mkdir -p out; cp "$MODULE" "out/$(basename "$PWD")"
         chmod +x "out/$(basename "$PWD")" ;;
esac
"""
CLANG = """#!/bin/sh
level=${*##*-O}
while [ "$1" != -o ]; do case $1 in -c | ir) source=$2 ;; esac; shift; done
{ cat "$source"; echo "# -O${level%% *}"; } > "$2"
"""
LINK = """#!/bin/sh
while [ "$1" != -o ]; do shift; done
cp "$3" "$2" && chmod +x "$2"
"""
LINK_LIBRARY = """#!/bin/sh
while [ "$1" != -o ]; do shift; done
made=$2
while [ "$1" != --whole-archive ]; do shift; done
cp "$2" "$made" && chmod +x "$made"
"""
ARCHIVE = """#!/bin/sh
cp "$3" "$2"
"""

# In place of what asks a library for its answers: the library is a program here.
SUBMITTED = """import subprocess, sys
subprocess.run(sys.argv[1:])
"""
EXPORTING = """//! The library.
use cad_handle::Handle;

#[unsafe(no_mangle)]
pub extern "C" fn cadedit_close(alloc: Global, handle: &mut Handle) {
}
"""


def write(path: str, text: str, mode: int = 0o644) -> None:
    os.makedirs(os.path.dirname(path), exist_ok=True)
    with open(path, 'w', encoding='utf-8') as file:
        file.write(text)
    os.chmod(path, mode)


class MadeUp(unittest.TestCase):
    """A case with a checkout at `top`, a kit on the path, and `calls` of what its `rt` was asked for."""

    def setUp(self) -> None:
        self.folder = tempfile.mkdtemp(prefix='made-up-')
        self.addCleanup(shutil.rmtree, self.folder, ignore_errors=True)
        self.top, kit = os.path.join(self.folder, 'top'), os.path.join(self.folder, 'kit')
        os.makedirs(os.path.join(self.top, 'bin', 'lib'))
        for name in ('program', 'cadedit', 'cadview', 'prove', 'gate-minutes', 'build-library', 'lib/build.sh',
                     'lib/crates.py', 'lib/exports.py', 'lib/exports.map', 'lib/__init__.py'):
            shutil.copy(os.path.join(TOP, 'bin', name), os.path.join(self.top, 'bin', name))
        write(f'{self.top}/bin/lib/submitted.py', SUBMITTED)
        write(f'{self.top}/crates.txt', 'low:\nbeside:\nhigh: low beside clap\ncadedit: high\ncadedit_c staticlib: high\n')
        write(f'{self.top}/HANDLES', 'Handles allowed: none.\n')
        for name in ('low', 'beside', 'high'):
            write(f'{self.top}/crates/{name}/src/lib.rt', '// A crate.\n')
        write(f'{self.top}/crates/cadedit/src/main.rt', '// The program.\n')
        write(f'{self.top}/crates/cadedit_c/src/lib.rt', EXPORTING)
        write(f'{self.top}/crates/cadedit/stdin', '')
        write(f'{self.top}/crates/cadedit/stdout', 'stored\n')
        for job in ('first', 'block'):
            write(f'{self.top}/examples/{job}.csv', 'a job\n')
            write(f'{self.top}/examples/{job}.out', f'answers of {job}\n')
        for name, text in (('rt', RT), ('rtlib.py', ''), ('rattle', '#!/bin/sh\n'), ('rattle-link', LINK)):
            write(f'{kit}/bin/{name}', text, 0o755)
        for name, text in (('clang', CLANG), ('ld.lld', LINK_LIBRARY), ('llvm-ar', ARCHIVE)):
            write(f'{kit}/toolchain/bin/{name}', text, 0o755)
        write(f'{self.folder}/module', PROGRAM)
        write(f'{self.folder}/calls', '')
        os.makedirs(f'{self.folder}/tmp')
        self.env = {**{key: text for key, text in os.environ.items() if key not in ('PROVED_ONLY', 'UNPROVED_OK')},
                    'PATH': f'{kit}/bin:/usr/bin:/bin', 'TMPDIR': f'{self.folder}/tmp', 'MODULE': f'{self.folder}/module',
                    'CALLS': f'{self.folder}/calls', 'SANITIZED': '-fsanitize=address',
                    'XDG_CACHE_HOME': f'{self.folder}/cache'}

    def start(self, *words: str, **env: str) -> subprocess.Popen[str]:
        """Starts a command that ^C ends, also where whoever started the tests lets it be ignored."""
        return subprocess.Popen(words, env={**self.env, **env}, stdin=subprocess.DEVNULL, stdout=subprocess.PIPE,
                                stderr=subprocess.PIPE, text=True, start_new_session=True,
                                preexec_fn=lambda: signal.signal(signal.SIGINT, signal.SIG_DFL))

    def run_to_end(self, *words: str, **env: str) -> tuple[int, str, str]:
        """The status, what is written, and what is said on standard error."""
        process = self.start(*words, **env)
        out, err = process.communicate(timeout=60)
        return process.returncode, out, err

    def calls(self) -> list[str]:
        with open(f'{self.folder}/calls', encoding='utf-8') as file:
            return file.read().splitlines()

    def make_proved(self) -> None:
        """A proved program that is newer than each source."""
        path = f'{self.top}/crates/cadedit/out/cadedit'
        write(path, PROGRAM + '# proved\n', 0o755)
        later = os.stat(path).st_mtime + 5
        os.utime(path, (later, later))

    def touch(self, path: str) -> None:
        later = os.stat(f'{self.top}/{path}').st_mtime + 10
        os.utime(f'{self.top}/{path}', (later, later))

    def is_executable(self, path: str) -> bool:
        return os.path.isfile(f'{self.top}/{path}') and bool(os.stat(f'{self.top}/{path}').st_mode & stat.S_IXUSR)
