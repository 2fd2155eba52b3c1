"""A machine that fails: full disks, programs that are missing or crash, outputs that cannot be written. Status 2, in words, and
nothing half-written."""
import contextlib
import io
import os
import resource
import shutil
import stat
import subprocess
import sys

import harness
from harness import (ENVIRONMENT, PACK, PROGRAMS, QUERY, SAID, SHEET, expect, expect_refused, folder, listing, put, refusal,
                     tonekit)

from tonekit_tool import cli, files, programs
from test_inputs import HAS_PLOT, prepared

TO_STDOUT = [['check', 'pack'], ['judge', '--pack', 'pack', 'query'], ['judge', '--csv', '--sheet', 'sheet', 'query'],
             ['shape', 'query'], ['show', 'sheet'], ['show', '--json', 'query'], ['unpack', 'pack'], ['sheet', 'pack', '-o', '-'],
             ['--help'], ['--version'], ['pack', '--help']]
TO_FILE = [['judge', '--pack', 'pack', 'query'], ['judge', '--csv', '--sheet', 'sheet', 'query'], ['shape', 'query'],
           ['sheet', 'pack'], ['unpack', 'pack'], ['pack', 'text'], ['query', 'track', *SAID]] + [['plot', 'sheet']] * HAS_PLOT


def all_prepared(at):
    prepared(at)
    put(at, 'text', harness.TEXT)
    put(at, 'track', harness.CSV)


def test_full_standard_output():
    for unbuffered in ({}, {'PYTHONUNBUFFERED': '1'}):
        for words in TO_STDOUT:
            with folder() as at, open('/dev/full', 'wb') as device:
                all_prepared(at)
                done = tonekit(*words, cwd=at, stdout=device, env={**ENVIRONMENT, **unbuffered})
                full = refusal(done, 2, 'standard output: No space left on device')
                expect(f'{words} into a full device {unbuffered}', full, done)


def limited():
    resource.setrlimit(resource.RLIMIT_FSIZE, (40, 40))


def test_a_file_that_cannot_grow():
    """No output has 40 bytes or fewer."""
    for words in TO_FILE:
        with folder() as at:
            all_prepared(at)
            put(at, 'out', b'as it was')
            before = listing(at)
            done = tonekit(*words, '-o', 'out', cwd=at, preexec_fn=limited)
            expect(f'{words} past the limit of a file', refusal(done, 2, 'out: File too large'), done)
            expect(f'{words} past the limit leaves all as it was', listing(at) == before, listing(at).keys())


@contextlib.contextmanager
def small_disk(at):
    """A disk of one page, filled; nothing where it cannot be mounted."""
    disk = os.path.join(at, 'disk')
    os.mkdir(disk)
    mounted = subprocess.run(['mount', '-t', 'tmpfs', '-o', 'size=4k', 'tmpfs', disk], capture_output=True).returncode == 0
    try:
        if mounted:
            put(disk, 'filler', bytes(4096))
        yield disk if mounted else None
    finally:
        if mounted:
            subprocess.run(['umount', disk], check=True)


def test_full_disk():
    with folder() as at, small_disk(at) as disk:
        all_prepared(at)
        for words in TO_FILE if disk else ():
            done = tonekit(*words, '-o', os.path.join('disk', 'out'), cwd=at)
            expect(f'{words} onto a full disk', refusal(done, 2, 'out: No space left on device'), done)
            expect(f'{words} onto a full disk leaves nothing', os.listdir(disk) == ['filler'], os.listdir(disk))
        if not disk:
            print('no disk could be mounted: the limit of a file and /dev/full stand for a full one')


def test_outputs_that_cannot_be():
    for words in TO_FILE:
        with folder() as at:
            all_prepared(at)
            expect_refused(f'{words} into a folder that is not there', at, [*words, '-o', 'no/out'], 2, 'no/out: No such file')
            expect_refused(f'{words} onto a folder', at, [*words, '-o', '.'], 2, '.: Is a directory')
            source = next(word for word in words if word in ('pack', 'query', 'sheet', 'text', 'track') and word != words[0])
            expect_refused(f'{words} onto its input', at, [*words, '-o', source], 2, f'{source}: is an input too')
            done = tonekit(*words, '-o', '/dev/full', cwd=at)
            expect(f'{words} into a full device', refusal(done, 2, '/dev/full: No space left on device'), done)
    expect('/dev/full is a device still', stat.S_ISCHR(os.stat('/dev/full').st_mode))


def test_links_are_written_through():
    with folder() as at:
        all_prepared(at)
        put(at, 'real', b'before')
        os.symlink('real', os.path.join(at, 'link'))
        done = tonekit('sheet', 'pack', '-o', 'link', cwd=at)
        expect('a link stays a link', done.status == 0 and os.path.islink(os.path.join(at, 'link')), done)
        expect('what it names is written', listing(at)['real'] == SHEET)


def fault(at, words, told, programs):
    done = tonekit(*words, cwd=at, env={**ENVIRONMENT, 'TONEKIT_PROGRAMS': programs})
    expect(f'{words}: {told}', refusal(done, 2, told), done)


def program(where, name, body, mode=0o755):
    path = put(where, name, body)
    os.chmod(path, mode)


RUN = [('check', ['check', 'pack']), ('station', ['judge', '--pack', 'pack', 'query', '-o', 'out']),
       ('station_sheet', ['judge', '--sheet', 'sheet', 'query', '-o', 'out']), ('shape', ['shape', 'query', '-o', 'out']),
       ('sheet', ['sheet', 'pack', '-o', 'out'])]
CHECKING = [['pack', 'text', '-o', 'out'], ['unpack', 'pack'], ['query', 'track', '-o', 'out', *SAID], ['show', 'pack'],
            ['judge', '--pack', 'pack', 'query'], ['plot', 'sheet', '-o', 'out']]


def test_programs_that_fail():
    """Each program in turn is missing, cannot be run, crashes, fails with words, or is another one."""
    for name, words in RUN:
        other = 'are no answer of' if name != 'check' else 'is not the one that checks'
        for told, body, mode in ((f'the program {name} is not there', None, 0), ('cannot be run: Permission denied', '', 0o644),
                                 ('cannot be run: Exec format error', 'no program', 0o755),
                                 ('failed, status -11', '#!/bin/sh\nkill -SEGV $$\n', 0o755),
                                 ('failed, status 3: no memory', '#!/bin/sh\necho no memory >&2\nexit 3\n', 0o755),
                                 (other, '#!/bin/sh\ncat\n', 0o755), (other, '#!/bin/sh\n', 0o755)):
            with folder() as at, folder() as programs:
                all_prepared(at)
                for good in set(os.listdir(PROGRAMS)) - {name}:
                    shutil.copy(os.path.join(PROGRAMS, good), programs)
                if body is not None:
                    program(programs, name, body, mode)
                before = listing(at)
                fault(at, words, told, programs)
                expect(f'{words}: {told}: nothing is left', listing(at) == before, listing(at).keys())


def test_no_answer_without_a_check():
    for words in CHECKING[:None if HAS_PLOT else -1]:
        with folder() as at, folder() as programs:
            all_prepared(at)
            before = listing(at)
            fault(at, words, 'the program check is not there', programs)
            expect(f'{words} without check: nothing is left', listing(at) == before, listing(at).keys())


def test_programs_are_found():
    """By the variable, beside the tool, and in the checkout, by either name."""
    plain = {name: value for name, value in ENVIRONMENT.items() if name != 'TONEKIT_PROGRAMS'}
    for place, check in (('programs', 'check'), ('target/programs', 'check'), ('crates/tonekit_check/out', 'tonekit_check'),
                         ('tools/tonekit_tool/programs', 'check')):
        with folder() as at:
            shutil.copytree(os.path.join(harness.ROOT, 'tools', 'tonekit_tool'), os.path.join(at, 'tools', 'tonekit_tool'))
            tool = shutil.copy(harness.TOOL, os.path.join(at, 'tools'))
            put(at, 'pack', PACK)
            done = tonekit('check', 'pack', cwd=at, tool=tool, env=plain)
            expect('no program is there', refusal(done, 2, 'the program check is not there', 'TONEKIT_PROGRAMS'), done)
            os.makedirs(os.path.join(at, place), exist_ok=True)
            shutil.copy(os.path.join(PROGRAMS, 'check'), os.path.join(at, place, check))
            done = tonekit('check', 'pack', cwd=at, tool=tool, env=plain)
            expect(f'the programs in {place}', done.status == 0, done)
            done = tonekit('check', 'pack', cwd=at, tool=tool, env={**plain, 'TONEKIT_PROGRAMS': at})
            expect('a folder that is named and has none', refusal(done, 2, 'the program check is not there'), done)


def test_what_is_begun_is_taken_away():
    """An interrupt while a file is written, and a second file that cannot be: neither leaves anything."""
    def interrupt(_):
        raise KeyboardInterrupt
    with folder() as at:
        whole, files.os.fsync = files.os.fsync, interrupt
        try:
            files.write(os.path.join(at, 'out'), b'bytes')
            expect('an interrupt ends the writing', False)
        except KeyboardInterrupt:
            expect('an interrupted file is taken away', os.listdir(at) == [], os.listdir(at))
        finally:
            files.os.fsync = whole
        try:
            files.write_together([(os.path.join(at, 'one'), b'1'), (os.path.join(at, 'no', 'two'), b'2')])
        except files.Failed as error:
            expect('of two files none is written', os.listdir(at) == [] and 'No such file' in str(error), os.listdir(at))


def test_a_fault_of_the_tool_is_no_refusal():
    whole, programs.check = programs.check, lambda *_: 1 // 0
    told, sys.stderr = sys.stderr, io.StringIO()
    try:
        status, words = cli.run(['check', harness.TOOL]), sys.stderr.getvalue()
    finally:
        programs.check, sys.stderr = whole, told
    expect('a fault of the tool has status 2', status == 2 and 'a fault of the tool itself' in words, words)


def test_a_reader_that_goes_away():
    with folder() as at:
        put(at, 'query', QUERY)
        shown = subprocess.Popen([sys.executable, '-B', harness.TOOL, 'show', 'query'], cwd=at, env=ENVIRONMENT,
                                 stdout=subprocess.PIPE, stderr=subprocess.PIPE)
        shown.stdout.close()
        told = shown.stderr.read()
        shown.stderr.close()
        expect('a closed pipe is no news', shown.wait() == 2 and told == b'', told)
