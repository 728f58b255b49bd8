"""Safe writing of sheet files, tried from outside: a name holds the old bytes or the whole new ones, whatever fails and whenever the program is killed. faces/program/test.py runs it.
Which calls a program makes is seen, and made to fail, by shim.c; real limits and kills go without it. Nothing here depends on the name of the file that is renamed."""
import errno
import os
import random
import resource
import shutil
import signal
import stat
import subprocess
import tempfile
import time

import files_model
import hextext_model
import machine
import program_model
import program_runs
from files_model import Input, Ran, World
from program_runs import Place, Run, folder_faults, leg, made, old, said_faults, sheet, talk

LINE = program_model.leg
BESIDE = {b'beside': b'not to be touched\n'}
ROWS = [leg(1.5, 1), leg(-2.5, 1), bytes(48)]
SAME_NUMBER = {'LEGS_PID': '4242'}


def writers():
    """A run of each program that writes, and some of longer files."""
    lines = LINE(0, 7.0, 3) + LINE(2, 0.25)
    yield Run('legsheet', '', 'legsheet', [b'day'], World({b'day': b'old bytes\n', **BESIDE}), Input(program_model.EXAMPLE))
    yield Run('legsheet, new', '', 'legsheet', [b'new'], World(BESIDE), Input(program_model.EXAMPLE))
    yield Run('legsheet, elsewhere', '', 'legsheet', [b'sub/day'], World({b'sub/day': b'old bytes\n', **BESIDE}, [b'sub']), Input(program_model.EXAMPLE))
    yield Run('legfix', '', 'legfix', [b'day'], World({b'day': sheet(ROWS), **BESIDE}), Input(lines))
    yield Run('legforth', '', 'legforth', [b'day', b'out'], World({b'day': sheet([old(one) for one in ROWS], 1), b'out': b'old bytes', **BESIDE}), Input())
    yield Run('legforth in place', '', 'legforth', [b'day', b'day'], World({b'day': sheet([old(one) for one in ROWS], 1), **BESIDE}), Input())
    yield Run('legback', '', 'legback', [b'day', b'out'], World({b'day': sheet(ROWS), b'out': b'old bytes', **BESIDE}), Input())
    yield Run('legread', '', 'legread', [b'day'], World({b'day': b'old bytes\n', **BESIDE}), Input(hextext_model.text(1, 3)))


def large():
    """The same with 1,024 rows."""
    yield Run('legsheet, 1,024 rows', '', 'legsheet', [b'day'], World({b'day': b'old bytes\n', **BESIDE}), Input(made('input', 21, 1024, 1500)))
    yield Run('legfix, 1,024 rows', '', 'legfix', [b'day'], World({b'day': made('mixed', 22, 1024, 3), **BESIDE}), Input(made('edits', 23, 1024, 1500)))
    yield Run('legforth, 1,024 rows', '', 'legforth', [b'day', b'day'], World({b'day': made('legs', 24, 1024, 1, 1), **BESIDE}), Input())
    yield Run('legback, 1,024 rows', '', 'legback', [b'day', b'day'], World({b'day': made('legs', 25, 1024, 3, 1), **BESIDE}), Input())
    yield Run('legread, 1,024 rows', '', 'legread', [b'day'], World({b'day': b'old bytes\n', **BESIDE}), Input(made('text', 26, 1024)))


def readers():
    """Runs that write nothing."""
    files = {b'one': sheet(ROWS), b'two': sheet([leg(9.0, 2), leg(-2.5), bytes(48)])}
    long = {b'one': made('blank_and_more', 1024, 3, 300000)}
    yield Run('legfix, a long file', '', 'legfix', [b'one'], World(long), Input())
    yield Run('legmonth, a long file', '', 'legmonth', [b'one', b'one'], World(long), Input())
    yield Run('legdiff, a long file', '', 'legdiff', [b'one', b'one'], World(long), Input())
    yield Run('legwrite, a long file', '', 'legwrite', [b'one'], World(long), Input())
    yield Run('legfix, no line', '', 'legfix', [b'one'], World(files), Input())
    yield Run('legmonth', '', 'legmonth', [b'one', b'two'], World(files), Input())
    yield Run('legdiff', '', 'legdiff', [b'one', b'two'], World(files), Input())
    yield Run('legwrite', '', 'legwrite', [b'one'], World(files), Input())
    yield Run('legsheet, no file', '', 'legsheet', [], World(), Input(program_model.EXAMPLE))
    yield Run('legrounds', '', 'legrounds', [], World(), Input(b'2\n' + program_model.edit(1, 3, 0)))


def target(run): return run.words[-1]


class Trial:
    """A run in a folder of its own, under settings of the shim."""
    def __init__(self, tests, run, settings, before=None):
        self.run, self.place = run, Place(run.world)
        self.log = os.path.join(os.fsdecode(self.place.top), 'log')
        self.extra = {'LD_PRELOAD': tests.shim, 'LEGS_LOG': self.log, **settings} if settings is not None else {}
        self.words = program_runs.command(run.program, tests.folder) + run.words
        self.status, self.printed, self.errors = talk(self.words, self.place.folder, run.given, extra=self.extra, before=before)

    def __enter__(self): return self
    def __exit__(self, *_): self.place.away()

    def calls(self):
        """Each call: its number, what it is, its answer, and names."""
        with open(self.log) as log: every = [line.rstrip('\n').split('\t') for line in log]
        return [(int(said.split()[0]), said.split()[1], int(said.split()[2]), one, two) for said, one, two in every]

    def faults(self, wanted): return said_faults(wanted, self.status, self.printed, self.errors) + folder_faults(self.place, wanted.wrote)


def order_faults(calls, writes):
    """That the new file is made in the folder of the name, written, synced and closed before it is renamed, and that all of it comes before anything is printed."""
    at = {}
    for n, what, answer, one, two in calls:
        at.setdefault(what, []).append((n, answer, one, two))
    made_at, renamed, printed = at.get('create', []), at.get('rename', []), at.get('print', [])
    if not writes: return ['it makes or renames a file'] if made_at or renamed else []
    if len(renamed) != 1 or len([one for one in made_at if one[1] >= 0]) != 1: return ['it makes %d files and renames %d' % (len(made_at), len(renamed))]
    number, _, name, to = renamed[0]
    wrong = []
    if made_at[-1][3]: wrong.append('the new file is opened so that %s' % made_at[-1][3])
    if os.path.dirname(name) != os.path.dirname(to): wrong.append('the new file %s is not in the folder of %s' % (name, to))
    if name != made_at[-1][2]: wrong.append('%s is made and %s is renamed' % (made_at[-1][2], name))
    last_write = max(n for n, *_ in at['write'])
    if not any(last_write < n < number for n, *_ in at.get('sync', [])): wrong.append('it is not synced between the last write and the renaming')
    if not any(n < number for n, *_ in at.get('close', [])): wrong.append('it is not closed before the renaming')
    if any(n < number for n, *_ in printed): wrong.append('it prints before the file is there')
    return wrong


def reading_faults(calls, in_turn):
    """That no more of a file is read than tells a sheet from what is longer, that files are opened in the order of the words and closed, and in turn where no two may be held."""
    read, open_now, wrong = 0, 0, []
    for _, what, answer, one, _ in calls:
        if what == 'open': read, open_now = 0, open_now + (answer >= 0)
        if what == 'leave': open_now -= 1
        if what == 'read': read += max(answer, 0)
        if read > files_model.LARGEST + 1: wrong.append('it reads %d bytes of a file' % read)
        if open_now > 1 and in_turn: wrong.append('it opens a file before it has closed the last')
    return wrong[:1] + (['it leaves a file open'] if open_now else [])


def failing(run, calls, n):
    """What a run may come to when call n fails, each a possibility."""
    what = calls[n - 1][1]
    plain, none = run.ran, files_model.cannot(b'write', target(run)) if run.words else None
    if what in ('open', 'read', 'leave'):
        name = [c for c in calls[:n] if c[1] == 'open'][-1][3].encode()
        unread = files_model.ran(run.program, run.words, World(run.world.files, run.world.folders, modes={name: 0}), run.given)
        return [plain, unread] if what == 'leave' else [unread]  # all was read by then, so either will do
    if what == 'input':
        came = sum(c[2] for c in calls[:n - 1] if c[1] == 'input')
        return [files_model.ran(run.program, run.words, run.world, Input(run.given.text[:came], True))]
    if what == 'create': return [plain, none]  # another name may be tried
    if what == 'close': return [plain]  # the bytes have reached the disk by then, and std tells of no close that fails (docs/PORT.md)
    if what in ('write', 'sync', 'rename'): return [none]
    return [plain]


class Tests:
    """All of them; `fault` is told what is wrong, by the run's name."""
    def __init__(self, folder, programs, fault):
        self.folder, self.programs, self.fault = folder, programs, fault
        self.tried = self.wrong = self.strays = self.killed = 0
        self.room = tempfile.mkdtemp(prefix='legs')
        os.chmod(self.room, 0o755)
        self.shim = self.made_shim(machine.words('cc'))

    def made_shim(self, cc):
        """The shim's file; None where no compiler makes one for the programs."""
        if not cc:
            machine.not_tried('runs in which a chosen call fails, is cut short or ends in a kill (shim.c wants a compiler for x86-64; Debian: gcc-x86-64-linux-gnu)')
            return None
        made, source = os.path.join(self.room, 'shim.so'), os.path.join(os.path.dirname(os.path.abspath(__file__)), 'shim.c')
        subprocess.run([*cc, '-shared', '-fPIC', '-O1', '-Wall', '-Wextra', '-Werror', '-o', made, source], check=True)
        return made

    def away(self): shutil.rmtree(self.room)

    def those(self, runs): return [run for run in runs if run.program in self.programs]

    def tell(self, run, what, wrong):
        self.tried += 1
        if wrong:
            self.wrong += 1
            self.fault('%s, %s' % (run.name, what), wrong)

    def all(self, kills, disk):
        small = self.those(writers())
        if self.shim: self.calls_one_by_one(small)
        for run in small:
            self.limits(run)
            self.outputs(run)
        for run in self.those(readers()): self.outputs(run)
        self.modes()
        self.together()
        self.kills(kills)
        if disk: self.full_disk()

    def calls_one_by_one(self, small):
        """All that takes the shim."""
        for run in small + self.those(large()) + self.those(readers()):
            calls = self.seen(run)
            if run in small or not run.ran.wrote and run.ran.errors == 'none': self.failures(run, calls)
            self.short(run)
        for run in small: self.killed_at_each_call(run)

    def seen(self, run):
        """The calls that a run makes, in an order that is safe."""
        with Trial(self, run, {}) as trial:
            calls = trial.calls()
            self.tell(run, 'its calls', trial.faults(run.ran) + order_faults(calls, run.ran.wrote) + reading_faults(calls, run.program == 'legmonth'))
            return calls

    def failures(self, run, calls):
        """Each call fails once, for each of two reasons; and so that all later ones fail too."""
        for n, what, *_ in calls:
            for reason in (errno.ENOSPC, errno.EIO):
                for on in ('', ',on'):
                    if on and what not in ('create', 'write', 'sync', 'rename'): continue
                    with Trial(self, run, {'LEGS_FAIL': '%d,%d%s' % (n, reason, on)}) as trial:
                        self.tell(run, 'call %d (%s) fails with %s%s' % (n, what, errno.errorcode[reason], on and ' and so do those after it'), self.after_failure(run, calls, n, what, on, trial))
        if run.ran.wrote: self.failures_in_parts(run)

    def after_failure(self, run, calls, n, what, on, trial):
        if what == 'print':
            wrong = said_faults(Ran(trial.printed, 'some'), trial.status, trial.printed, trial.errors) + folder_faults(trial.place, run.ran.wrote)
            return wrong + (['printed %r' % trial.printed[:300]] if not run.ran.printed.startswith(trial.printed) else [])
        may = failing(run, calls, n)
        every = [trial.faults(wanted) for wanted in (may[-1:] if on else may)]
        return min(every, key=len)

    def failures_in_parts(self, run):
        """The disk is full after some of the file was written."""
        with Trial(self, run, {'LEGS_PART': '100'}) as trial: calls = trial.calls()
        for n in [c[0] for c in calls if c[1] == 'write'][1:]:
            with Trial(self, run, {'LEGS_PART': '100', 'LEGS_FAIL': '%d,%d,on' % (n, errno.ENOSPC)}) as trial:
                self.tell(run, 'write %d of 100 bytes fails' % n, trial.faults(files_model.cannot(b'write', target(run))))

    def short(self, run):
        """Reads and writes that move fewer bytes than they were asked to are carried on."""
        small = len(run.given.text) + sum(map(len, run.world.files.values())) < 3000
        for part in (1, 7, 1000) if small else (999,):
            with Trial(self, run, {'LEGS_PART': str(part)}) as trial: self.tell(run, 'reads and writes of at most %d bytes' % part, trial.faults(run.ran))

    def limits(self, run):
        """A limit of the system on the length of files, which cuts a write short and then fails it."""
        size = len(next(iter(run.ran.wrote.values())))
        for limit in (0, 1, 327, size - 1):
            def before():
                signal.signal(signal.SIGXFSZ, signal.SIG_IGN)
                resource.setrlimit(resource.RLIMIT_FSIZE, (limit, limit))
            with Trial(self, run, None, before) as trial: self.tell(run, 'files of at most %d bytes' % limit, trial.faults(files_model.cannot(b'write', target(run))))

    def outputs(self, run):
        """An output that takes nothing: the file is written all the same, and standard error says that something is missing. And without standard error all is as ever."""
        for name in ('full', 'closed', 'no standard error'):
            place = Place(run.world)
            try:
                words = program_runs.command(run.program, self.folder) + run.words
                with open('/dev/full', 'wb') as full:
                    out = full if name == 'full' else subprocess.PIPE
                    close = {'closed': lambda: os.close(1), 'no standard error': lambda: os.close(2)}.get(name)
                    one = subprocess.Popen(words, cwd=place.folder, stdin=subprocess.PIPE, stdout=out, stderr=subprocess.PIPE, preexec_fn=close)
                    printed, errors = one.communicate(run.given.text, program_runs.LONGEST)
                missing = name != 'no standard error' and run.ran.printed
                wanted = Ran(b'' if missing else run.ran.printed, 'some' if missing else 'none' if name == 'no standard error' else run.ran.errors)
                self.tell(run, 'output: ' + name, said_faults(wanted, one.returncode, printed or b'', errors) + folder_faults(place, run.ran.wrote))
            finally:
                place.away()

    def modes(self):
        """The new file's mode is narrowed by the umask and nothing else."""
        for run in self.those(writers()):
            for mask in (0o022, 0o077, 0o000):
                place = Place(run.world)
                try:
                    status, printed, errors = talk(program_runs.command(run.program, self.folder) + run.words, place.folder, run.given, before=lambda: os.umask(mask))
                    self.tell(run, 'umask %03o' % mask, said_faults(run.ran, status, printed, errors) + folder_faults(place, run.ran.wrote, 0o666 & ~mask))
                finally:
                    place.away()

    def killed_at_each_call(self, run):
        """Killed before or after each of its calls; and a later process that has the same number finds what was left, and goes its way."""
        with Trial(self, run, SAME_NUMBER) as trial: calls = trial.calls()
        renamed = next((n for n, what, *_ in calls if what == 'rename'), len(calls) + 1)
        for n, what, *_ in calls:
            for when in ('before', 'after'):
                with Trial(self, run, {**SAME_NUMBER, 'LEGS_KILL': '%d,%s' % (n, when)}) as trial:
                    new = n > renamed or n == renamed and when == 'after'
                    wrong = ['it was not killed'] if trial.status != -signal.SIGKILL else []
                    wrong += self.left(trial.place, run.ran.wrote if new else {})
                    self.tell(run, 'killed %s call %d (%s)' % (when, n, what), wrong + self.again(run, trial.place, SAME_NUMBER))

    def left(self, place, wrote):
        """What differs in the folder of a killed run, but for one new file that is left; it is counted, and kept in mind as there."""
        after = place.listed()
        stray = [name for name in after if name not in place.before and name not in {os.path.normpath(name) for name in wrote}]
        self.strays += len(stray)
        for name in stray: place.before[name] = after[name]
        return folder_faults(place, wrote) + (['%d files are left' % len(stray)] if len(stray) > 1 else [])

    def again(self, run, place, settings):
        """The same call in the folder of a killed run."""
        found = place.listed()
        now = World({name: one[1] for name, one in found.items() if one[0] == stat.S_IFREG}, run.world.folders)
        place.before = found
        wanted = files_model.ran(run.program, run.words, now, run.given)
        said = talk(program_runs.command(run.program, self.folder) + run.words, place.folder, run.given, extra={'LD_PRELOAD': self.shim, **settings} if settings else {})
        return ['a later run: ' + text for text in said_faults(wanted, *said) + folder_faults(place, wanted.wrote)]

    def kills(self, count):
        """Killed at random moments, without the shim."""
        rng, runs = random.Random(count), self.those(large())
        took = {run.name: min(self.timed(run) for _ in range(3)) for run in runs} if count else {}
        for k in range(count if runs else 0):
            run = runs[k % len(runs)]
            place = Place(run.world)
            try:
                with open(os.path.join(place.top, b'given'), 'wb') as given: given.write(run.given.text)
                status = self.kill_one(run, place, rng.uniform(0, 1.3 * took[run.name]))
                self.killed += status == -signal.SIGKILL
                name, = run.ran.wrote
                new = place.listed().get(name, (0, None))[1] == run.ran.wrote[name]
                self.tell(run, 'killed at a random moment (%d)' % k, self.left(place, run.ran.wrote if new else {}) + self.again(run, place, None))
            finally:
                place.away()

    def started(self, run, place):
        with open(os.path.join(place.top, b'given'), 'rb') as given:
            return subprocess.Popen(program_runs.command(run.program, self.folder) + run.words, cwd=place.folder, stdin=given, stdout=subprocess.DEVNULL, stderr=subprocess.DEVNULL)

    def timed(self, run):
        """Seconds from the start of a run to its end."""
        place = Place(run.world)
        try:
            with open(os.path.join(place.top, b'given'), 'wb') as given: given.write(run.given.text)
            one = self.started(run, place)
            began = time.perf_counter()
            one.wait(program_runs.LONGEST)
            return time.perf_counter() - began
        finally:
            place.away()

    def kill_one(self, run, place, after):
        one = self.started(run, place)
        until = time.perf_counter() + after
        while time.perf_counter() < until: pass
        one.kill()
        return one.wait(program_runs.LONGEST)

    def together(self):
        """Eight processes write one name at the same time: it holds what one of them wrote, and nothing is left."""
        if 'legsheet' not in self.programs: return
        for turn in range(5):
            place = Place(World({b'day': b'old', **BESIDE}))
            try:
                runs = [Run('together', '', 'legsheet', [b'day'], World({b'day': b'old'}), Input(made('input', 100 * turn + k, 100 + k, 300))) for k in range(8)]
                begun = [subprocess.Popen(program_runs.command('legsheet', self.folder) + [b'day'], cwd=place.folder, stdin=subprocess.PIPE, stdout=subprocess.PIPE, stderr=subprocess.PIPE) for _ in runs]
                for one, run in zip(begun, runs):
                    one.stdin.write(run.given.text)
                    one.stdin.flush()
                for one in begun: one.stdin.close()
                wrong = []
                for one, run in zip(begun, runs):
                    one.stdin = None
                    wrong += said_faults(run.ran, *(lambda said: (one.returncode, *said))(one.communicate(timeout=program_runs.LONGEST)))
                data = place.listed()[b'day'][1]
                if all(data != run.ran.wrote[b'day'] for run in runs): wrong.append('the file holds what none of them wrote')
                self.tell(runs[0], 'turn %d' % turn, wrong + folder_faults(place, {b'day': data}))
            finally:
                place.away()

    def full_disk(self):
        """A disk of 32 kB that has room for the old sheet and not for the new one. It is mounted, so root alone can try it."""
        for run in self.those(large()):
            place = Place(World(folders=[b'disk']))
            disk = place.at(b'disk')
            subprocess.run(['mount', '-t', 'tmpfs', '-o', 'size=64k', 'none', disk], check=True)
            try:
                moved = World({b'disk/' + name: data for name, data in run.world.files.items()}, [b'disk'])
                for name, data in moved.files.items():
                    with open(place.at(name), 'wb') as file: file.write(data)
                if b'day' in run.world.files and len(run.world.files[b'day']) < 1000:
                    with open(place.at(b'disk/filler'), 'wb') as file: file.write(bytes(40000))
                place.before = place.listed()
                words = [b'disk/' + word for word in run.words]
                said = talk(program_runs.command(run.program, self.folder) + words, place.folder, run.given)
                self.tell(run, 'a full disk', said_faults(files_model.cannot(b'write', words[-1]), *said) + folder_faults(place, {}))
            finally:
                subprocess.run(['umount', disk], check=True)
                place.away()
