#!/usr/bin/env -S python3 -B
"""Measures the built program beside another program of the same jobs, on large jobs: best wall time, and of that run the
system time and the minor page faults, and greatest peak memory of each, the ratio of the times, and whether the answers
are equal. By hand, on a quiet machine; it is no test.

    tests/bench.py [--json FILE] OTHER [JOB ..]    OTHER: the other program; JOB: the beginning of a job's name

With --json the rows are written to FILE, too. Jobs are made in processes of their own: the peak memory of a program
can't be seen below that of the process that started it.
"""

import json
import os
import random
import subprocess
import sys
import tempfile
import time

from common import NUMBERS, program
from model import COMPARE, DUALCAST, FILL, MOVE, Op

RUNS = 5
PIECES = 65536
LONGEST = 67108864
RECORDS = 1 << 50


def descriptor(code, first, second, size, number, own=0):
    """The 64 bytes of an operation whose record is that of this number."""
    return Op(code, size, RECORDS + 32 * number, first, second, own).bytes()


def apart():
    return [descriptor(MOVE, 8192 * k, 1 << 40 | 8192 * k, 4096, k) for k in range(PIECES)]


def chained():
    return [descriptor(MOVE, 4096 * k, 4096 * (k + 1), 4096, k) for k in range(PIECES)]


def crowded():
    """Moves and fills among 64 buffers."""
    chance = random.Random(1)
    out = []
    for k in range(PIECES):
        source, target = (4096 * place for place in chance.sample(range(64), 2))
        if chance.randrange(4) == 0:
            out.append(descriptor(FILL, chance.getrandbits(64), target, 512, k))
        else:
            out.append(descriptor(MOVE, source, target, chance.choice((64, 1024, 4096)), k))
    return out


def wide():
    """Comparisons of long ranges over one another, and a fill now and then."""
    chance = random.Random(2)
    out = []
    for k in range(PIECES):
        start = chance.randrange(1 << 24)
        if k % 500 == 499:
            out.append(descriptor(FILL, 0, (1 << 33) + start, 64, k))
        else:
            out.append(descriptor(COMPARE, (1 << 33) - start, (1 << 40) + start, 1 << 25, k))
    return out


def split():
    return [descriptor(MOVE, 0, 1 << 45, 4096 * PIECES, 0)]


def hostile():
    """Many dualcasts of a byte, then comparisons over all of them."""
    half = PIECES // 2
    out = [descriptor(DUALCAST, 1 << 41, 4096 * k, 1, k, 4096 * (half + k)) for k in range(half)]
    return out + [descriptor(COMPARE, 0, 1 << 45, 1 << 28, k) for k in range(half, PIECES)]


def copies(size, rounds, room):
    """Moves from anywhere to anywhere in `room` bytes; their records come after these bytes."""
    chance = random.Random(3)
    out = []
    for k in range(rounds):
        source, target = (chance.randrange(room - size) for _ in 'ab')
        out.append(descriptor(MOVE, source, target, size, k).replace(
            (RECORDS + 32 * k).to_bytes(8, 'little'), (room + 32 * k).to_bytes(8, 'little')))
    return out


def settings(batch, transfer):
    return NUMBERS | {'greatest_batch': batch, 'greatest_transfer': transfer, 'staging': 1 << 62}


def job_of(do, parts, batch, transfer=4096, **more):
    return {'do': do, 'settings': settings(batch, transfer), 'list': b''.join(parts).hex(), **more}


def image(room, records):
    return {'base': 0, 'bytes': random.Random(4).randbytes(room).hex() + '00' * (32 * records)}


def check_of(plan, program):
    """The job that checks the answer to a job to plan."""
    done = subprocess.run([program], input=json.dumps(plan).encode(), stdout=subprocess.PIPE, check=True)
    answer = json.loads(done.stdout)
    return {'do': 'check', 'settings': plan['settings'],
            **{name: answer[name] for name in ('portal', 'staging', 'certificate')}}


def run_of(engines, size, rounds):
    room = 12 << 20
    return job_of('run', copies(size, rounds, room), 32, 1 << 31, engines=engines,
                  image=image(room, rounds))


def text_of(job):
    return json.dumps(job, separators=(',', ':'))


def filled(job, place, entry):
    """The job's text, with as many copies of an entry in the array at the end of `place` as the longest text has room
    for."""
    text = text_of(job)
    at = text.index(place) + len(place)
    return text[:at] + (entry + ',') * ((LONGEST - len(text)) // (len(entry) + 1)) + text[at:]


def fills(size, rounds):
    """Fills of the same bytes, over and over; their records come after these bytes."""
    return [descriptor(FILL, k, 0, size, k).replace(
        (RECORDS + 32 * k).to_bytes(8, 'little'), (size + 32 * k).to_bytes(8, 'little'))
        for k in range(rounds)]


def longest_replay():
    """One engine that does 7,500 fills of 512 lines each in order: 3,855,000 events."""
    rounds, lines = 7500, 512
    job = job_of('replay', fills(4096 * lines, rounds), 32, 1 << 31, engines=1, trace=[],
                 image=image(4096 * lines, rounds))
    events = ','.join('[0,"take",%d],%s[0,"finish",%d]' % (k, '[0,"line",%d],' % k * lines, k)
                      for k in range(rounds))
    return text_of(job).replace('"trace":[', '"trace":[' + events)


def longest_run():
    """One engine that does 2,000 fills of 2,048 lines each."""
    rounds, lines = 2000, 2048
    return text_of(job_of('run', fills(4096 * lines, rounds), 32, 1 << 31, engines=1,
                          image=image((16 << 20) - 32 * rounds, rounds)))


def longest_check(program):
    return filled(check_of(job_of('plan', apart(), 1024), program), '"prices":[', '0')


# Texts of 64 MiB, the longest that are read: of each kind of job one that has the most to do, or the most to read.
LONGEST_JOBS = {
    'longest-plan': lambda program: text_of(job_of('plan', crowded(), 1024)),
    'longest-judge': lambda program: filled(
        job_of('judge', apart(), 32, plan=[[False]]), '"plan":[', '[false]'),
    'longest-check': longest_check,
    'longest-replay': lambda program: longest_replay(),
    'longest-run': lambda program: longest_run(),
    'longest-list': lambda program: text_of(job_of('plan', apart() * 7, 1024)),
    'longest-array': lambda program: filled({'do': [0]}, '"do":[', '0'),
}

JOBS = {
    'plan-apart': lambda program: job_of('plan', apart(), 1024),
    'plan-chained': lambda program: job_of('plan', chained(), 1024),
    'plan-crowded': lambda program: job_of('plan', crowded(), 32),
    'plan-wide': lambda program: job_of('plan', wide(), 1024, 1 << 31),
    'plan-split': lambda program: job_of('plan', split(), 1024),
    'plan-hostile': lambda program: job_of('plan', hostile(), 1024, 1 << 31),
    'check-apart': lambda program: check_of(job_of('plan', apart(), 1024), program),
    'check-chained': lambda program: check_of(job_of('plan', chained(), 1024), program),
    'judge-apart': lambda program: job_of('judge', apart(), 32, plan=[[False] * 32] * (PIECES // 32)),
    'run-large-1': lambda program: run_of(1, 1 << 20, 800),
    'run-large-2': lambda program: run_of(2, 1 << 20, 800),
    'run-large-4': lambda program: run_of(4, 1 << 20, 800),
    'run-small-1': lambda program: run_of(1, 512, PIECES),
}


def measured(program, path, answer):
    """Wall time and system time in ms, minor page faults, and peak memory in MiB of one run, whose answer goes to a
    file."""
    with open(path, 'rb') as job, open(answer, 'wb') as line:
        begin = time.perf_counter()
        child = subprocess.Popen([program], stdin=job, stdout=line)
        _, status, usage = os.wait4(child.pid, 0)
    child.returncode = os.waitstatus_to_exitcode(status)
    if child.returncode not in (0, 1):  # 1: a refusal is an answer, too
        sys.exit(f'{program} ended with status {child.returncode}')
    return 1e3 * (time.perf_counter() - begin), 1e3 * usage.ru_stime, usage.ru_minflt, usage.ru_maxrss / 1024


def same(first, second):
    with open(first, 'rb') as a, open(second, 'rb') as b:
        while part := a.read(1 << 16):
            if part != b.read(1 << 16):
                return False
        return not b.read(1)


def make(name, program, path):
    """Writes the job of this name, the longest ones filled up with blanks."""
    with open(path, 'w', encoding='ascii') as file:
        if name in LONGEST_JOBS:
            file.write(LONGEST_JOBS[name](program).ljust(LONGEST))
        else:
            file.write(text_of(JOBS[name](program)))


# The columns of a row: the member of each figure, for this program and the other one, and how the table names it.
COLUMNS = {'wall': 'ms', 'system': 'system ms', 'faults': 'faults', 'peak': 'MiB'}


def row(name, own, other, folder):
    """Makes a job, runs both programs on it by turns, and answers what was measured of each."""
    job = os.path.join(folder, 'job')
    lines = [os.path.join(folder, which) for which in ('own', 'other')]
    subprocess.run([sys.executable, '-B', __file__, '--make', name, own, job], check=True)
    runs = [[], []]
    for _ in range(RUNS):
        for k, tried in enumerate((own, other)):
            runs[k].append(measured(tried, job, lines[k]))
    found = []
    for its in runs:
        wall, system, faults, _ = min(its)
        peak = max(run[3] for run in its)
        found.append({'wall': round(wall, 1), 'system': round(system, 1), 'faults': faults, 'peak': round(peak)})
    return {'job': name, 'own': found[0], 'other': found[1], 'equal': same(*lines)}


def cells(found):
    """The cells of a row of the table."""
    own, other = found['own'], found['other']
    yield found['job']
    for member in COLUMNS:
        yield f'{own[member]:.0f}'
        yield f'{other[member]:.0f}'
        if member == 'wall':
            yield f'{own[member] / other[member]:.2f}'
    yield 'equal' if found['equal'] else 'DIFFER'


def show(cells):
    print('| %s |' % ' | '.join(cells), flush=True)


def measure(other, wanted):
    """Measures each wanted job and prints its row as it comes; answers the rows."""
    names = [n for n in (*JOBS, *LONGEST_JOBS) if not wanted or any(n.startswith(w) for w in wanted)]
    heads = [f'{which}, {unit}' for unit in COLUMNS.values() for which in ('dsa', 'other')]
    show(['job', *heads[:2], 'ratio', *heads[2:], 'answers'])
    show(['---'] * (len(heads) + 3))
    rows = []
    with tempfile.TemporaryDirectory() as folder:
        for name in names:
            rows.append(row(name, program('dsa'), other, folder))
            show(cells(rows[-1]))
    return rows


def main(words):
    path = None
    if words[0] == '--json':
        path, words = words[1], words[2:]
    rows = measure(words[0], words[1:])
    if path:
        with open(path, 'w', encoding='ascii') as file:
            json.dump(rows, file)


if __name__ == '__main__':
    if sys.argv[1:2] == ['--make']:
        make(*sys.argv[2:])
    elif len(sys.argv) > (3 if sys.argv[1:2] == ['--json'] else 1):
        main(sys.argv[1:])
    else:
        sys.exit(__doc__)
