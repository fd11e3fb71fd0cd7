"""Builds the proofs of coq/ and their judges, and compares them with `dsa` on jobs, good and wrong.

    tests/run coq [PART ..]      JOBS=20000 asks for more jobs, SEED=2 for others

statements: each theorem of coq/theories/Headline.v rests on no axiom. examples, generated: both judges accept what
`dsa` accepts, with its cost, and refuse what it refuses. lists: beside a list the judge accepts its own plan alone.
barriers: beside a list with barriers it accepts what the call from C does. large: 65,536 pieces take it little time
and memory. runs: the definitions leave each byte that `dsa` leaves. definitions, proofs: wrong ones are seen. Without
Coq nothing is tried, and barriers not without a C compiler."""

import json
import os
import random
import resource
import shutil
import subprocess
import tempfile
from glob import glob
from pathlib import Path

import bench
import bindings
import common
import coq_wrong
import model
from campaign import Case
from common import ROOT, expect
from coq_wrong import lines_of
from model import COPY_CRC, CRC, FILL, MOVE, PLAIN_DATA, PLAIN_SUM, Checksum

COQ = ROOT / "coq"
NEEDED = ("coqc", "coqdep", "ocamlfind")
JOBS = int(os.environ.get("JOBS", "500"))
SEED = os.environ.get("SEED", "1")
# Of how many jobs one is a run, and two are of a list with barriers.
RUN, BARRIER = 10, 5
# The calls from C take two pieces that do not conflict as a pair if a barrier is between them and nothing else. The
# judges take any two that a barrier parts: then a certificate that the calls refuse so may show the least cost, too.
PAIR = "refused 62"
# What the judge may take for the most pieces: processor seconds, several times what it takes, and bytes.
MOST_TIME, MOST_MEMORY = 8, 600_000_000


class Tried:
    """What a test needs: the folder in which coq/ was built, and dsa."""

    def __init__(self, out):
        self.out, self.dsa = Path(out), common.program("dsa")
        command = ["make", "-C", COQ, f"-j{os.cpu_count()}", f"OUT={out}"]
        ran = subprocess.run(command, stdout=subprocess.PIPE, stderr=subprocess.STDOUT, text=True)
        self.said = ran.stdout
        if ran.returncode:
            common.stop("make -C coq fails:\n" + "\n".join(ran.stdout.splitlines()[-8:]))

    def asked(self, jobs):
        """The lines of dsa to these jobs, one program for each."""
        ask = lambda job: subprocess.run([self.dsa], input=job, capture_output=True, text=True).stdout.rstrip("\n")
        return common.side_by_side(ask, jobs)

    def judged(self, jobs, numbers="fast"):
        return lines_of(self.out / numbers / "judge", jobs)


def limited():
    for kind, most in ((resource.RLIMIT_CPU, MOST_TIME), (resource.RLIMIT_AS, MOST_MEMORY)):
        resource.setrlimit(kind, (most, most))


def agree(theirs, ours):
    """Whether a judge accepts with the cost of dsa, or refuses what dsa refuses, of texts that dsa
    reads not as JSON that it cannot read."""
    if ours == "refused json":
        return theirs == "refused 80 Json"
    return theirs == ours if theirs.startswith("{") else ours.startswith("refused")


def statements(tried):
    text = (COQ / "theories/Headline.v").read_text()
    theorems = [line.split()[1] for line in text.splitlines() if line.startswith("Theorem ")]
    expect(len(theorems) >= 18, f"Headline.v has {len(theorems)} theorems")
    asked = [it for it in theorems if f"Print Assumptions {it}." in text]
    expect(asked == theorems, f"Headline.v prints what {len(asked)} of {len(theorems)} theorems rest on")
    closed = tried.said.count("Closed under the global context")
    expect(closed == len(theorems), f"{closed} of {len(theorems)} theorems rest on no axiom")
    sources = "".join(Path(it).read_text() for it in glob(f"{COQ}/theories/*.v"))
    expect(not any(word in sources for word in ("Admitted", "Axiom", "Parameter", "admit.")), "a theory has a hole")


def examples(tried):
    """The jobs `check` of the examples and of tests/jobs, with the lines that they must give."""
    paths = [Path(it) for it in sorted(glob("examples/*.job") + glob("tests/jobs/*.job"))]
    texts = {path: " ".join(path.read_text(errors="replace").split()) for path in paths}
    jobs = {path: text for path, text in texts.items() if '"check"' in text}
    for numbers in ("plain", "fast"):
        for path, line in zip(jobs, tried.judged([*jobs.values()], numbers)):
            wanted = path.with_suffix(".line").read_text().strip()
            expect(agree(wanted, line), f"{path}: {numbers} says {line}, not {wanted}")


def planned(tried, count):
    """Cases with the answers of dsa to `plan`."""
    cases = [Case(f"coq/{SEED}/{k}") for k in range(count)]
    answers = tried.asked([json.dumps(it.job("plan", list=it.digits(it.operations))) for it in cases])
    for case, answer in zip(cases, answers):
        expect(answer.startswith("{"), f"a list is not planned: {answer}")
    return [(case, json.loads(answer)) for case, answer in zip(cases, answers) if answer.startswith("{")]


def check_of(case, answer, **more):
    return case.job("check", **emitted(answer), certificate=answer["certificate"], **more)


def changed_bytes(draw, text):
    """Hexadecimal digits with a bit, a byte, a fence or an entry changed."""
    area = bytearray.fromhex(text)
    if not area:
        return text
    entry = 64 * draw.randrange(-(-len(area) // 64))
    how = draw.randrange(4)
    if how == 0:
        area[draw.randrange(len(area))] ^= 1 << draw.randrange(8)
    elif how == 1:
        area[draw.randrange(len(area))] = draw.choice([0, 1, 255])
    elif how == 2 and entry + 4 < len(area):
        area[entry + 4] ^= 1
    else:
        del area[len(area) - draw.choice([1, 32, 64]) :]
    return area.hex()


def changed_certificate(draw, certificate):
    prices, pairs = list(certificate["prices"]), list(certificate["pairs"])
    how = draw.randrange(4)
    at = draw.randrange(len(prices))
    if how == 0:
        prices[at] = max(0, prices[at] + draw.choice([1, -1, 3]))
    elif how == 1:
        prices = prices[:at] + [max(0, it + draw.choice([1, -1])) for it in prices[at:]]
    elif how == 2 and pairs:
        first = draw.randrange(len(pairs))
        pairs[first] = draw.choice([None, [first, min(len(pairs), first + draw.randrange(1, 4))]])
    else:
        (prices if draw.random() < 0.5 else pairs).append(0 if draw.random() < 0.5 else None)
    return {**certificate, "prices": prices, "pairs": pairs}


def changed(draw, job):
    """The job with one of its parts changed."""
    part = draw.choice(["portal", "staging", "staging", "certificate", "certificate", "settings", "version"])
    if part in ("portal", "staging"):
        return {**job, part: changed_bytes(draw, job[part])}
    if part == "certificate":
        return {**job, part: changed_certificate(draw, job[part])}
    if part == "version":
        return {**job, "certificate": {**job["certificate"], "version": draw.choice([0, 1, 2, 3])}}
    settings = dict(job["settings"])
    name = draw.choice(["greatest_batch", "greatest_transfer", "lone", "fence", "staging"])
    settings[name] = max(0, settings[name] + draw.choice([1, -1, 8, -8, 64, 10**9]))
    return {**job, "settings": settings}


def check_jobs(tried, count):
    """Jobs `check`: answers of dsa, and changes of each."""
    jobs = []
    for number, (case, answer) in enumerate(planned(tried, -(-count // 5))):
        draw, job = random.Random(f"{SEED}/{number}"), check_of(case, answer)
        jobs += [json.dumps(job)] + [json.dumps(changed(draw, job)) for _ in range(4)]
    return jobs


def generated(tried):
    jobs = check_jobs(tried, JOBS)
    theirs = tried.asked(jobs)
    causes = {it.split()[1] for it in theirs if it.startswith("refused")}
    expect(any(it.startswith("{") for it in theirs) and len(causes) > 8, f"the jobs have {len(causes)} causes alone")
    for numbers in ("plain", "fast"):
        for job, wanted, line in zip(jobs, theirs, tried.judged(jobs, numbers)):
            expect(agree(wanted, line), f"{numbers} says {line}, dsa {wanted}: {job[:2000]}")


def lists(tried):
    """Beside a list an answer is accepted exactly if that list is answered with the same bytes."""
    cases = planned(tried, JOBS // 10)
    for name, lists_of in (("own", cases), ("another", cases[1:] + cases[:1])):
        texts = [case.digits(case.operations) for case, _ in lists_of]
        plans = tried.asked([json.dumps(c.job("plan", list=text)) for (c, _), text in zip(cases, texts)])
        jobs = [json.dumps(check_of(c, a, list=text)) for (c, a), text in zip(cases, texts)]
        for (_, answer), plan, job, line in zip(cases, plans, jobs, tried.judged(jobs)):
            is_same = plan.startswith("{") and emitted(json.loads(plan)) == emitted(answer)
            wanted = f'{{"cost":{answer["cost"]}}}' if is_same else "refused"
            expect(agree(wanted, line), f"beside {name} list the judge says {line}, not {wanted}: {job[:2000]}")
    for name, job, begins in coq_wrong.unsplit(tried):
        line = tried.judged([job])[0]
        expect(line.startswith(begins), f"{name}: the judge says {line}")


class Calls:
    """The two calls from C that this test makes, by the Python module over a shared object of the archive."""

    def __init__(self, out):
        bindings.make.need_proved("libdsa_c.a")
        self.planner = bindings.planner(str(out))

    def settings(self, numbers):
        return self.planner.Settings(**{name: it for name, it in numbers.items() if name != "version"})

    def planned(self, settings, listed):
        """What submits the plan of a list with barriers, and its certificate."""
        answer = self.planner.plan_list_certified(self.settings(settings), listed)
        certificate = {**vars(answer.certificate), "pairs": [it and list(it) for it in answer.certificate.pairs]}
        return {"portal": answer.portal.hex(), "staging": answer.staging.hex(), "certificate": certificate}

    def least(self, job):
        """What the plans of the list of a job cost at least, as the line of a judge."""
        certificate = self.planned(job["settings"], bytes.fromhex(job["list"]))["certificate"]
        return f'{{"cost":{certificate["prices"][-1]}}}'

    def checked(self, job):
        """The line that the judge has to give of a job."""
        area = [bytes.fromhex(job[name]) for name in ("list", "portal", "staging")]
        try:
            certificate = self.planner.Certificate(**job["certificate"])
            return f'{{"cost":{self.planner.check_list(self.settings(job["settings"]), *area, certificate)}}}'
        except self.planner.Refusal as refusal:
            return f"refused {refusal.number}"


def summed(draw, op):
    """The bytes of an operation; those of a move may be of a checksum of its source, or of a copy with one."""
    if op.code != MOVE or draw.random() < 0.3:
        return op.bytes()
    copies = draw.random() < 0.5 and not model.meet((op.first, op.size), (op.second, op.size))
    flags = op.flags | draw.choice([0, PLAIN_SUM, PLAIN_DATA, PLAIN_SUM | PLAIN_DATA])
    at = draw.choice([op.first, op.first ^ 0x1000, op.record_at ^ 0x210])
    places = (op.size, op.record_at, op.first, op.second if copies else 0)
    op = Checksum(COPY_CRC if copies else CRC, *places, flags=flags, handle=op.handle)
    if draw.random() < 0.5 or model.any_meet([(at, 4)], op.writes()):
        return model.replace(op, own=draw.getrandbits(32)).bytes()
    return model.replace(op, seed_at=at).bytes()


def with_barriers(draw, descriptors):
    """A list of these, with the flag of a barrier in some."""
    return b"".join(it[:4] + bytes([it[4] | draw.choice([0, 0, 1])]) + it[5:] for it in descriptors)


def barrier_jobs(calls, number):
    """Jobs with a list that has barriers: its plan, changes of it, and the plan beside the list with other barriers
    and with none. One list of three has pieces that are short, and checksums among them."""
    case, draw = Case(f"coq/barriers/{SEED}/{number}"), random.Random(f"barriers/{SEED}/{number}")
    short = [summed(draw, it) for it in case.pieces]
    descriptors = [it.bytes() for it in case.operations] if number % 3 else short
    own, other, none = with_barriers(draw, descriptors), with_barriers(draw, descriptors), b"".join(descriptors)
    job = case.job("check", list=own.hex(), **calls.planned(case.job("")["settings"], own))
    jobs = [job, {**job, "list": other.hex()}, {**job, "list": none.hex()}]
    jobs.append({**job, **calls.planned(job["settings"], none)})
    jobs += [changed(draw, job) for _ in range(4)]
    return [it for it in jobs if None not in it["certificate"]["prices"] and 0 not in it["certificate"]["pairs"]]


def barriers(tried):
    """Beside a list with barriers a judge accepts what dsa_check_list accepts, with its cost, and no more."""
    if not common.compiler():
        common.skip("there is no C compiler")
        return
    calls = Calls(tried.out)
    jobs = [job for number in range(JOBS // BARRIER * 2) for job in barrier_jobs(calls, number)]
    theirs, texts = [calls.checked(it) for it in jobs], [json.dumps(it) for it in jobs]
    costs, causes = {it for it in theirs if it.startswith("{")}, {it for it in theirs if it.startswith("refused")}
    expect(len(costs) > 8 and len(causes) > 4, f"the lists have {len(costs)} costs and {len(causes)} causes alone")
    for numbers in ("plain", "fast"):
        for job, text, wanted, line in zip(jobs, texts, theirs, tried.judged(texts, numbers)):
            right = agree(wanted, line) or wanted == PAIR and line == calls.least(job)
            expect(right, f"{numbers} says {line}, the call {wanted}: {text[:2000]}")


def large(tried):
    """The plans of 65,536 moves and fills among 64 buffers, in small batches and in the greatest, and by size, each
    also beside the list; and pairs that end near and far by turns."""
    checks = [jumping()]
    for batch, more in ((2, {}), (1024, {}), (1024, {"version": 2, "batch": [14] * 1023})):
        job = bench.job_of("plan", bench.crowded(), batch)
        job["settings"].update(more)
        checks.append(bench.check_of(job, tried.dsa))
        checks.append({**checks[-1], "list": job["list"]})
    for number, check in enumerate(checks):
        how = {"capture_output": True, "text": True, "preexec_fn": limited}
        ran = subprocess.run([tried.out / "fast/judge"], input=json.dumps(check), **how)
        bare = {name: it for name, it in check.items() if name != "list"}
        wanted = tried.asked([json.dumps(bare)])[0] + "\n"
        expect(wanted.startswith("{"), f"large job {number}: {wanted}")
        expect(ran.stdout == wanted, f"large job {number}: {ran.stdout} {ran.stderr[:200]}")


def jumping():
    """A job of 65,536 fills of the same bytes, each alone, since a batch costs much."""
    count = 65536
    fills = [bench.descriptor(FILL, 7, 4096, 512, k) for k in range(count)]
    job = bench.job_of("plan", fills, 32)
    settings = {**job["settings"], "lone": 10, "batch": 10**6}
    pairs = [[k, count - 1 if k % 2 else k + 1] for k in range(count - 2)] + [None, None]
    certificate = {"pairs": pairs, "prices": [10 * k for k in range(count + 1)], "version": 1}
    return {"do": "check", "settings": settings, "portal": job["list"], "staging": "", "certificate": certificate}


def emitted(answer):
    return {name: answer[name] for name in ("portal", "staging")}


def run_jobs(tried, count):
    """Cases, the answers of dsa to their jobs `run`, and what the definitions are asked beside these."""
    cases = planned(tried, count)
    image = lambda case: {"base": 0, "bytes": case.memory.hex()}
    asked = [json.dumps(c.job("run", list=c.digits(c.operations), image=image(c), engines=2)) for c, _ in cases]
    answers = [json.loads(it) for it in tried.asked(asked)]
    return cases, answers, [json.dumps({**emitted(a), **image(c)}) for c, a in cases]


def left(answer):
    """What an answer to a job `run` says, as the definitions say it."""
    return f"{answer['finished']} {answer['image']}"


def runs(tried):
    """What a complete run leaves, and if all pieces finish what the list leaves in order."""
    cases, answers, jobs = run_jobs(tried, max(1, JOBS // RUN))
    execute = tried.out / "execute/execute"
    for (case, _), answer, line in zip(cases, answers, lines_of(execute, jobs)):
        expect(line == left(answer), f"a run leaves other bytes: {case.digits(case.operations)}")
    whole = [(c, run) for (c, a), run in zip(cases, answers) if run["finished"] == len(a["certificate"]["pairs"])]
    image = lambda case: {"base": 0, "bytes": case.memory.hex()}
    jobs = [json.dumps({"list": c.digits(c.operations), "greatest": c.transfer, **image(c)}) for c, _ in whole]
    for (case, run), line in zip(whole, lines_of(execute, jobs)):
        expect(line == run["image"], f"the list leaves other bytes: {case.digits(case.operations)}")


def answered(lines):
    """Whether a program has answered each job."""
    return not any(it.startswith("no line") for it in lines)


def definitions(tried):
    """With each wrong definition some answer differs."""
    jobs = check_jobs(tried, 300)
    theirs = tried.asked(jobs)
    for name, lines in coq_wrong.judged_by_wrong_definitions(tried.out, jobs):
        is_seen = answered(lines) and any(not agree(*both) for both in zip(theirs, lines))
        expect(is_seen, f"the definition is wrong, and no answer differs: {name}")
    _, answers, jobs = run_jobs(tried, 100)
    for name, lines in coq_wrong.executed_by_wrong_definitions(tried.out, jobs):
        is_seen = answered(lines) and lines != [left(it) for it in answers]
        expect(is_seen, f"the definition is wrong, and all runs leave the same: {name}")


def proofs(tried):
    """What the proofs are about is proved, and no wrong edit of it."""
    for name, is_proved in coq_wrong.proofs_of_edits(tried.out):
        expect(is_proved == (not name), f"a wrong edit is proved: {name}" if name else "a file is not proved as it is")


PARTS = [statements, examples, generated, lists, barriers, large, runs, definitions, proofs]


def main(words):
    parts = common.named(PARTS, words)
    missing = [it for it in NEEDED if not shutil.which(it)]
    if missing:
        common.skip(f"{', '.join(missing)} is not installed")
        expect(True, "")
        return
    with tempfile.TemporaryDirectory() as out:
        tried = Tried(out)
        for part in parts:
            part(tried)


if __name__ == "__main__":
    common.run_test(main)
