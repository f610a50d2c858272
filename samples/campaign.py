"""What the campaigns over the program `replay` have in common: they give it cases in batches, a few processes beside
one another, and compare what becomes of each case with the independent implementation in replay_cases.py."""
import multiprocessing
import os
import subprocess
import sys
import time

sys.dont_write_bytecode = True
sys.path.insert(0, os.path.dirname(os.path.abspath(__file__)))
import replay_cases as own  # beside this file

BATCH = 25
SECONDS = 300


class Options:
    """The words of a campaign: those with two dashes in front have a value each, and all others are left."""

    def __init__(self, arguments, **values):
        self.words, rest = [], iter(arguments)
        for word in rest:
            name = word[2:]
            if word.startswith("--") and name in values:
                values[name] = type(values[name])(next(rest, ""))
            else:
                self.words.append(word)
        self.values = values

    def __getitem__(self, name):
        return self.values[name]


class Task:
    """A batch of cases, the words that run the program, its environment, and what compares a case with its output."""

    def __init__(self, words, agrees, cases, environment=None):
        self.words, self.agrees, self.cases, self.environment = words, agrees, cases, environment or {}

    def run(self):
        """Whether each case agrees, what it was answered, and the seconds of the program and of comparing."""
        given = "".join(own.lines(case.given()) for case in self.cases)
        began = time.monotonic()
        texts = endings_of(self.words, given, {**os.environ, **self.environment})
        ended = time.monotonic()
        texts += [""] * (len(self.cases) - len(texts))
        right = [have != "" and self.agrees(case, have) for case, have in zip(self.cases, texts)]
        if len(texts) > len(self.cases):
            right[-1] = False
        return list(zip(self.cases, texts, right)), ended - began, time.monotonic() - ended


def endings_of(words, given, environment):
    """The program's output, case by case: what there was of it where it didn't end by itself."""
    try:
        ran = subprocess.run(
            words, input=given.encode(), stdout=subprocess.PIPE, env=environment, timeout=SECONDS, check=False
        )
        out, ended = ran.stdout, ran.returncode == 0
    except subprocess.TimeoutExpired as late:
        out, ended = late.stdout or b"", False
    except OSError as fault:
        print(fault, file=sys.stderr)
        out, ended = b"", False
    texts = [text + "end\n" for text in out.decode().split("end\n")[:-1]]
    return texts if ended else [*texts, ""]


def is_allowed(case, have):
    """Whether this is what becomes of the case under the masks that it prints, and the words allow them."""
    masks = masks_in(have)
    try:
        return own.lines((case.under(masks) if masks else case).ending()) == have
    except own.NotAllowed:
        return False


def code_of(text):
    """The answer in a case's output."""
    return text.split("\n")[1] if text else "none"


def masks_in(text):
    """The masks that a case's output prints."""
    return tuple(int(line.split()[4]) for line in text.splitlines() if line.startswith("text round "))


def run_task(task):
    return task.run()


def run_all(name, tasks, processes):
    """Runs the tasks and prints a line of figures. The answer is whether all cases agree."""
    began, results = time.monotonic(), []
    program = comparing = 0.0
    with multiprocessing.Pool(processes) as pool:
        for found, seconds, more in pool.imap_unordered(run_task, tasks):
            results += found
            program, comparing = program + seconds, comparing + more
    answers = {}
    for _, have, _ in results:
        answers[code_of(have)] = answers.get(code_of(have), 0) + 1
    told = ", ".join(f"{count} {code}" for code, count in sorted(answers.items(), key=lambda it: -it[1]))
    differ = [case.label for case, _, right in results if not right]
    spread = len({masks_in(have) for _, have, _ in results})
    taken = time.monotonic() - began
    spent = f"replay {program:.1f} s and comparing {comparing:.1f} s in {processes} processes"
    print(f"{name}: {len(results)} cases, {len(differ)} differ ({told}; {spread} lists of masks);", end=" ")
    print(f"{taken:.1f} s, of them {spent}", flush=True)
    for label in differ[:5]:
        print(f"  {label}")
    return bool(results) and not differ


def in_batches(cases, size=BATCH):
    """Lists of so many cases, the last perhaps shorter."""
    batch = []
    for case in cases:
        batch.append(case)
        if len(batch) == size:
            yield batch
            batch = []
    if batch:
        yield batch
