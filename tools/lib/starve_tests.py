"""Refuses growths of memory in the tests, for tools/gate/starve, and judges what each test answers then."""
import glob
import os
import re
import resource
import shutil
import subprocess
from collections import Counter, namedtuple
from concurrent.futures import ProcessPoolExecutor

from common import ROOT, crate_in, crates, text_of

# A test, and the program that has it.
Test = namedtuple("Test", "crate name program")
# What its run with all memory takes: growths, and seconds.
Counted = namedtuple("Counted", "test count seconds wrong")
# What came of it: how many growths there were and were refused, how often it ended how, and what isn't right.
Starved = namedtuple("Starved", "test count refused ends wrong")

# How a test may end where a growth is refused.
MEMORY, FAILED, ON, BEHIND = "F1", "F23", "goes on", "goes on behind F1"

# Tests that may end otherwise than with Memory where a growth is refused: how the test's name begins, what it says
# then, and why that is as it is to be. PASSES says nothing; FRONT compares what was written with what is due, which it
# begins; LESS compares counts, of which one is one less than is due.
PASSES, FRONT, LESS = "passes", "front", "less"
KEPT = "a window, or a part of a file, isn't kept"
OWN = "the test itself had no memory"
WRITER = "the test's own writer has no memory: a failed write"
EARLY = "one connection ends early"
FEWER = "one worker fewer"
UNTOLD = "what workers have no memory for is done, and not told, with its rows"
UNSHRUNK = "the lists of packed entries keep the room that they have"
UNWRITTEN = "the line of the refused file can't be written"
UNSHOWN = "F1 is told, which the test doesn't show"
TELLER = "the test's own standard error has no memory for all that is told"
GROWN = "where the room that a list is due is refused, it grows"
DISK = "the test's disk in memory can't note a call, or copy bytes: a call of the system fails"
IN_MEMORY = "vectors_files (?!.*(of_the_system|device))"
OTHERWISE = (
    # Replies, wherever they are made.
    ("vectors_(hall|store|web) ", r"left: .*WriteFailed", WRITER),
    ("vectors_(hall attended|hall keeping|store serving|web serving|web caching)::", FRONT, WRITER),
    # Halls.
    ("vectors_hall attended::", PASSES, KEPT),
    ("vectors_hall crowd::", r"left: \(7, 239, 1\)\n right: \(7, 240, 0\)", EARLY),
    ("vectors_hall crowd::", r"left: \([0-6], 240, 0\)\n right: \(7, 240, 0\)", "a publish is refused"),
    ("vectors_hall crowd::", PASSES, FEWER),
    ("vectors_hall idle::", r"left: \[\]\n", EARLY),
    ("vectors_hall idle::", r"out of memory\n(.*\n)+  left: Ok\(1\)\n right: Ok\(2\)", "one connection isn't taken"),
    ("vectors_hall idle::trickling", PASSES, "the client that is left in any case is left sooner"),
    ("vectors_hall keeping::", r"left: \[1[67], 1[67], 1[78], 1[78], (1[89]|20)\]", KEPT),
    ("vectors_hall keeping::", PASSES, KEPT),
    ("vectors_hall operating::lines", r"Err\(Shelf\)\n  left: ", WRITER),
    ("vectors_hall operating::lines", r"Err\(Memory.*\n  left: ", "the lines end by F1"),
    ("vectors_hall opening::", r"listed: F20 Shelf\n(.*\n)+  left: ", "the test's folder has no memory: a file isn't listed or read"),
    ("vectors_hall limits::no_connection", r"left: \(1, \d+, \d\)\n right: \(1, 655\d\d, \d\)", EARLY),
    ("vectors_hall (idle|operating|publishing|readers|threads)::", PASSES, UNSHRUNK),
    ("vectors_hall opening::", PASSES, "a folder is listed, or a file read, once more"),
    ("vectors_hall operating::unwritten", PASSES, "the answer, F1 or not, can't be written"),
    ("vectors_hall operating::unwritten", r"left: 0\n right: 1", "the answer, F1 or not, can't be written"),
    ("vectors_hall threads::", r"left: \(1, 1\)\n right: \(2, 0\)", EARLY),
    ("vectors_hall threads::published", r"left: false\n right: true", "a publish is refused"),
    ("vectors_hall threads::published", r"left: \(1, 0\)\n right: \(2, 0\)", "it is published behind both connections"),
    ("vectors_hall threads::two", r"left: false\n right: true", FEWER),
    ("vectors_hall ways::", r"left: \(9, 1\)\n right: \(10, 0\)", EARLY),
    ("vectors_hall ways::", r"left: \(9, 0\)\n right: \(10, 0\)", WRITER),
    ("vectors_hall ways::", r"left: false\n right: true", FEWER),
    ("vectors_hall ways::", PASSES, FEWER),
    ("vectors_hall limits::", r"left: \(\d+, 0\)\n right: \(655\d\d, [01]\)", EARLY),
    # Archives.
    ("vectors_hall refusals::", PASSES, UNSHRUNK),
    ("vectors_store by_parts::", PASSES, KEPT),
    ("vectors_store (failing::checking|opened_with::)", PASSES, FEWER),
    ("vectors_store opened_with::two_jobs", r"left: \(\d, false\)\n right: \(\d, true\)", FEWER),
    ("vectors_store dressed::what_a_file_keeps", r'left: \((.*), "none", (\d)\)\n right: \(\1, "dressed", \2\)', OWN),
    ("vectors_store (listing::files_are|prepared::(images_are|the_first))", PASSES, "a name is refused in any case"),
    ("vectors_store opened_with::where_memory", PASSES, "it is the test's own case, and takes F1 for right"),
    ("vectors_store prepared::images_are_stored", r"left: \((.*), (None, .*|.*, None)\)\n right: \(\1, ", OWN),
    ("vectors_store serving::a_window_that_is_kept", r"left: HTTP(.|\n)*HTTP/1.1 500 (.|\n)*\n right: ", KEPT),
    ("vectors_store adding::a_rename_that_fails", "an image: Shelf", "the call that fails comes in the next try"),
    ("vectors_store failing::adding", "an image: Shelf", "the call that fails comes in the next try"),
    ("vectors_store failing::checking", r'left: "(.* )?\?( .*)?"\n right: "a (whole|unread) b ', "F1 is written as ?"),
    ("vectors_store by_parts::where_a_part_has_changed", LESS, "the test counts F1 as no answer"),
    ("vectors_store directories::files_of_a_directory", PASSES, OWN),
    ("vectors_store directories::files_of_a_directory", r'left: "(\.\./b)?"\n right: "(c\.jp2)?"', OWN),
    ("vectors_store directories::an_archive", PASSES, "the name of a file that can't be read isn't kept"),
    ("vectors_store serving::", PASSES, KEPT),
    # Requests and replies.
    ("vectors_web caching::", r"left: \d+\n right: \d+", KEPT),
    ("vectors_web caching::", PASSES, KEPT),
    ("vectors_web tests::queries", PASSES, OWN),
    # Files.
    (IN_MEMORY, PASSES, DISK),
    ("vectors_files locking::", r'left: .*"refused"', "F1 is written as refused"),
    (IN_MEMORY, r"left: (Err|Some)\(Shelf\)\n right: (Ok\(true\)|None)", DISK),
    (IN_MEMORY, r"left: (Ok\()?false\)?\n right: ((Ok\()?true|Err\(Shelf)", DISK),
    (IN_MEMORY, FRONT, DISK),
    ("vectors_files beside::where_no_file_is", r'left: "look d/out;ask "', DISK),
    ("vectors_files locking::waiting", r"left: \(\(false, [01]\), \d+\)\n right: ", DISK),
    # What the test's disk can't note is passed over where left files are looked for, and where one is removed.
    ("vectors_files (beside|output|replacing)::", r'calls: \n  left: "', DISK),
    ("vectors_files (output|writing)::", r"paths: \n  left: [1-4]\n right: [01]\b", DISK),
    # Its calls are counted: one that can't be noted lets a later one fail, behind which the new file has the path.
    ("vectors_files (output|replacing)::failing_at_each_call", r'a file: "d/out"\n  left: \[110, 101, 119\]\n', DISK),
    ("vectors_files output::folder_that_fails", r'a file: "d/out"\n  left: \[111, 108, 100\]\n', DISK),
    ("vectors_files output::folder_that_fails", r"d/out: Kind\(NotFound\)", DISK),
    ("vectors_files writing::names", r"left: \[.*false.*\]\n right: \[true, true, true, true\]", DISK),
    ("vectors_files (output|replacing|beside)::failing_at_each_call", r"left: 2\n right: 1", DISK),
    ("vectors_files (output::a_pipe|replacing::as_it_is)", r'left: "look d/pipe;.*write d/pipe;"', DISK),
    ("vectors_files listing::one_of_each", r'left: "file.jp2 last.jp2 .*gone.jp2 NotFound', DISK),
    ("vectors_formats pnm::", PASSES, "a list isn't shortened"),
    ("vectors_formats pnm::", "a (file|head|raster): Shelf", WRITER),
    # Files written and read.
    ("vectors_codec (pages|written|sizes|writers)::", PASSES, "a list isn't shortened"),
    ("vectors_codec writers::", r'error: "(the first bytes of the file|the file|another answer)"', "F1 isn't told"),
    ("vectors_codec writers::a_known_file", r"left: \(?Err\(Shelf\)", WRITER),
    # Windows and code-blocks.
    ("vectors_rows window::decoded::windows_by_the_index", PASSES, "of two answers one is looked at"),
    ("vectors_rows window::decoded::windows_by_the_index", r"left: false\n right: true", "F1 is another answer"),
    ("vectors_rows window::walked::", r"left: \d+\n right: \d+", "the test sums a refused plan as a fault"),
    ("vectors_rows window::views::", LESS, "the test counts a refused window as none"),
    ("vectors_line stored::", PASSES, "a window that isn't known is none, as one is that is refused"),
    ("vectors_line stored::", r"left: \(?(false|None)\b", "a window that is refused isn't known"),
    ("vectors_line stored::", r"left: \(true, false\)\n right: \(true, true\)", "the same window of all bytes is refused"),
    ("vectors_line stored::ends::written_behind", r"left: Some\(Err\(Shelf\)\)", WRITER),
    # Command lines.
    ("vectors_line (?!stored::)", r'"jk: F20 Shelf\\n"\)\n  left: \(Refused, .*\n right: \(Done, ', WRITER),
    ("vectors_line (outputs|telling)::", r'left: \(Refused, "jk: F20 Shelf\\n"\)\n right: \(Done, ""', WRITER),
    ("vectors_line (?!stored::)",
     r'", "(?!jk: F20 Shelf\\n").*"\)\n  left: \((\w+), true, false\)\n right: \(\1, true, true\)', TELLER),
    ("vectors_line lines::lines_are_judged", r"left: \(WrongLine, 0, true\)\n right: \(WrongLine, 0, false\)", TELLER),
    ("vectors_line numbers::negative_numbers", r"left: \(WrongLine, 0, false\)\n right: \(WrongLine, 0, true\)",
     TELLER),
    ("vectors_line lines::lines_are_judged", r"left: \(Refused, 0, false\)\n right: \(WrongLine, 0, false\)", UNSHOWN),
    ("vectors_line lines::lines_are_judged", PASSES, "a word that is like the wrong one isn't told"),
    ("vectors_line adding::lines_that_are_wrong", r"left: \(Refused, true, 0\)\n right: \(WrongLine, true, 0\)",
     UNSHOWN),
    ("vectors_line adding::lines_that_are_wrong", PASSES, TELLER),
    ("vectors_line adding::files_", r'", ""\)\n  left: \(Refused, false, true\)', "F1 is told on standard output"),
    ("vectors_line adding::lines_that_cant", r"left: \(false, 1\)\n right: \(true, 2\)", UNWRITTEN),
    ("vectors_line adding::lines_that_cant", "the folder is given back", UNWRITTEN),
    ("vectors_line adding::lines_that_cant", PASSES, "of the refused file no line is due"),
    ("vectors_line (adding|keeping|lines)::", r"a folder: .*\n  left: \(false, (\d)\)\n right: \(true, \1\)", OWN),
    ("vectors_line (adding::lines_that_add|numbers::negative_n)", PASSES,
     "words of a failure fewer, which aren't asked for"),
    ("vectors_line adding::files_", PASSES, "one worker fewer, or a file that is refused in any case"),
    ("vectors_line inputs::reads_row", r"left: \(Refused, 0\)\n right: \(Done, 0\)", UNSHOWN),
    ("vectors_line progress::code_blocks_are_counted", r"left: \(Done, [0-5]\)\n right: \(Done, [36]\)",
     "what isn't coded by workers isn't told"),
    ("vectors_line (inputs|keeping|lines|outputs|progress|telling)::", PASSES,
     "one worker fewer, or words of a failure fewer; or " + GROWN),
    ("vectors_line progress::work_is_told_of", r"left: \((\w+), false, 1, (\w+)\)\n right: \(\1, true, 1, \2\)", OWN),
    ("vectors_line windows::", PASSES, "the whole file is read instead"),
    ("vectors_line windows::windows_of_files_are_those",
     r"left: \(Done, Refused, [01], 0\)\n right: \(Done, Done, [01], 0\)", UNSHOWN),
    ("vectors_line windows::windows_of_files_are_those", r"left: false\n right: true", UNSHOWN),
    ("vectors_line windows::windows_of_files_are_told_of", r"left: \(Refused, ([01]), \1, ", UNSHOWN),
    ("vectors_line windows::windows_of_files_are_told_of", r"left: \(Done, 0, 1, None\)", OWN),
    ("vectors_line windows::windows_of_files_are_told_of", r"left: \(Done, 2, 2, ", "the whole file is read instead"),
    ("vectors_rows by_workers::", PASSES, FEWER),
    ("vectors_rows by_workers::two_code", r"left: false\n right: true", FEWER),
    ("vectors_rows by_workers::each_code", r"the code-blocks: \n +left: [0-7]\n", UNTOLD),
    ("vectors_rows encoding_by_workers::", PASSES, FEWER),
    ("vectors_rows encoding_by_workers::", r"(left|right): Err\(Shelf\)", WRITER),
    ("vectors_rows encoding_by_workers::two_code", r"the meeting: \n +left: false", FEWER),
    ("vectors_rows encoding_by_workers::each_code", r"the code-blocks: \n +left: [0-7]\n", UNTOLD),
    ("vectors_rows sources::", PASSES, GROWN),
    ("vectors_rows (drawings|encoding::files|suiting)", PASSES, "what was coded keeps the room in which it grew"),
    ("vectors_rows encoding::faults", PASSES, "the whole file is refused, and fewer rooms are tried"),
    ("vectors_rows (files|tests)::", PASSES, "an image that isn't encoded is passed over"),
    ("vectors_rows (?!window::|workers::)", r"right: \(?Err\(Memory",
     "the whole image, beside which rows stand, has no memory"),
    ("vectors_rows tests::", r"left: false\n right: true", "F1 is another answer"),
    ("vectors_rows (encoding|drawings|files)::", r"(left|right): \(?Err\(Shelf\)", WRITER),
    ("vectors_rows encoding::faults_by_rows", r"left: Some\(", WRITER),
    ("vectors_block farm::", PASSES, FEWER),
    ("vectors_codec written_with::", PASSES, FEWER),
    ("vectors_codec written_with::two_code", r"left: false\n right: true", FEWER),
    ("vectors_rows workers::", PASSES, FEWER),
    ("vectors_rows workers::beside::who_calls", r"the meeting: \n +left: false", FEWER),
    ("vectors_rows workers::decoded::two_stripes", r"at src/workers/decoded\.rt:\d+:\d+\n[23] FF4F", FEWER),
    ("vectors_block farm::tests::two_are", r"test stopped at src/farm/tests\.rt:\d+:\d+\n[23]$", FEWER),
)

# Tests that go on behind a refusal, and what each is to say at one growth at least.
WAITED = ("it waited and was shown", "it didn't wait and was published again")
BEHINDS = (
    ("vectors_hall refusals::what_waits_is_settled", *WAITED),
    ("vectors_hall refusals::what_waits_is_published_with_the_next", *WAITED),
    ("vectors_store refusals::a_refused_addition_changes_nothing", "it wasn't added and was added again"),
    ("vectors_web refusals::a_refused_session_stays_so", "it stayed refused"),
    ("vectors_block mq::refusals::a_refused_encoder_stays_so", "it stayed refused"),
)

# Tests in which the last growths are refused in any case: behind them is a fault that mustn't be told first.
ENDINGS, LAST = ("vectors_store first_faults::one_file_too_many",), 40
# The tests that the gate takes, by how their names begin: they run in one thread, make few growths or go on behind a
# refusal, and so the same growths are refused at each run.
GATE = (*(f"vectors_block {it}::" for it in ("lift", "modelled", "mq", "tests", "written")), "vectors_packet ",
        "vectors_formats boxes::", "vectors_formats extras::", *(it[0] for it in BEHINDS), *ENDINGS)

# How many growths of a test are refused at least, and how long a run takes at least, in seconds.
LEAST, SHORTEST = 3, 0.004


def known_programs(folder):
    """The test programs that stand there, by the names of their crates."""
    found = glob.glob(os.path.join(folder, "vectors_*", "out", "vectors_*_tests"))
    return {os.path.basename(it).removesuffix("_tests"): it for it in sorted(found)}


def tests_in_sources(crate):
    folder = os.path.join(crate_in(ROOT, crate), "src")
    sources = [os.path.join(at, file) for at, _, files in os.walk(folder) for file in files]
    return sum(len(re.findall(r"^ *#\[test\]", text_of(it), re.MULTILINE)) for it in sources)


def tests_of(crate, program):
    told = subprocess.run([program, "--list"], capture_output=True, check=True, text=True).stdout
    return [Test(crate, it, program) for it in re.findall(r"^(.*): test$", told, re.M)]


# What a test answers.

def spelled(said):
    """What a test says, with lists of bytes as the text that they spell."""
    def text(found):
        numbers = [int(it) for it in found[0].strip("[]").split(",")]
        letters = [it for it in numbers if 32 <= it < 127 or it in (10, 13)]
        return bytes(letters).decode("ascii") if len(letters) > 3 and len(letters) * 2 > len(numbers) else found[0]
    return re.sub(r"\[\d+(?:, \d+)*\]", text, said)


def sides(said):
    """What was found and what was due, where two values were compared."""
    found = re.search(r"^  left: (.*?)\n right: (.*?)\n?\Z", said, re.M | re.S)
    return found.groups() if found else (said, "")


def says_memory(said):
    return re.search(r'Memory|OutOfMemory|AllocError|AllocFailed|error: "memory"', said)


def tells_memory(test, said):
    """Whether a command line was refused and told F1: tests of vectors_line show beside a claim what was told."""
    case = re.search(r'", "(?:jk: .*: |jk: )?F1 Memory\\n.*"\)\n  left: .*Refused', said)
    return test.crate == "vectors_line" and case and not says_memory(sides(said)[1])


def is_front(said):
    """Whether what was found is the beginning of what was due: a text, or a list of numbers."""
    left, right = ("" if it == "[]" else it for it in sides(said))
    beginning = left[:-1] + "," if left.startswith("[") and left.endswith("]") else left
    return len(left) < len(right) and right.startswith(beginning)


def is_less(said):
    """Whether of the numbers found one is one less than was due, and all others are as due."""
    left, right = ([int(it) for it in re.findall(r"\d+", side)] for side in sides(said))
    differences = [b - a for a, b in zip(left, right) if a != b]
    return len(left) == len(right) and differences == [1]


def is_so(said, text):
    if text == PASSES:
        return not said
    if text == FRONT:
        # Of two lists one alone may be spelled.
        return said and (is_front(said) or is_front(spelled(said)))
    return said and (is_less(said) if text == LESS else re.search(text, spelled(said)))


def otherwise(test, said):
    """Why a test may end so, if it is known to; where nothing is said it has passed."""
    name = f"{test.crate} {test.name}"
    return next((why for begin, text, why in OTHERWISE if re.match(begin, name) and is_so(said, text)), None)


def answer_of(test, run):
    """How a test ended, or what isn't right."""
    if run.status is None:
        return "WRONG: it doesn't end"
    if run.status == 0 and run.refused in ("shrink", "thread"):
        # The list keeps the room that it has, or there is a worker fewer.
        return ON
    if run.status == 0:
        return ON if otherwise(test, "") else "WRONG: it passes, as if nothing had been refused"
    raw = (run.out + run.told).decode(errors="replace")
    said = spelled(raw)
    if run.status not in (101, -6):
        return f"WRONG: status {run.status}, {said[-160:]!r}"
    behind = next((text for name, *texts in BEHINDS if f"{test.crate} {test.name}" == name
                   for text in texts if f'error: "{text}"' in said), None)
    if behind:
        return BEHIND
    left, right = sides(said)
    if says_memory(left) and not says_memory(right) or tells_memory(test, said):
        return MEMORY
    if re.search(r"WorkerFailed|SpawnError", left) and not re.search(r"WorkerFailed|SpawnError", right):
        return FAILED
    return ON if otherwise(test, raw) else f"WRONG: {said.strip()[-300:]!r}"


# Running.

def emptied(folder):
    """A folder of this process, with nothing in it."""
    shutil.rmtree(folder, ignore_errors=True)
    os.makedirs(folder)
    return folder


def run_of(refuser, test, number, seconds):
    return refuser.run([test.program, test.name], number, seconds=seconds,
                       folder=emptied(os.path.join(refuser.work, f"room.{os.getpid()}")))


def processor_time():
    used = resource.getrusage(resource.RUSAGE_CHILDREN)
    return used.ru_utime + used.ru_stime


def counted(refuser, test):
    """How many growths a test makes, and how long it takes: a test that waits mostly counts by a fourth."""
    before = processor_time()
    run = run_of(refuser, test, None, 300)
    took = max(processor_time() - before, run.seconds / 4, SHORTEST)
    wrong = None if run.status == 0 else f"with all its memory it ends with {run.status}: {run.told[-200:]!r}"
    return Counted(test, run.count, took, wrong)


def starve_test(refuser, known, numbers):
    """Refuses these growths of a test in turn. One that doesn't end isn't tried further."""
    ends, wrong, refused = Counter(), {}, 0
    said = set()
    for number in numbers:
        run = run_of(refuser, known.test, number, max(60, 20 * known.seconds))
        # Threads may make a growth less than when they were counted.
        if run.refused == "none" and run.status == 0:
            continue
        refused += 1
        end = answer_of(known.test, run)
        if end == BEHIND:
            said.update(re.findall(r'error: "(.*)"', (run.out + run.told).decode(errors="replace")))
        if end.startswith("WRONG"):
            wrong.setdefault(end, number)
            end = "WRONG"
        ends[end] += 1
        if run.status is None:
            break
    for name, *texts in BEHINDS:
        if f"{known.test.crate} {known.test.name}" == name:
            wrong.update({f"WRONG: at no growth it says {it!r}": 0 for it in texts if it not in said})
    return Starved(known.test, known.count, refused, ends, wrong)


def spread(count, few):
    """So few of so many numbers from 1 on, evenly."""
    return {1 + at * count // few for at in range(few)} if few else set()


def chosen(known, most, seconds):
    """The growths of each test that are refused: all of the small ones, of the others as many as there is time for."""
    numbers, waiting = {it.test: set() for it in known}, []
    for it in sorted(known, key=lambda it: it.count * it.seconds):
        name = f"{it.test.crate} {it.test.name}"
        if name in ENDINGS:
            numbers[it.test].update(range(max(1, it.count - LAST + 1), it.count + 1))
        if name in (behind[0] for behind in BEHINDS):
            # One growth alone may be that behind which it goes on.
            numbers[it.test].update(range(1, it.count + 1))
        else:
            waiting.append(it)
        seconds -= len(numbers[it.test]) * it.seconds
    for at, it in enumerate(waiting):
        share = max(0, seconds) / (len(waiting) - at)
        few = min(it.count, most, max(LEAST, int(share / it.seconds)))
        seconds -= few * it.seconds
        numbers[it.test].update(spread(it.count, few))
    return {test: sorted(found) for test, found in numbers.items()}


def tell_crate(crate, found):
    """A line of a crate, and what isn't right there."""
    ends = sum((it.ends for it in found), Counter())
    kinds = ", ".join(f"{ends[it]} {it}" for it in (MEMORY, FAILED, ON, BEHIND, "WRONG") if ends[it])
    each = sum(it.count <= it.refused for it in found)
    print(f"{crate}: {len(found)} tests, {sum(it.count for it in found)} growths, {sum(it.refused for it in found)} "
          f"refused, each one in {each} tests; {kinds or 'none'}", flush=True)
    for it in found:
        for end, number in list(it.wrong.items())[:6]:
            print(f"    {it.test.name}, growth {number}: {end}")


def starve_tests(refuser, folder, only, most, minutes, jobs, names=("",)):
    """Runs the tests of the programs that stand there whose names begin so: how many were right, wrong and passed over."""
    tests, skipped = [], 0
    programs = known_programs(folder)
    for crate in crates():
        due = tests_in_sources(crate)
        is_named = any(crate.startswith(it.split(" ")[0]) for it in names)
        if not due or not is_named or only not in crate and only.split(" ")[0] != crate:
            continue
        found = tests_of(crate, programs[crate]) if crate in programs else []
        if len(found) != due:
            skipped += due
            print(f"not run {crate}: " + (f"its program has {len(found)} tests, and its sources {due}" if found else
                                          f"there is no program of its {due} tests"), flush=True)
        else:
            tests += [it for it in found if only in f"{crate} {it.name}" and f"{crate} {it.name}".startswith(tuple(names))]
    with ProcessPoolExecutor(jobs) as pool:
        try:
            known = list(pool.map(counted, [refuser] * len(tests), tests))
            right, used = [it for it in known if not it.wrong], sum(it.seconds for it in known)
            numbers = chosen(right, most, max(0, 60 * minutes - used))
            running = [pool.submit(starve_test, refuser, it, numbers[it.test]) for it in right]
            found = [it.result() for it in running]
        except BaseException:
            # Where it is ended, what waits isn't begun.
            pool.shutdown(wait=False, cancel_futures=True)
            raise
    found += [Starved(it.test, it.count, 0, Counter(), {f"WRONG: {it.wrong}": 0}) for it in known if it.wrong]
    for crate in dict.fromkeys(it.crate for it in tests):
        tell_crate(crate, [it for it in found if it.test.crate == crate])
    print(f"{processor_time() / 60:.1f} minutes of processor time")
    failed = sum(bool(it.wrong) for it in found)
    return len(found) - failed, failed, skipped
