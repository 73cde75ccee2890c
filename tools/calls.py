#!/usr/bin/env python3
"""Makes docs/CALLS.md of the comments and contracts of the public calls.

    python3 tools/calls.py           writes the page
    python3 tools/calls.py --check   the status is 1 where the page is not what the sources say

A call has a line: its signature, the first sentence of its comment, its refusals by number, and what is proved of it. A call that
stands in no list below, or none of whose clauses has a sentence, is told, and the page is not written.
"""
import pathlib
import re
import sys

ROOT = pathlib.Path(__file__).resolve().parent.parent
PAGE = ROOT / "docs" / "CALLS.md"
SOURCES = ["tp_types/src/settings.rt", "tp_life/src/*.rt", "tp_life_journal/src/*.rt", "tp_pool_advice/src/*.rt", "tp_pool/src/*.rt", "tp_service/src/*.rt"]
HEAD = """# The calls

`tools/calls.py` makes this page of the sources, whose comments say more. Each call has its signature, what it does and the Java call that it mirrors ([what differs](JAVA.md)), its [refusals](TROUBLE.md), and what is proved of it.

In a signature `rt` is the runtime by which a call waits, `alloc` the allocator, and `edge` your own objects or `Defaults`. `pool` is a `PoolOf`, `pass` the caller's pass, `t` a task's number. A call with refusals answers a `Result`, of which the Ok is shown. `tp_life::prelude` has whole lives, `tp_pool::prelude` the pool; `futures`, `invoking` and the completion service are modules of `tp_service`. A pass knows a **front**: the record's first entries, up to some length, which grows at the pass's calls. Short forms of what is proved:

- *step*: exactly this call's entry is added to the pass. A refused call adds none, and the [model](MODEL.md) refuses it at the pass's new front.
- *front*: the answer is so at the pass's new front. No entry is added.
- *some pool*: some pool with these settings answers so. The call has no pass, so it names no front of this pool.
- *path*: the whole path of this submission is added to the pass, under the task's number, and the answer is how that path ends.
- *end*: where it answers, the pool is terminated at the pass's front. At most the entries of the end are added.
- *closed*: the closed record is legal, ends terminated, obeys all laws, and goes on from the front of each caller's pass.
"""

# The sections, each with a note, and with the calls of a type, of a module, or of a trait. +N are further sentences of its comment;
# {twins} are the calls of the traits `Calls` and `Controls` that a pool has too, and that stand in no section.
SECTIONS = {
    "Settings": ("They are a value, as `Config::fixed(2).queue(QueueKind::Bounded(8)).policy(Policy::CallerRuns)`. `fixed`, as `Executors.newFixedThreadPool`, has so many workers that stay, a queue with room for any number of tasks, the policy abort, and a record of 4,096 entries. `core`, `maximum`, `queue`, `keep`, `core_timeout`, `policy` and `record_limit` each set one, in the range that the [pool line](SCENARIOS.md#the-pool-line) has.",
        "makers::single makers::cached makers::by_processors sizes::for_jobs"),
    "A pool's whole life in one call": ("A closure that is a job sends a value of any type by a channel (`oneshot`, `send`, `take`). `run_tasks_with_tally` and `run_all_with_tally` keep no record, and take any number of jobs.", "running::run_tasks lives::with_pool lives::with_tally recorded::with_journal ticking::with_ticker lives::run_all tasks::job"),
    "What a caller of `with_pool` asks": ("The trait `Calls`, with those of `Controls`. Its `pool` is lent to each caller, and has the caller's pass and runtime. A `Group` keeps its tasks' tickets: it has `submit`, and `results` goes through all. `take_for` and `next_for` wait for at most so long by the clock, else 16. There are these calls, too, which are the pool's of the same name: {twins}. `state` is a `glance`.",
        "Calls::execute Calls::submit Calls::get Calls::get_for Calls::run batches::invoke_all Group::next"),
    "Open, share and close": ("Where the pool itself is wanted, for threads and passes of one's own. `Pool::new` is `ThreadPoolExecutor`'s constructor; it takes boxes of a factory, a handler, hooks and a gate. `close_one` takes the pass of a single caller.",
        "PoolOf::over PoolOf::split_pass PoolOf::handle+1 PoolOf::close PoolOf::let_go reports::outcome_of"),
    "Submit": ("A submission that is refused with 4 or 5 has made no step, and gives its job back. 12 comes after the task's steps, with the job unless it was cancelled. `execute_at` takes the priority too. `await_room` waits until a task finds room, `await_room_for` for at most so long (16), and `has_room` tells it now. `execute_when_room_for` gives the job back with 16 where there is none in time. `invoke_all_until` cancels what is open at a moment in ticks, `invoke_all_for` by the clock.",
        "PoolOf::execute PoolOf::execute_as+3 PoolOf::execute_when_room PoolOf::try_execute futures::submit invoking::invoke_all invoking::invoke_any+1"),
    "Ask a future": ("They stand on `pool.result`, `pool.await_result` and their like, in `tp_pool`. `get_with`, `get_until_with` and `try_get_with` take a pass, and answer at its new front; `get_until` waits until a moment in ticks.",
        "futures::get futures::get_for futures::try_get PoolOf::cancel+2"),
    "Forget futures": ("Of a pool without a record. It has all other calls but `record_since`; its passes keep no receipts. Plain tasks are forgotten by themselves. `abandon` gives futures up, `forget_abandoned` forgets those that are gone, and `kept` counts the others.", "futures::release"),
    "Take futures as they are done": ("`CompletionService::new(group)` makes a service, as `ExecutorCompletionService`; two of one number share its tasks. Its calls stand on `pool.take_done` and `pool.await_done`.",
        "CompletionService::submit CompletionService::take CompletionService::poll"),
    "Shut down and wait": ("`await_end` is `await_termination` with no deadline where it is None.", "PoolOf::shutdown PoolOf::shutdown_now+1 PoolOf::await_termination PoolOf::await_end_for PoolOf::is_stranded+1 PoolOf::is_unstaffed+1"),
    "Change settings and single tasks": ("`prestart_all` starts workers up to the core size, as `prestartAllCoreThreads`, and answers how many.", "PoolOf::set_core+1 PoolOf::set_maximum PoolOf::set_keep PoolOf::allow_core_timeout PoolOf::prestart_core PoolOf::tick+1 PoolOf::remove+1 PoolOf::purge"),
    "Look": ("`look_by`, `snapshot_by` and `record_since_by` take a sight, which `sight` splits off a pass, and answer at its new front. `catch_up` lets a sight and a pass know the record as it is now. `state`, `counts`, `core_size`, `now`, `steps`, `place`, `fate`, `promise`, `task_in` and `group_open` tell one thing each, of *some pool*.",
        "PoolOf::glance+1 PoolOf::look PoolOf::snapshot PoolOf::record_since PoolOf::wait_step"),
}
# Calls that the page leaves out: others stand on them, or do the same in another form.
LEFT_OUT = """PoolOf::new oneshot::oneshot Group::submit lives::run_all_with_tally running::run_tasks_with_tally invoking::invoke_all_until invoking::invoke_all_for futures::get_until PoolOf::prestart_all CompletionService::new PoolOf::close_one CloseFault::let_go Sender::send Receiver::take PoolOf::sight reports::faulted PoolOf::execute_at PoolOf::kept PoolOf::abandon PoolOf::forget_abandoned
    Config::fixed Config::core Config::maximum Config::queue Config::keep Config::core_timeout Config::policy Config::record_limit Boxes::new Find::take futures::task_of PoolOf::look_by PoolOf::catch_up PoolOf::snapshot_by PoolOf::record_since_by PoolOf::release PoolOf::result PoolOf::result_with
    PoolOf::await_result PoolOf::await_result_with PoolOf::await_result_for PoolOf::take_done PoolOf::await_done PoolOf::group_open PoolOf::state PoolOf::counts PoolOf::now PoolOf::steps PoolOf::place PoolOf::fate PoolOf::promise PoolOf::task_in PoolOf::await_end PoolOf::has_room PoolOf::await_room PoolOf::await_room_for PoolOf::execute_when_room_for PoolOf::core_size
    futures::get_with futures::get_until_with futures::try_get_with Calls::host Calls::set Calls::enter Calls::ticket Calls::submit_to Calls::take Group::new Group::len Group::results Group::next_for Calls::take_for PoolOf::await_done_for""".split()
# Public for crates of the pool alone.
INSIDE = """orders::staffed_by orders::rescue_tasks_by sizes::law_jobs_have_room Held::placed Held::run Held::into_task PoolOf::execute_by PoolOf::shutdown_by PoolOf::set_core_by PoolOf::prestart_core_by PoolOf::obey
    PoolOf::shut PoolOf::await_shut Timer::new Timer::left orders::rescue_by running::found Desk::new Desk::ask Desk::close desk::starter desk::with_room CallerSeat::into_pass lives::make_rooms lives::lived lives::all_lives lives::shut lives::close""".split()

# What a relation in a clause says; the first that stands in a call's clauses is taken.
SAYS = {
    "LeavesTicked": "as of `with_pool`; the ticker's own entries are ticks",
    "IsWhole": "as of `with_pool`; a whole journal has the record's text",
    "IsLived.*TellsCount": "as of `with_pool`, of a record that nobody keeps",
    "IsLived": "*closed*; of each caller's pass, new at first, and of what came of its life, that life's `leaves` holds",
    "result ≡ record . core": "they are settings that a pool can have",
    "AreRun": "each answer is that of its own task; *closed*, with their submissions in order",
    "IsRun": "each answer is that of its own job; *closed*, with their submissions in order",
    "jobs . 13": "no submission of so many jobs is refused with 5, where every other entry was owed",
    "IsAlwaysCallable": "it is asked of the caller that the closure can be called in any state",
    "Closes": "*closed*",
    "IsConfig": "a pool is made only with good settings, and begins with no entry",
    "IsAllUntil|IsAll|AreTurnedBack": "the numbers are those of the jobs' submissions, in order, and no task is open at the pass's front",
    "IsAnyValue|HasNoValue": "the value is that of one of these tasks, and 18 comes only where none has one, at the pass's front",
    "ThroughBoth .IsTaken": "the path of each submission, in order; then what each future answers, or the submission's refusal",
    "IsTaken": "*path*; then *front*, of its own future",
    "IsNext": "*step*, and what is told is so of the task that it took, at the pass's front",
    "IsAdmitted|Admits|AddsJob": "*path*",
    "AddsAndEnds": "*step*, and the pool's end where it comes next",
    "AddsStarts|AddsPrestart": "*step*, with the entries of the workers that were started",
    "AddsStep": "*step*",
    "rank pass.new.front ≡ 4": "*end*",
    "IsRelease|BookAt ": "a task is forgotten only where nothing can be owed to it, and no other is touched",
    "BookAtSome.*pass.new ≡ pass.old": "the new pass knows what this caller's pass knows, which stays as it is",
    "[( ]BookOf |LooksOnly|AtFront|state_rank.*pass.new": "*front*",
    "pass.new ≡ record pass.old": "no entry is added",
    "BookAtSome|AtSome": "*some pool*",
    "TornRecord": "it is refused with these numbers alone",
    "count_by|Any|pass.new ≡ pass.old|result.group": "just that",
}
# What stands for a part of a signature.
SHORT = [(r"\b(PoolOf|Handle|Pass|Sight|Pool)<[^>]*>", r"\1"), (r"\brt: &R", "rt"), (r"\balloc: Global", "alloc"), (r"\bsettings: Config", "settings"), (r"\bedge: E", "edge"), (r"\bpass: &mut Pass", "pass"),
         (r"\bpool: &PoolOf", "pool"), (r"\bt: TaskId", "t"), (r"<Self::Task as Task>::Output", "Output"), (r"\b(Self|K)::", ""),
         (r" -> Result<\(\), PoolError>$", ""), (r" -> Result<(.*), (PoolError|AllocError|Refused<.*>|Close(One)?Fault<.*>)>$", r" -> \1")]

CALLED = {"PoolOf": "pool", "CompletionService": "service", "Calls": "pool", "Config": "config", "Group": "group"}


def calls(path):
    """The public calls of a file: whose each is, its comment, signature and clauses."""
    owner, doc, found = path.stem, [], []
    lines = iter(path.read_text().split("\n"))
    for line in lines:
        text = line.strip().removeprefix("final ")
        if line.startswith("impl"):
            owner = re.match(r"impl(<.*?>)? (.* for )?(\w+)|.", line)[3] or "PoolOf"
        elif line.startswith(("pub trait Calls", "pub trait Controls")):
            owner = "Calls"
        elif line == "}":
            owner = path.stem
        if text.startswith("///"):
            doc.append(text[3:].strip())
        elif text.startswith("pub fn ") and doc or text.startswith("fn ") and doc and owner == "Calls":
            head, clauses = [text.removeprefix("pub ")], []
            while not re.search(r"[{};]$", text):
                text = next(lines).strip()
                if text.startswith(("ensures", "requires", "⊎")):
                    clauses.append(text)
                    text = text[-1] if text.endswith(";") else ""
                elif text != "{":
                    head.append(text)
            found.append((owner, " ".join(doc), " ".join(head).rstrip(" {;"), clauses))
            doc = []
        elif not text.startswith("#["):
            doc = []
    return found


def signature(owner, head):
    """How the call is written: without bounds, with the pool before the dot, and with short forms of what stands everywhere."""
    name, rest = re.match(r"fn (\w+)(.*)", head).groups()
    depth = 0
    if rest.startswith("<"):
        for at, letter in enumerate(rest):
            depth += {"<": 1, ">": -1}.get(letter, 0) if rest[at - 1:at + 1] != "->" else 0
            if depth == 0:
                rest = rest[at + 1:]
                break
    rest = re.sub(r"\(\s+", "(", re.sub(r",\s*\)", ")", rest))
    for long, short in SHORT:
        rest = re.sub(long, short, rest)
    receiver = re.match(r"\((&mut self|&self|self)(, )?", rest)
    if receiver:
        return f"{CALLED.get(owner, owner.lower())}.{name}({rest[receiver.end():]}"
    return f"{owner}::{name}{rest}"


def sentences(doc):
    return re.split(r"(?<=[.])\s+(?=[A-Z`])", doc)


def alike(doc):
    """The calls as which a comment says that this one is refused."""
    return re.findall(r"(?:[Rr]efused as|^As|[Ee]lse as|or as) `(?:\w+::)?(\w+)`", doc)


def numbers(doc, of):
    """The refusals of a call, and those that are answers of single jobs, by their numbers."""
    refused, answered = set(), set()
    for one in sentences(doc):
        kind = answered if re.search(r"'s answer|of these jobs", one) else refused
        kind |= set(map(int, re.findall(r"\((\d+)\)(?! does not come, which)", one)))
    for other in alike(doc):
        more, answers = numbers(of.pop(other, ""), of)
        refused, answered = refused | more, answered | answers
    return refused, answered


def proved(clauses):
    text = re.sub(r"\(?\bpass self\.(new|old)\b\)?", r"pass.\1", " ".join(clauses))
    return next((said for words, said in SAYS.items() if re.search(rf"({words})", text)), None)


def entry(call, more, of):
    owner, doc, head, clauses = call
    said = [one for one in sentences(doc) if not re.search(r"\(\d+\)", one)][:1 + more]
    line = f"- **`{signature(owner, head)}`** " + " ".join(said)
    for title, found in zip(("Refused", "A job's answer may be"), numbers(doc, of)):
        if found:
            line += f" {title}: {', '.join(map(str, sorted(found)))}."
    return line + (f" Proved: {proved(clauses)}." if clauses else "")


def page():
    found = {}
    for pattern in SOURCES:
        for path in sorted((ROOT / "crates").glob(pattern)):
            for call in calls(path):
                found[f"{call[0]}::{re.match(r'fn (.*?)[<(]', call[2])[1]}"] = call
    listed = " ".join(names for _, names in SECTIONS.values()).split()
    listed = {name.split("+")[0] for name in listed} | set(LEFT_OUT)
    twins = [name for name in found if name.startswith("Calls::") and name.replace("Calls", "PoolOf") in found and name not in listed]
    faults = sorted(set(found) - listed - set(twins) - set(INSIDE))
    lines = [HEAD]
    for title, (note, names) in SECTIONS.items():
        note = note.replace("{twins}", ", ".join(f"`{name.split('::')[1]}`" for name in twins))
        lines += [f"## {title}\n"] + ([note + "\n"] if note else [])
        for name in names.split():
            name, _, more = name.partition("+")
            own = sorted(found, key=lambda other: other.split("::")[0] == name.split("::")[0])
            of = {other.split("::")[1]: found[other][1] for other in own if other != name}
            lines.append(entry(found[name], int(more or 0), of))
            if found[name][3] and not proved(found[name][3]):
                faults.append(f"{name}: {found[name][3]}")
        lines.append("")
    return "\n".join(lines).rstrip("\n") + "\n", faults


if __name__ == "__main__":
    text, faults = page()
    for fault in faults:
        print("no section or no sentence:", fault)
    if faults:
        sys.exit(1)
    if "--check" not in sys.argv:
        PAGE.write_text(text)
    elif text != PAGE.read_text():
        sys.exit(f"{PAGE.name} is not what the sources say")
