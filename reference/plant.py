#!/usr/bin/env python3
"""Plants single faults in the Rattle sources and asks which of them the comparison sees and which the prover refuses.

    plant.py check TREE                     says whether each fault applies at exactly one place
    plant.py compare TREE RESULTS [N...]    runs each faulty program without proofs on fixed input, by `rt try`
    plant.py prove TREE RESULTS [N...]      gives each fault to the prover as a must-fail edit, in a copy of TREE
    plant.py table RESULTS                  the table, in Markdown

TREE is a repository with crates.txt and crates/; `prove` is short where `rt check` has proved its crates on this machine. RESULTS is a file to
which each answer is added, so that a run can be broken off and continued. N are numbers of faults; without any, all are tried.

The input of the comparison: the files under samples/, the input that make_samples.py makes for frames, every run of `generate.py limits`
(expected output from the model), generated runs of scale.py (from the Rust, up to the line at which a run leaves the domain), the group scripts under
samples/ as a program (group_program.py; expected output from the model), and the program group_main with its own expected output. A fault counts as seen if
an output differs, or the program ends in another way than with status 0 or not within ten seconds.
"""

import glob
import json
import os
import random
import re
import shutil
import signal
import subprocess
import sys
import tempfile

import generate
import group_program
import make_samples
import model
import scale

HERE = os.path.dirname(os.path.abspath(__file__))
RUST = os.path.join(HERE, "rust", "frames_rust")
GENERATED_RUNS = 12
STEPS = 1000  # of the interpreter, whose run does not count: what is compiled with checks does
RUN_SECONDS = 10
TRY_SECONDS = 1800
PROVE_SECONDS = 1800

# The crate is where the file stood; the file is looked for there first and then, by its name, in every crate. What the fault is, the old
# text (once in its file, within one line) and the new one.
FAULTS = [
    ("base_key/lib.rt", "the second half of a block begins a byte early", "a[i + 4],", "a[i + 3],"),
    ("base_key/lib.rt", "blocks of the other key are counted from its start", "let blocks = a.len().min(b.len()) / 8;", "let blocks = if b.len() < 8 { 0 } else { a.len() / 8 };"),
    ("base_key/lib.rt", "a key that is a prefix is looked at one byte too far", "for i in skip(a, b)..a.len().min(b.len()) {", "for i in skip(a, b)..a.len().min(b.len() + 1) {"),
    ("base_key/lib.rt", "of one key the lower sequence comes first", "Ordering::Equal => b_seq.cmp(&a_seq),", "Ordering::Equal => a_seq.cmp(&b_seq),"),
    ("base_writing/lib.rt", "a text that fills its buffer does not fit", "if out.len() < text.len() {", "if out.len() <= text.len() {"),
    ("base_writing/lib.rt", "what is written already does not count towards the room", "put?.checked_add(next?).filter(|sum| *sum <= len)", "next.filter(|m| *m <= len)?.checked_add(put?)"),
    ("base_number/header.rt", "the largest 64-bit lengths are none", "value = value.checked_mul(10)?.checked_add(digit)?;", "value = value.checked_mul(10)?.checked_add(digit + 6)? - 6;"),
    ("base_number/header.rt", "the byte behind 9 is a digit", "if !byte.is_ascii_digit() {", "if *byte < b'0' || b':' < *byte {"),
    ("base_number/integer.rt", "the least i64 is no number", "return 0i64.checked_sub_unsigned(value);", "return 0i64.checked_sub_unsigned(value)?.checked_sub_unsigned(1)?.checked_add(1);"),
    ("base_number/integer.rt", "a sum that reaches the least i64 overflows", "a.checked_add(b)", "a.checked_add(b)?.checked_sub_unsigned(1)?.checked_add(1)"),
    ("base_decimal/digits.rt", "10 has one digit", "u64::from(n.checked_ilog10().unwrap_or(0)) + 1", "if n == 10 { 1 } else { u64::from(n.checked_ilog10().unwrap_or(0)) + 1 }"),
    ("resp_spec/line.rt", "a line may have 65,535 bytes", "const MOST_LINE: usize = 65536;", "const MOST_LINE: usize = 65535;"),
    ("resp_bulk/lib.rt", "the line end behind an argument is not waited for", "if left - 2 < n {", "if left - 1 < n {"),
    ("resp_headers/lib.rt", "the limit of an argument is that of Redis", "Header::Bulk => 67108864,", "Header::Bulk => 536870912,"),
    ("resp_spec/inline.rt", "vertical tab divides words in place of form feed", ".take_while(|byte| !byte.is_ascii_whitespace())", ".take_while(|byte| **byte == 12 || (**byte != 11 && !byte.is_ascii_whitespace()))"),
    ("resp_spec/inline.rt", "one word more than the table holds", "if room <= n {", "if room < n {"),
    ("resp_parse/request.rt", "the table has twice its places", "if places.len() / 2 < count {", "if places.len() < count {"),
    ("resp_utf8/lib.rt", "surrogates are text", "237 => Lead::Several(1, 128, 159),", "237 => Lead::Several(1, 128, 191),"),
    ("resp_utf8/lib.rt", "C0 and C1 begin text", "194..=223 => Lead::Several(0, 128, 191),", "192..=223 => Lead::Several(0, 128, 191),"),
    ("resp_sanitize/lib.rt", "Z has no small letter", "byte.to_ascii_lowercase()", "if byte == b'Z' { byte } else { byte.to_ascii_lowercase() }"),
    ("resp_faults/lib.rt", "the other limit is named", "digits::then_digits(out, said, resp_headers::limit(kind))", "digits::then_digits(out, said, resp_headers::limit(Header::Multibulk))"),
    ("store_memtable/store.rt", "a place behind the last version is looked at", "if i < read::word(self.words, 0) && read::is_of(", "if i <= read::word(self.words, 0) && read::is_of("),
    ("store_memtable/read.rt", "the sequence tells a tombstone", "words[row + 2] == 0", "words[row + 3] == 0"),
    ("store_commit/merge.rt", "an empty value is a tombstone", "if live { read::wide(value.len() + 1) } else { 0 }", "if live { read::wide(value.len()) } else { 0 }"),
    ("store_commit/open.rt", "a counter's text may not use the last byte", "left.checked_sub(key_len)?.checked_sub(value_len)", "left.checked_sub(key_len)?.checked_sub(value_len).filter(|rest| 0 < *rest)"),
    ("store_memtable/valid.rt", "the count of versions is held to the byte limit", "&& words[COUNT] <= words[MOST_VERSIONS]", "&& words[COUNT] <= words[MOST_BYTES]"),
    ("group_spec/conflict.rt", "the later of two sequences is the limit", "let limit = member.read.min(began);", "let limit = if member.read < began { began } else { member.read };"),
    ("group_judge/lib.rt", "EXEC may not use the last version", "count <= read::word(words, 3) - read::word(words, 0)", "count < read::word(words, 3) - read::word(words, 0)"),
    ("group_spec/lib.rt", "6 for a member that finds no sequence", "Verdict::NoSequence => 7,", "Verdict::NoSequence => 6,"),
    ("group_spec/sizes.rt", "a group takes a byte less", "let left = if i == 0 { 1048576 } else { room? };", "let left = if i == 0 { 1048575 } else { room? };"),
    ("group_spec/bounds.rt", "a value at the end of the data is outside", "fits(start, word - 1, data.len())", "fits(start, word, data.len())"),
    ("group_merge/lib.rt", "an EXEC's sequences begin one too low", "top - read::wide(count - (j + 1)),", "top - read::wide(count - (j + 1)) - 1,"),
    ("command_glob/lib.rt", "a second star goes back in the pattern", "at += next;", "at = next;"),
    ("command_glob/lib.rt", "a last lone backslash takes the byte behind it", "if next < pattern.len() =>", "if next <= pattern.len() =>"),
    ("session_flags/lib.rt", "clearing a session leaves its queue", "words[QUEUED] = 0;", "words[WATCHED] = 0;"),
    ("session_queue/lib.rt", "65 commands are queued", "if MOST_QUEUED <= queued {", "if MOST_QUEUED < queued {"),
    ("session_queue/lib.rt", "the last queued argument is refused", "if MOST_ARGUMENTS - arguments < count {", "if MOST_ARGUMENTS - arguments <= count {"),
    ("session_watch/watch.rt", "a new key's sequence goes to the first key", "crate::insert_word(&mut self.seqs, i, self.count, last);", "crate::insert_word(&mut self.seqs, 0, self.count, last);"),
    ("session_watch/watch.rt", "a later WATCH forgets the sequences of earlier keys", "watch.seqs.copy_from_slice(&words[KEY_SEQUENCES..COUNTS]);", ""),
    ("session_watch/lib.rt", "a watched key is judged by the next one's sequence", "let seq = session.words[KEY_SEQUENCES + i];", "let seq = session.words[KEY_SEQUENCES + 1 + i];"),
    ("session_watch/lib.rt", "a watched key is read from the first byte on", "if store.moved(&session.bytes[start..end], seq) {", "if store.moved(&session.bytes[..end], seq) {"),
    ("session_watch/watch.rt", "the last watched byte is refused", "|| MOST_KEY_BYTES - self.used < len {", "|| MOST_KEY_BYTES - self.used <= len {"),
    ("session_validity/lib.rt", "a lent session may watch 33 keys", "if MOST_WATCHED < watched {", "if MOST_WATCHED + 1 < watched {"),
    ("command_names/lib.rt", "a name may be shorter than the command's", "word.len() == text.len() && alike(word, text)", "word.len() <= text.len() && alike(word, text)"),
    ("command_errors/lib.rt", "a quoted name is in capitals", "let quoted = resp_sanitize::then_clean_lossy(out, opened, word, Letters::AsSent);", "let quoted = resp_sanitize::then_clean_lossy(out, opened, word, Letters::Capitals);"),
    ("command_writes/own.rt", "a row behind EXEC's own writes is looked at", "i < self.rows && base_key::same(", "i <= self.rows && base_key::same("),
    ("command_writes/write.rt", "rows move by three words", "own.copy_within(4 * from..4 * to, 4 * from + 4);", "own.copy_within(4 * from..4 * to, 4 * from + 3);"),
    ("command_writes/arguments.rt", "a pair is written for a key without a value", "for j in 0..(request.count - from) / 2 {", "for j in 0..(request.count - from + 1) / 2 {"),
    ("command_meaning/amounts.rt", "COUNT 0 is taken", "natural(n).filter(|value| 0 < *value)", "natural(n).filter(|value| 0 <= *value)"),
    ("command_meaning/options.rt", "more than one LIMIT is taken", "if request.count != 5 ||", "if request.count < 5 ||"),
    ("command_meaning/options.rt", "the word LIMIT is read as its number", "integer::int_arg(request.argument(4))", "integer::int_arg(request.argument(3))"),
    ("command_meaning/lib.rt", "SET with an option is a SET", "if command_names::with_options(named.row, request.count - 1) {", "if command_names::with_options(named.row, 0) {"),
    ("command_writes/own.rt", "a tombstone of EXEC is told by its start", "if live { Some(value) } else { None }", "if self.own[4 * j + 2] != 0 { Some(value) } else { None }"),
    ("command_lookup/live.rt", "a key that EXEC deleted counts", "reader.get(name).is_some()", "reader.get(name).is_some() || 0 < reader.writes.rows"),
    ("command_lookup/values.rt", "MGET's head counts the name", "let mut put = reply::put_head(out, b'*', (request.count - from) as u64);", "let mut put = reply::put_head(out, b'*', request.count as u64);"),
    ("command_listing/scan.rt", "SCAN's cursor is a place among versions", "Some(_) => from + most,", "Some(j) => j as u64,"),
    ("command_listing/range.rt", "RANGE includes its end", "matches!(base_key::compare(name, end), Ordering::Less)", "matches!(base_key::compare(name, end), Ordering::Less | Ordering::Equal)"),
    ("command_listing/dbsize.rt", "DBSIZE counts versions", "reply::put_int(out, count as i64)", "reply::put_int(out, store.words[0] as i64)"),
    ("command_answer/lib.rt", "2 for a reply without room", "let reply = put.ok_or(CallError::ReplyTooLong)?;", "let reply = put.ok_or(CallError::TooManyArguments)?;"),
    ("command_answer/lib.rt", "a refusal leaves what was written", "base_writing::clear(out);", "base_writing::clear(&mut out[..0]);"),
    ("command_room/room.rt", "a write may not use the last byte", "if rest < len {", "if rest <= len {"),
    ("command_direct/run.rt", "the name counts among DEL's writes", "let checked = room::check_room(store.words, request.count - 1, left);", "let checked = room::check_room(store.words, request.count, left);"),
    ("command_room/commit.rt", "DEL stores the name as value", "store.commit_one(name, name, false);", "store.commit_one(name, name, true);"),
    ("exec_run/decide.rt", "EXEC reads at the first watched key's sequence", "store.words[LAST],", "session.words[36],"),
    ("exec_run/decide.rt", "a conflict is answered by an empty array", "let put = reply::put_nil_array(out);", "let put = reply::put_head(out, b'*', 0);"),
    ("exec_finish/lib.rt", "6 for an EXEC that finds no sequence", "return Err(CallError::NoSequence);", "return Err(CallError::NoRoom);"),
    ("session_route/routes.rt", "UNWATCH inside MULTI is answered at once", "Control::Unwatch => Route::Here(Way::NotQueueable),", "Control::Unwatch => Route::Here(Way::Steer(Step::Unwatch)),"),
    ("session_route/queueing.rt", "a queue that is full leaves the session unmarked", "session_flags::mark_failed(words);", ""),
    ("session_route/watching.rt", "4 for a watch that is full", "return Err(CallError::WatchFull);", "return Err(CallError::QueueFull);"),
    ("command_direct/listings.rt", "RANGE without LIMIT gives ten pairs", "let most = limit.unwrap_or(u64::MAX);", "let most = limit.unwrap_or(10);"),
    ("command_direct/run.rt", "a counter's text has 19 bytes", "let mut text = [0u8; 20];", "let mut text = [0u8; 19];"),
    ("call_serve/respond.rt", "EXEC uses all bytes handed in", "Route::Exec => transaction::exec(swords, sbytes, store, out, used),", "Route::Exec => transaction::exec(swords, sbytes, store, out, named.request.input.len()),"),
    ("call_serve/respond.rt", "WATCH takes a sequence one too low", "let last = store.words[LAST];", "let last = store.words[LAST].saturating_sub(1);"),
    ("call_numbers/lib.rt", "there are 17 sessions", "if 15 < session {", "if 16 < session {"),
    ("call_serve/lib.rt", "an empty request uses all bytes", "if request.count == 0 {", "if request.count == 0 { return Ok(Answer { used: request.input.len(), reply: 0 }); } if request.count == 0 {"),
    ("call_numbers/lib.rt", "64 members are too many", "if 64 < members || verdicts < members || !inside {", "if 64 <= members || verdicts < members || !inside {"),
    ("frames_lines/line.rt", "a line without bytes is a frame", "if line.len() < 5 {", "if line.len() < 3 {"),
    ("frames_lines/rest.rt", "a rest of 4,096 bytes is dropped", "if 4096 < count {", "if 4096 <= count {"),
    ("frames_lines/quit.rt", "bytes behind QUIT are read on", "matches!(control, Control::Quit)", "false"),
    ("frames_console/step.rt", "a reply hides behind a later empty request", "replied || 0 < count", "replied || 1 < count"),
    ("session_route/queueing.rt", "SET with options is queued", "if command_names::with_options(row, behind) {", "if command_names::with_options(row, 0) {"),
    ("session_route/queueing.rt", "a wrong argument count is queued", "if !command_names::count_right(row, behind) {", "if false {"),
    ("command_names/lib.rt", "MSET may end with a key", "(!row.pairs || count % 2 == 0)", "(!row.pairs || 1 < count)"),
]


def must(condition, text):
    if not condition:
        sys.exit(text)


# Faults and files


def place_of(tree, number):
    """The file of a fault, relative to the tree: as it is named, by its own name in another crate, or as the crate that got its name."""
    hint, _, old, _ = FAULTS[number]
    crate, name = hint.split("/")
    found = lambda *words: sorted(os.path.relpath(p, tree) for p in glob.glob(os.path.join(tree, "crates", *words)))
    for place in found(crate, "src", name) + found("*", "src", name) + found(name[:-3], "src", "*.rt"):
        with open(os.path.join(tree, place)) as f:
            if f.read().count(old) == 1:
                return place
    return None


def planted(text, number):
    return text.replace(FAULTS[number][2], FAULTS[number][3])


def check(tree):
    bad = [number for number in range(len(FAULTS)) if place_of(tree, number) is None]
    for number in bad:
        print(f"{number}: not once in a file of that name: {FAULTS[number][0]}: {FAULTS[number][2]}")
    print(f"{len(FAULTS)} faults, {len(bad)} of them without a place")
    return 1 if bad else 0


# Running without proofs


def row_of(tree, crate):
    """The crates that a crate names in crates.txt."""
    with open(os.path.join(tree, "crates.txt")) as f:
        rows = [line.split("#")[0].partition(":") for line in f]
    return next(below.split() for head, colon, below in rows if colon and head.split()[0] == crate)


def tried(tree, program, inputs):
    """Runs a program on some inputs, each bytes and the expected output, or None where all of its output is wanted. Gives for each what it came to, `ended`, or
    `differs` or how it ended, with the output where it is wanted; or what was said if the program cannot be built."""
    with tempfile.TemporaryDirectory() as cases:
        for i, (data, wanted) in enumerate(inputs):
            for ending, text in (("", data), (".stdout", wanted)):
                if text is not None:
                    with open(os.path.join(cases, f"{i:04}{ending}"), "wb") as f:
                        f.write(text)
        words = ["rt", "try", "--steps", str(STEPS), "--seconds", str(RUN_SECONDS), "--cases", cases]
        running = subprocess.Popen(
            words, cwd=os.path.join(tree, "crates", program), stdout=subprocess.PIPE, stderr=subprocess.STDOUT, start_new_session=True
        )
        try:
            said = running.communicate(timeout=TRY_SECONDS)[0]
        except subprocess.TimeoutExpired:
            os.killpg(running.pid, signal.SIGKILL)
            said = running.communicate()[0]
    ends = [re.search(rb"^(?:== %04d\n((?:.*\n)*?.*?))?case=%04d run=(\S+) status=(\S+)(.*)$" % (i, i), said, re.M) for i in range(len(inputs))]
    if None in ends:
        return None, said[:400].decode(errors="replace")
    return [(came_to(end), end[1]) for end in ends], ""


def came_to(end):
    if end[2] != b"ended" or end[3] != b"0":
        return f"{end[2].decode()}, status {end[3].decode()}"
    return "differs" if b"output=differs" in end[4] else "ended"


# The comparison


def text_of(lines):
    return b"".join(line + b"\n" for line in lines)


def frames_inputs():
    """Names, inputs and expected outputs for the program frames."""
    for path in sorted(glob.glob(os.path.join(HERE, "samples", "*.in"))):
        name = os.path.basename(path)[:-3]
        if not name.startswith(("group", "previews", "requests")):
            with open(path, "rb") as a, open(path[:-3] + ".out", "rb") as b:
                yield f"sample {name}", a.read(), b.read()
    told, _ = make_samples.frames_told()
    yield "the stored input", text_of(told.lines), text_of(told.answers)
    for name, lines in generate.limit_runs():
        data = text_of(lines)
        yield f"limits: {name}", data, model.answer_frames(data)
    for i in range(GENERATED_RUNS):
        lines = scale.Crowded(random.Random(f"plant {i}")).run()
        told = subprocess.run([RUST], input=text_of(lines), stdout=subprocess.PIPE, check=True).stdout.split(b"\n")
        meant = model.answer_frames(text_of(lines)).split(b"\n")
        end = next((n for n in range(len(lines)) if told[n] != meant[n]), len(lines))
        yield f"generated {i}", text_of(lines[:end]), text_of(told[:end])


def group_lines():
    """The group scripts under samples/."""
    lines = []
    for name in ("groups.in", "group-limits.in"):
        with open(os.path.join(HERE, "samples", name), "rb") as f:
            lines += model.lines_of(f.read())
    return lines


def add_group_scripts(tree):
    """Adds the program group_scripts, which names the same libraries as group_main."""
    source = os.path.join(tree, "crates", "group_scripts", "src")
    os.makedirs(source)
    with open(os.path.join(source, "main.rt"), "w") as f:
        f.write(group_program.program_of(group_lines()))
    with open(os.path.join(tree, "crates.txt"), "a") as f:
        f.write("group_scripts: " + " ".join(row_of(tree, "group_main")) + "\n")


def seen_by_frames(tree, inputs):
    ends, said = tried(tree, "frames", [(data, wanted) for _, data, wanted in inputs])
    if ends is None:
        return f"NOT BUILT: {said}"
    return next((f"{name} ({came})" if came != "differs" else name for (name, _, _), (came, _) in zip(inputs, ends) if came != "ended"), None)


def seen_by_scripts(tree):
    ends, said = tried(tree, "group_scripts", [(b"", None)])
    if ends is None:
        return f"NOT BUILT: {said}"
    (came, got), lines = ends[0], group_lines()
    if came != "ended":
        return f"group scripts ({came})"
    wanted = model.answer_groups(text_of(group_program.usable(lines)))
    try:
        return None if group_program.read_output(got, lines) == wanted else "group scripts"
    except (ValueError, IndexError, StopIteration):
        return "group scripts"


def seen_by_group_main(tree):
    with open(os.path.join(tree, "crates", "group_main", "stdout"), "rb") as f:
        ends, said = tried(tree, "group_main", [(b"", f.read())])
    if ends is None:
        return f"NOT BUILT: {said}"
    return None if ends[0][0] == "ended" else "group_main" if ends[0][0] == "differs" else f"group_main ({ends[0][0]})"


def seen_by(tree, inputs):
    """How the comparison sees the tree as it stands; None if it does not."""
    return seen_by_frames(tree, inputs) or seen_by_scripts(tree) or seen_by_group_main(tree)


def copy_of(tree, copy):
    """Copies the crates without their must-fail edits and without what `rt` keeps in them."""
    left_out = lambda folder, names: [name for name in names if name in ("must-fail", "out") and os.path.basename(os.path.dirname(folder)) == "crates"]
    shutil.copytree(os.path.join(tree, "crates"), os.path.join(copy, "crates"), ignore=left_out)
    shutil.copy(os.path.join(tree, "crates.txt"), copy)


def compare(tree, numbers, keep):
    work = tempfile.mkdtemp(prefix="plant-")
    copy = os.path.join(work, "tree")
    copy_of(tree, copy)
    add_group_scripts(copy)
    print("making the input", flush=True)
    inputs = list(frames_inputs())
    found = seen_by(copy, inputs)
    must(found is None, f"the program without a fault: {found}")
    print(f"{len(inputs)} runs, and none shows a difference without a fault", flush=True)
    for number in numbers:
        place = place_of(copy, number)
        if place is None:
            keep(number, "compare", "no place")
            continue
        path = os.path.join(copy, place)
        with open(path) as f:
            text = f.read()
        with open(path, "w") as f:
            f.write(planted(text, number))
        found = seen_by(copy, inputs)
        with open(path, "w") as f:
            f.write(text)
        keep(number, "compare", f"seen: {found}" if found else "not seen")
    shutil.rmtree(work)


# The prover


def prove(tree, numbers, keep):
    work = tempfile.mkdtemp(prefix="plant-")
    copy = os.path.join(work, "tree")
    copy_of(tree, copy)
    for number in numbers:
        place = place_of(copy, number)
        if place is None:
            keep(number, "prove", "no place")
            continue
        _, crate, file = place.split("/", 2)
        edits = os.path.join(copy, "crates", crate, "must-fail")
        os.makedirs(edits)
        with open(os.path.join(edits, f"fault_{number}.edit"), "w") as f:
            f.write(f"file: {file}\nold: {FAULTS[number][2]}\nnew: {FAULTS[number][3]}\n")
        said = prover_says(copy, crate)
        keep(number, "prove", said)
        shutil.rmtree(edits)
    shutil.rmtree(work)


def prover_says(tree, crate):
    running = subprocess.Popen(
        ["rt", "must-fail", crate], cwd=tree, stdout=subprocess.PIPE, stderr=subprocess.STDOUT, text=True, start_new_session=True, env={**os.environ, "RT_JOBS": "1"}
    )
    try:
        said = running.communicate(timeout=PROVE_SECONDS)[0]
    except subprocess.TimeoutExpired:
        os.killpg(running.pid, signal.SIGKILL)
        running.wait()
        return f"no answer within {PROVE_SECONDS} s"
    last = re.findall(r"must-fail \S*/fault_\S+: (.*)", said)[-1:]
    if last and last[0].startswith("refused, as it must be"):
        return "refused" + last[0][len("refused, as it must be") :]
    return "not refused" if last and last[0].startswith("NOT REFUSED") else "NO VERDICT: " + said[-300:]


# Results


def read_results(path):
    """For each fault, what was found last; a fault is known by its file and what it is."""
    found = {}
    if os.path.exists(path):
        with open(path) as f:
            for line in f:
                row = json.loads(line)
                found.setdefault(row["fault"], {})[row["by"]] = row["says"]
    return found


def name_of(number):
    return f"{FAULTS[number][0]}: {FAULTS[number][1]}"


def keeper(path):
    def keep(number, by, says):
        with open(path, "a") as f:
            f.write(json.dumps({"fault": name_of(number), "by": by, "says": says}) + "\n")
        print(f"{number} {name_of(number)}: {says}", flush=True)

    return keep


def cell(text):
    return text.replace("|", "\\|")


def table(path):
    found = read_results(path)
    counts = {"refused": 0, "seen": 0, "tried": 0, "compared": 0, "survived": 0}
    print("| | Fault | Old | New | Refused by the prover | Seen by the comparison |\n|---|---|---|---|---|---|")
    for number, (place, what, old, new) in enumerate(FAULTS):
        row = found.get(name_of(number), {})
        proved, compared = row.get("prove", "not tried"), row.get("compare", "not tried")
        refused, seen = proved.startswith("refused"), compared.startswith("seen")
        counts["refused"] += refused
        counts["seen"] += seen
        counts["tried"] += refused or proved == "not refused"
        counts["compared"] += seen or compared == "not seen"
        counts["survived"] += proved == "not refused" and compared == "not seen"
        shown = f"`{cell(new)}`" if new else "(left out)"
        by_prover = "yes" if refused else "**no**" if proved == "not refused" else cell(proved)
        by_input = "yes, " + cell(compared[6:]) if seen else "**no**" if compared == "not seen" else cell(compared)
        print(f"| {number} | `{place}`: {what} | `{cell(old)}` | {shown} | {by_prover} | {by_input} |")
    print(
        f"\n{len(FAULTS)} faults. The prover was given {counts['tried']} and refused {counts['refused']}; "
        f"the comparison was given {counts['compared']} and saw {counts['seen']}; {counts['survived']} survived both."
    )


def main(argv):
    if len(argv) < 2:
        sys.exit(__doc__)
    if argv[0] == "check":
        return check(argv[1])
    if argv[0] == "table":
        return table(argv[1])
    must(len(argv) >= 3 and argv[0] in ("compare", "prove"), __doc__)
    numbers = [int(word) for word in argv[3:]] or range(len(FAULTS))
    {"compare": compare, "prove": prove}[argv[0]](os.path.abspath(argv[1]), numbers, keeper(argv[2]))
    return 0


if __name__ == "__main__":
    sys.exit(main(sys.argv[1:]))
