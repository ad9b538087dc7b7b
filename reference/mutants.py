#!/usr/bin/env python3
"""Plants errors in the model, one at a time, and shows how much generated input it takes to tell each from the model.

    mutants.py [SEED]

Exit status 1 if one is never told apart.
"""

import os
import sys
import types

import generate
import model

SOURCE = os.path.join(os.path.dirname(os.path.abspath(__file__)), "model.py")

# A name, the text in model.py (it stands there once), what takes its place, and the mode that must show it
PLANTED = [
    ("only checked keys are checked", "for key in [k for k, _ in member.writes] + list(member.checks):", "for key in list(member.checks):", "groups"),
    ("tombstones are dropped from the newest", "(s for k, s, _ in self.versions if k == key)", "(s for k, s, v in self.versions if k == key and v is not None)", "watched"),
    ("a repeated WATCH renews the sequence of a key", "{key: self.store.last for key in args[1:]} | dict(session.watched)", "dict(session.watched) | {key: self.store.last for key in args[1:]}", "watched"),
    ("a later key is judged by the first key's sequence", "{key: self.store.last for key in args[1:]}", "{key: min([s for _, s in session.watched], default=self.store.last) for key in args[1:]}", "watched"),
    ("a later WATCH renews every sequence", "watched = {key: self.store.last for key in args[1:]} | dict(session.watched)", "watched = {key: self.store.last for key in args[1:] + [k for k, _ in session.watched]}", "watched"),
    ("a written key conflicts", "        self.must_fit(writes)\n        return Decision(ACCEPTED", "        if self.store.verdict(Member(min([s for _, s in session.watched], default=None), writes, [])) == 1:\n            return Decision(CONFLICT, Step(array(None), CLEAR))\n        self.must_fit(writes)\n        return Decision(ACCEPTED", "watched"),
    ("a moved watched key is not noticed", "if any((self.store.newest(key) or 0) > sequence for", "if False and any((self.store.newest(key) or 0) > sequence for", "watched"),
    ("only the first watched key is looked at", "> sequence for key, sequence in session.watched):", "> sequence for key, sequence in session.watched[:1]):", "watched"),
    ("a version at a watched key's sequence conflicts", "(self.store.newest(key) or 0) > sequence", "(self.store.newest(key) or 0) >= sequence > 0", "watched"),
    ("EXEC reads at the first WATCH", "own[key] if key in own else self.store.read(key, self.store.last)", "own[key] if key in own else self.store.read(key, min([s for _, s in session.watched], default=self.store.last))", "watched"),
    ("EXEC does not read its own writes", "own[key] if key in own else self.store.read(key, self.store.last)", "self.store.read(key, self.store.last)", "mixed"),
    ("MULTI drops the watch", "session._replace(queue=(), failed=False)", "Session(queue=())", "watched"),
    ("EXEC without MULTI drops the watch", "Step(err(b\"EXEC without MULTI\"), session)", "Step(err(b\"EXEC without MULTI\"), CLEAR)", "watched"),
    ("DISCARD keeps the watch", "if name == b\"DISCARD\":\n            return Step(OK, CLEAR)", "if name == b\"DISCARD\":\n            return Step(OK, session._replace(queue=None, failed=False))", "mixed"),
    ("a conflict keeps the watch", "Step(array(None), CLEAR)", "Step(array(None), session._replace(queue=None))", "watched"),
    ("an accepted EXEC keeps the watch", "Step(array(replies), CLEAR, writes)", "Step(array(replies), session._replace(queue=None), writes)", "watched"),
    ("EXECABORT keeps the watch", "previous errors.\"), CLEAR)", "previous errors.\"), session._replace(queue=None, failed=False))", "watched"),
    ("an unknown name does not mark", "return Step(reply, session._replace(failed=True))", "return Step(reply, session)", "mixed"),
    ("a wrong count does not mark", "return Step(refused, session._replace(failed=True))", "return Step(refused, session)", "numbers"),
    ("SET with options does not mark", "return Step(refused, session._replace(failed=True))", "return Step(refused, session._replace(failed=session.failed or refused != SET_OPTIONS))", "watched"),
    ("a wrong count is queued", "        if refused:\n", "        if False:\n", "numbers"),
    ("SET with options is queued", "return SET_OPTIONS if name == b\"SET\" and n > 2 else None", "return None", "watched"),
    ("a wrong count empties the queue", "return Step(refused, session._replace(failed=True))", "return Step(refused, session._replace(failed=True, queue=()))", "limits"),
    ("4 comes before a wrong count", "        if refused:\n", "        if len(session.queue) == QUEUE_COMMANDS:\n            raise Number(4)\n        if refused:\n", "limits"),
    ("4 for arguments comes before a wrong count", "        if refused:\n", "        if len(args) + sum(map(len, session.queue)) > QUEUE_ARGUMENTS:\n            raise Number(4)\n        if refused:\n", "limits"),
    ("4 for bytes comes before a wrong count", "        if refused:\n", "        if sum(len(a) for command in session.queue + (args,) for a in command) > QUEUE_BYTES:\n            raise Number(4)\n        if refused:\n", "limits"),
    ("a wrong count of a name that cannot be queued is told", "        if name not in QUEUEABLE:\n", "        if name not in QUEUEABLE and right_count(name, len(args) - 1) is not False:\n", "mixed"),
    ("an amount that is no number is not queued", "        if refused:\n", "        if not refused and name == b\"INCRBY\" and whole_number(args[2]) is None:\n            refused = NOT_INTEGER\n        if refused:\n", "mixed"),
    ("nested MULTI marks", "return Step(err(b\"MULTI calls can not be nested\"), session)", "return Step(err(b\"MULTI calls can not be nested\"), session._replace(failed=True))", "mixed"),
    ("WATCH inside MULTI marks", "return Step(err(b\"WATCH inside MULTI is not allowed\"), session)", "return Step(err(b\"WATCH inside MULTI is not allowed\"), session._replace(failed=True))", "mixed"),
    ("UNWATCH does nothing", "return Step(OK, session._replace(watched=()))", "return Step(OK, session)", "mixed"),
    ("DEL counts a key once", "sum(1 for key in a if read(key) is not None)", "sum(1 for key in set(a) if read(key) is not None)", "mixed"),
    ("DEL of an absent key writes nothing", "[(key, None) for key in a] if name == b\"DEL\" else []", "[(key, None) for key in a if read(key) is not None] if name == b\"DEL\" else []", "watched"),
    ("leading zeros are a number", "rb\"0|(-?)([1-9][0-9]*)\"", "rb\"0|(-?)(0*[1-9][0-9]*)\"", "watched"),
    ("-0 is a number", "rb\"0|(-?)([1-9][0-9]*)\"", "rb\"-?0|(-?)([1-9][0-9]*)\"", "watched"),
    ("+ is a sign", "rb\"0|(-?)([1-9][0-9]*)\"", "rb\"0|([+-]?)([1-9][0-9]*)\"", "watched"),
    ("+ is no sign of a length", "rb\"\\+?([0-9]+)\"", "rb\"([0-9]+)\"", "mixed"),
    ("the smallest number is none", "return n if -(2**63) <= n < 2**63 else None", "return n if -(2**63) < n < 2**63 else None", "mixed"),
    ("the smallest sum overflows", "if not -(2**63) <= held + by < 2**63:", "if not -(2**63) < held + by < 2**63:", "mixed"),
    ("INCR writes the sum with +", "[(key, decimal(held + by))])", "[(key, b\"+\" + decimal(held + by))])", "mixed"),
    ("RANGE includes its end", "start <= key < end]", "start <= key <= end]", "mixed"),
    ("SCAN's cursor goes on at the end", "follows = cursor + most < len(table)", "follows = cursor + most <= len(table)", "mixed"),
    ("SCAN counts matches", "looked_at = table[cursor : cursor + most]", "looked_at = [e for e in table[cursor:] if glob(pattern, e[0])][:most]", "mixed"),
    ("the first COUNT counts", "most = whole_number(value)\n            if", "most = whole_number(value) if most == 10 else most\n            if", "mixed"),
    ("? matches nothing too", "reached = {i + 1 for i in reached if i < len(name) and token in (ANY_BYTE, name[i])}", "reached = {i + 1 for i in reached if i < len(name) and token in (ANY_BYTE, name[i])} | (reached if token == ANY_BYTE else set())", "mixed"),
    ("a last lone \\ matches nothing", "if byte == b\"\\\\\" and at + 1 < len(pattern):\n            at += 1\n            yield pattern[at]", "if byte == b\"\\\\\":\n            at += 1\n            yield pattern[at] if at < len(pattern) else -1", "mixed"),
    ("stars take one byte", "for end in range(start, len(name) + 1)}", "for end in range(start + 1, len(name) + 1)}", "mixed"),
    ("CR is kept in error text", "held.replace(b\"\\r\", b\" \").replace(b\"\\n\", b\" \")", "held.replace(b\"\\n\", b\" \")", "mixed"),
    ("one U+FFFD for each byte", "b\"\".join(piece if good else REPLACEMENT", "b\"\".join(piece if good else REPLACEMENT * len(piece)", "mixed"),
    ("surrogates are UTF-8", "((0xED, 0xED), [(0x80, 0x9F), TAIL])", "((0xED, 0xED), [TAIL, TAIL])", "mixed"),
    ("two CRs are dropped", "line = line[:-1]\n", "line = line.rstrip(b\"\\r\")\n", "mixed"),
    ("VT divides words", "rb\"[ \\t\\n\\f\\r]\"", "rb\"[ \\t\\n\\f\\r\\v]\"", "mixed"),
    ("FF does not divide words", "rb\"[ \\t\\n\\f\\r]\"", "rb\"[ \\t\\n\\r]\"", "mixed"),
    ("two bytes behind an argument are not looked at", "if data[end : end + 2] != b\"\\r\\n\":", "if False:", "mixed"),
    ("a protocol error keeps the session", "step = Step(err(b\"Protocol error: \" + e.args[0]), CLEAR)", "step = Step(err(b\"Protocol error: \" + e.args[0]), self.sessions[index])", "mixed"),
    ("QUIT keeps the session", "if name == b\"QUIT\":\n            return Step(OK, CLEAR)", "if name == b\"QUIT\":\n            return Step(OK, session)", "mixed"),
    ("QUIT keeps the rest", "data = b\"\" if answer.closed else data[answer.used :]", "data = data[answer.used :]", "mixed"),
    ("a rest of 4,097 bytes is kept", "if len(data) > FRAME_LIMIT and", "if len(data) > FRAME_LIMIT + 1 and", "limits"),
    ("1,025 arguments are taken", "ARGUMENT_PLACES = 1024", "ARGUMENT_PLACES = 1025", "limits"),
    ("replies of 32,769 bytes are taken", "REPLY_ROOM = 32768", "REPLY_ROOM = 32769", "limits"),
    ("65 commands are queued", "QUEUE_BYTES = 64, 512, 8192", "QUEUE_BYTES = 65, 512, 8192", "limits"),
    ("513 arguments are queued", "QUEUE_BYTES = 64, 512, 8192", "QUEUE_BYTES = 64, 513, 8192", "limits"),
    ("8,193 bytes are queued", "QUEUE_BYTES = 64, 512, 8192", "QUEUE_BYTES = 64, 512, 8193", "limits"),
    ("33 keys are watched", "WATCH_BYTES = 32, 2048", "WATCH_BYTES = 33, 2048", "limits"),
    ("2,049 bytes are watched", "WATCH_BYTES = 32, 2048", "WATCH_BYTES = 32, 2049", "limits"),
    ("4 does not mark", "if n.number == 4:", "if False:", "limits"),
    ("1,025 versions are kept", "> self.max_versions or self.bytes_used()", "> self.max_versions + 1 or self.bytes_used()", "limits"),
    ("32,769 bytes are kept", "self.bytes_used() + size > self.max_bytes", "self.bytes_used() + size > self.max_bytes + 1", "limits"),
    ("6 comes before a conflict", "return Decision(CONFLICT", "self.must_fit([(args[1], None) for args in session.queue if args[0].upper() == b\"SET\"])\n            return Decision(CONFLICT", "limits"),
    ("6 comes before a member's conflict", "if member.read is not None:\n            for key", "if len(self.versions) + len(member.writes) > self.max_versions:\n            return 6\n        if member.read is not None:\n            for key", "group-limits"),
    ("3 leaves no queue", "return Answer(3)", "self.sessions[index] = step.session\n            return Answer(3)", "limits"),
    ("65,537 bytes make a line", "if lf - start > 65536:", "if lf - start > 65537:", "long"),
    ("65,537 bytes without LF wait", "if len(data) - start > 65536:", "if len(data) - start > 65537:", "long"),
    ("a refused member's keys count as written", "verdict = self.verdict(member, written)\n", "verdict = self.verdict(member, written)\n            written |= {key for key, _ in member.writes}\n", "groups"),
    ("keys of earlier members do not count", "if key in written or (newest", "if (newest", "groups"),
    ("taking goes on behind one too large", "break\n            total += size_of(member)", "continue\n            total += size_of(member)", "groups"),
    ("the first is taken only if it fits", "if taken > 0 and total", "if total", "groups"),
    ("1,048,577 bytes fit", "> GROUP_BYTES:", "> GROUP_BYTES + 1:", "groups"),
    ("a newest version at the read sequence conflicts", "newest > member.read", "newest >= member.read", "groups"),
    ("7 at the last sequence of all", "> LARGEST_SEQUENCE:", ">= LARGEST_SEQUENCE:", "group-limits"),
    ("65 members are taken", "len(members) > GROUP_MEMBERS or verdict_room", "len(members) > GROUP_MEMBERS + 1 or verdict_room", "group-limits"),
    ("7 comes before 6", "return 6\n        if self.last + len(member.writes) > LARGEST_SEQUENCE:\n            return 7", "return 7 if self.last + len(member.writes) > LARGEST_SEQUENCE else 6\n        if self.last + len(member.writes) > LARGEST_SEQUENCE:\n            return 7", "group-limits"),
    ("a preview takes number 6 for the verdict", "return Previewed(n.number)", "return Previewed(n.number, n.number)", "previews"),
    ("a preview keeps the verdict with 3", "return Previewed(3)", "return Previewed(3, verdict)", "previews"),
    ("a preview passes over its buffer", "if len(reply) > room:\n            return Previewed(3)", "", "previews"),
    ("a preview tells the last sequence of before", "self.store.last + len(step.writes))", "self.store.last)", "previews"),
    ("a preview counts commands, not keys", "self.store.last + len(step.writes))", "self.store.last + len(self.sessions[index].queue or ()))", "previews"),
    ("a preview tells the last sequence with a verdict alone", "self.store.last + len(step.writes))", "self.store.last + len(step.writes) if verdict != NO_VERDICT else 0)", "previews"),
    ("a conflict is previewed as accepted", "Decision(CONFLICT", "Decision(ACCEPTED", "previews"),
    ("a failed session is previewed as a conflict", "Decision(NO_VERDICT, Step(error(", "Decision(CONFLICT, Step(error(", "previews"),
    ("EXEC without MULTI is previewed as accepted", "Decision(NO_VERDICT, Step(err(", "Decision(ACCEPTED, Step(err(", "previews"),
    ("a preview drops the queue", "        return Previewed(0, verdict", "        self.sessions[index] = step.session\n        return Previewed(0, verdict", "previews"),
    ("a preview writes", "        return Previewed(0, verdict", "        self.store.write(step.writes)\n        return Previewed(0, verdict", "previews"),
    ("a preview passes over damage", "if self.damaged():\n            return Previewed(9)", "", "previews"),
    ("a preview gives 9 before 1", "if index >= SESSIONS:\n            return Previewed(1)\n        if self.damaged():\n            return Previewed(9)", "if self.damaged():\n            return Previewed(9)\n        if index >= SESSIONS:\n            return Previewed(1)", "previews"),
    ("a preview gives 3 before 6", "verdict, step = self.decide(self.sessions[index])", "if room < 5:\n                return Previewed(3)\n            verdict, step = self.decide(self.sessions[index])", "previews"),
]
RUNS = {"mixed": 400, "watched": 400, "numbers": 50, "groups": 1500, "group-limits": 1500, "previews": 200}


def wrong_model(old, new):
    with open(SOURCE) as f:
        text = f.read()
    if old not in text:
        sys.exit(f"not in model.py: {old}")
    module = types.ModuleType("wrong_model")
    exec(compile(text.replace(old, new), "wrong_model", "exec"), module.__dict__)
    return module


def answer(module, mode, lines):
    data = b"".join(line + b"\n" for line in lines)
    try:
        return module.answer_groups(data) if mode in generate.SCRIPTS else module.answer_frames(data, mode == "long")
    except Exception as e:
        return repr(e)


def main(seed):
    missed = 0
    kept = {mode: [] for mode in ("mixed", "watched", "numbers", "limits", "long", "groups", "group-limits", "previews")}
    made = {mode: generate.runs_of(mode, seed, RUNS.get(mode, 1)) for mode in kept}

    def runs(mode):
        """The runs of a mode, made once, each with the model's answer."""
        yield from kept[mode]
        for _, lines in made[mode]:
            kept[mode].append((lines, answer(model, mode, lines)))
            yield kept[mode][-1]

    for name, old, new, mode in PLANTED:
        module, total, found = wrong_model(old, new), 0, False
        for lines, wanted in runs(mode):
            total += len(lines)
            if answer(module, mode, lines) != wanted:
                found = True
                break
        print(f"{name}: {f'told apart within {total} lines of' if found else 'NOT TOLD APART in'} {mode}", flush=True)
        missed += not found
    print(f"{len(PLANTED)} planted, {missed} not told apart")
    return 1 if missed else 0


if __name__ == "__main__":
    sys.exit(main(int(sys.argv[1]) if len(sys.argv) > 1 else 1))
