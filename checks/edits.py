"""Tries the edits of crates: the mistakes of crates/NAME/edits.txt, each of which the prover must refuse.

    checks/edits.sh [--note] [NAME..]      all edits of the crates named, or of all crates
    checks/edits.sh --fit [NAME..]         nothing is proved: whether each edit can be applied
    checks/edits.sh --by HASH              nothing is proved: the two crates whose edits bin/gate tries at the commit HASH
    checks/edits.sh --when                 nothing is proved: when the edits of each crate were last refused

A row of edits.txt is a line with the edit's name in brackets, then lines 'file: PATH', 'old: TEXT' and 'new: TEXT', each old TEXT once in its file; a
further old and new may follow, and a further file. Rows stand apart by an empty line. A line that begins with # is a comment.

Several edits are tried in one check where they stand in functions of different names, one at most in each cycle of calls, of which the prover may fault
any function. An edit is refused where a function of its name has no proof for a cause of its own. Where the cause is a call of another function without a
proof, the edit waits for a later round; where its function is proved, or where it stands in no function, it is tried alone, and is refused where the crate
isn't proved. The last line is 'N refused, M not'.

bin/gate has `rt ci` try those of two crates, over its own proofs: it writes them as files of crates/NAME/must-fail/, which git ignores, and removes
these when it ends. The crates are taken in pairs, the dearest to prove with the cheapest; each commit is as likely to pick one pair as another.
type_check and typed_trees, whose cycles of calls take long, are tried by hand alone. --note writes down, in checks/edits_refused.txt, each crate of
which all edits were refused: how many, the day, and the checksum of the crate, by which --when knows whether it changed since.
"""
import argparse
import collections
import concurrent.futures
import contextlib
import datetime
import glob
import hashlib
import os
import re
import shutil
import subprocess
import sys
import tempfile
import threading

TOP = os.path.dirname(os.path.dirname(os.path.abspath(__file__)))
sys.path.insert(0, f"{TOP}/bin")
import weights  # noqa: E402 (it stands in bin/)

REFUSED = f"{TOP}/checks/edits_refused.txt"
BY_HAND = ("type_check", "typed_trees")
AT_ONCE = 16
LAID = "must-fail"
LAID_HEAD = "written by bin/gate, of edits.txt\n"
Row = collections.namedtuple("Row", "name pairs")
Edit = collections.namedtuple("Edit", "name pairs function cycle")
printing = threading.Lock()


class Wrong(Exception):
    """What is wrong with an edits.txt, in a line."""


def say(text):
    with printing:
        print(text, flush=True)


def below(name, all_):
    found = set()
    waiting = list(all_[name])
    while waiting:
        it = waiting.pop()
        if it not in found:
            found.add(it)
            waiting += all_[it]
    return found


def has_edits(name):
    return os.path.exists(f"{TOP}/crates/{name}/edits.txt")


def rows(name):
    """Gives the edits of a crate, each with its triples of file, old text and new text."""
    found, file, old = [], None, None
    with open(f"{TOP}/crates/{name}/edits.txt", encoding="utf-8", newline="") as it:
        lines = it.read().split("\n")
    for number, line in enumerate(lines, 1):
        word, _, text = line.partition(": ") if ": " in line else (line.rstrip(":"), "", "")
        if head := re.fullmatch(r"\[(\w+)\]", line):
            found.append(Row(head[1], []))
            file = old = None
        elif word == "file" and found and old is None:
            file = text.strip()
        elif word == "old" and file and old is None and text:
            old = text
        elif word == "new" and old is not None and text != old:
            found[-1].pairs.append((file, old, text))
            old = None
        elif line.strip() and not line.startswith("#"):
            raise Wrong(f"crates/{name}/edits.txt:{number}: no line is due here that begins so")
    empty = [row.name for row in found if not row.pairs] + [found[-1].name] * (old is not None)
    twice = [it for it, count in collections.Counter(row.name for row in found).items() if count > 1]
    if not found or empty or twice:
        raise Wrong(f"crates/{name}/edits.txt: {'no new text in ' + empty[0] if empty else 'twice there: ' + twice[0] if twice else 'it has no edit'}")
    return found


def misfit(folder, pairs):
    """Gives why the pairs of an edit can't be applied to the crate in the folder, or None."""
    texts = {}
    for file, old, new in pairs:
        path = os.path.normpath(f"{folder}/{file}")
        if not path.startswith(tuple(f"{folder}/{part}/" for part in weights.PARTS)) or not os.path.isfile(path):
            return f"{file} is no file of the crate's {', '.join(weights.PARTS)}"
        if path not in texts:
            with open(path, encoding="utf-8") as it:
                texts[path] = it.read()
        if (count := texts[path].count(old)) != 1:
            return f"its old text is in {file} {count} times: {old.strip()}"
        texts[path] = texts[path].replace(old, new)
    return None


def fit(names):
    """Says which edits of the crates can't be applied. Gives whether all can."""
    count, wrong = 0, []
    for name in names:
        try:
            found = rows(name)
        except Wrong as why:
            wrong.append(str(why))
            continue
        count += len(found)
        for row in found:
            if why := misfit(f"{TOP}/crates/{name}", row.pairs):
                wrong.append(f"crates/{name}/edits.txt: {row.name}: {why}")
    for it in wrong:
        print(it)
    print(f"edits: {count} in {len(names)} crates, {len(wrong)} wrong")
    return not wrong and count > 0


def function_of(folder, pairs):
    """Gives the name of the one function in which all changes stand, or None."""
    names = set()
    for file, old, _ in pairs:
        if not file.startswith("src/"):
            return None
        with open(f"{folder}/{file}", encoding="utf-8") as it:
            before = it.read().partition(old)[0]
        names.update(re.findall(r"^[^/\n]*\bfn (\w+)", before, re.M)[-1:] or [None])
    return names.pop() if len(names) == 1 else None


def cycles(folder):
    """Gives the cycle of calls that each function of one stands in, by the function's name."""
    found = {}
    for file in glob.glob(f"{folder}/src/**/*.rt", recursive=True):
        with open(file, encoding="utf-8") as it:
            marked = re.findall(r"^ *#\[cycle\((\w+)\)\]\n(?: *(?:#\[|///).*\n)* *(?:pub(?:\(crate\))? )?fn (\w+)", it.read(), re.M)
        found.update({name: cycle for cycle, name in marked})
    return found


def apply(folder, edits):
    """Applies the edits to the copy, and gives the texts from before, or None with the cause where one doesn't fit."""
    kept = {}
    for edit in edits:
        for file, old, new in edit.pairs:
            path = f"{folder}/{file}"
            with open(path, encoding="utf-8") as it:
                text = it.read()
            kept.setdefault(path, text)
            if text.count(old) != 1:
                restore(kept)
                return None, f"{edit.name}: its text is in {file} {text.count(old)} times"
            with open(path, "w", encoding="utf-8") as it:
                it.write(text.replace(old, new))
    return kept, None


def restore(kept):
    for path, text in kept.items():
        with open(path, "w", encoding="utf-8") as it:
            it.write(text)


def check(folder):
    """Checks the copy, with one processor. Gives whether it is proved (None where the prover wasn't reached), and each function's state by its name."""
    ran = subprocess.run(["rt", "check", "--jobs", "1"], cwd=folder, stdin=subprocess.DEVNULL, stdout=subprocess.PIPE, stderr=subprocess.STDOUT, errors="replace", text=True)
    verdict = re.search(r"^logic=(\S+)", ran.stdout, re.M)
    states = collections.defaultdict(set)
    for path, state in re.findall(r"^fn (\S+): (.*)$", ran.stdout, re.M):
        kind = "proved" if state == "proved" else "waits" if re.match(r"no proof: it calls", state) else "refused"
        states[re.split(r"::|>", path)[-1]].add(kind)
    # (definitions with a name that isn't there refuse nothing: no contract was tried)
    unread = re.search(r"^\./specs/\S+ error: .* is not in scope", ran.stdout, re.M)
    return (verdict[1] == "proved" if verdict and not unread else None), states


def take(waiting):
    """Takes edits in functions of different names and cycles from the list, or one that is to be tried alone."""
    batch, taken = [], set()
    for edit in list(waiting):
        if edit.function is None and not batch:
            waiting.remove(edit)
            return [edit]
        if edit.function is not None and not {edit.function, edit.cycle} & taken and len(batch) < AT_ONCE:
            batch.append(edit)
            taken |= {edit.function, edit.cycle} - {None}
            waiting.remove(edit)
    return batch


def verdicts(name, folder, edits):
    """Gives for each edit that isn't refused why. Tells how many are left, before each check."""
    waiting, wrong = list(edits), []
    while waiting:
        say(f"{name}: {len(waiting)} of {len(edits)} left, {len(wrong)} not refused")
        batch = take(waiting)
        kept, why = apply(folder, batch)
        if why:
            name = why.partition(":")[0]
            wrong.append(why)
            waiting += [it for it in batch if it.name != name]
            continue
        proved, states = check(folder)
        restore(kept)
        if len(batch) == 1 and (batch[0].function is None or proved is not False):
            if proved is not False:
                wrong.append(f"{batch[0].name}: {'still proved' if proved else 'the prover could not read it'}")
            continue
        decided = [it for it in batch if "refused" in states[it.function]] if proved is False else []
        waits = [it for it in batch if it not in decided and proved is False and "waits" in states[it.function]]
        waiting += [it if decided and it in waits else it._replace(function=None) for it in batch if it not in decided]
    return wrong


def tried(name, all_, of_kit):
    """Tries a crate's edits on a copy of it and of what stands below it. Gives how many there are, and those not refused."""
    try:
        found = rows(name)
    except Wrong as why:
        return 0, [str(why)]
    with tempfile.TemporaryDirectory(prefix="edits-") as room:
        os.mkdir(f"{room}/crates")
        shutil.copy(f"{TOP}/HANDLES", room)
        used = below(name, all_) | {name}
        with open(f"{room}/crates.txt", "w", encoding="utf-8") as it:
            it.writelines(f"{crate}: {' '.join([*all_[crate], *of_kit[crate]])}\n" for crate in sorted(used))
        for crate in used:
            subprocess.run(["cp", "-a", f"{TOP}/crates/{crate}", f"{room}/crates/"], check=True)
        copy = f"{room}/crates/{name}"
        if check(copy)[0] is not True:
            return len(found), [f"{name}: the crate itself is not proved"]
        edits, around = [], cycles(copy)
        for row in found:
            function = None if misfit(copy, row.pairs) else function_of(copy, row.pairs)
            edits.append(Edit(f"{name}/{row.name}", row.pairs, function, around.get(function)))
        wrong = verdicts(name, copy, edits)
    say(f"{name}: {len(found) - len(wrong)} of {len(found)} refused")
    return len(found), wrong


def picked(hash_, all_):
    """Gives the crates that a commit picks, a pair, and how many pairs there are."""
    known = weights.seconds_known()
    by_weight = sorted((it for it in all_ if has_edits(it) and it not in BY_HAND), key=lambda it: (weights.weight(it, known), it))
    pairs = (len(by_weight) + 1) // 2
    at = int(hash_, 16) % pairs
    return sorted({by_weight[at], by_weight[-1 - at]}), pairs


def told(hash_, names, pairs):
    """Says which crates a commit picks, and when their edits were last refused."""
    known = noted()
    return f"the commit {hash_[:12]} picks one of {pairs} pairs of crates: {'; '.join(f'{it} ({when(it, known)})' for it in names)}"


def laid_out(names):
    """Writes the edits of crates as `rt ci` reads them, files of must-fail/, and gives how many of each crate there are."""
    counts = {}
    for name in names:
        found = rows(name)
        os.makedirs(f"{TOP}/crates/{name}/{LAID}", exist_ok=True)
        for row in found:
            with open(f"{TOP}/crates/{name}/{LAID}/{row.name}.edit", "w", encoding="utf-8", newline="") as it:
                it.write(LAID_HEAD + "".join(f"file: {file}\nold: {old}\nnew: {new}\n" for file, old, new in row.pairs))
        counts[name] = len(found)
    return counts


def taken_away():
    """Removes what laid_out wrote, also in a run that was killed, and no file of another origin."""
    for path in glob.glob(f"{TOP}/crates/*/{LAID}/*.edit"):
        with open(path, encoding="utf-8", errors="replace") as it:
            is_ours = it.readline() == LAID_HEAD
        if is_ours:
            os.remove(path)
    for folder in glob.glob(f"{TOP}/crates/*/{LAID}"):
        with contextlib.suppress(OSError):
            os.rmdir(folder)


def sum_of(name):
    """Gives a checksum of the crate's sources and of its edits."""
    found = hashlib.sha256()
    for path in [*weights.files_of(name), f"{TOP}/crates/{name}/edits.txt"]:
        with open(path, "rb") as it:
            found.update(f"{os.path.relpath(path, TOP)}\n".encode() + hashlib.sha256(it.read()).digest())
    return found.hexdigest()[:16]


def noted():
    """Gives for each crate of edits_refused.txt how many of its edits were refused, on which day, and the crate's checksum then."""
    if not os.path.exists(REFUSED):
        return {}
    with open(REFUSED, encoding="utf-8") as it:
        return {words[0]: tuple(words[1:]) for words in map(str.split, it) if words and words[0] != "#"}


def note(refused, to=REFUSED):
    """Notes the crates of which all edits were refused, with how many and the sum from before they were tried."""
    day = datetime.datetime.now(datetime.timezone.utc).date().isoformat()
    found = noted() | {name: (str(count), day, sum_) for name, (count, sum_) in refused.items()}
    with open(f"{to}.new", "w", encoding="utf-8") as it:
        it.write("# Crates of which all edits were refused: how many, the day, the checksum of the crate. Written by `checks/edits.sh --note` and `bin/gate --note`.\n")
        it.writelines(f"{name} {' '.join(found[name])}\n" for name in sorted(found))
    os.replace(f"{to}.new", to)


def when(name, known):
    if name not in known:
        return "not noted"
    count, day, sum_ = known[name]
    return f"{count} refused on {day}{'' if sum_ == sum_of(name) else ', and changed since'}"


def tries(names, noting):
    """Tries the edits of crates, as many crates at once as there are processors. Gives whether all were refused."""
    all_, of_kit = weights.crates()
    sums = {name: sum_of(name) for name in names}
    count, wrong, refused = 0, [], {}
    with concurrent.futures.ThreadPoolExecutor(max(1, min(len(names), weights.at_once()))) as pool:
        for name, (many, bad) in zip(names, pool.map(lambda it: tried(it, all_, of_kit), names)):
            count, wrong = count + many, wrong + bad
            if not bad:
                refused[name] = many, sums[name]
    for it in wrong:
        say(f"NOT REFUSED: {it}")
    if noting:
        note(refused)
    print(f"{count - len(wrong)} refused, {len(wrong)} not")
    return not wrong and count > 0


def main(words):
    reads = argparse.ArgumentParser(prog="checks/edits.sh", usage=__doc__.partition("\n\n")[2].partition("\n\n")[0])
    reads.add_argument("names", nargs="*")
    reads.add_argument("--by", type=lambda it: re.fullmatch(r"[0-9a-f]{7,64}", it)[0])
    for it in ("--fit", "--when", "--note"):
        reads.add_argument(it, action="store_true")
    asked = reads.parse_args(words)
    all_, _ = weights.crates()
    for it in asked.names:
        if it not in all_ or not has_edits(it):
            sys.exit(f"checks/edits.sh: {it} is no crate with edits")
    names = [it for it in all_ if has_edits(it) and (it in asked.names or not asked.names)]
    if asked.fit:
        return 0 if fit(names) else 1
    if asked.when:
        known = noted()
        print("\n".join(f"{name}: {when(name, known)}" for name in names))
        return 0
    if asked.by:
        print(told(asked.by, *picked(asked.by, all_)))
        return 0
    return 0 if tries(names, asked.note) else 1


if __name__ == "__main__":
    sys.exit(main(sys.argv[1:]))
