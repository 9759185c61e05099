#!/bin/sh
# Runs per second of bin/judge on 1, 2 and 4 processors, and of a plain shell loop, over PROGRAMS programs (1000 if not given) with 10 scripts each: copies of the examples that have a
# script, whose end is 0 to 9 ms later. What is wanted is what the program writes for one copy of each. Seconds of processors are of all that was started.
# usage: bench/judge.sh [PROGRAMS [PROGRAM]], where PROGRAM is sts, as bin/program names it where it is left out
set -eu
top=$(cd "$(dirname "$0")/.." && pwd)
programs=${1:-1000}
program=${2:-$("$top/bin/program")}
folder=$(mktemp -d)
trap 'rm -rf "$folder"' EXIT
python3 - "$top" "$folder" "$programs" "$program" <<'PYTHON'
import glob
import json
import os
import shutil
import subprocess
import sys

top, folder, programs, program = sys.argv[1:]
models = []
for text in sorted(glob.glob(f"{top}/examples/*.ts")):
    script = text[: -len("ts")] + "json"
    if not os.path.exists(script):
        continue
    with open(script, encoding="ascii") as file:
        read = json.load(file)
    runs = []
    for later in range(10):
        path = f"{folder}/script"
        with open(path, "w", encoding="ascii") as file:
            json.dump({**read, "end": read["end"] + later}, file)
        with open(path, "rb") as file:
            runs.append((file.read(), subprocess.run([program, "run", text, path], stdout=subprocess.PIPE, stderr=subprocess.DEVNULL, check=False).stdout))
    models.append((text, runs))
for number in range(int(programs)):
    text, runs = models[number % len(models)]
    shutil.copy(text, f"{folder}/p{number:04}.ts")
    for later, parts in enumerate(runs):
        for end, content in zip(("json", "txt"), parts):
            with open(f"{folder}/p{number:04}-{later}.{end}", "wb") as file:
                file.write(content)
PYTHON

# measured NAME COMMAND..: says how many runs a second a command does
measured() {
    name=$1
    shift
    from=$(date +%s%N)
    sh -c '"$@" > "$0"; times' "$folder/said" "$@" > "$folder/times"
    took=$((($(date +%s%N) - from) / 1000000))
    grep -q "^passed *$programs *${programs}0\$" "$folder/said" || { echo "$name: not all passed"; exit 1; }
    echo "$name: $((programs * 10 * 1000 / took)) runs per second; $((took / 1000)) seconds, of processors: $(tail -n 1 "$folder/times")"
}

# shellcheck disable=SC2016
loop='passed=0
for text in "$1"/*.ts; do
    for script in "${text%.ts}"-*.json; do
        "$2" run "$text" "$script" 2> /dev/null | cmp -s - "${script%.json}.txt" && passed=$((passed + 1))
    done
done
echo "passed $((passed / 10)) $passed"'
measured 'a shell loop' sh -c "$loop" loop "$folder" "$program"
for processors in 1 2 4; do
    [ "$processors" -le "$(nproc)" ] || continue
    measured "bin/judge on $processors" taskset -c "0-$((processors - 1))" "$top/bin/judge" "$folder" --program "$program"
done
