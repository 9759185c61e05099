#!/bin/sh
# The time in which the longest texts are checked for their grammar, 65,536 bytes each at most: functions, a list in 64 brackets, a type
# of 32,000 `[]`, and statements of the greatest nesting. Beside it the time in which TypeScript's own parser reads the same text: of
# the process with its start, and of the parse alone in a process that has parsed other texts before. The least of RUNS runs each
# (11 if not given), in milliseconds. Wants node and Debian's node-typescript.
# usage: bench/parse/run.sh [RUNS]
set -eu
here=$(cd "$(dirname "$0")" && pwd)
top=$here/../..
runs=${1:-11}
folder=$(mktemp -d)
trap 'rm -rf "$folder"' EXIT
program=$("$top/bin/program")

awk -v out="$folder" 'BEGIN {
    file = out "/functions.ts"; size = 0
    for (i = 0; ; i++) {
        text = "function f" i "(a: number): number {\n    let b = a * 2 + 1\n    if (b > 3) { return b } else { return f0(b - 1) }\n}\n"
        if (size + length(text) > 65536) break
        size += length(text); printf "%s", text > file
    }
    file = out "/list.ts"
    for (i = 0; i < 64; i++) printf "[" > file
    for (i = 0; i < 32703; i++) printf "a," > file
    printf "aa" > file
    for (i = 0; i < 64; i++) printf "]" > file
    file = out "/type.ts"
    printf "let a: A" > file
    for (i = 0; i < 32000; i++) printf "[]" > file
    printf " = null" > file
    file = out "/deep.ts"
    for (j = 0; j < 256; j++) {
        for (i = 0; i < 253; i++) printf (i % 2 ? "!" : "-") > file
        printf (j < 255 ? "a\n;" : "a\n") > file
    }
}'

# least COMMAND..: the least time of a command, in milliseconds
least() {
    for _ in $(seq "$runs"); do
        from=$(date +%s%N)
        "$@" > /dev/null
        upto=$(date +%s%N)
        echo $(((upto - from) / 1000))
    done | sort -n | awk 'NR == 1 { printf "%.1f", $1 / 1000 }'
}

cat > "$folder/parse.js" <<'JS'
const ts = require("/usr/share/nodejs/typescript/lib/typescript.js");
const text = require("fs").readFileSync(process.argv[2], "utf8");
const turns = Number(process.argv[3]);
let least = Infinity;
for (let i = 0; i < turns; i++) {
    const from = process.hrtime.bigint();
    ts.createSourceFile("p.ts", text, ts.ScriptTarget.ES2020, false);
    least = Math.min(least, Number(process.hrtime.bigint() - from) / 1e6);
}
console.log(least.toFixed(1));
JS
for text in functions list type deep; do
    file=$folder/$text.ts
    case $("$program" check "$file") in
    accepted | 'refused 8 '* | 'refused 9 '* | 'refused 1'[0-5]' '*) ;;
    *) echo "$text: spells no program"; exit 1 ;;
    esac
    printf '%s (%s bytes): sts check %s ms' "$text" "$(wc -c < "$file")" "$(least "$program" check "$file")"
    if command -v node > /dev/null && [ -e /usr/share/nodejs/typescript/lib/typescript.js ]; then
        printf ', TypeScript %s ms, its parse alone %s ms' "$(least node "$folder/parse.js" "$file" 1)" "$(node "$folder/parse.js" "$file" "$runs")"
    fi
    echo
done
