#!/bin/sh
# Other programs read the HEX that hex_image writes, and write HEX that it reads: srec_cat, and GNU objcopy for this machine
# and for ARM. Images of several lengths, past the blocks of 64 KB and a full flash among them. A program that is missing is
# skipped with a line; without srec_cat the whole check is (status 77), before anything is built.
# usage: checks/hex_peers.sh
set -eu
top=$(cd "$(dirname "$0")/.." && pwd)
command -v srec_cat > /dev/null || {
    echo "hex_peers: srec_cat is missing (package srecord)"
    exit 77
}
folder=$(mktemp -d)
trap 'rm -rf "$folder"' EXIT
ours=$("$top/bench/program.sh" "$folder/program" "$top/bench/hex/main.txt" "hex_image anyhow" sts_base hex_image)

# reads COMMAND..: whether the other program is there
reads() {
    command -v "$1" > /dev/null || {
        echo "hex_peers: skipped $1, which is missing"
        return 1
    }
}

same() {
    cmp "$1" "$2" || {
        echo "hex_peers: $3 differs at a length of $length"
        exit 1
    }
}

for length in 1 15 16 17 40 65536 65537 131072 200001 262144; do
    head -c "$length" /dev/urandom > "$folder/image.bin"
    "$ours" write "$folder/image.bin" "$folder/ours.hex"
    "$ours" read "$folder/ours.hex" "$folder/back.bin"
    same "$folder/image.bin" "$folder/back.bin" "what was written and read here"
    if reads srec_cat; then
        srec_cat "$folder/ours.hex" -intel -o "$folder/back.bin" -binary
        same "$folder/image.bin" "$folder/back.bin" "what srec_cat read"
        srec_cat "$folder/image.bin" -binary -o "$folder/theirs.hex" -intel -line-length=44
        same "$folder/ours.hex" "$folder/theirs.hex" "what srec_cat wrote with the same rows"
        for form in 2 3 4; do
            if [ "$form" -gt 2 ] || [ "$length" -le 65536 ]; then
                srec_cat "$folder/image.bin" -binary -o "$folder/theirs.hex" -intel -address-length="$form"
                "$ours" read "$folder/theirs.hex" "$folder/back.bin"
                same "$folder/image.bin" "$folder/back.bin" "what srec_cat wrote with addresses of $form bytes"
            fi
        done
    fi
    for objcopy in objcopy arm-none-eabi-objcopy; do
        if reads "$objcopy"; then
            "$objcopy" -I ihex -O binary "$folder/ours.hex" "$folder/back.bin"
            same "$folder/image.bin" "$folder/back.bin" "what $objcopy read"
            "$objcopy" -I binary -O ihex "$folder/image.bin" "$folder/theirs.hex"
            "$ours" read "$folder/theirs.hex" "$folder/back.bin"
            same "$folder/image.bin" "$folder/back.bin" "what $objcopy wrote"
        fi
    done
done
echo "hex_peers: what is written here is read elsewhere, and the other way round"
