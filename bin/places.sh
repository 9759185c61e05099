# shellcheck shell=sh
# Read by the scripts of this folder: the repository's top, the programs' names, checksums of its sources, folders that may hold a program. It wants no rt and no Python.
LC_ALL=C
export LC_ALL
unset CDPATH
umask 022
# The programs that stand in bin/ and have a module in made/, each a crate of crates.txt with a main.rt.
# shellcheck disable=SC2034
programs='sts view play'
# A sentence. What ASCII doesn't print, as in a folder's name, is told by its digits.
say() {
    case $* in
    *[!\ -~]*) printf 'sts: %s' "$*" | awk 'BEGIN { for (it = 1; it < 256; it++) digits[sprintf("%c", it)] = sprintf("\\x%02x", it) }
        NR > 1 { printf "\\x0a" }
        { for (at = 1; at <= length($0); at++) { it = substr($0, at, 1); printf "%s", it ~ /[ -~]/ ? it : digits[it] } }
        END { print "" }' >&2 ;;
    *) printf 'sts: %s\n' "$*" >&2 ;;
    esac
}

self=$(readlink -f -- "$0") && user=$(id -u) && owner=$(stat -c %u -- "$self") || exit 125
# (cut by the shell: a command's output would lose a line's end in a folder's name)
case $self in /*/*/*) ;; *) say "$self has no place in a checkout"; exit 125 ;; esac
top=${self%/*}
top=${top%/*}

# The checksum of what is read, 64 digits. (BLAKE2, since a start sums megabytes, and SHA-2 takes three times as long)
sum_of() { b2sum -l 256 | cut -c 1-64; }

# The checksum of what is read as lists of files, each ended by a zero: their names and contents.
sum_of_files() { sort -z | xargs -0 b2sum -l 256 | sum_of; }

# The checksum of all that proofs are checked from.
sum_of_proofs() { (cd -- "$top" && find crates.txt crates/*/src crates/*/specs crates/*/proofs -type f -print0 | sum_of_files); }

sum_of_file() { sum_of <"$1"; }

# is_owned PATH OWNER..: whether nobody can write to a file or folder, which is no link, but its owner, who is one of those.
is_owned() {
    [ ! -L "$1" ] && has=$(stat -c '%a %u' -- "$1" 2>/dev/null) || return 1
    shift
    case ${has% *} in *[2367]? | *[2367]) return 1 ;; esac
    case " $* " in *" ${has#* } "*) ;; *) return 1 ;; esac
}

# is_safe FOLDER: whether it is a folder, no link, that nobody can write to but its owner: whoever calls, root, or the owner of this script.
is_safe() { [ -d "$1" ] && is_owned "$1" "$user" 0 "$owner"; }

# is_kept FILE: whether it is a file, no link, that nobody can write to but its owner: whoever calls, or root.
is_kept() { [ -f "$1" ] && is_owned "$1" "$user" 0; }
