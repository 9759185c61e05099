#!/bin/sh
# A release is what it says. `--help` and `--version` answer, with each word of docs/COMMANDS.md; `bin/release` refuses a tree whose proofs weren't checked, or that has changes; made
# twice, archive and package have the same bytes; what is unpacked has the files of its list of checksums and links that lead somewhere; all commands of its documents write what stands
# below them, where neither the kit nor this tree can be seen, for a user without rights, there and installed below a prefix; dpkg installs the package; man and mandoc read the pages.
# It takes the proved programs where they are there, and else says that it took those of bin/compile. With a bare ROOT, as debootstrap makes it, with python3 and /proc, all is done in that.
# usage: checks/release.sh [ROOT]
set -eu
top=$(cd "$(dirname "$0")/.." && pwd)
for it in dpkg dpkg-deb man mandoc unshare setpriv python3 git; do
    command -v "$it" >/dev/null || {
        echo "release: $it is missing"
        exit 77
    }
done
[ "$(id -u)" = 0 ] && unshare --mount true 2>/dev/null || {
    echo 'release: it hides the kit by mounts of its own, which the user may not make here'
    exit 77
}
[ -x /usr/bin/python3 ] || {
    echo 'release: /usr/bin/python3 is missing'
    exit 77
}
exec python3 "$top/checks/release.py" "$@"
