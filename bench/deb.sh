#!/bin/sh
# Makes the Debian package twice, and compares the bytes; checks it by lintian, if there is one; and installs, runs,
# removes and purges it in a throw-away system: this machine's own, seen through an overlay whose changes stay in
# memory. Status 1 if something is wrong; 77, with a line that says so, if no such system can be made.
#
#   bench/deb.sh
#
# The program is the one that packaging/deb.sh takes. Needs root, unshare, and dpkg.
set -eu
cd "$(dirname "$0")/.."

if [ "${1:-}" != --inside ]; then
    made=$(mktemp -d)
    trap 'rm -rf "$made"' EXIT
    packaging/deb.sh "$made" >/dev/null
    mkdir "$made/again"
    sleep 1
    # With another time, zone, mask and locale.
    (umask 077; TZ=Asia/Tokyo LC_ALL=C.UTF-8 packaging/deb.sh "$made/again" >/dev/null)
    cmp "$made"/*.deb "$made"/again/*.deb || { echo "deb: two packages of the same files differ" >&2; exit 1; }
    rm -r "$made/again"
    sha256sum "$made"/*.deb | sed 's| .*/| |'
    if command -v lintian >/dev/null; then
        lintian --allow-root --fail-on error,warning "$made"/*.deb || { echo "deb: lintian finds faults" >&2; exit 1; }
        echo "lintian finds no fault"
    fi
    mkdir "$made/system"
    status=0
    unshare --mount bench/deb.sh --inside "$made" || status=$?
    exit $status
fi

# From here on in its own mount namespace, which ends with this script.
system=$2/system
package=$(echo "$2"/*.deb)
cannot() { echo "deb: no throw-away system can be made here" >&2; exit 77; }
mount -t tmpfs tmpfs "$system" || cannot
mkdir "$system/changes" "$system/work" "$system/root"
mount -t overlay overlay -o "lowerdir=/,upperdir=$system/changes,workdir=$system/work" "$system/root" || cannot
mount --rbind /dev "$system/root/dev"
mount -t proc proc "$system/root/proc"
cp "$package" "$system/root/tokentree.deb"

found=0
fault() {
    echo "deb: $1" >&2
    found=1
}
inside() { chroot "$system/root" "$@"; }

inside dpkg --install /tokentree.deb >"$system/log" 2>&1 || { cat "$system/log" >&2; fault "it is not installed"; }
inside getent passwd tokentree >/dev/null || fault "there is no user tokentree"
inside /usr/bin/tokentree --version || fault "the program does not run"
inside tokentree bound /usr/share/doc/tokentree/examples/two-nodes.toml | grep -qx 'sweeps 69' ||
    fault "the program does not know the bound of two nodes"
inside dpkg --listfiles tokentree | while read -r file; do
    [ -e "$system/root$file" ] || echo "$file"
done >"$system/absent"
while read -r file; do fault "$file is not there"; done <"$system/absent"
inside dpkg --listfiles tokentree >"$system/files"
for name in copyright changelog.gz README.md docs/OPERATING.md docs/scrambled-square.svg examples/round.txt; do
    [ -s "$system/root/usr/share/doc/tokentree/$name" ] || fault "the package lacks $name"
done
# All that the documents of the package link to is in it, under the same name.
for document in README.md docs/*.md; do
    grep -oh '](\([^)#:]*\))' "$document" | sed 's/^](//; s/)$//' | while read -r name; do
        echo "$(dirname "$document")/$name"
    done
    grep -oh '`examples/[^` ]*`\|docs/[a-z-]*\.svg' "$document" | tr -d '`'
done | sort -u >"$system/named"
[ "$(wc -l <"$system/named")" -gt 10 ] || fault "the documents name few files"
while read -r name; do
    [ -e "$system/root/usr/share/doc/tokentree/$name" ] || fault "the package lacks $name, which a document names"
done <"$system/named"
inside dpkg --status tokentree | grep -q '^Depends: libc6 (>= 2' || fault "the package names no version of libc6"
wc -l <"$system/files" | sed 's/$/ files and folders/'

# A purge, not a removal, deletes what a node or a link leaves in its folder.
mkdir -p "$system/root/var/lib/tokentree" "$system/root/run/tokentree-link"
: >"$system/root/var/lib/tokentree/state-0.tkt"
: >"$system/root/etc/tokentree/network.toml"
mkdir -p "$system/root/etc/systemd/system/multi-user.target.wants"
ln -s /usr/lib/systemd/system/tokentree@.service "$system/root/etc/systemd/system/multi-user.target.wants/tokentree@0.service"
inside dpkg --remove tokentree >"$system/log" 2>&1 || { cat "$system/log" >&2; fault "it is not removed"; }
[ ! -e "$system/root/usr/bin/tokentree" ] || fault "the program is still there"
[ -e "$system/root/var/lib/tokentree/state-0.tkt" ] || fault "the states go where it is removed"
inside dpkg --purge tokentree >"$system/log" 2>&1 || { cat "$system/log" >&2; fault "it is not purged"; }
while read -r file; do
    case $file in
    *tokentree*) [ ! -e "$system/root$file" ] || fault "$file is left over" ;;
    esac
done <"$system/files"
[ ! -e "$system/root/var/lib/tokentree" ] || fault "the states are left over"
[ ! -e "$system/root/run/tokentree-link" ] || fault "the links' folder is left over"
[ ! -e "$system/root/etc/tokentree" ] || fault "the network file is left over"
[ ! -L "$system/root/etc/systemd/system/multi-user.target.wants/tokentree@0.service" ] || fault "an enabled node is left over"
[ $found -ne 0 ] || echo "installed, run, removed and purged"
exit $found
