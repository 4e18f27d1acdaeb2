#!/usr/bin/env bash
# Follows "Several machines" of docs/OPERATING.md just by its text, as a newcomer with two machines does: two systems of
# this machine's own files, each booted by systemd in a container with its own address, get the Debian package, and then
# the commands of the text, copied from it. Then it tries the text's firewall, a line that is down, what a member of the
# locks' group and the user of the links may do, a longer repetition, and what a purge leaves. Prints a line for each;
# status 1 if one is wrong, 77 if no such system can be booted here.
#
#   bench/two_machines.sh
#
# What the two systems write stays in memory, and ends with this script. The program is the one that packaging/deb.sh
# takes. Needs root, systemd-nspawn, nsenter, ip, nft, socat, openssl, setfacl, dpkg.
set -euo pipefail
cd "$(dirname "$0")/.."
if [ "${1:-}" != --inside ]; then
    for tool in systemd-nspawn nsenter ip nft socat openssl setfacl dpkg-deb; do
        command -v "$tool" > /dev/null || { echo "two_machines: needs $tool" >&2; exit 77; }
    done
    folder=$(mktemp -d)
    groups=()
    for hierarchy in /sys/fs/cgroup /sys/fs/cgroup/systemd /sys/fs/cgroup/unified; do
        [ ! -e "$hierarchy/cgroup.procs" ] || groups+=("$hierarchy/two-machines-$$")
    done
    tidy() {
        rm -rf "$folder"
        find "${groups[@]}" -depth -type d -exec rmdir {} + 2> /dev/null || true
    }
    trap tidy EXIT
    trap 'kill -KILL $!; wait; exit 130' HUP INT TERM
    packaging/deb.sh "$folder" > /dev/null
    mkdir "${groups[@]}"
    # A process that is killed here takes its children along.
    setpriv --pdeathsig KILL unshare --mount --net --uts --ipc --pid --fork --kill-child --mount-proc \
        "$0" --inside "$folder" "${groups[@]}" &
    status=0
    wait $! || status=$?
    exit $status
fi
# From here on in namespaces of its own.
folder=$2
groups=("${@:3}")
package=$(echo "$folder"/*.deb)
text=docs/OPERATING.md
found=0
fault() {
    echo "two_machines: $1" >&2
    found=1
}
cannot() {
    echo "two_machines: no system can be booted here: $1" >&2
    exit 77
}
# A row: what it is, and whether the command after it succeeds.
row() {
    local title=$1
    shift
    if "$@" > "$folder/output" 2>&1; then
        echo "right: $title"
    else
        fault "$title: $(tail -n 5 "$folder/output")"
    fi
}
fails() { ! "$@"; }
# Tries the command for this many seconds.
within() {
    local until=$((SECONDS + $1))
    shift
    until "$@"; do
        [ $SECONDS -lt $until ] || return 1
        sleep 0.2
    done
}

# --- The two systems -------------------------------------------------------------------------------------------------

declare -A first
# A system with this name and address. Its network card is one end of a line; the other end is in the bridge.
boot() {
    local name=$1 address=$2 system=$folder/$1
    mkdir "$system"
    mount -t tmpfs tmpfs "$system" || cannot "no tmpfs"
    mkdir "$system/changes" "$system/work" "$system/root"
    mount -t overlay overlay -o "lowerdir=/,upperdir=$system/changes,workdir=$system/work" "$system/root" || cannot "no overlay"
    systemd-id128 new > "$system/root/etc/machine-id"
    echo "$name.example.org" > "$system/root/etc/hostname"
    printf '127.0.0.1 localhost\n192.0.2.1 a.example.org\n192.0.2.2 b.example.org\n' > "$system/root/etc/hosts"
    cp "$package" "$system/root/root/tokentree.deb"
    ip netns add "$name"
    ip link add "line-$name" type veth peer name card netns "$name"
    ip link set "line-$name" master bridge up
    ip -n "$name" link set lo up
    ip -n "$name" addr add "$address/24" dev card
    ip -n "$name" link set card up
    (
        for group in "${groups[@]}"; do
            mkdir "$group/$name"
            echo $BASHPID > "$group/$name/cgroup.procs"
        done
        exec systemd-nspawn --register=no --keep-unit --directory="$system/root" --machine="$name" \
            --network-namespace-path="/run/netns/$name" --resolv-conf=off --boot systemd.unit=basic.target
    ) > "$system/log" 2>&1 < /dev/null &
    local nspawn=$!
    within 60 is_up "$name" "$nspawn" || { tail -n 20 "$system/log" >&2; cannot "$name does not come up"; }
}
is_up() {
    kill -0 "$2" 2> /dev/null || cannot "$(tail -n 3 "$folder/$1/log")"
    first[$1]=$(pgrep -P "$2" | head -n 1) && [ -n "${first[$1]}" ] &&
        [ "$(on "$1" 'systemctl is-active basic.target' 2> /dev/null)" = active ]
}
# Runs a command on a machine, as root; and as another user.
on() {
    nsenter -t "${first[$1]}" --mount --uts --ipc --net --pid --root --wd env -i HOME=/root LANG=C.UTF-8 TERM=dumb SYSTEMD_PAGER= \
        PATH=/usr/local/sbin:/usr/local/bin:/usr/sbin:/usr/bin:/sbin:/bin timeout 60 bash -c "cd /root; $2" < /dev/null
}
as() { on "$1" "runuser -u $2 -- bash -c '$3'"; }

# --- The text --------------------------------------------------------------------------------------------------------

# The section's block of commands with this text, without the prompts and the remarks.
block() {
    awk -v wanted="$1" '
        /^## / { on = $0 == "## Several machines" }
        on && /^    / { block = block substr($0, 5) "\n"; next }
        block != "" { if (index(block, wanted)) printf "%s", block; block = "" }
    ' "$text" | sed 's/^[#$] //; s/   .*`.*//; s/   *what the link last met$//; s/   *Send-Q above 0 .*//'
}
# Runs that block on the machine of the text, or on one in its place.
follow() {
    local commands
    commands=$(block "$2" | sed "${3:-}")
    [ -n "$commands" ] || { fault "$text has no block with $2"; return; }
    row "on $1: $(echo "$commands" | head -n 1)" on "$1" "set -e
$commands"
}
file() { on "$1" "cat > $2" < "$3"; }

mount -t tmpfs tmpfs /run
ip link set lo up
ip link add bridge type bridge
ip link set bridge up
boot a 192.0.2.1
boot b 192.0.2.2
for name in a b; do
    row "$name gets the package" on "$name" "dpkg --install tokentree.deb"
    row "$name gets the network" on "$name" "printf 'nodes = 2\nroot = 0\ncapacity = 256\nlease = 0\nedges = [[0, 1]]\n' \
        > /etc/tokentree/network.toml"
done

follow a 'openssl req -x509'
for name in a b; do
    for file in ca.pem "$name.example.org.pem" "$name.example.org.key"; do
        on a "cat $file" > "$folder/$file"
        cp "$folder/$file" "$folder/$name/root/root/$file"
    done
done
follow a 'install -m 644 ca.pem'
follow b 'install -m 644 ca.pem' 's/a\.example\.org/b.example.org/g'
follow a 'tokentree@0 tokentree-link@0-1'
follow b 'tokentree@1'

lock=$(sed -n 's/^Now `\(tokentree lock [^`]*\)` works.*/\1/p' "$text")
granted() { [ "$(on "$1" "${2/lock /lock --timeout 20 }")" = granted ]; }
row "the lock at b, by the text" granted b "$lock"
row "the lock at a" granted a "${lock/ 1 / 0 }"
stands() { on "$1" 'tokentree status /var/lib/tokentree --links' | grep -q "^node $2 link $3 up"; }
row "the link is up at a" stands a 0 1
row "the link is up at b" stands b 1 0

# --- Who may do what -------------------------------------------------------------------------------------------------

row "alice joins the group, as in One machine" on a "useradd alice && adduser alice tokentree"
row "alice takes the lock" as a alice 'tokentree lock --timeout 20 /var/lib/tokentree 0 -- true'
connects='socat -u /dev/null UNIX-CONNECT:/var/lib/tokentree/node-0.sock'
for deed in 'touch /var/lib/tokentree/stop-0' 'rm -f /var/lib/tokentree/state-0.tkt' 'cat /var/lib/tokentree/state-0.tkt' \
    'tokentree stop /var/lib/tokentree 0' 'mv /var/lib/tokentree/desk-0.sock /var/lib/tokentree/desk-9.sock' \
    'tokentree status --links /var/lib/tokentree 0' "$connects"; do
    row "alice may not $deed" fails as a alice "$deed"
done
row "the links' user connects to the node" as a tokentree-link "$connects"
for deed in 'touch /var/lib/tokentree/stop-0' 'cat /var/lib/tokentree/state-0.tkt' 'cat /etc/tokentree/tls/own.key' \
    'tokentree stop /var/lib/tokentree 0'; do
    row "the links' user may not $deed" fails as a tokentree-link "$deed"
done
row "another user may not take the lock" fails as a nobody 'tokentree lock --timeout 1 /var/lib/tokentree 0 -- true'

# --- The firewall ----------------------------------------------------------------------------------------------------

ip -n b addr add 192.0.2.3/24 dev card
reaches() { on b "socat -u /dev/null TCP:192.0.2.1:17401,bind=$1,connect-timeout=2"; }
row "a stranger's address reaches the port without the firewall" reaches 192.0.2.3
follow a 'nft add table'
row "with it, it does not" fails reaches 192.0.2.3
row "and b does" reaches 192.0.2.2
row "the lock at b with the firewall" granted b "$lock"

# --- A line that is down ---------------------------------------------------------------------------------------------

ip link set line-a down
sleep 8
row "nobody is granted the lock at b" fails on b "tokentree lock --timeout 2 /var/lib/tokentree 1 -- true"
shows() { on "$1" "$2" | grep -q -e "$3"; }
row "the unit at b is started again and again" within 20 shows b "systemctl status 'tokentree-link@*' || true" 'auto-restart'
row "the links are down in status" shows b 'tokentree status /var/lib/tokentree --links' '^node 1 link 0 down'
row "the journal says what the link met" shows b "$(block 'tokentree status /var/lib/tokentree' | grep journalctl)" 'socat'
row "ss shows the port's connections" on b "$(block 'tokentree status /var/lib/tokentree' | grep '^ss')"
ip link set line-a up
row "the lock at b after it is back" within 20 granted b "$lock"

# --- A longer repetition, and the end --------------------------------------------------------------------------------

for name in a b; do
    block 'ExecStart=/usr/bin/tokentree node' > "$folder/override.conf"
    on "$name" 'mkdir -p /etc/systemd/system/tokentree@.service.d'
    cp "$folder/override.conf" "$folder/$name/root/etc/systemd/system/tokentree@.service.d/override.conf"
    row "$name takes the longer repetition" on "$name" "systemctl daemon-reload && systemctl restart 'tokentree@*' 'tokentree-link@*'"
done
row "the lock at b with it" within 20 granted b "$lock"
row "the node at a runs with it" shows a 'pgrep -a -x tokentree' 'node --group-locks --repeat 20000'

left='/var/lib/tokentree /run/tokentree-link /etc/tokentree /usr/libexec/tokentree /etc/systemd/system/*/tokentree*'
is_left() { [ -n "$(on "$1" "ls -d $left" 2> /dev/null)" ]; }
row "files are there before a purge (so that this can fail)" is_left a
for name in a b; do
    row "$name is purged" on "$name" 'dpkg --purge tokentree'
    row "no file of it is left at $name" fails is_left "$name"
    row "no process of it is left at $name" fails on "$name" 'pgrep -x "tokentree|socat"'
done
exit $found
