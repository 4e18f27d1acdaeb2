#!/bin/sh
# Makes a Debian package of the built program, with dpkg-deb: packaging/deb.sh [FOLDER] writes
# FOLDER/tokentree_VERSION_ARCHITECTURE.deb (FOLDER is . by default). The program is the proved one that ./tokentree
# runs, or what TOKENTREE names. The same program and the same files give the same package, byte for byte: each file in
# it has the date of the newest entry of packaging/changelog. If you give the package away, name a maintainer that can
# be reached, in DEBFULLNAME and DEBEMAIL.
set -eu
folder=$(cd "${1:-.}" && pwd)
cd "$(dirname "$0")/.."
program=${TOKENTREE:-./crates/tokentree/out/tokentree}
[ -x "$program" ] || { echo "deb.sh: $program is not there: run ./tokentree --build first" >&2; exit 1; }
version=$("$program" --version | awk '{ print $2 }')
architecture=$(dpkg --print-architecture)
maintainer="${DEBFULLNAME:-tokentree maintainers} <${DEBEMAIL:-maintainers@tokentree.example}>"
# dpkg-deb gives no file a later date than this.
SOURCE_DATE_EPOCH=$(date -d "$(sed -n 's/^ -- .*>  //p' packaging/changelog | head -n 1)" +%s)
export SOURCE_DATE_EPOCH
umask 022

root=$(mktemp -d)
chmod 755 "$root"
trap 'rm -rf "$root"' EXIT
put() { install -D -m "$1" "$2" "$root/$3"; }

put 755 "$program" usr/bin/tokentree
strip --strip-unneeded --remove-section=.comment --remove-section=.note "$root/usr/bin/tokentree"
put 644 packaging/tokentree@.service usr/lib/systemd/system/tokentree@.service
put 755 packaging/tokentree-link usr/libexec/tokentree/tokentree-link
put 644 packaging/tokentree-link@.service usr/lib/systemd/system/tokentree-link@.service
put 644 packaging/completions/tokentree.bash usr/share/bash-completion/completions/tokentree
put 644 packaging/completions/_tokentree usr/share/zsh/vendor-completions/_tokentree
put 644 packaging/completions/tokentree.fish usr/share/fish/vendor_completions.d/tokentree.fish
# The documents, pictures and examples that README.md and docs/OPERATING.md name, under the names that they have there.
find README.md docs examples -type f \( -name '*.md' -o -name '*.svg' -o -path 'examples/*' \) | while read -r file; do
    put 644 "$file" "usr/share/doc/tokentree/$file"
done
put 644 packaging/copyright usr/share/doc/tokentree/copyright
put 644 packaging/lintian-overrides usr/share/lintian/overrides/tokentree
put 644 packaging/changelog usr/share/doc/tokentree/changelog
put 644 docs/tokentree.1 usr/share/man/man1/tokentree.1
gzip -9n "$root/usr/share/man/man1/tokentree.1" "$root/usr/share/doc/tokentree/changelog"
install -d -m 755 "$root/etc/tokentree" "$root/DEBIAN"
install -d -m 700 "$root/etc/tokentree/tls"

# The program needs the C library of the newest symbol that it uses.
libc=$(objdump -T "$program" | sed -n 's/.*(\{0,1\}GLIBC_\([0-9.]*\).*/\1/p' | sort -V | tail -n 1)
size=$(find "$root/usr" "$root/etc" -type f -printf '%s\n' | awk '{ sum += int(($1 + 1023) / 1024) } END { print sum }')
cat >"$root/DEBIAN/control" <<END
Package: tokentree
Version: $version
Architecture: $architecture
Maintainer: $maintainer
Installed-Size: $size
Depends: libc6 (>= $libc), adduser
Recommends: acl, openssl, socat
Section: admin
Priority: optional
Description: self-stabilising lock service
 A lock for a network of nodes that recovers by itself, with no operator,
 from any damage to the memory of the nodes and to the messages under way.
 That it does is proved.
END

# The users of the units: one for the nodes, one for the links to other machines. A purge of the package removes the
# states of the nodes.
cat >"$root/DEBIAN/postinst" <<'END'
#!/bin/sh
set -e
if [ "$1" = configure ]; then
    getent passwd tokentree >/dev/null ||
        adduser --system --group --no-create-home --home /nonexistent --quiet tokentree
    getent passwd tokentree-link >/dev/null ||
        adduser --system --ingroup tokentree --no-create-home --home /nonexistent --quiet tokentree-link
    [ ! -d /run/systemd/system ] || systemctl daemon-reload
fi
END
cat >"$root/DEBIAN/prerm" <<'END'
#!/bin/sh
set -e
if [ "$1" = remove ] && [ -d /run/systemd/system ]; then
    systemctl stop 'tokentree-link@*.service' 'tokentree@*.service'
fi
END
cat >"$root/DEBIAN/postrm" <<'END'
#!/bin/sh
set -e
[ ! -d /run/systemd/system ] || systemctl daemon-reload
if [ "$1" = purge ]; then
    rm -rf /var/lib/tokentree /etc/tokentree /run/tokentree-link
    # What `systemctl enable` and `systemctl edit` have made of the units.
    rm -f /etc/systemd/system/*.wants/tokentree@*.service /etc/systemd/system/*.wants/tokentree-link@*.service
    rm -rf /etc/systemd/system/tokentree@*.service.d /etc/systemd/system/tokentree-link@*.service.d
fi
END
chmod 755 "$root/DEBIAN/postinst" "$root/DEBIAN/prerm" "$root/DEBIAN/postrm"
(cd "$root" && find usr -type f -print | LC_ALL=C sort | xargs md5sum) >"$root/DEBIAN/md5sums"
find "$root" -exec touch -h -d "@$SOURCE_DATE_EPOCH" {} +

dpkg-deb --root-owner-group --build "$root" "$folder/tokentree_${version}_$architecture.deb"
