#!/usr/bin/env bash
# Makes a Debian package of the built programs: packaging/deb.sh [FOLDER], the folder for the package.
# Build both programs first: tools/build, without a name. The status is 2 for bad words, 1 for a failure.
set -euo pipefail

fail() {
    echo "packaging/deb.sh: $2" >&2
    exit "$1"
}

[[ $# -le 1 && ${1:-.} != -* ]] || fail 2 "at most one word: the folder for the package"
[[ -d ${1:-.} ]] || fail 2 "no folder $1"
to=$(realpath "${1:-.}")
cd "$(dirname "$0")/.."
for program in bqd bq; do
    [[ -x crates/$program/out/$program ]] || fail 1 "$program is not built: run tools/build $program first"
done
for command in python3 strip dpkg-shlibdeps dpkg-gencontrol dpkg-deb; do
    command -v "$command" >/dev/null || fail 1 "$command is missing: it is in Debian's dpkg-dev and binutils"
done
version=$(crates/bqd/out/bqd --version | awk '{print $2}')

room=$(mktemp -d)
trap 'rm -rf "$room"' EXIT
mkdir "$room/debian"
python3 packaging/changelog.py >"$room/debian/changelog"
told=$(dpkg-parsechangelog --file "$room/debian/changelog" --show-field Version)
[[ $version = "$told" ]] || fail 1 "bqd says it is $version, but CHANGELOG.md begins with $told"

tree=$room/tree
install -d -m 755 "$tree"

install -D -m 755 crates/bqd/out/bqd "$tree/usr/bin/bqd"
# Not in /usr/bin, where Google's cloud client has a program of this name.
install -D -m 755 crates/bq/out/bq "$tree/usr/lib/bqd/bq"
strip --remove-section=.comment --remove-section=.note "$tree/usr/bin/bqd" "$tree/usr/lib/bqd/bq"
for module in packaging/programs/queue_*/; do
    install -D -m 644 -t "$tree/usr/share/bqd/$(basename "$module")" "$module"*.py
done
install -D -m 644 -t "$tree/usr/share/bqd" packaging/bqd-alerts.yml packaging/bqd-grafana.json
install -D -m 644 -t "$tree/usr/share/bqd/queue_web/page" packaging/programs/queue_web/page/*
for program in bqctl bqd-drain bqd-top bqd-web; do
    install -m 755 "packaging/programs/$program" "$tree/usr/share/bqd/$program"
    ln -s "../share/bqd/$program" "$tree/usr/bin/$program"
done
# Only the unit and a container's image run these.
install -m 755 packaging/programs/bqd-started packaging/container-start "$tree/usr/share/bqd"
install -D -m 644 -t "$tree/usr/share/bash-completion/completions" packaging/completion/bqctl
for place in zsh/vendor-completions/_bqctl fish/vendor_completions.d/bqctl.fish; do
    [[ ! -e packaging/completion/bqctl.${place%%/*} ]] ||
        install -D -m 644 "packaging/completion/bqctl.${place%%/*}" "$tree/usr/share/$place"
done
install -D -m 644 -t "$tree/lib/systemd/system" packaging/bqd.service packaging/bqd.socket packaging/bqd-web.service
install -D -m 644 packaging/bqd.default "$tree/etc/default/bqd"
install -D -m 644 packaging/bqd-web.default "$tree/etc/default/bqd-web"
install -D -m 644 packaging/needrestart.conf "$tree/etc/needrestart/conf.d/bqd.conf"
install -D -m 644 -t "$tree/usr/share/man/man1" packaging/bqd.1 packaging/bqctl.1 packaging/bqd-drain.1 packaging/bqd-top.1 packaging/bqd-web.1
install -D -m 644 -t "$tree/usr/share/doc/bqd" packaging/bq.1
python3 packaging/pages.py "$tree/usr/share/doc/bqd"
install -D -m 644 "$room/debian/changelog" "$tree/usr/share/doc/bqd/changelog"
install -D -m 644 LICENSE "$tree/usr/share/doc/bqd/copyright"
install -D -m 644 packaging/debian/lintian-overrides "$tree/usr/share/lintian/overrides/bqd"
gzip -9n "$tree"/usr/share/man/man1/*.1 "$tree/usr/share/doc/bqd/changelog"

# The package's control data, with the versions of the libraries that the programs need.
mkdir "$tree/DEBIAN"
cp packaging/debian/control "$room/debian/control"
(
    cd "$room"
    dpkg-shlibdeps -T"$room/substvars" "$tree/usr/bin/bqd" "$tree/usr/lib/bqd/bq"
    dpkg-gencontrol -pbqd -P"$tree" -T"$room/substvars" -f"$room/files"
)
printf '%s\n' /etc/default/bqd /etc/default/bqd-web /etc/needrestart/conf.d/bqd.conf > "$tree/DEBIAN/conffiles"
install -m 755 -t "$tree/DEBIAN" packaging/debian/postinst packaging/debian/prerm packaging/debian/postrm
(cd "$tree" && find . -path ./DEBIAN -prune -o -type f -printf '%P\0' | LC_ALL=C sort -z | xargs -0 md5sum > DEBIAN/md5sums)
dpkg-deb --root-owner-group --build "$tree" "$to/bqd_${version}_$(dpkg --print-architecture).deb"
