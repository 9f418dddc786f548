#!/usr/bin/env bash
# Makes a release of the commit that is checked out: an archive and a Debian package.
#   packaging/release.sh VERSION LOG
# LOG is what tests/gate.sh printed of this commit. Both files come to packaging/out, with their SHA-256. The
# same commit, log and programs give the same bytes.
set -euo pipefail
export LC_ALL=C TZ=UTC
umask 022
version=${1:?packaging/release.sh VERSION LOG} log=$(realpath "${2:?packaging/release.sh VERSION LOG}")
cd "$(dirname "$(realpath "$0")")/.."
programs=(crates/regatta/out/regatta crates/times/out/times)

refuse() {
    echo "no release: $*" >&2
    exit 1
}

# What keeps this commit from being released.
check() {
    local name line
    for name in git python3 tar xz gzip dpkg-deb; do
        command -v "$name" > /dev/null || refuse "there is no $name here"
    done
    [[ -z $(git status --porcelain) ]] || refuse "the tree has changes that aren't committed"
    [[ -r $log ]] || refuse "$log can't be read"
    line=$(grep '^commit ' "$log" | sort -u || true)
    [[ $line == "commit $commit" ]] || refuse "the log is of '$line', and not of commit $commit"
    line=$(tail -n 1 "$log")
    [[ $line =~ ^[1-9][0-9]*\ passed,\ 0\ failed$ ]] || refuse "the log ends in '$line'"
    kit=$(sed -n 's/^kit //p;T;q' "$log")
    [[ -n $kit ]] || refuse "the log names no kit"
    for name in "${programs[@]}"; do
        [[ -x $name ]] || refuse "there is no program at $name"
        grep -qxF "$(sha256sum "$name")" "$log" || refuse "$name isn't the program of the log"
    done
    line=$(git show HEAD:raceoffice/version.py | sed -n 's/^VERSION = "\(.*\)"$/\1/p')
    [[ $version == "$line" ]] || refuse "raceoffice/version.py says $line, and not $version"
}

# What both have, below one folder: bin and share.
common() {
    local documents=share/doc/regatta
    mkdir -p "$tree/bin" "$tree/share/raceoffice" "$tree/share/applications" "$tree/$documents"
    git archive HEAD raceoffice | tar -xC "$tree/share/raceoffice"
    git rev-parse --short=12 HEAD > "$tree/share/raceoffice/raceoffice/commit.txt"
    install -m 755 "$source/packaging/raceoffice" "$tree/bin/raceoffice"
    install -m 755 "${programs[0]}" "$tree/bin/regatta"
    install -m 755 "${programs[1]}" "$tree/bin/regatta-times"
    python3 -B "$source/packaging/manual.py" "$(date -d "@$SOURCE_DATE_EPOCH" +%F)" "$tree/share/man/man1" \
        "$tree/share/bash-completion/completions/raceoffice" "$tree/bin/regatta" "$tree/bin/regatta-times"
    gzip -9n "$tree"/share/man/man1/*.1
    python3 -B "$source/packaging/pages.py" "$source/docs" "$tree/$documents/html"
    install -m 644 "$source/packaging/raceoffice.desktop" "$tree/share/applications/raceoffice.desktop"
    proof > "$tree/$documents/PROOF"
    find "$tree/share" -type f -exec chmod 644 {} +
}

# What was proved and tried, and by what.
proof() {
    echo "Regatta $version"
    echo
    echo "commit  $commit"
    echo "kit     $kit"
    (cd "$tree/bin" && sha256sum regatta regatta-times)
    echo
    echo "What the gate says of its parts:"
    echo
    grep -E '^rt: ok|^[0-9]+ passed, [0-9]+ failed$' "$log" | sed 's/^/    /'
    echo
    echo "Its last lines:"
    echo
    tail -n 20 "$log" | sed 's/^/    /'
}

# Gives all of a folder the date of the commit, and modes that no umask changes.
settle() {
    chmod -R u=rwX,go=rX "$1"
    find "$1" -exec touch -hd "@$SOURCE_DATE_EPOCH" {} +
}

archive() {
    local name=regatta-$version-x86_64
    cp -R "$tree" "$room/$name"
    cp /usr/share/common-licenses/Apache-2.0 "$room/$name/LICENSE"
    cp "$source/packaging/debian/copyright" "$room/$name/COPYRIGHT"
    cp "$source/packaging/INSTALL" "$room/$name/INSTALL"
    (cd "$room/$name" && find . -type f -printf '%P\n' | sort | xargs sha256sum) > "$room/sums"
    mv "$room/sums" "$room/$name/SHA256SUMS"
    settle "$room/$name"
    tar -C "$room" --sort=name --format=gnu --owner=0 --group=0 --numeric-owner -c "$name" \
        | xz -1 -T1 --check=crc64 > "$room/$name.tar.xz"
}

debian_package() {
    local root=$room/root documents=$room/root/usr/share/doc/regatta libc size file
    mkdir -p "$root/DEBIAN" "$root/usr/share/lintian/overrides"
    cp -R "$tree"/. "$root/usr"
    install -m 644 "$source/packaging/debian/copyright" "$documents/copyright"
    install -m 644 "$source/packaging/debian/lintian-overrides" "$root/usr/share/lintian/overrides/regatta"
    sed "s/@version@/$version/; s/@commit@/$commit/; s/@date@/$(date -R -d "@$SOURCE_DATE_EPOCH")/" \
        "$source/packaging/debian/changelog" | gzip -9n > "$documents/changelog.Debian.gz"
    # The newest GLIBC that the programs name is the least that they need.
    size=$(du -sk --apparent-size "$root/usr" | cut -f 1)
    libc=$(grep -aoh 'GLIBC_2\.[0-9.]*' "${programs[@]}" | sort -uV | tail -n 1)
    sed "s/@version@/$version/; s/@libc@/${libc#GLIBC_}/; s/@size@/$size/" \
        "$source/packaging/debian/control" > "$root/DEBIAN/control"
    for file in postinst prerm; do
        install -m 755 "$source/packaging/debian/$file" "$root/DEBIAN/$file"
    done
    (cd "$root" && find usr -type f | sort | xargs md5sum > DEBIAN/md5sums)
    settle "$root"
    dpkg-deb --root-owner-group --threads-max=1 -Zxz -z1 --build "$root" "$room/regatta_$version-1_amd64.deb"
}

commit=$(git rev-parse HEAD)
SOURCE_DATE_EPOCH=$(git log -1 --format=%ct)
export SOURCE_DATE_EPOCH
check
room=$(mktemp -d)
trap 'rm -rf "$room"' EXIT
tree=$room/tree source=$room/source
mkdir "$source"
git archive HEAD | tar -xC "$source"
common
archive
debian_package > "$room/printed"
mkdir -p packaging/out
mv "$room"/*.tar.xz "$room"/*.deb packaging/out
cd packaging/out
sha256sum "regatta-$version-x86_64.tar.xz" "regatta_$version-1_amd64.deb" | tee SHA256SUMS
