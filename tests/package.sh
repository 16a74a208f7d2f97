# bin/package packs the program that the gate tried, and refuses any other; the same bytes at each call. The packages run as a
# user who may not read the repository, without HOME, from a read-only folder, without the toolchain. bin/package --check makes
# a package again and refuses one with one other byte.
. "$TOP/tests/support/launcher.sh"
. "$TOP/tests/support/needs.sh"
needs python3 gzip tar
real=$VUNIT_RUN
# (the launcher's own program)
[ "$(head -c 2 "$real")" != '#!' ] || real=$TOP/out/$(head -n 1 "$TOP/out/current")/vunit_run
unset BASH_ENV
cp -R "$TOP/docs" "$TOP/README.md" "$TOP/CHANGES.md" "$TOP/VERSION" "$TOP/wrappers" repo
rm -rf repo/examples
cp -R "$TOP/examples" repo
find repo -name __pycache__ -prune -exec rm -rf {} +
repo/bin/prove --sum 2>/dev/null
version=$(cat repo/VERSION)
tar=repo/out/packages/vunit_run-$version-x86_64.tar.gz
deb=repo/out/packages/vunit-run_${version}_amd64.deb

refuses() {
    try repo/bin/package
    same "$1: status" "$status $(ls repo/out/packages 2>/dev/null || :)" "126 "
    has "$1" "$said" "$2"
}
refuses "no gate" "there is no out/gate: .ci/run leaves it, once all has passed"
# what the gate leaves, of the program that these tests are run over
(
    bin=$PWD/repo/bin
    . "$bin/sources.sh"
    read_part programs
    enter_root
    find_commands
    find_toolchain
    sum_up
    mkdir "$out"
    put_program proved "$real"
    { cat "$out/$name/record"; echo "0 skipped:"; echo "3 passed, 0 failed"; } >"$out/gate"
)
cp repo/out/gate gate
sed -i 's/^3 passed, 0 failed/3 passed, 1 failed/' repo/out/gate
refuses "a gate that failed" "out/gate isn't of what is here: not all has passed"
cp gate repo/out/gate
cp "$main" source
echo '// other' >>"$main"
refuses "other sources" "out/gate isn't of what is here: it is of other sources"
cp source "$main"
folder=$(echo repo/out/proved-*)
cp "$folder/vunit_run" program
printf x >>"$folder/vunit_run"
refuses "another program" "out/gate isn't of what is here: it is of another program"
mv "$folder" away
refuses "no program" "out/gate isn't of what is here: it is of another program"
mv away "$folder"
cp program "$folder/vunit_run"
sed -i 's/^kind proved/kind checked/' repo/out/gate
refuses "a checked program" "out/gate isn't of what is here"
cp gate repo/out/gate

grep -q "x86-64 Linux with glibc $(sed -n 's/^glibc //p' gate) or later" repo/README.md || { echo "README.md names another processor or glibc than the program needs"; exit 1; }
has_deb=
! command -v dpkg-deb >/dev/null || has_deb=$deb
try repo/bin/package
same "the packages" "$status $(printf '%s\n' "$said" | grep -v 'no .deb is made')" "0 ${has_deb:+"$PWD/$deb
"}$PWD/$tar"
mkdir first
cp repo/out/packages/* first
# at another time, in another folder
mkdir elsewhere tmp
mv repo elsewhere
try env TMPDIR="$PWD/tmp" TZ=Asia/Tokyo elsewhere/repo/bin/package
mv elsewhere/repo .
same "the packages, once more" "$status $(ls tmp)" "0 "
diff -r first repo/out/packages
mkdir few
for tool in $(ls "$(path_without dpkg-deb)") tar gzip md5sum touch awk uname; do ln -sf "$(command -v "$tool")" "few/$tool"; done
try env PATH="$PWD/few" repo/bin/package
same "without dpkg-deb" "$status $(printf '%s\n' "$said" | head -n 1)" "0 vunit_run: the command dpkg-deb is missing, so no .deb is made"

# each package by itself
user=
chmod 755 .
if [ "$(id -u)" = 0 ]; then
    needs setpriv
    user="setpriv --reuid=65534 --regid=65534 --clear-groups"
fi
mkdir session
(cd session && VUNIT_RUN=$real sh "$TOP/tests/support/session.sh" README.md "A session")
cp session/wanted session/commands .
chmod 700 repo
! $user test -r repo/README.md || [ -z "$user" ] || { echo "the other user can read the repository"; exit 1; }
mkdir world
chmod 1777 world
runs() {
    chmod -R a-w "$2"
    (
        cd "$2"
        $user env -i PATH=/usr/bin:/bin TMPDIR="$OLDPWD/world" sh "$OLDPWD/commands"
    ) >printed 2>&1 </dev/null || :
    sed -E -f "$TOP/tests/support/told.sed" printed | diff wanted - || { echo "the session of README.md from $1"; exit 1; }
    rm -rf world/*
    try $user env -i PATH=/usr/bin:/bin "$3" --version
    same "--version of $1" "$status $said" "0 vunit_run $version
sources $(. "$TOP/tests/support/sum_of.sh")
toolchain rattle-kit-1 of the tests
proved, and tried by the gate, before it was packed
for x86-64 Linux with glibc $(sed -n 's/^glibc //p' gate) or later"
    try $user env -i PATH=/usr/bin:/bin "$3" -x out.xml --help
    same "--help of $1" "$status $(printf '%s\n' "$said" | tail -n 1)" "0 Manual: $(cd -P "$2" && pwd)/docs/user/MANUAL.md"
    try $user env -i PATH=/usr/bin:/bin "$3" --no-word-of-the-program
    same "a word that the program refuses, to $1" "$status" 2
    (cd "$2" && sha256sum --quiet -c SHA256SUMS) || { echo "SHA256SUMS of $1"; exit 1; }
    for command in "$TOP"/wrappers/*; do
        case ${command##*/} in *.*) continue ;; esac
        [ -f "$command" ] && [ -x "$command" ] || continue
        command=${3%/*}/${command##*/}
        [ -x "$command" ] || { echo "$1 has no $command"; exit 1; }
        # (without a request or a project each ends soon, whatever it says)
        try $user env -i PATH="${command%/*}:/usr/bin:/bin" timeout 60 "$command" </dev/null
        case $status in 124 | 126 | 127) echo "$command of $1 ends with $status: $said"; exit 1 ;; esac
        case $said in *Traceback* | *"isn't beside it"*) echo "$command of $1: $said"; exit 1 ;; esac
    done
    chmod -R u+w "$2"
    : >"$2/lib/vunit_run"
    try "$3" -f
    same "an emptied program of $1" "$status" 126
}
mkdir unpacked
tar -xzf "$tar" -C unpacked
same "what the .tar.gz has at its top" "$(ls -A unpacked)" "vunit_run-$version-x86_64"
[ -n "$(find unpacked -name '*.pyc')" ] || { echo "no compiled Python files"; exit 1; }
same "files that belong in no package" "$(find unpacked -name '.*' -o -name 'build.log' -o -name '*~' -o -name crates)" ""
runs "the .tar.gz" "unpacked/vunit_run-$version-x86_64" "$PWD/unpacked/vunit_run-$version-x86_64/bin/vunit_run"
chmod -R u+w unpacked
if [ -n "$has_deb" ]; then
    mkdir installed
    dpkg-deb -x "$deb" installed
    runs "the .deb" installed/usr/lib/vunit_run "$PWD/installed/usr/bin/vunit_run"
    chmod -R u+w installed
    [ -r installed/usr/share/doc/vunit-run/user/MANUAL.md ] || { echo "the .deb has no manual where documents are"; exit 1; }
    same "what the .deb needs" "$(dpkg-deb -f "$deb" Architecture Depends Maintainer)" "Architecture: amd64
Depends: libc6 (>= $(sed -n 's/^glibc //p' gate))
Maintainer: the vunit_run project"
    # an installation starts it once
    if [ "$(id -u)" = 0 ] && command -v dpkg >/dev/null; then
        installs() {
            rm -rf system
            mkdir -p system/var/lib/dpkg/updates system/var/lib/dpkg/info
            : >system/var/lib/dpkg/status
            try env PATH="/usr/sbin:/sbin:$PATH" dpkg --root="$PWD/system" --force-depends --force-script-chrootless --log=/dev/null -i "$1"
        }
        installs "$deb"
        same "an installation" "$status $(system/usr/bin/vunit_run --version | head -n 1)" "0 vunit_run $version"
        mkdir broken
        dpkg-deb -R "$deb" broken
        printf '#!/bin/sh\nexit 1\n' >broken/usr/lib/vunit_run/lib/vunit_run
        dpkg-deb --root-owner-group --build broken broken.deb >/dev/null
        installs broken.deb
        [ "$status" -ne 0 ] || { echo "a program that doesn't run is installed"; exit 1; }
        has "a program that doesn't run" "$said" "vunit_run doesn't run here (status 1): it needs x86-64 Linux with glibc"
    else
        echo "not tried: an installation, which needs dpkg and root"
    fi
fi

# the record, and one byte that is exchanged
chmod 755 repo
checks() {
    try repo/bin/package --check "$1"
}
for file in $tar $has_deb; do
    checks "$file"
    same "a check of ${file##*/}" "$status $said" "0 vunit_run: $file is what this checkout gives"
    size=$(stat -c %s "$file")
    for at in 9 $((size / 5)) $((size / 2)) $((size * 4 / 5)) $((size - 2)); do
        cp "$file" "other.${file##*.}"
        byte=$(od -A n -t u1 -j "$at" -N 1 "$file")
        # shellcheck disable=SC2059
        printf "$(printf '\\%03o' $((byte ^ 1)))" | dd of="other.${file##*.}" bs=1 seek="$at" conv=notrunc status=none
        checks "other.${file##*.}"
        same "byte $at of ${file##*/} is another" "$status" 1
    done
done
# in a file of the package, which is packed again
rm -rf unpacked/* again
tar -xzf "$tar" -C unpacked
for path in lib/vunit_run PROOF SHA256SUMS wrappers/over_engine bin/vunit_run docs/user/MANUAL.md; do
    cp -a unpacked again
    file=$(echo again/*)/$path
    size=$(stat -c %s "$file")
    byte=$(od -A n -t u1 -j $((size - 3)) -N 1 "$file")
    # shellcheck disable=SC2059
    printf "$(printf '\\%03o' $((byte ^ 1)))" | dd of="$file" bs=1 seek=$((size - 3)) conv=notrunc status=none
    tar -C again --sort=name --owner=0 --group=0 --numeric-owner -c "vunit_run-$version-x86_64" | gzip -9 -n >other.gz
    checks other.gz
    same "a byte of $path is another" "$status" 1
    rm -rf again
done
# of another checkout
echo '// other' >>"$main"
checks "$tar"
same "a package of other sources" "$status $said" "1 vunit_run: $tar: of its record: it is of other sources"
cp source "$main"
echo "more" >>repo/wrappers/over_engine
checks "$tar"
same "a package of another wrapper" "$status" 1
checks "$TOP/README.md"
same "no package" "$status" 1
try repo/bin/package --other
same "another word" "$status" 2
