# Read by the scripts that try wrappers/over_cache. Gives `parts`, which runs scripts of this folder, each in a folder of its own, over a copy of
# the wrappers in which nothing was built.
. "$TOP/tests/support/needs.sh"
needs python3 sha256sum od
cp -R "$TOP/wrappers" wrappers
rm -f wrappers/over_cache_hit
CACHE_WRAPPERS=$PWD/wrappers
PYTHONPATH=$TOP/tests/support
PYTHONDONTWRITEBYTECODE=1
export CACHE_WRAPPERS PYTHONPATH PYTHONDONTWRITEBYTECODE
chmod -R a+rX wrappers
set -e

parts() {
    for part in "$@"; do
        mkdir "$part"
        chmod 755 "$part"
        (cd "$part" && python3 "$TOP/tests/support/$part.py")
    done
}
