# Read by the wrappers in sh, which users name and link to: `start` runs the Python module of the same name beside them. It starts
# the interpreter itself: a python3 that is a script, as the shim of pyenv is, would start some 40 processes for each file.
# The head of a wrapper is in sh and finds the interpreter, and a module is compiled once: the shims of `env python3` take
# three times as long as all else.

is_script() {
    IFS= read -r first_line <"$1"
    case $first_line in '#!'*) return 0 ;; esac
    return 1
}

# Sets python to the first python3 in PATH that is not a script, and shim to the first one that is; otherwise both to nothing.
look_in_path() {
    python=
    shim=
    before=$IFS
    IFS=:
    set -f
    for folder in ${PATH-}; do
        candidate=${folder:-.}/python3
        if [ -f "$candidate" ] && [ -x "$candidate" ]; then
            is_script "$candidate" || { python=$candidate; break; }
            shim=${shim:-$candidate}
        fi
    done
    set +f
    IFS=$before
}

# Sets python to the last interpreter that lies beside a shim in the way of pyenv, if there is one.
look_beside_shim() {
    for candidate in "${shim%/shims/python3}"/versions/*/bin/python3; do
        [ ! -x "$candidate" ] || is_script "$candidate" || python=$candidate
    done
}

# Ends a wrapper, named first, that can't begin. (The runner writes the whole request before it reads.)
give_up() {
    printf '%s: %s\n' "$1" "$2" >&2
    while read -r line; do :; done
    exit 75
}

start() {
    look_in_path
    [ -n "$python" ] || [ -z "$shim" ] || look_beside_shim
    [ -n "$python$shim" ] || give_up "$1" "there is no command python3"
    module=$1
    shift
    exec "${python:-$shim}" -IS "$wrappers/start_module.py" "$module" "$shim" "$@"
}
