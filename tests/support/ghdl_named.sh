# Gives `tried_with`, which prints the line that names the GHDL in PATH.
tried_with() {
    ghdl --version 2>/dev/null | sed -n -e '1s/^GHDL \([^ ]*\).*/\1/p' -e 's/^ *\(.*\) code generator.*/\1/p' | tr '\n' ' ' |
        sed -e 's/^/tried with GHDL /' -e 's/ *$//'
    echo
}
