# Read if one of the words may ask for help or for the version, by bin/vunit_run and by the launcher of a package; each defines
# print_version. These words are answered before the program is reached. Nothing is built for that, or waited for.

# Sets asked to the first word that asks: a word of its own before `--`, not an option's value, and not behind child-analyse or
# child-bench. In a word of several letters, x and p take what is behind them for their value, or the next word.
find_asked() {
    asked=
    while [ $# -gt 0 ]; do
        word=$1
        shift
        case $word in
            -h | --help | --version) asked=$word; return ;;
            -- | child-analyse | child-bench) return ;;
            --xunit-xml | --export-json | --num-threads | --generate) [ $# -eq 0 ] || shift ;;
            --*) ;;
            -*)
                letters=${word%%[xp]*}
                [ "$word" != "${letters}x" ] && [ "$word" != "${letters}p" ] || [ $# -eq 0 ] || shift
                ;;
        esac
    done
}

answer_words() {
    find_asked "$@"
    case $asked in
        '') return ;;
        --version) print_version ;;
        *) print_help ;;
    esac
    exit 0
}

print_help() {
    cat <<'END'
usage: vunit_run [OPTION ..] [PATTERN ..]

Compiles the VHDL project in the present folder (vunit.toml or vunit.csv), and runs the tests whose full name
LIBRARY.BENCH.CASE matches one of the patterns; all of them without a pattern.

  -l, --list               list the tests
  -f, --files              list the files in compile order
      --compile            compile what is out of date, and run no test
  -m, --minimal            only the files that the tests need
  -k, --keep-compiling     go on after a refused file, without what depends on it
      --clean              compile all files anew
  -p N, --num-threads N    at most N compilers or simulators at once, 1 to 64; 1 if it isn't given
      --fail-fast          start no test once one has not passed
      --exit-0             end with 0 although a test has not passed
  -v, --verbose            show what each simulator printed
  -q, --quiet              show what no simulator printed
  -x FILE, --xunit-xml FILE
                           write the verdicts to FILE as JUnit XML
      --export-json FILE   write files and tests to FILE for editors and scripts
      --generate N         try the program with a project of N packages in memory
  -h, --help               print this text
      --version            print the version, and whether it is proved

Exit status: 0 all is well; 1 a test has not passed, or the sources or a file are refused; 2 no command line;
3 something outside failed; 4 out of memory; 5 over a limit; 126 and 127 there is no program to run;
132 the program has a fault (please report it).

END
    echo "Manual: $(cd -P -- "$bin/.." && pwd -P)/docs/user/MANUAL.md"
}
