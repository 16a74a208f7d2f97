"""What the words of ghdl_bench say of one run: which of them its simulation gets, its generics, its hooks, and the data files that
it declares. Every tool that asks what a run depends on reads the words by this file.

    -gNAME=VALUE         a generic, of each bench that declares it
    --in=PATTERN:WORDS   words of the benches or cases that a pattern names; cut at the first `:-`, with blanks between the words
    --before=COMMAND     a command before the simulation, and
    --after=COMMAND      one after it
    --data=PATTERN       files below the project that the bench reads
    --key=WORD           nothing: it makes a request another one
    --configuration=NAME the words behind it are those of a configuration

A word of `--in` or of a configuration is strict: the bench has to have the generic."""

# Why it is so:
# The simulator's words and request contain everything that a run gets, so a tool that keeps verdicts by these keeps one for
# each configuration. A variable of the environment, or a file that the wrapper looks for, would escape it.

# (Modules that few runs need are imported where they are needed: a start is short.)

# The generics that the runner fills in, and nobody else.
OF_THE_RUNNER = (b"runner_cfg", b"output_path")
IN, BEFORE, AFTER, DATA, KEY, CONFIGURATION = b"--in=", b"--before=", b"--after=", b"--data=", b"--key=", b"--configuration="


class WrongWord(Exception):
    """The fault of a word, without a line feed."""


class BenchRun:
    """A run: the cases of a bench that one simulation has, and its folder where that is known. By the folder it is seen whether it
    is that of all cases of its bench, in one simulation."""

    def __init__(self, library, bench, cases, folder=None):
        self.name, self.cases, self.folder = b"%s.%s" % (library, bench), cases, folder

    def is_in_one(self, configuration):
        from bench_request import run_folder

        name = self.name if configuration is None else b"%s.%s" % (self.name, configuration)
        return bool(self.cases) and self.folder == run_folder(name)

    def is_named(self, pattern, word, configuration):
        """Whether a pattern names this bench or its case."""
        from name_patterns import NamePattern

        names = NamePattern(pattern)
        if names.matches(self.name):
            return True
        if not any(names.matches(b"%s.%s" % (self.name, case)) for case in self.cases or [b"all"]):
            return False
        if self.is_in_one(configuration):
            raise WrongWord(b"%s names a case of %s, whose cases run in one simulation: name the bench" % (word, self.name))
        return True


def is_generic_name(name):
    """Whether GHDL takes this name in -g: with an extended one it fails itself."""
    return name[:1].isalpha() and name.replace(b"_", b"0").isalnum()


class Generic:
    """A value for a generic; `is_strict` is that the bench has to declare it."""

    def __init__(self, word, is_strict):
        name, equals, self.value = word[2:].partition(b"=")
        self.name, self.word, self.is_strict = name.lower(), word, is_strict
        if not (equals and is_generic_name(name)):
            raise WrongWord(b"%s isn't -gNAME=VALUE, with a name that isn't extended" % word)
        if not self.value:
            raise WrongWord(b"%s has no value: GHDL takes none that is empty" % word)
        if self.name in OF_THE_RUNNER:
            raise WrongWord(b"%s isn't for the project file: it names a file, a library or the runner's generic" % word)


def data_pattern(word):
    """The pattern of a word --data, which may be empty."""
    pattern = word[len(DATA) :]
    if pattern and any(part in (b"", b".", b"..") for part in pattern.split(b"/")):
        raise WrongWord(b"%s doesn't name files below the project" % word)
    return pattern


class GivenWords:
    """The words of one run, by what they are for. `plain` has the words of GHDL and of limits; `data` is None unless the words
    mention data files."""

    def __init__(self, words, run):
        self.run, self.plain, self.generics, self.before, self.after = run, [], {}, [], []
        self.data, self.configuration = None, None
        own, behind = words, []
        for at, word in enumerate(words):
            if word.startswith(CONFIGURATION):
                own, behind, self.configuration = words[:at], words[at + 1 :], word[len(CONFIGURATION) :]
                if not self.configuration:
                    raise WrongWord(b"%s has no name" % word)
                break
        selected = []
        for word in own:
            if word.startswith(IN):
                selected += self.selected(word)
            else:
                self.add(word, False)
        for word in [*selected, *behind]:
            if word.startswith((IN, CONFIGURATION)):
                raise WrongWord(b"%s stands within words of --in or of a configuration" % word)
            self.add(word, True)

    def selected(self, word):
        """The words that a word --in has for this run."""
        pattern, cut, words = word[len(IN) :].partition(b":-")
        if not (pattern and cut):
            raise WrongWord(b"%s isn't --in=PATTERN:WORDS, of which each word begins with -" % word)
        found = [part for part in (b"-" + words).split(b" ") if part]
        if wrong := next((part for part in found if not part.startswith(b"-")), None):
            raise WrongWord(b"%s isn't --in=PATTERN:WORDS: %s doesn't begin with -" % (word, wrong))
        return found if self.run.is_named(pattern, word, self.configuration) else []

    def add(self, word, is_strict):
        if word.startswith(b"-g"):
            generic = Generic(word, is_strict)
            self.generics[generic.name] = generic
        elif word.startswith((BEFORE, AFTER)):
            hooks = self.before if word.startswith(BEFORE) else self.after
            command = word.partition(b"=")[2]
            if not command.strip():
                raise WrongWord(b"%s has no command" % word)
            hooks.append(command)
        elif word.startswith(DATA):
            self.data = [*(self.data or []), *filter(None, [data_pattern(word)])]
        elif not word.startswith(KEY):
            self.plain.append(word)

    def generics_for(self, declared, is_declared):
        """The generics for a bench that declares these. `is_declared` tells whether some bench of the request has a generic."""
        found = []
        for generic in self.generics.values():
            if generic.name in declared:
                found.append(generic)
            elif generic.is_strict:
                raise WrongWord(b"%s: the bench %s has no generic %s" % (generic.word, self.run.name, generic.name))
            elif not is_declared(generic.name):
                raise WrongWord(b"%s: no bench among the files has a generic %s (with -m, use --in=LIBRARY.BENCH:%s)"
                                % (generic.word, generic.name, generic.word))
        return found
