"""Reads the command line of vunit_run, for tools that run it with other patterns or reports. docs/user/MANUAL.md has its words."""

FLAGS = {"l": "list", "f": "files", "m": "minimal", "k": "keep-compiling", "v": "verbose", "q": "quiet"}
VALUED = {"p": "num-threads", "x": "xunit-xml"}
LONG_FLAGS = [*FLAGS.values(), "compile", "fail-fast", "clean", "exit-0"]
LONG_VALUED = [*VALUED.values(), "export-json", "generate"]
AT_ONCE_LIMIT = 64


class WrongWords(Exception):
    """Which word vunit_run does not know."""


class RunnerWords:
    """The words of a command line: `flags`, `values` by their long names, and `patterns`."""

    def __init__(self, words):
        self.flags, self.values, self.patterns, self.left = set(), {}, [], list(words)
        while self.left:
            word = self.left.pop(0)
            if word == "--":
                self.patterns += self.left
                self.left = []
            elif word.startswith("--"):
                self.take_long(word)
            elif word.startswith("-") and word != "-":
                self.take_letters(word)
            else:
                self.patterns.append(word)
        number = self.values.get("num-threads", "1")
        self.at_once = int(number) if number.lstrip("+").isdecimal() and number.isascii() else 0
        if not 1 <= self.at_once <= AT_ONCE_LIMIT:
            raise WrongWords(f"-p takes a number from 1 to {AT_ONCE_LIMIT}")

    def take_long(self, word):
        name, equals, value = word[2:].partition("=")
        if name in LONG_VALUED:
            self.give(name, value if equals else self.next_value(word))
        elif name in LONG_FLAGS and not equals:
            self.set(name)
        else:
            raise WrongWords(f"{word} is no word of vunit_run")

    def take_letters(self, word):
        """Letters behind one dash: flags, and at the end an option whose value follows there or as the next word."""
        for at, letter in enumerate(word[1:], 2):
            if letter in VALUED:
                rest = word[at:]
                self.give(VALUED[letter], (rest[1:] if rest.startswith("=") else rest) or self.next_value(word, rest))
                return
            if letter not in FLAGS:
                raise WrongWords(f"{word} is no word of vunit_run")
            self.set(FLAGS[letter])

    def next_value(self, word, rest=""):
        if rest or not self.left or (self.left[0].startswith("-") and self.left[0] != "-"):
            raise WrongWords(f"{word} has no value")
        return self.left.pop(0)

    def set(self, name):
        if name in self.flags:
            raise WrongWords(f"--{name} stands twice")
        self.flags.add(name)

    def give(self, name, value):
        if name in self.values:
            raise WrongWords(f"--{name} stands twice")
        self.values[name] = value

    def mode(self):
        """The task: of several modes the first of this list counts."""
        for name in ("generate", "export-json"):
            if name in self.values:
                return name
        return next((name for name in ("list", "files", "compile") if name in self.flags), "run")

    def words(self, without=(), more=()):
        """The words of a command line that says the same, without some options and with more of them, and no patterns."""
        said = [f"--{name}" for name in LONG_FLAGS if name in self.flags and name not in without]
        said += [f"--{name}={value}" for name, value in self.values.items() if name not in without]
        return [*said, *more]
