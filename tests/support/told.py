"""The lines of standard error that most tests of the program pass over."""
import re

# The lines of warnings, of failures as they come, of counts, of words and patterns, and of places in sources.
TOLD = re.compile(rb"vunit_run: (?:\[\d+/\d+\] |warning: (?:nothing is |no test |.*vunit\.toml:|.* lies behind a link|.* lines dropped|records that )|a folder's name has |it said: |fail |failed |tests passed: |wrong |there is no value for |--help says |PATTERN: |-.*: |.* stands twice$|process \d+ has locked )"
                  rb"|vunit_run: .*: (?:an absolute path|a part \.\.?) matches nothing: |vunit_run: .* is a link to a folder, which no pattern enters$"
                  rb"|vunit\.toml:\d+:\d+: |.*:\d+:\d+: (?:no unit |no architecture |use of |.* is declared here$)")


def without_told(error):
    """Standard error without these lines, which program_messages tries."""
    return b"".join(line for line in error.splitlines(keepends=True) if not TOLD.match(line))
