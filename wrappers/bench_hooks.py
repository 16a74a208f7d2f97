"""The hooks of a run: commands of the user before and after its simulation. docs/user/GHDL.md has what they are told and may do."""

# Why it is so:
# A failed hook after the simulation removes the results, so every case of the run has failed. By the exit code only the last
# one would.

import os

from bench_words import AFTER, BEFORE
from ghdl_keeper import KEEPER, Refused
from run_data import PASSED, verdicts_of

# What Linux takes as one variable, and what of a command is shown.
VARIABLE_LIMIT, SHOWN = 131_071, 200


class Hooks:
    """The hooks of one run. `ended_by` gives the words for a limit that was passed. `log` is the file with the output of the
    hooks that ran last."""

    def __init__(self, given, limits, ended_by):
        bench = given.bench
        self.given, self.bench, self.limits, self.ended_by, self.log = given, bench, limits, ended_by, None
        tb_path, output_path = given.paths()
        self.variables = [b"BENCH_PROJECT=" + given.room.present, b"BENCH_LIBRARY=" + bench.library, b"BENCH_NAME=" + bench.name,
                          b"BENCH_CASES=" + b"\n".join(bench.cases), b"BENCH_OUTPUT_PATH=" + output_path,
                          b"BENCH_TB_PATH=" + tb_path, b"BENCH_CONFIGURATION=" + given.configuration]
        self.variables += [b"BENCH_GENERIC_%s=%s" % value for value in given.values.items()]

    def run_before(self):
        """The message about the first hook before the simulation that has failed. Only the bench itself leaves results."""
        said = self.run(BEFORE, self.given.before, self.variables)
        self.remove_results()
        return said

    def run_after(self, code):
        """The message about the first hook that has failed after a simulation with this code, and whether all cases had passed
        before it. None has any more."""
        verdicts = verdicts_of(self.bench.cases, self.bench.results, code)
        has_passed = all(verdict == PASSED for _, verdict in verdicts)
        said = self.run(AFTER, self.given.after, [*self.variables, b"BENCH_VERDICT=" + (b"pass" if has_passed else b"fail")])
        if said:
            self.remove_results()
        return said, bool(said) and has_passed

    def remove_results(self):
        try:
            os.unlink(self.bench.results)
        except FileNotFoundError:
            pass

    def run(self, word, commands, variables):
        self.log = os.path.join(self.bench.folder, word.strip(b"-=") + b".txt")
        if commands and (longest := max(map(len, variables))) > VARIABLE_LIMIT:
            raise Refused(b"ghdl_bench: a hook would be told a text of %d bytes, which is more than a command takes\n" % longest)
        for command in commands:
            code, why = self.given.room.run_hook(command, variables, self.log, self.limits)
            if code or why:
                return self.said(word.rstrip(b"="), command, code, why)
        return b""

    def said(self, word, command, code, why):
        if why == KEEPER:
            how = b"was ended with the process that watches over it"
        elif why:
            how = b"was ended, since it " + self.ended_by(why).rstrip(b"\n")
        else:
            how = b"was ended by signal %d" % -code if code < 0 else b"ended with %d" % code
        shown = command if len(command) <= SHOWN else command[:SHOWN] + b" .."
        return b"ghdl_bench: %s %s: %s\n" % (word, how, shown.replace(b"\n", b" "))
