"""What the words of ghdl_bench give to one run of a bench beside words for GHDL and limits: values of its generics, and hooks.
(Most runs have neither, so that this is imported where it is needed.)"""

from bench_request import pairs_of
from bench_words import BenchRun, GivenWords, WrongWord
from ghdl_bench import FILLED_IN, untaken
from ghdl_keeper import Refused
from ghdl_library import entities_of
from vhdl_generics import generics_of


def has_bench_with(used, generic):
    """Whether some bench among the files, an entity with the generic runner_cfg, has this generic."""
    for built in used.files:
        entities = list(entities_of(built.units))
        source = used.source(built) if entities else b""
        lowered = source.lower()
        if b"runner_cfg" in lowered and generic in lowered:
            if any({b"runner_cfg", generic}.issubset(generics_of(source, place, name)) for name, place in entities):
                return True
    return False


class Given:
    """What a run is given: `plain` words, `values` of generics, and the commands `before` and `after`."""

    def __init__(self, room, used, bench):
        self.room, self.bench = room, bench
        try:
            given = GivenWords(bench.words, BenchRun(bench.library, bench.name, bench.cases, bench.folder))
            self.plain, self.before, self.after = given.plain, given.before, given.after
            self.configuration = given.configuration or b""
            declared = generics_of(*used.entity(bench.library, bench.name), bench.name)
            chosen = given.generics_for(declared, lambda generic: has_bench_with(used, generic))
        except WrongWord as wrong:
            raise Refused(b"ghdl_bench: %s\n" % wrong.args[0]) from None
        values = {name: path for name, path in zip(FILLED_IN, self.paths()) if name in declared}
        values.update({generic.name: generic.value for generic in chosen})
        self.values = {name: value.replace(b"{output}", bench.folder + b"/") for name, value in values.items()}
        for name, value in self.values.items():
            if (found := untaken(value)) is not None:
                raise Refused(b"ghdl_bench: GHDL takes no byte %d in a generic: %s=%s\n" % (found, name, value))

    def paths(self):
        """The folder of the bench's file, and that of the run, as absolute paths with a slash behind."""
        project = self.room.present.rstrip(b"/") + b"/"
        tb_path = pairs_of(self.bench.configuration).get(b"tb path", b"")
        return project + tb_path, project + self.bench.folder + b"/"

    def generics(self):
        """The words by which GHDL gets the values."""
        return [b"-g%s=%s" % value for value in self.values.items()]
