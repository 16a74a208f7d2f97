"""Makes a VHDL project from a seed: make(FOLDER, SEED, FILES, LINES) writes `vunit.toml` and FILES files of at least LINES
lines. Names of files are by chance, so the order of compilation has to be found."""

import os, random

LIBRARIES = ["low", "mid", "top"]
FILLED = """  process
    variable v{n} : integer := {n};
  begin
    for i in 0 to 7 loop
      if i mod 2 = 0 then
        v{n} := v{n} + i;
      else
        v{n} := v{n} - 1;
      end if;
    end loop;
    wait;
  end process;
"""


class Project:
    def __init__(self, seed, lines):
        self.random, self.lines = random.Random(seed), lines
        # whether there are generic packages, whose instances need bodies
        self.bodies = seed % 2 == 1
        # units so far: library and name, and what else of them their users and secondary units need
        self.constants, self.owed_bodies, self.generics, self.contexts = [], [], [], []
        self.entities, self.architectures, self.configurations = [], [], []
        self.count = 0

    def some(self, units, most):
        return self.random.sample(units, self.random.randint(0, min(most, len(units))))

    def seen(self, library, used):
        """Context items for the libraries of these units, and how each unit is named after them."""
        others = sorted({unit[0] for unit in used} - {library})
        names = [("work" if unit[0] == library else unit[0]) + "." + unit[1] for unit in used]
        return "".join(f"library {other};\n" for other in others), names

    def value(self, names):
        return " + ".join(["1", *(f"{name}.c" for name in names)])

    def filled(self, form):
        return "".join(form.format(n=n) for n in range(-(-max(self.lines - 9, 0) // form.count("\n"))))

    def unit(self):
        """The library and the text of one more unit."""
        self.count += 1
        library, name = self.random.choice(LIBRARIES), f"u{self.count}"
        kinds = ["package", "package", "entity"] + ["generic"] * self.bodies
        kinds += 3 * ["body"] * bool(self.owed_bodies) + 3 * ["architecture"] * bool(self.entities)
        kinds += ["instance"] * bool(self.generics) + ["context"] * bool(self.constants)
        kinds += ["configuration"] * bool(self.architectures)
        return getattr(self, self.random.choice(kinds))(library, name)

    def package(self, library, name):
        items, names = self.seen(library, used := self.some(self.constants, 3))
        used_contexts = self.some(self.contexts, 1)
        for other in used_contexts:
            items += (f"library {other[0]};\n" if other[0] != library else "") + self.context_name(library, other)
        self.constants.append((library, name))
        self.owed_bodies.append((library, name, "package"))
        return library, (
            f"{items}package {name} is\n  constant c : integer := {self.value(names)};\n"
            + self.filled("  constant c{n} : integer := {n} * 3;\n")
            + f"  function f return integer;\nend package {name};\n"
        )

    def context_name(self, library, other):
        return f"context {'work' if other[0] == library else other[0]}.{other[1]};\n"

    def generic(self, library, name):
        self.generics.append((library, name))
        self.owed_bodies.append((library, name, "generic"))
        return library, (
            f"package {name} is\n  generic (n : integer);\n  constant c : integer := n;\n"
            + self.filled("  constant c{n} : integer := n * {n};\n")
            + f"  function f return integer;\nend package {name};\n"
        )

    def body(self, *_):
        library, name, _ = owner = self.random.choice(self.owed_bodies)
        self.owed_bodies.remove(owner)
        # (what is older than the package doesn't use it, so there is no circle)
        older = [unit for unit in self.constants if int(unit[1][1:]) < int(name[1:])]
        items, names = self.seen(library, self.some(older, 2))
        return library, (
            f"{items}package body {name} is\n  function f return integer is\n  begin\n    return {self.value(names)};\n"
            "  end function f;\n"
            + self.filled("  constant b{n} : integer := {n};\n")
            + f"end package body {name};\n"
        )

    def instance(self, library, name):
        # (GHDL needs its body, which may be owed: it comes with the instance)
        of = self.random.choice(self.generics)
        texts = []
        if (*of, "generic") in self.owed_bodies:
            self.owed_bodies.remove((*of, "generic"))
            library = of[0]
            texts.append(
                f"package body {of[1]} is\n  function f return integer is\n  begin\n    return n;\n"
                f"  end function f;\nend package body {of[1]};\n"
            )
        items, names = self.seen(library, [of, *self.some(self.constants, 1)])
        self.constants.append((library, name))
        texts.append(f"{items}package {name} is new {names[0]} generic map (n => {self.value(names[1:])});\n")
        return library, "".join(texts)

    def context(self, library, name):
        used = self.some(self.constants, 3) or [self.constants[0]]
        lines = [f"  library {other};\n" for other in sorted({unit[0] for unit in used})]
        lines += [f"  use {unit[0]}.{unit[1]}.all;\n" for unit in used]
        self.contexts.append((library, name))
        return library, f"context {name} is\n{''.join(lines)}end context {name};\n"

    def entity(self, library, name):
        items, names = self.seen(library, self.some(self.constants, 3))
        self.entities.append((library, name))
        return library, (
            f"{items}entity {name} is\n  generic (g : integer := {self.value(names)});\n"
            + self.filled("  constant c{n} : integer := {n} + g;\n")
            + f"end entity {name};\n"
        )

    def architecture(self, _, name):
        library, owner = self.random.choice(self.entities)
        items, names = self.seen(library, self.some(self.constants, 3))
        lines = [f"  constant k : integer := {self.value(names)};\nbegin\n"]
        for number, (kind, of, used) in enumerate(
            [("entity", None, unit) for unit in self.some(self.entities, 2) if unit != (library, owner)]
            + [("entity", unit[2], unit) for unit in self.some(self.architectures, 1) if unit[:2] != (library, owner)]
            + [("configuration", None, unit) for unit in self.some(self.configurations, 1)]
        ):
            more, (used_name,) = self.seen(library, [used])
            items += more
            lines.append(f"  i{number} : {kind} {used_name}{f'({of})' if of else ''};\n")
        self.architectures.append((library, owner, name))
        return library, (
            f"{items}architecture {name} of {owner} is\n{''.join(lines)}{self.filled(FILLED)}end architecture {name};\n"
        )

    def configuration(self, _, name):
        library, owner, architecture = self.random.choice(self.architectures)
        self.configurations.append((library, name))
        return library, f"configuration {name} of {owner} is\n  for {architecture}\n  end for;\nend configuration {name};\n"


def make(folder, seed, files, lines=0):
    project = Project(seed, lines)
    paths = project.random.sample(range(16**4), files)
    used = set()
    for path in paths:
        library, text = project.unit()
        os.makedirs(f"{folder}/{library}", exist_ok=True)
        used.add(library)
        with open(f"{folder}/{library}/{path:04x}.vhd", "w") as file:
            file.write(text)
    with open(f"{folder}/vunit.toml", "w") as file:
        file.write(f'compiler = ["ghdl_analyse"]\nusers_depend_on_bodies = {str(project.bodies).lower()}\n')
        for library in sorted(used):
            file.write(f'\n[[library]]\nname = "{library}"\nfiles = ["{library}/*.vhd"]\n')
