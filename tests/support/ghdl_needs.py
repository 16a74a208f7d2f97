"""Compiles projects made by hand with wrappers/ghdl_analyse, each file over exactly its dependencies by a list that is written
by hand here. Without any file of that list GHDL refuses."""

from compile_requests import compile_all

# The files of a project in an order of compilation: library and path, the files that each depends on directly, and the text.
PROJECTS = [
    # a package with a body, two architectures, a configuration, and instances of both in another library
    """
lib p.vhd :
package p is constant c : integer := 1; function f return integer; end package p;
lib p_body.vhd : p.vhd
package body p is function f return integer is begin return c; end function f; end package body p;
lib e.vhd : p.vhd
use work.p.all; entity e is generic (g : integer := c); end entity e;
lib e_one.vhd : e.vhd
architecture one of e is begin end architecture one;
lib e_two.vhd : e.vhd p.vhd
architecture two of e is constant d : integer := work.p.f; begin end architecture two;
lib conf.vhd : e.vhd e_two.vhd
configuration conf of e is for two end for; end configuration conf;
top t.vhd : e.vhd conf.vhd
library lib; entity t is end entity t; architecture a of t is begin
one : entity lib.e; two : configuration lib.conf; end architecture a;
""",
    # contexts that hand on libraries and other contexts, and packages over three libraries
    """
low types.vhd :
package types is subtype word is integer range 0 to 255; type pair is array (0 to 1) of word; end package types;
low ops.vhd : types.vhd
use work.types.all; package ops is function sum(p : pair) return word; end package ops;
mid first.vhd : types.vhd
context first is library low; use low.types.all; end context first;
mid second.vhd : first.vhd ops.vhd
context second is library mid; context mid.first; library low; use low.ops.all; end context second;
top user.vhd : second.vhd ops.vhd types.vhd
library mid; context mid.second; entity user is generic (g : word := sum((1, 2))); end entity user;
top other.vhd : user.vhd
library top; entity other is end entity other; architecture a of other is begin u : entity work.user; end architecture a;
""",
    # a generic package with its body, an instance of it, its users, and files with several units
    """
lib stack.vhd :
package stack is generic (type item); procedure push(i : item); end package stack;
lib stack_body.vhd : stack.vhd
package body stack is procedure push(i : item) is begin null; end procedure push; end package body stack;
lib both.vhd :
package a is type t is (x, y); end package a; use work.a.all; package b is constant c : t := x; end package b;
lib stack_of_t.vhd : stack.vhd stack_body.vhd both.vhd
use work.a.all; package stack_of_t is new work.stack generic map (item => t);
lib user.vhd : stack_of_t.vhd both.vhd
package user is procedure run; end package user;
package body user is procedure run is begin work.stack_of_t.push(work.b.c); end procedure run; end package body user;
lib bench.vhd : user.vhd
entity bench is end entity bench;
architecture a of bench is begin process begin work.user.run; wait; end process; end architecture a;
""",
]


def read(project):
    names, sources, direct = {}, {}, {}
    for line in project.strip().encode().splitlines():
        head, colon, used = line.partition(b" :")
        if colon and head.endswith(b".vhd"):
            name = tuple(head.split())
            names[name[1]] = name
            sources[name], direct[name] = b"", [names[path] for path in used.split()]
        else:
            sources[name] += line + b"\n"
    return sources, direct


for project in PROJECTS:
    sources, direct = read(project)
    _, refused = compile_all(sources, direct)
    assert refused is None, refused
    for name, all_used in direct.items():
        for used in all_used:
            _, refused = compile_all(sources, direct, without=(name, used))
            assert refused and refused[0] == name and refused[1] == 1, f"{name} without {used}: {refused}"
