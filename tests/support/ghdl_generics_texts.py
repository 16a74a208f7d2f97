"""Texts of benches with generics of their own."""


def bench(name, generics, cases, comment=""):
    """A bench: `cases` are names and the checks behind them."""
    branches = "".join(f'      {"els" if count else ""}if run("{case}") then\n        {statement}\n'
                       for count, (case, statement) in enumerate(cases))
    return f"""library vunit_lib;
context vunit_lib.vunit_context;
{comment}
entity {name} is
  generic (runner_cfg : string{generics});
end entity {name};
architecture sim of {name} is
begin
  main : process
  begin
    test_runner_setup(runner, runner_cfg);
    while test_suite loop
{branches}      end if;
    end loop;
    test_runner_cleanup(runner);
  end process main;
end architecture sim;
"""
