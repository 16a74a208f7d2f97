from pathlib import Path
from vunit import VUnit

vu = VUnit.from_argv()
vu.add_vhdl_builtins()

lib = vu.add_library("lib")
lib.add_source_files("src/*.vhd")

tb_lib = vu.add_library("tb_lib")
tb_lib.add_source_files("test/*.vhd")
tb_lib.set_generic("width", 4)

lib.set_compile_option("ghdl.a_flags", ["-frelaxed"])
vu.set_sim_option("ghdl.sim_flags", ["--stop-time=1ms"])


def has_results(output_path):
    return Path(output_path, "vunit_results").exists()


bench = tb_lib.test_bench("tb_shifter")
for width in (2, 16):
    bench.add_config(f"width={width}", generics={"width": width})
bench.add_config("checked", post_check=has_results)

vu.main()
