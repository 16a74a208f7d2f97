"""Projects as VUnit's users write them, in tests/data/vunit_benches: a UART, a FIFO with a scoreboard, registers behind
AXI-lite, generic packages and mocked loggers. Each passes unchanged. With one fault in its design exactly the cases fail that
find it, with the log's text about it. All by hand. Works in the present folder."""

import shutil

from ghdl_trial import TOP, check, compare_runs
from trial import end, fail, run, write

# Each project: the files in compile order, as lines name them, and the cases of each bench.
PROJECTS = {
    "uart": (["uart_lib: src/uart_pkg.vhd", "uart_lib: src/uart_rx.vhd", "uart_lib: src/uart_tx.vhd",
              "tb_uart_lib: test/uart_line_pkg.vhd", "tb_uart_lib: test/tb_uart_rx.vhd", "tb_uart_lib: test/tb_uart_tx.vhd"], {
        "tb_uart_lib.tb_uart_rx": ["receives one byte", "receives many bytes", "receives from a slow line", "receives from a fast line",
                                   "finds a byte without its stop bit"],
        "tb_uart_lib.tb_uart_tx": ["is high while nothing is sent", "sends one byte", "sends bytes one after the other",
                                   "takes ten bits for a byte"]}),
    "fifo": (["fifo_lib: source files/fifo_pkg.vhd", "fifo_lib: source files/fifo.vhd", "scoreboard_lib: scoreboard/scoreboard_pkg.vhd",
              "scoreboard_lib: scoreboard/scoreboard_pkg_body.vhd", "tb_fifo_lib: test/fifo_test_context.vhd",
              "tb_fifo_lib: test/word_scoreboard_pkg.vhd", "tb_fifo_lib: test/tb_fifo.vhd"], {
        "tb_fifo_lib.tb_fifo": ["is empty after reset", "is full after so many writes", "keeps the order",
                                "is empty after a reset in between"]}),
    "axi_lite": (["regs_lib: src/axi_lite_pkg.vhd", "regs_lib: src/axi_lite_regs.vhd", "tb_regs_lib: test/axi_lite_bfm_pkg.vhd",
                  "tb_regs_lib: test/tb_axi_lite_regs.vhd"], {
        "tb_regs_lib.tb_axi_lite_regs": ["has a version that can't be written", "writes bytes by their strobes",
                                         "keeps all registers apart", "answers what it hasn't with an error", "counts its checks"]}),
    "generic_packages": (["filter_lib: src/ring_pkg.vhd", "filter_lib: src/ring_pkg_body.vhd", "filter_lib: src/sample_rings.vhd",
                          "filter_lib: src/filter_contexts.vhd", "filter_lib: src/average.vhd", "filter_lib: src/average_rtl.vhd",
                          "tb_filter_lib: test/tb_average.vhd"], {
        "tb_filter_lib.tb_average": ["gives the mean of four samples", "keeps the largest samples", "keeps the latest items of a ring",
                                     "has rings of samples too"]}),
    "logger_mocks": (["vip_lib: src/handshake_checker_pkg.vhd", "vip_lib: src/handshake_checker.vhd",
                      "tb_vip_lib: test/tb_handshake_checker.vhd"], {
        "tb_vip_lib.tb_handshake_checker": ["says nothing of a good stream", "finds data that changes", "finds valid that is taken back",
                                            "finds unknown data", "warns where ready is late", "can be told to go on",
                                            "has a name below its parent"]}),
}

# One fault of each: the file, the old text and the new one, and for each case that doesn't pass its verdict and the shown text.
STOP_BIT = [" - check - ERROR - Equality check failed for the stop bit - Got 0. Expected 1.\n"]
FAULTS = {
    "uart": ("src/uart_tx.vhd", "'1' & tdata & '0'", "'0' & tdata & '0'", {
        "sends one byte": ("f", STOP_BIT), "sends bytes one after the other": ("f", STOP_BIT),
        "takes ten bits for a byte": ("f", STOP_BIT)}),
    "fifo": ("source files/fifo.vhd", "when count > 0 else", "when count > 1 else", {
        "keeps the order": ("f", [" - check - ERROR - words that never came - Got 1. Expected 0.\n"])}),
    "axi_lite": ("src/axi_lite_regs.vhd", "m2s.wstrb(lane) = '1' and index > 0", "index > 0", {
        # (what one simulation prints is shown before its first case)
        "has a version that can't be written": ("p", [
            " - check - ERROR - Equality check failed for register control - Got 1010_1010_1011_1011_1100_1100_1101_1101 (2864434397)."
            " Expected 0001_0001_1011_1011_1100_1100_0100_0100 (297520196).\n"]),
        "writes bytes by their strobes": ("f", []),
        "keeps all registers apart": ("s", []), "answers what it hasn't with an error": ("s", []), "counts its checks": ("s", [])}),
    "generic_packages": ("src/average_rtl.vhd", "for index in 0 to 2 loop", "for index in 0 to 1 loop", {
        "gives the mean of four samples": ("f", [" - check - ERROR - Equality check failed for four samples - Got "]),
        "keeps the largest samples": ("f", [
            " - check - ERROR - Equality check failed - Got 0101_1111 (95). Expected 0111_1111 (127).\n"])}),
    "logger_mocks": ("src/handshake_checker.vhd", "waiting > handle.max_waiting", "waiting >= handle.max_waiting", {
        "warns where ready is late": ("f", ["ready is awaited for 2 cycles\n", "ready is awaited for 3 cycles\n"])}),
}


def copy(name, folder):
    shutil.copytree(f"{TOP}/tests/data/vunit_benches/{name}", folder)


def with_fault(name, benches):
    """Runs a project with its fault."""
    path, right, wrong, changed = FAULTS[name]
    with open(f"{name}/{path}") as file:
        text = file.read()
    assert text.count(right) == 1, (name, right)
    write(name, {path: text.replace(right, wrong)})
    rows = [(bench, case, *changed.get(case, ("p", []))) for bench, cases in benches.items() for case in cases]
    status, text, error = run(name, "-p", "2")
    problem = compare_runs(text.decode().partition("Compile passed\n")[2], rows)
    if status != 1 or error or problem:
        fail(f"{name} with a fault", f"status {status}, {problem}, standard error {error}")


def main():
    for name, (files, benches) in PROJECTS.items():
        copy(name, name)
        check(name, name, files, [(bench, case, "p", "") for bench, cases in benches.items() for case in cases])
        with_fault(name, benches)
    end()


if __name__ == "__main__":
    main()
