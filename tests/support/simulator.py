"""A simulator for tests of the program. It keeps each request that it gets in the folder REQUESTS. The file PLAN, a JSON text,
says by the folder of its results what to do: `code`, `output` and `results` (texts of which each character is a byte), a
`signal` that ends it, a file that it `makes`, one that it then `awaits` for at most 20 seconds, and how many seconds it then
`sleeps`. What isn't said passes."""
import json, os, signal, struct, sys, time


def read_bench(data):
    """Library, bench, architecture, cases, configuration, results path and built files of a bench request."""
    at = 4

    def number():
        nonlocal at
        at += 4
        return struct.unpack_from("<I", data, at - 4)[0]

    def text():
        nonlocal at
        size = number()
        at += size
        return data[at - size:at]

    if data[:4] != b"VRB1":
        return None
    names = [text() for _ in range(3)]
    cases = [text() for _ in range(number())]
    found = (*names, cases, text(), text(), [(text(), text(), text()) for _ in range(number())])
    return found if at == len(data) else None


def passed(cases):
    return b"".join(b"test_start:" + case + b"\n" for case in cases) + b"test_suite_done\n"


def main():
    data = sys.stdin.buffer.read()
    cases, results = read_bench(data)[3], read_bench(data)[5]
    if folder := os.environ.get("REQUESTS"):
        path = os.path.join(folder, f"{time.time_ns()}.{os.getpid()}")
        with open(path + ".part", "wb") as file:
            file.write(data)
        os.rename(path + ".part", path)
    plan = {}
    if "PLAN" in os.environ:
        with open(os.environ["PLAN"]) as file:
            plan = json.load(file).get(os.path.basename(os.path.dirname(results)).decode(), {})
    if "makes" in plan:
        open(plan["makes"], "w").close()
    if "awaits" in plan:
        end = time.monotonic() + 20
        while not os.path.exists(plan["awaits"]):
            if time.monotonic() > end:
                sys.exit(9)
            time.sleep(0.005)
    time.sleep(plan.get("sleeps", 0))
    text = plan["results"].encode("latin-1") if plan.get("results") is not None else None if "results" in plan else passed(cases)
    if text is not None:
        with open(results, "wb") as file:
            file.write(text)
    sys.stdout.buffer.write(plan.get("output", "").encode("latin-1"))
    sys.stdout.flush()
    if "signal" in plan:
        os.kill(os.getpid(), plan["signal"])
    sys.exit(plan.get("code", 0))


if __name__ == "__main__":
    main()
