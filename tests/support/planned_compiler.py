"""A compiler for tests of the program. It leaves each request that it gets in the folder REQUESTS, by the time of the start,
and the time of the end in the folder ENDS. The file PLAN, a JSON text, says by the path of the file what to do: how many
seconds it `sleeps`, a `salt` for its artefact, and a `code` to end with. What it makes of a source are the lines that begin
with `package` or with `-- child: `, and `refuse TEXT` in such a line has it print the TEXT and refuse the file."""
import json, os, struct, sys, time


def artefact_of(request, plan={}):
    """What it makes for a request, or None where it refuses the file."""
    path, source = [text.decode() for text in texts_of(request)[1:]]
    lines = [line for line in source.split("\n") if line.startswith(("package", "-- child: "))]
    if any(line.startswith("-- child: refuse ") for line in lines):
        return None
    return "\n".join([*lines, plan.get(path, {}).get("salt", "")]).encode()


def texts_of(request):
    """Library, path and source."""
    found, at = [], 4
    for _ in range(3):
        size = struct.unpack_from("<I", request, at)[0]
        found.append(request[at + 4:at + 4 + size])
        at += 4 + size
    return found


def leave(folder, data):
    if folder in os.environ:
        path = os.path.join(os.environ[folder], f"{time.time_ns()}.{os.getpid()}")
        with open(path + ".part", "wb") as file:
            file.write(data)
        os.rename(path + ".part", path)


def main():
    request = sys.stdin.buffer.read()
    leave("REQUESTS", request)
    plan = {}
    if "PLAN" in os.environ:
        with open(os.environ["PLAN"]) as file:
            plan = json.load(file)
    of_path = plan.get(texts_of(request)[1].decode(), {})
    time.sleep(of_path.get("sleeps", 0))
    artefact = artefact_of(request, plan)
    if artefact is None:
        artefact = texts_of(request)[2].split(b"-- child: refuse ")[1].split(b"\n")[0] + b"\n"
        of_path = {"code": 1}
    sys.stdout.buffer.write(artefact)
    sys.stdout.flush()
    leave("ENDS", request)
    sys.exit(of_path.get("code", 0))


if __name__ == "__main__":
    main()
