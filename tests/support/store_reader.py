"""Reads the store of a project, of either form, and says which files a build of the project must compile.

It is written from docs/FORMATS.md alone and shares nothing with the program. The model knows simple sources only: packages
that are declared at the start of a line, and uses of them by `use LIBRARY.PACKAGE`.

usage: store_reader.py FOLDER       lists the records that the folder's store has for a run
"""
import collections, fnmatch, os, re, struct, sys

# The form that the program writes, and the older one that it takes over.
FORM, OLD_FORM = 3, 2
FILES, TEXT, ALL_TEXT, ARTEFACT = 4096, 4194304, 67108864, 262144

# `deps` are positions of files before it, rising.
Entry = collections.namedtuple("Entry", "library path command text deps")

# Of form 3. A compiler's request: `below` are the dependencies of a file, in built form, in graph order.
Asked = collections.namedtuple("Asked", "command library path text below")
Product = collections.namedtuple("Product", "library path artefact")
RequestRecord = collections.namedtuple("RequestRecord", "asked artefact")

# Of form 2. A view is a tuple of entries; the last depends on all others.
ViewRecord = collections.namedtuple("ViewRecord", "view artefact")
Node = collections.namedtuple("Node", "library path command text needs")


class Bad(Exception):
    """Bytes that aren't of the form."""


class Bytes:
    """Bytes that are taken from the left."""

    def __init__(self, data):
        self.data, self.at = data, 0

    def take(self, count):
        if self.at + count > len(self.data):
            raise Bad
        self.at += count
        return self.data[self.at - count:self.at]

    def byte(self):
        return self.take(1)[0]

    def u32(self):
        return struct.unpack("<I", self.take(4))[0]

    def u64(self):
        return struct.unpack("<Q", self.take(8))[0]

    def text(self):
        return self.take(self.u32())

    def many(self, count, take):
        if count > len(self.data):  # each takes at least a byte
            raise Bad
        return tuple(take() for _ in range(count))

    def end(self):
        if self.at != len(self.data):
            raise Bad


def payloads(side):
    """The payloads of a live side, up to the closed gate."""
    found, gate = [], 18
    while side[gate] == 1 and gate + 5 <= len(side):
        length = struct.unpack_from("<I", side, gate + 1)[0]
        after = gate + 5 + length
        if after >= len(side):
            break
        found.append(side[gate + 5:after])
        gate = after
    return found, gate


def counting_side(sides, form=FORM):
    """The bytes of the live side of a form that counts, or None."""
    live = [side for side in sides if len(side) >= 19 and side[:10] == b"\x01VUNITREC" + bytes([form])]
    return max(live, key=lambda side: struct.unpack_from("<Q", side, 10)[0], default=None)  # the first of equal ones


def read_sides(folder):
    sides = []
    for name in "store_a", "store_b":
        try:
            with open(os.path.join(folder, "vunit_out", name), "rb") as file:
                sides.append(file.read())
        except FileNotFoundError:
            sides.append(b"")
    return sides


def is_view(view):
    """Whether the entries are a valid graph whose last entry depends on all others."""
    if not 1 <= len(view) <= FILES or view[-1].deps != tuple(range(len(view) - 1)):
        return False
    if len({entry[:2] for entry in view}) != len(view) or sum(len(entry.text) for entry in view) > ALL_TEXT:
        return False
    for at, entry in enumerate(view):
        deps = entry.deps
        if not (1 <= len(entry.library) <= 64 and 1 <= len(entry.path) <= 1024 and len(entry.text) <= TEXT):
            return False
        if not 1 <= len(entry.command) <= 64 or any(len(word) > 1024 for word in entry.command):
            return False
        if any(a >= b for a, b in zip(deps, deps[1:])) or any(dep >= at for dep in deps):
            return False
        if any(not set(view[dep].deps) <= set(deps) for dep in deps):
            return False
    return True


def unfold(nodes, texts, node):
    """The entries that a node stands for. The nodes that one lists are those before it in its view."""
    listed = list(node.needs)
    place = {number: at for at, number in enumerate(listed)}
    entries = []
    for number in listed:
        one = nodes[number]
        if any(need not in place for need in one.needs):
            raise Bad
        entries.append(Entry(one.library, one.path, one.command, texts[one.text], tuple(place[need] for need in one.needs)))
    entries.append(Entry(node.library, node.path, node.command, texts[node.text], tuple(range(len(listed)))))
    return tuple(entries)


class Views:
    """The texts, nodes and records of payloads of form 2."""

    def __init__(self, given):
        self.texts, self.nodes, self.records = [], [], []
        self.text_numbers, self.node_numbers, self.views = {}, {}, []
        for payload in given:
            try:
                self.add(Bytes(payload))
            except Bad:
                pass

    def add(self, data):
        kind = data.byte()
        if kind == 0:
            number, node, text = data.u64(), None, None
            if number >= len(self.nodes):
                raise Bad
        elif kind in (1, 2):
            node, text = self.new_node(data)
            number = len(self.nodes)
        else:
            raise Bad
        artefact = data.text() if kind != 2 else b""
        data.end()
        if len(artefact) > ARTEFACT:
            raise Bad
        if node is not None:
            texts = self.texts if text is None else self.texts + [text]
            view = unfold(self.nodes, texts, node)
            if node in self.node_numbers or not is_view(view):
                raise Bad
            if text is not None:
                self.text_numbers[text] = len(self.texts)
                self.texts.append(text)
            self.node_numbers[node] = number
            self.nodes.append(node)
            self.views.append(view)
        if kind != 2:
            self.records.append(ViewRecord(self.views[number], artefact))

    def new_node(self, data):
        """The node, and the new text if it has one."""
        library, path = data.text(), data.text()
        command = data.many(data.u32(), data.text)
        old = data.byte()
        text = None
        if old == 0:
            number = data.u64()
            if number >= len(self.texts):
                raise Bad
        elif old == 1:
            text = data.text()
            number = len(self.texts)
            if text in self.text_numbers:
                raise Bad
        else:
            raise Bad
        needs = data.many(data.u32(), data.u64)
        if any(need >= len(self.nodes) for need in needs) or len(set(needs)) != len(needs):
            raise Bad
        return Node(library, path, command, number, needs), text


class Requests:
    """The texts, products and records of payloads of form 3."""

    def __init__(self, given):
        self.texts, self.products, self.records = [], [], []
        self.text_numbers, self.product_numbers = {}, {}
        for payload in given:
            try:
                self.add(Bytes(payload))
            except Bad:
                pass

    def add(self, data):
        kind = data.byte()
        if kind not in (0, 1):
            raise Bad
        new = []
        library, path = data.text(), data.text()
        command = data.many(data.u32(), data.text) if kind == 1 else None
        text = self.told_text(data, new) if kind == 1 else b""
        numbers = data.many(data.u32(), data.u64) if kind == 1 else ()
        product = Product(library, path, self.told_text(data, new))
        data.end()
        if not (1 <= len(library) <= 64 and 1 <= len(path) <= 1024 and len(product.artefact) <= ARTEFACT):
            raise Bad
        if kind == 0:
            if product in self.product_numbers:
                raise Bad
        else:
            below = self.below(product, numbers)
            if not 1 <= len(command) <= 64 or any(len(word) > 1024 for word in command) or len(text) > TEXT:
                raise Bad
            self.records.append(RequestRecord(Asked(command, library, path, text, below), product.artefact))
        for one in new:
            self.text_numbers[one] = len(self.texts)
            self.texts.append(one)
        if product not in self.product_numbers:
            self.product_numbers[product] = len(self.products)
            self.products.append(product)

    def told_text(self, data, new):
        """A text by its number, or a new one, which is added to the new ones."""
        kind = data.byte()
        if kind == 0:
            number = data.u64()
            if number >= len(self.texts) + len(new):
                raise Bad
            return self.texts[number] if number < len(self.texts) else new[number - len(self.texts)]
        if kind != 1:
            raise Bad
        text = data.text()
        if text in self.text_numbers or text in new:
            raise Bad
        new.append(text)
        return text

    def below(self, product, numbers):
        """The products of the numbers, of files with different names, none of which is the record's."""
        if len(numbers) >= FILES or any(number >= len(self.products) for number in numbers):
            raise Bad
        below = tuple(self.products[number] for number in numbers)
        if len({one[:2] for one in (*below, product)}) != len(below) + 1:
            raise Bad
        return below


def name_asked(record):
    """The library and the path of the file that a record is of."""
    return record.asked.library, record.asked.path


def latest_of(records):
    """The latest record of each library and path."""
    return {name_asked(record): record for record in records}


def latest_requests(records):
    """The same as a list, in the order of the records."""
    latest = latest_of(records)
    return [record for record in records if latest[name_asked(record)] is record]


def spelled(data):
    """A text with its length."""
    return struct.pack("<I", len(data)) + data


class Carried:
    """The payloads that keep the latest of some records, and nothing else: each record in its order, after the products that it
    is over and that aren't there yet."""

    def __init__(self, records):
        self.texts, self.products, self.payloads = {}, {}, []
        for record in latest_requests(records):
            for product in record.asked.below:
                if product not in self.products:
                    self.payloads.append(b"\0" + spelled(product.library) + spelled(product.path) + self.ref(product.artefact))
                    self.products[product] = len(self.products)
            self.add(record)

    def ref(self, text):
        """A text by its number, or as a new one, which then is there."""
        if text in self.texts:
            return b"\0" + struct.pack("<Q", self.texts[text])
        self.texts[text] = len(self.texts)
        return b"\1" + spelled(text)

    def add(self, record):
        asked = record.asked
        numbers = [self.products[product] for product in asked.below]
        self.payloads.append(b"".join([
            b"\1", spelled(asked.library), spelled(asked.path),
            struct.pack("<I", len(asked.command)), *map(spelled, asked.command), self.ref(asked.text),
            struct.pack("<I%dQ" % len(numbers), len(numbers), *numbers), self.ref(record.artefact)]))
        self.products.setdefault(Product(asked.library, asked.path, record.artefact), len(self.products))


def side_of(form, generation, given):
    """The bytes of a side of these payloads."""
    blocks = b"".join(b"\1" + spelled(payload) for payload in given)
    return b"\1VUNITREC" + bytes([form]) + struct.pack("<Q", generation) + blocks + b"\0"


def payloads_of_views(records):
    """Payloads of form 2 that stand for records of views: each after the nodes of its view that aren't there yet."""
    texts, nodes, given = {}, {}, []

    def node_of(view, at):
        entry = view[at]
        if entry.text in texts:
            text = b"\0" + struct.pack("<Q", texts[entry.text])
        else:
            texts[entry.text], text = len(texts), b"\1" + spelled(entry.text)
        needs = [nodes[view_at(view, dep)] for dep in entry.deps]
        return b"".join([spelled(entry.library), spelled(entry.path), struct.pack("<I", len(entry.command)), *map(spelled, entry.command), text,
                         struct.pack("<I%dQ" % len(needs), len(needs), *needs)])

    for view, artefact in records:
        for at in range(len(view)):
            is_last, one = at + 1 == len(view), view_at(view, at)
            if one not in nodes:
                given.append((b"\1" + node_of(view, at) + spelled(artefact)) if is_last else b"\2" + node_of(view, at))
                nodes[one] = len(nodes)
            elif is_last:
                given.append(b"\0" + struct.pack("<Q", nodes[one]) + spelled(artefact))
    return given


def migrated_of(records):
    """The records of requests that stand for records of views. The latest record of a name counts if each dependency of its
    view's last file has a latest record of the view that it has there. The request is that of the last file, over the artefacts
    of these records."""
    latest = {record.view[-1][:2]: record for record in records}
    moved = []
    for view, artefact in latest.values():
        last = view[-1]
        below = [(view_at(view, dep), latest.get(view[dep][:2])) for dep in last.deps]
        if all(record is not None and record.view == there for there, record in below):
            built = tuple(Product(*there[-1][:2], record.artefact) for there, record in below)
            moved.append(RequestRecord(Asked(last.command, last.library, last.path, last.text, built), artefact))
    return sorted(moved, key=lambda record: (len(record.asked.below), *name_asked(record)))


def views_in(sides):
    """The records of views of two sides, oldest first."""
    side = counting_side(sides, OLD_FORM)
    return Views(payloads(side)[0]).records if side is not None else []


def records_in(sides):
    """The records that two sides have for a run, oldest first: records of form 3 if a side of it is live, and else the ones for
    records of views."""
    side = counting_side(sides)
    return Requests(payloads(side)[0]).records if side is not None else migrated_of(views_in(sides))


def records_of(folder):
    """The same of the store of a folder."""
    return records_in(read_sides(folder))


def files_of(folder):
    """The files of a project in project order: pairs of a library and a path, with the command; and the pairs of `depends`."""
    csv = os.path.join(folder, "vunit.csv")
    toml = os.path.join(folder, "vunit.toml")
    if not os.path.exists(toml):
        with open(csv) as file:
            lines = [line.strip() for line in file if line.strip()]
        return {tuple(part.strip() for part in line.split(",")): ("@self", "child-analyse") for line in lines}, None
    import tomllib
    with open(toml, "rb") as file:
        project = tomllib.load(file)
    names = sorted(
        os.path.relpath(os.path.join(where, name), folder)
        for where, _, found in os.walk(folder) for name in found)
    files = {}
    for library in project["library"]:
        own = []
        for pattern in library["files"]:
            own += [name for name in names if fnmatch.fnmatchcase(name, pattern) and name.count("/") == pattern.count("/")]
        command = (*project.get("compiler", ["@self", "child-analyse"]), *library.get("options", []))
        for name in own:
            files.setdefault((library["name"].lower(), name), command)
    pairs = [((pair["library"], pair["path"]), (pair["on_library"], pair["on_path"])) for pair in project.get("depends", [])]
    return files, pairs


def needs_of(names, texts, pairs):
    """The files that each file depends on directly. Without pairs the project is a listed one."""
    if pairs is None:
        return {name: set(names[:at]) for at, name in enumerate(names)}
    declared = {}
    for name in names:
        for package in re.findall(r"(?m)^package (\w+) is", texts[name]):
            declared[name[0], package] = name
    needs = {}
    for name in names:
        found = set()
        for library, package in re.findall(r"(?m)\buse (\w+)\.(\w+)", texts[name]):
            found.add(declared.get((name[0] if library == "work" else library, package), name))
        found |= {used for user, used in pairs if user == name}
        needs[name] = found - {name}
    return needs


def graph_of(folder):
    """The present graph, as entries in compile order."""
    files, pairs = files_of(folder)
    texts = {}
    for name in files:
        with open(os.path.join(folder, name[1]), newline="") as file:
            texts[name] = file.read()
    needs = needs_of(list(files), texts, pairs)
    order, places, left = [], {}, list(files)
    while left:
        name = next(name for name in left if needs[name] <= places.keys())
        left.remove(name)
        below = {place for need in needs[name] for place in (*order[places[need]].deps, places[need])}
        places[name] = len(order)
        library, path = (part.encode() for part in name)
        command = tuple(word.encode() for word in files[name])
        order.append(Entry(library, path, command, texts[name].encode(), tuple(sorted(below))))
    return order


def view_at(graph, at):
    """A file of a graph with all that it depends on, renumbered."""
    kept = [*graph[at].deps, at]
    place = {old: new for new, old in enumerate(kept)}
    return tuple(graph[old]._replace(deps=tuple(place[dep] for dep in graph[old].deps)) for old in kept)


def asked_at(graph, at, built):
    """The request for a file, over these built files before it."""
    entry = graph[at]
    return Asked(entry.command, entry.library, entry.path, entry.text, tuple(built[dep] for dep in entry.deps))


def latest_built(records, entry):
    """A file in the form that its latest record built, or None without a record."""
    record = latest_of(records).get(entry[:2])
    return Product(*entry[:2], record.artefact) if record is not None else None


def has_asked(records, graph, at):
    """Whether all files that a file depends on have a record, and its own latest record has what would be asked for it now."""
    built, own = [latest_built(records, entry) for entry in graph], latest_of(records).get(graph[at][:2])
    return None not in [built[dep] for dep in graph[at].deps] and own is not None and own.asked == asked_at(graph, at, built)


def built_over(graph, records, compiler):
    """The positions of the files that a build over these records compiles, and each file as it is built then. A file is None if
    its compiler, which gives an artefact for a request, gives None, or if one of its dependencies isn't built."""
    latest, compiled, built = latest_of(records), [], []
    for at, entry in enumerate(graph):
        artefact = None
        if all(built[dep] is not None for dep in entry.deps):
            asked, record = asked_at(graph, at, built), latest.get(entry[:2])
            if record is not None and record.asked == asked:
                artefact = record.artefact
            else:
                compiled.append(at)
                artefact = compiler(request_of(asked))
        built.append(None if artefact is None else Product(*entry[:2], artefact))
    return compiled, built


def request_of(asked):
    """The bytes that the compiler is handed."""
    parts = [b"VRC1", spelled(asked.library), spelled(asked.path), spelled(asked.text), struct.pack("<I", len(asked.below))]
    return b"".join([*parts, *(spelled(part) for product in asked.below for part in product)])


def read_request(data):
    """Library, path, source and dependencies of a request, or None for anything but one whole request."""
    try:
        data = Bytes(data)
        if data.take(4) != b"VRC1":
            return None
        read = data.text(), data.text(), data.text(), data.many(data.u32(), lambda: (data.text(), data.text(), data.text()))
        data.end()
        return read
    except Bad:
        return None


def main():
    if len(sys.argv) != 2:
        sys.exit(__doc__)
    for asked, artefact in records_of(sys.argv[1]):
        print(f"{asked.library.decode()}, {asked.path.decode()}: {len(asked.text)} bytes by {' '.join(w.decode() for w in asked.command)},"
              f" artefact of {len(artefact)} bytes, over {len(asked.below)} files")
        for product in asked.below:
            print(f"  {product.library.decode()}, {product.path.decode()}: {len(product.artefact)} bytes")


if __name__ == "__main__":
    main()
