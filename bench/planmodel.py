"""A model of the rules of docs/plans.md, docs/configuration.md, docs/ownership.md and of the tools over them, for `plans`: configurations and their faults,
trees of databases and what a write does to them, and what a run says, tells and leaves."""
import copy
import dataclasses
import os
import re

KINDS = ["string", "boolean", "select", "multiselect", "password", "note", "text", "error", "title"]
PRIORITIES = ["low", "medium", "high", "critical"]
LEAVES = {"file": "Filename", "dirtree": "Directory", "packagedir": "Directory"}
NAMING = {"stack": ["stack"], "backup": ["db", "backupdb"], "debug": ["db"]}
# the order of the kinds of faults on one line
SECOND = ["TooMany", "NoConfig", "NoTemplates", "NoName", "NoDriver", "MissingField", "UnknownDriver", "BadValue", "Twice"]
THIRD = ["UnknownDatabase", "Cycle", "SharedDatabase"]
COMMON = ["required", "readonly", "accept-name", "reject-name", "accept-type", "reject-type"]


# ---- items and what is done to them

@dataclasses.dataclass
class Item:
    fields: dict
    flags: set
    variables: dict
    owners: set

    def text(self, name):
        """The record as it is printed."""
        lines = [f"Name: {name}"] + [f"{key[0].upper()}{key[1:]}: {shown(value)}" for key, value in sorted(self.fields.items())]
        lines += [f"Owners: {', '.join(sorted(self.owners))}"] * bool(self.owners) + [f"Flags: {', '.join(sorted(self.flags))}"] * bool(self.flags)
        lines += ["Variables:"] * bool(self.variables) + [f" {key} = {shown(value)}" for key, value in sorted(self.variables.items())]
        return "".join(line + "\n" for line in lines) + "\n"


def shown(text):
    return text.replace("\n", "\\n")


class Op:
    """An operation: its word, and what it makes of an item."""

    def __init__(self, word, *what):
        self.word, self.what = word, what

    def after(self, item):
        """`same`, `gone`, or the item that it makes."""
        if self.word == "put":
            made = self.what[0]
        elif item is None:
            return "same"
        else:
            made = copy.deepcopy(item)
            self.change(made)
            if self.word == "drop-owners" and item.owners and not made.owners:
                return "gone"
        return "same" if made == item else made

    def change(self, made):
        if self.word == "set-field":
            made.fields[self.what[0]] = self.what[1]
        elif self.word == "set-flag":
            (made.flags.add if self.what[1] else made.flags.discard)(self.what[0])
        elif self.word == "set-var":
            made.variables[self.what[0]] = self.what[1]
        elif self.word == "add-owner":
            made.owners.add(self.what[0])
        elif self.word == "drop-owners":
            made.owners -= set(self.what[0])


# ---- configurations

class Spec:
    """A database that is kept in files."""

    def __init__(self, fields):
        self.name, self.sort = fields["name"], fields["driver"].lower()
        self.place, self.extension = fields[LEAVES[self.sort].lower()], fields.get("extension", ".dat")
        self.readonly, self.may_be_left_out = fields.get("readonly") == "true", fields.get("required") == "false"
        self.keeps_old = self.sort == "file" and fields.get("backup", "true") == "true"
        self.patterns = {key: fields[key] for key in COMMON[2:] if key in fields}
        self.left_out = False

    def has_place(self, name):
        parts = name.split("/")
        if self.sort == "dirtree":
            return all(len(it) <= 200 for it in parts) and not any(it.endswith((self.extension, f"{self.extension}-new")) for it in parts[:-1])
        return self.sort != "packagedir" or len(parts[0]) <= 200

    def admits(self, name, kind):
        for key, pattern in self.patterns.items():
            of = name if key.endswith("name") else kind
            if of is not None and (re.search(pattern, of, re.IGNORECASE) is None) == key.startswith("accept"):
                return False
        return self.has_place(name)

    def writable(self):
        return not self.readonly and not self.left_out

    def path(self, name):
        """The file of an item, where there are several."""
        return f"{self.place}/{name if self.sort == 'dirtree' else name.split('/')[0]}{self.extension}"


def named(value):
    return [it for it in re.split(r"[,\s]+", value) if it]


class Configuration:
    """The stanzas of a text, each a list of fields and values."""

    def __init__(self, head, databases):
        self.head, self.databases = head, databases
        self.lines = []

    def text(self):
        parts, line = [], 1
        self.lines = []
        for stanza in [self.head, *self.databases]:
            self.lines.append(list(range(line, line + len(stanza))))
            parts.append("".join(f"{key}: {value}\n" for key, value in stanza))
            line += len(stanza) + 1
        self.read()
        return "\n".join(parts)

    def read(self):
        """The databases by their names, and which others each names; those in files in their order."""
        whole = zip([self.head, *self.databases], self.lines)
        self.fields = [{key.lower(): (value.strip(), line) for (key, value), line in zip(stanza, lines)} for stanza, lines in whole]
        self.nodes, self.specs = {}, []
        for fields in self.fields[1:]:
            values = {key: value for key, (value, _) in fields.items()}
            driver = values.get("driver", "").lower()
            others = named(values.get("stack", "")) if driver == "stack" else [values.get(key, "") for key in NAMING.get(driver, [])]
            self.nodes.setdefault(values.get("name"), (driver, others))
            if driver in LEAVES and LEAVES[driver].lower() in values and "name" in values:
                self.specs.append(Spec(values))
        self.reach = {name: self.reached_from(name) for name in self.nodes}

    def reached_from(self, name):
        found, more = set(), list(self.nodes[name][1])
        while more:
            other = more.pop()
            if other in self.nodes and other not in found:
                found.add(other)
                more += self.nodes[other][1]
        return found

    def leads_to(self, name):
        """The database and those that it reaches."""
        return {name} | self.reach[name] if name in self.nodes else set()

    def meet(self, one, other):
        return bool(self.leads_to(one) & self.leads_to(other))

    def fault(self):
        """The line and the kind of the fault that decides."""
        for find in (self.first_pass, self.second_pass, self.third_pass, self.fourth_pass):
            faults = find()
            if faults:
                line, _, kind = min(faults)
                return line, kind
        return None

    def first_pass(self):
        faults = []
        for stanza, lines in zip([self.head, *self.databases], self.lines):
            keys = [key.lower() for key, _ in stanza]
            faults += [(line, 0, "Twice") for place, line in enumerate(lines) if keys[place] in keys[:place]]
        return faults

    def second_pass(self):
        faults = []
        for place, (fields, lines) in enumerate(zip(self.fields[1:], self.lines[1:])):
            before = self.fields[1:place + 1]
            driver = fields["driver"][0].lower() if "driver" in fields else None
            same = [it for it in before if driver in LEAVES and "driver" in it and it["driver"][0].lower() == driver]
            needed = NAMING.get(driver, [LEAVES[driver].lower()] if driver in LEAVES else [])
            kinds = {"TooMany": len(before) >= 256 or len(same) >= 16, "NoName": "name" not in fields, "NoDriver": driver is None,
                     "MissingField": any(it not in fields for it in needed)}
            faults += [(lines[0], kind) for kind, is_so in kinds.items() if is_so]
            if driver is not None and driver not in LEAVES and driver not in NAMING:
                faults.append((fields["driver"][1], "UnknownDriver"))
            faults += [(line, "BadValue") for key, (value, line) in fields.items() if is_bad(driver, key, value)]
            if "name" in fields and any("name" in it and it["name"][0] == fields["name"][0] for it in before):
                faults.append((fields["name"][1], "Twice"))
        return [(line, SECOND.index(kind), kind) for line, kind in faults]

    def third_pass(self):
        faults = [(line, "UnknownDatabase") for value, line in self.fields[0].values() if value not in self.nodes]
        for fields in self.fields[1:]:
            driver, own = fields["driver"][0].lower(), fields["name"][0]
            for key in NAMING.get(driver, []):
                value, line = fields[key]
                others = named(value) if key == "stack" else [value]
                if any(it not in self.nodes for it in others):
                    faults.append((line, "UnknownDatabase"))
                if any(own in self.leads_to(it) for it in others):
                    faults.append((line, "Cycle"))
                pairs = [(one, other) for place, one in enumerate(others) for other in others[:place]]
                if any(self.meet(*pair) for pair in ([(fields["db"][0], value)] if key == "backupdb" else pairs)):
                    faults.append((line, "SharedDatabase"))
        return [(line, THIRD.index(kind), kind) for line, kind in faults]

    def fourth_pass(self):
        (config, _), (templates, line) = self.fields[0]["config"], self.fields[0]["templates"]
        return [(line, 0, "SharedDatabase")] if self.meet(config, templates) else []

    def reached(self, roots):
        """The places among those in files that the roots are or reach."""
        return [place for place, spec in enumerate(self.specs) if any(spec.name in self.leads_to(root) for root in roots)]

    def tree(self, name):
        driver, others = self.nodes[name]
        if driver in LEAVES:
            return "leaf", next(place for place, spec in enumerate(self.specs) if spec.name == name)
        return driver, [self.tree(other) for other in others]


def is_bad(driver, key, value):
    """Whether the field has a value that it may not have."""
    if key == "name":
        return re.fullmatch(r"[A-Za-z0-9_.-]{1,64}", value) is None
    if key == "format":
        return value != "822"
    if driver in NAMING:
        return key in COMMON or (key == "stack" == driver and not named(value))
    if driver in LEAVES:
        if key in ("required", "readonly") or (key == "backup" and driver == "file"):
            return value.lower() not in ("true", "false")
        return key == "mode" and driver != "dirtree" and re.fullmatch("[0-7]{3,4}", value) is None
    return False


# ---- stores

class Store:
    """What databases in files hold, which names were touched, and what was told."""

    def __init__(self, specs, layers):
        self.specs, self.layers, self.touched, self.told = specs, layers, [[] for _ in specs], []

    def again(self):
        other = Store(self.specs, list(self.layers))
        other.touched, other.told = list(self.touched), list(self.told)
        return other


def leaves(tree):
    """The places that are asked, from the top."""
    word, what = tree
    if word == "leaf":
        return [what]
    return [place for child in (what[:1] if word == "backup" else what) for place in leaves(child)]


def all_places(tree):
    word, what = tree
    return [what] if word == "leaf" else [place for child in what for place in all_places(child)]


def holders(store, tree, name):
    return [place for place in leaves(tree) if name in store.layers[place]]


def look(store, tree, name, which=0):
    """The item that is seen, or the one below it."""
    found = holders(store, tree, name)
    return store.layers[found[which]][name] if len(found) > which else None


def write(store, tree, name, kind, op):
    """The store behind the write, or none where it is refused."""
    word, what = tree
    return {"leaf": write_leaf, "stack": write_stack, "backup": write_backup, "debug": write_debug}[word](store, what, name, kind, op)


def write_leaf(store, place, name, kind, op):
    spec, layer = store.specs[place], store.layers[place]
    made = op.after(layer.get(name))
    if made == "same":
        return store
    if not spec.writable() or (name not in layer and not spec.admits(name, kind)):
        return None
    store = store.again()
    store.layers[place] = {key: item for key, item in layer.items() if key != name} | ({} if made == "gone" else {name: made})
    if name not in store.touched[place]:
        store.touched[place] = [*store.touched[place], name]
    return store


def write_stack(store, children, name, kind, op):
    held = next((place for place, child in enumerate(children) if holders(store, child, name)), None)
    if held is not None:
        done = write(store, children[held], name, kind, op)
        if done is not None:
            return done
    made = op.after(look(store, ("stack", children), name))
    if made == "same":
        return store
    if made == "gone":
        return None
    tried = (write(store, child, name, kind, Op("put", made)) for child in children[:held])
    return next((done for done in tried if done is not None), None)


def write_backup(store, children, name, kind, op):
    first, second = children
    store = write(store, first, name, kind, op)
    if store is None:
        return None
    item, kept = look(store, first, name), look(store, second, name)
    if item is None and kept is None:
        return store
    done = write(store, second, name, kind, Op("put", item) if item is not None else Op("drop-owners", sorted(kept.owners)))
    return store if done is None else done


def write_debug(store, children, name, kind, op):
    store = write(store, children[0], name, kind, op)
    if store is None:
        return None
    store = store.again()
    store.told.append(f"debug: {op.word} {name}\n")
    return store


# ---- files

def write_database(folder, spec, table):
    """Puts a database where it is kept; one that is left out can't be read."""
    if spec.left_out:
        os.makedirs(f"{folder}/{spec.place}")
        table.clear()
    for path, text in texts(spec, table, table).items():
        os.makedirs(os.path.dirname(f"{folder}/{path}"), exist_ok=True)
        if text is not None:
            with open(f"{folder}/{path}", "w", encoding="utf-8") as file:
                file.write(text)


def texts(spec, table, touched):
    """The files in which the names stand, each with its text, or none where it holds nothing any more."""
    if spec.sort == "file":
        return {spec.place: "".join(table[name].text(name) for name in sorted(table))} if touched else {}
    return {path: "".join(table[name].text(name) for name in sorted(table) if spec.path(name) == path) or None for path in map(spec.path, touched)}


def read_templates(text):
    """The templates of a file, or its first line with a fault."""
    found, fields = [], None
    for number, line in enumerate(text.split("\n"), 1):
        key, colon, value = line.partition(":")
        if not line:
            fields = None
        elif not colon:
            return number
        elif fields is None:
            fields = {}
            found.append((value.strip(), fields))
        else:
            fields[key.lower()] = value.strip()
    return found


# ---- a run

class Session:
    """A run of a tool: what it says, tells and leaves."""

    def __init__(self, conf, words, tables, templates, seen):
        self.conf, self.words, self.files_there, self.nonint_seen = conf, words, templates, seen
        self.said, self.told, self.status = "", "", 0
        self.tables, self.store = tables, None
        self.prepared, self.asked = [], []

    def run(self, text):
        fault = self.conf.fault()
        if fault is not None:
            self.told, self.status = f"dckit: configuration, line {fault[0]}: {fault[1]}\n", 121
            return
        tool, *words = self.words
        config, templates = (value for value, _ in self.conf.fields[0].values())
        roots = [config, templates]
        if tool == "show" and words[0].startswith("--db="):
            roots[0] = words.pop(0).removeprefix("--db=")
        if tool == "copydb":
            roots = [words[0], words[1], templates]
            if set(all_places(self.conf.tree(words[0]))) & set(all_places(self.conf.tree(words[1]))):
                self.told, self.status = "dckit: usage, word 2\n", 120
                return
        self.config, self.templates = self.conf.tree(roots[0]), self.conf.tree(roots[-1])
        self.store = Store(self.conf.specs, [self.tables[spec.name] for spec in self.conf.specs])
        {"communicate": self.communicate, "set-selections": self.select, "copydb": self.copy, "loadtemplate": self.load, "show": self.show}[tool](words, text)
        self.tell("")

    def tell(self, line):
        """Tells the line, and then what the databases told."""
        self.told += line + "".join(self.store.told if self.store else [])
        if self.store:
            self.store.told = []

    def files(self, before):
        """The files that stand behind the run."""
        files = dict(before)
        for spec, layer, touched in zip(self.store.specs, self.store.layers, self.store.touched) if self.store else []:
            for path, text in texts(spec, layer, touched).items():
                if spec.keeps_old and path in before:
                    files[f"{path}-old"] = before[path]
                files[path] = text
        return {path: text for path, text in files.items() if text is not None}

    # -- what questions say

    def question(self, name):
        return look(self.store, self.config, name)

    def kind(self, item, template=None):
        """The kind of a question, by the template that it is bound to."""
        template = template or (lambda name: look(self.store, self.templates, name))
        return kind_of(template(item.fields["template"])) if item is not None and "template" in item.fields else None

    def value(self, item):
        bound = look(self.store, self.templates, item.fields.get("template"))
        return item.fields.get("value", bound.fields.get("default", "") if bound else "")

    # -- rows of writes

    def commit(self, writes):
        """Does all the writes, or none: then the question of the first in order of which one is refused is told."""
        refused = {name for plan, on, kind, op, names in writes if write(self.store, plan, on, kind, op) is None for name in names}
        if refused:
            return refused
        for plan, on, kind, op, _ in writes:
            self.store = write(self.store, plan, on, kind, op)
        return set()

    def look_after(self, plan, name, op):
        made = op.after(look(self.store, plan, name))
        return look(self.store, plan, name, 0 if made == "same" else 1) if isinstance(made, str) else made

    def on_template(self, name, op, questions):
        made = op.after(look(self.store, self.templates, name))
        return self.templates, name, kind_of(look(self.store, self.templates, name) if isinstance(made, str) else made), op, questions

    def on_question(self, name, op, beside=()):
        """A write to a question, whose kind is that of its template as these writes leave it."""
        def template(wanted):
            for plan, on, kind, other, _ in beside:
                if on == wanted and write(self.store, plan, on, kind, other) is not None:
                    return self.look_after(plan, on, other)
            return look(self.store, self.templates, wanted)
        return self.config, name, self.kind(self.look_after(self.config, name, op), template), op, [name]

    def bind(self, template, op, name, owner):
        first = self.on_template(template, op, [name])
        put = Op("put", Item({"template": template}, set(), {}, {owner}))
        return [first, self.on_question(name, Op("add-owner", owner) if self.question(name) is not None else put, [first])]

    def bound_elsewhere(self, template, name):
        item = self.question(name)
        return item is not None and item.fields.get("template") != template

    def leave(self, owner, names):
        """The writes by which an owner leaves questions."""
        lost = {}
        drop = Op("drop-owners", [owner])
        for name in names:
            item = self.question(name)
            bound = item.fields.get("template")
            if drop.after(item) == "gone" and look(self.store, self.config, name, 1) is None and look(self.store, self.templates, bound) is not None:
                lost.setdefault(bound, []).append(name)
        templates = [self.on_template(bound, Op("drop-owners", gone), gone) for bound, gone in sorted(lost.items())]
        return [self.on_question(name, drop, templates) for name in names] + templates

    def load_all(self, owner, templates):
        """Loads templates: the refusal, or nothing."""
        for name, _ in templates:
            if self.bound_elsewhere(name, name):
                return f"{name} has another template"
        writes = []
        for name, fields in templates:
            old = look(self.store, self.templates, name)
            writes += self.bind(name, Op("put", Item(dict(fields), set(), {}, (set(old.owners) if old else set()) | {name})), name, owner)
        refused = self.commit(writes)
        return next((f"{name} can't be changed" for name, _ in templates if name in refused), "")

    # -- tools

    def communicate(self, words, text):
        self.owner = words[0]
        for line in text.splitlines():
            command, *arguments = line.split(" ")
            reply = getattr(self, command.lower())(*arguments)
            self.said += shown(reply).rstrip(" ") + "\n" if reply.endswith(" ") else shown(reply) + "\n"
            self.status = int(reply.split(" ")[0])
            self.tell("")
        for name in self.asked:
            if self.question(name) is not None:
                self.commit([self.on_question(name, Op("set-flag", "seen", True))])

    def select(self, words, text):
        for number, line in enumerate(text.splitlines(), 1):
            name, fault = self.select_line(line, "-c" in words, "-u" in words)
            if fault:
                self.status = 1
            self.tell(f"line {number}: {fault}\n" if fault else f"line {number}: {name}\n" if name and "-v" in words else "")

    def select_line(self, line, check, unseen):
        """The question that is set, and the fault."""
        if line.startswith("#"):
            return None, None
        owner, name, kind, value = [*line.split(" ", 3), "", "", ""][:4]
        if kind == "":
            return None, "too few words"
        if "//" in name:
            return None, "bad name"
        if kind == "seen":
            if value not in ("true", "false"):
                return None, "bad flag value"
            if not check and self.question(name) is None:
                return None, "no question"
            writes = [] if check else [self.on_question(name, Op("set-flag", "seen", value == "true"))]
        elif kind not in KINDS:
            return None, "bad type"
        else:
            writes = [] if check else self.preseed(owner, name, kind, value, unseen)
        return name, "can't be changed" if self.commit(writes) else None

    def preseed(self, owner, name, kind, value, unseen):
        item = self.question(name)
        writes = []
        if item is None and look(self.store, self.templates, name) is None:
            writes.append(self.on_template(name, Op("put", Item({"type": kind}, set(), {}, {name})), [name]))
        made = copy.deepcopy(item) if item is not None else Item({"template": name}, set(), {}, set())
        made.fields["value"] = value
        made.owners.add(owner)
        if not unseen:
            made.flags.add("seen")
        return [*writes, self.on_question(name, Op("put", made), writes)]

    def load(self, words, _):
        for path in words[1:]:
            found = read_templates(self.files_there[path]) if path in self.files_there else None
            refused = "no such file" if found is None else f"bad template, line {found}" if isinstance(found, int) else None
            line = f"{path}: {refused}" if refused else self.load_all(words[0], found)
            self.status = 1 if line else self.status
            self.tell(f"{line}\n" if line else "")

    def copy(self, words, _):
        source, dest = self.conf.tree(words[0]), self.conf.tree(words[1])
        pattern = words[2].removeprefix("--pattern=") if len(words) > 2 else ""
        for name in sorted({name for place in leaves(source) for name in self.store.layers[place]}):
            item = look(self.store, source, name)
            kind = self.kind(item) or kind_of(item)
            if re.search(pattern, name):
                refused = self.commit([(dest, name, kind, Op("put", item), [name])])
                self.status = 1 if refused else self.status
                self.tell(f"{name} can't be changed\n" if refused else "")

    def show(self, words, _):
        for owner in words:
            for name in self.owned(owner):
                item = self.question(name)
                value = " (password omitted)" if self.kind(item) == "password" else shown(f" {self.value(item)}").rstrip(" ") if self.value(item) else ""
                self.said += f"{'* ' if 'seen' in item.flags else '  '}{name}:{value}\n"

    def owned(self, owner):
        names = {name for place in leaves(self.config) for name in self.store.layers[place]}
        return sorted(name for name in names if owner in self.question(name).owners)

    # -- commands

    def done(self, writes, reply, names):
        refused = self.commit(writes)
        return next((f"10 {name} can't be changed" for name in names if name in refused), reply)

    def get(self, name):
        return f"0 {self.value(self.question(name))}" if self.question(name) is not None else f"10 {name} doesn't exist"

    def fget(self, name, flag):
        return f"0 {'true' if flag in self.question(name).flags else 'false'}" if self.question(name) is not None else f"10 {name} doesn't exist"

    def metaget(self, name, field):
        item = self.question(name)
        if item is None:
            return f"10 {name} doesn't exist"
        bound = look(self.store, self.templates, item.fields.get("template"))
        return f"10 no template for {name}" if bound is None else f"0 {bound.fields[field]}" if field in bound.fields else f"10 {field} doesn't exist"

    def change(self, name, op, reply):
        return self.done([self.on_question(name, op)], reply, [name]) if self.question(name) is not None else f"10 {name} doesn't exist"

    def set(self, name, value):
        return self.change(name, Op("set-field", "value", value), "0 value set")

    def fset(self, name, flag, value):
        if self.question(name) is not None and value not in ("true", "false"):
            return "10 bad flag value"
        return self.change(name, Op("set-flag", flag, value == "true"), f"0 {value}")

    def subst(self, name, key, value):
        return self.change(name, Op("set-var", key, value), "0")

    def reset(self, name):
        made = copy.deepcopy(self.question(name))
        if made is not None:
            made.fields.pop("value", None)
            made.flags.discard("seen")
        return self.change(name, Op("put", made), "0")

    def register(self, template, name):
        if look(self.store, self.templates, template) is None:
            return f"10 no template for {name}"
        if self.bound_elsewhere(template, name):
            return f"10 {name} has another template"
        return self.done(self.bind(template, Op("add-owner", name), name, self.owner), "0", [name])

    def unregister(self, name):
        if self.question(name) is None:
            return f"10 {name} doesn't exist"
        if name in self.prepared:
            return f"10 {name} is busy"
        return self.done(self.leave(self.owner, [name]), "0", [name])

    def purge(self):
        names = self.owned(self.owner)
        busy = [name for name in names if name in self.prepared]
        return f"10 {busy[0]} is busy" if busy else self.done(self.leave(self.owner, names), "0", names)

    def input(self, priority, name):
        item = self.question(name)
        if item is None:
            return f"10 {name} doesn't exist"
        kind = self.kind(item)
        if kind is None:
            return f"10 no template for {name}"
        if kind != "title" and PRIORITIES.index(priority) >= PRIORITIES.index("high") and "seen" not in item.flags and name not in self.prepared:
            self.prepared.append(name)
        return "30 question skipped"

    def clear(self):
        self.prepared = []
        return "0"

    def go(self):
        names = [name for name in self.prepared if self.kind(self.question(name)) is not None]
        writes = []
        for name in names:
            item = self.question(name)
            choices = [it for it in look(self.store, self.templates, item.fields["template"]).fields.get("choices", "").split(", ") if it]
            if self.kind(item) == "select" and choices and self.value(item) not in choices:
                writes.append(self.on_question(name, Op("set-field", "value", choices[0])))
        reply = self.done(writes, "0 ok", names)
        if reply == "0 ok":
            self.asked += [name for name in names if self.nonint_seen and name not in self.asked]
            self.prepared = []
        return reply

    def x_loadtemplatefile(self, path, owner=None):
        found = read_templates(self.files_there[path]) if path in self.files_there else None
        if found is None:
            return "10 no such template file"
        if isinstance(found, int):
            return f"10 bad template file, line {found}"
        refused = self.load_all(owner or self.owner, found)
        return f"10 {refused}" if refused else "0"


def kind_of(item):
    """The kind that a template says."""
    kind = item.fields.get("type") if item is not None else None
    return kind if kind in KINDS else None
