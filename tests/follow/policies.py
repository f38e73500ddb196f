"""Policies: which notes they open, and which files are none. Witnesses that fohlazu-daily asks, and customers with a
policy who follow what it publishes."""

import os
from base64 import b64encode
from collections import Counter

import log_texts
import logs
from keys import COSIGNED, Key
from parties import ORIGIN, SHARE, Customer, contents, printed, run, script
from script import check, counted
from witness import Witness

POLICIES = 30
USAGE = b"expected log VKEY [URL], witness NAME VKEY [URL], group NAME any|all|K NAME.. or quorum NAME"


# ---- Which notes a policy opens


class Tree:
    """A random tree of groups over some names: its lines, its own name, and whether it holds for some of the names."""

    def __init__(self, source, names):
        self.lines = []
        parts = [(name, lambda cosigned, name=name: name in cosigned) for name in names]
        while len(parts) > 1:
            source.shuffle(parts)
            count = source.randint(2 if len(parts) > 2 else 1, len(parts))
            members, parts = parts[:count], parts[count:]
            least = source.randint(1, count)
            word = source.choice([str(least), {1: "any", count: "all"}.get(least, str(least))])
            name = f"group-{len(self.lines)}"
            self.lines.append(f"group {name} {word} {' '.join(member for member, _ in members)}")
            calls = [call for _, call in members]
            parts.append((name, lambda cosigned, calls=calls, least=least:
                          sum(call(cosigned) for call in calls) >= least))
            if count == 1 and not parts[:-1]:
                break
        self.name, self.holds = parts[0]


class Notes:
    """The notes of a log and its witnesses."""

    def __init__(self, folder, source):
        self.folder = folder
        self.source = source
        folder.mkdir()
        self.key, self.other = (Key(folder / name, ORIGIN, source.randbytes(32)) for name in ("log", "other"))
        self.witnesses = {name: Key(folder / name, f"{name}.example", source.randbytes(32), COSIGNED)
                          for name in ("north", "east", "south", "west")}
        text = log_texts.checkpoint_text(ORIGIN.encode(), 3, logs.Log([b"1", b"2", b"3"]).root(0, 3))
        self.text = text
        self.signed = text + b"\n" + self.key.line(text)

    def policy(self, lines, name="policy"):
        path = self.folder / name
        path.write_text("# witnesses of ours\n\n" + "".join(f"{line}\n" for line in lines))
        return path

    def keys(self):
        """The lines of keys. A URL and a comment say nothing."""
        return [f"log {self.key.vkey}", *(f"witness {name} {key.vkey} https://{name}.example/  # of {name}"
                                          for name, key in self.witnesses.items())]

    def opens(self, lines, note, status, said=b""):
        ran = script("fohlazu-open", "-p", self.policy(lines), data=note)
        is_said = said in ran.stderr and ran.stdout == (b"" if status else self.text)
        check(ran.returncode == status and is_said, lines, note, "should end with", status, said, ran)

    def cosigned(self, names):
        return b"".join(self.witnesses[name].line(self.text, self.source.getrandbits(40)) for name in names)


def try_trees(notes, counts):
    """Random policies, and notes with some true cosignatures and some false ones, in any order."""
    for _ in range(POLICIES):
        tree = Tree(notes.source, list(notes.witnesses))
        true = notes.source.sample(list(notes.witnesses), notes.source.randint(0, 4))
        false = [name for name in notes.witnesses if name not in true and notes.source.randrange(2)]
        other = notes.text.replace(b"3", b"4", 1)
        lines = [notes.cosigned([name]) for name in true]
        lines += [notes.witnesses[name].line(other, 7) for name in false] + [notes.key.line(notes.text)]
        notes.source.shuffle(lines)
        status = 0 if tree.holds(true) else 1
        notes.opens([*notes.keys(), *tree.lines, f"quorum {tree.name}"], notes.text + b"\n" + b"".join(lines), status,
                    b" is not reached: " if status else b"")
        counts["notes opened" if status == 0 else "notes refused"] += 1


def try_notes(notes, counts):
    """One witness counts once; the log has to sign, under its name."""
    keys, signed = notes.keys(), notes.signed
    twice = signed + notes.cosigned(["north"]) + notes.cosigned(["north"])
    two = [*keys, "group two 2 north east south", "quorum two"]
    elsewhere = notes.text.replace(ORIGIN.encode(), b"other.example")
    for lines, note, status, said in [
        (two, twice, 1, b"the quorum two is not reached: north cosigned the note"),
        (two, twice + notes.cosigned(["south"]), 0, b"fohlazu-open: south: time "),
        ([*keys, "quorum none"], signed, 0, b""),
        ([*keys, "quorum west"], signed, 1, b"no witness cosigned"),
        ([f"log {notes.other.vkey}", *keys, "quorum none"], signed, 0, b""),
        ([f"log {notes.other.vkey}", "quorum none"], signed, 1, b"did not sign"),
        ([*keys, "quorum north"], notes.text + b"\n" + notes.cosigned(["north"]), 1, b"did not sign"),
        ([*keys, "quorum none"], elsewhere + b"\n" + notes.key.line(elsewhere), 1, b"no log of the note's name"),
        ([*keys, "quorum none"], notes.text, 1, b"no blank line"),
    ]:
        notes.opens(lines, note, status, said)
        counts["notes opened" if status == 0 else "notes refused"] += 1


def try_malformed(notes, counts):
    """Files that are no policies."""
    keys, north, log = notes.keys(), notes.witnesses["north"], notes.key.vkey
    renamed = Key(notes.folder / "renamed", "renamed.example", bytes(32), COSIGNED, north.public)
    for lines, said in [
        ([], b" has no log"), (keys, b" has no quorum"), (["quorum none"], b" has no log"),
        ([*keys, "quorum none", "quorum none"], b"line 9: a second quorum"),
        ([*keys, "quorum nobody"], b"line 8: no line above has the name nobody"),
        ([*keys, "group g any nobody", "quorum g"], b"line 8: no line above has the name nobody"),
        ([*keys, "group g 2 north north", "quorum g"], b"line 8: north cannot be in a group, or is in one already"),
        ([*keys, "group g any north", "group h all north east"], b"line 9: north cannot be in a group"),
        ([*keys, "group g any none", "quorum g"], b"line 8: none cannot be in a group"),
        ([*keys, "group g 3 north east", "quorum g"], b"line 8: a group of 2 asks for any, all, or 1 to 2"),
        ([*keys, "group g 0 north", "quorum g"], b"line 8: a group of 1 asks"),
        ([*keys, "group g most north", "quorum g"], b"line 8: a group of 1 asks"),
        ([*keys, "group north any east", "quorum north"], b"line 8: a second north"),
        ([*keys, "group none any east", "quorum none"], b"line 8: a second none"),
        ([*keys, f"witness again {north.vkey}"], b"line 8: this key stands in the policy already"),
        ([*keys, f"witness again {renamed.vkey}"], b"line 8: this key stands in the policy already"),
        ([*keys, f"log {log}"], b"line 8: this key stands in the policy already"),
        ([f"log {north.vkey}"], b"line 3: this VKEY is not of a log"),
        ([f"witness w {log}"], b"line 3: this VKEY is not of a witness"),
        ([f"log {log[:-1]}"], b"line 3: VKEY is no NAME+ID+KEY"), ([f"log {log}", "quorums none"], USAGE),
        ([*keys, "group g any", "quorum g"], USAGE), (["log"], USAGE), (["Quorum none"], USAGE),
    ]:
        notes.opens(lines, notes.signed, 2, said)
        counts["files that are none"] += 1
    ran = script("fohlazu-open", "-p", notes.folder / "none", data=notes.signed)
    check(ran.returncode == 2 and b"none cannot be read: No such file" in ran.stderr, ran)


# ---- Witnesses that fohlazu-daily asks


class Published:
    """An operator who asks three witnesses. They may be out of reach."""

    def __init__(self, folder, source):
        self.folder = folder
        self.source = source
        folder.mkdir()
        self.key = Key(folder / "key", ORIGIN, source.randbytes(32))
        self.lines = []
        self.witnesses, self.servers, self.ports = {}, {}, {}
        for name in "north", "east", "south":
            (folder / name).mkdir()
            self.witnesses[name] = Witness(folder / name, f"{name}.example", source.randbytes(32),
                                           {ORIGIN: self.key.vkey})
            self.start(name)

    def start(self, name):
        self.servers[name] = self.witnesses[name].serve(self.ports.get(name, 0))
        self.ports[name] = self.servers[name].server_port

    def stop(self, name):
        server = self.servers.pop(name)
        server.shutdown()
        server.server_close()

    def urls(self):
        return [word for port in self.ports.values() for word in ("-w", f"http://127.0.0.1:{port}")]

    def day(self, is_new, cosigners, more=()):
        """A run that goes well, and says how many cosigned; the last checkpoint has their cosignatures."""
        if is_new:
            self.lines += [b"%d" % self.source.randrange(10**6) for _ in range(self.source.randint(1, 9))]
            (self.folder / "log").write_bytes(b"\n".join(self.lines) + b"\n")
        words = [self.folder / "log", self.folder / "published", "-k", self.key.path, "--origin", ORIGIN]
        said = printed(script("fohlazu-daily", *words, *self.urls(), *more)).decode()
        check(f", cosigned by {cosigners} of {3 + len(more) // 2}" in said, said)
        note = (self.folder / "published/checkpoint").read_bytes()
        growth = (self.folder / "published/growth").read_bytes()
        text = log_texts.checkpoint_text(ORIGIN.encode(), len(self.lines), logs.Log(self.lines).root(0, len(self.lines)))
        check(note.startswith(text + b"\n") and growth.endswith(b"\n\n" + note), note, growth)
        return said, note

    def growth(self, customer):
        """The proof from a customer's count on."""
        count = int(customer.last().split(b"\n")[1]) if customer.last() else 0
        return self.folder / f"published/from-{count}.growth"


def try_asked(folder, source, counts):
    """Days on which witnesses are out of reach, and come back."""
    operator = Published(folder / "asks", source)
    witnesses = [f"witness {name} {witness.key.vkey}" for name, witness in operator.witnesses.items()]
    customers = []
    for name, group in ("all", "all"), ("two", "2"):
        path = folder / f"policy of {name}"
        path.write_text("\n".join([f"log {operator.key.vkey}", *witnesses, f"group g {group} north east south",
                                   "quorum g", ""]))
        customers.append((Customer(folder / f"customer of {name}", operator.key.vkey), path))
    (every, every_policy), (two, two_policy) = customers

    def follow(customer, policy, status, said=b""):
        before = contents(customer.folder)
        ran = script("fohlazu-follow", customer.folder, "-p", policy, operator.growth(customer))
        check(ran.returncode == status and said in ran.stdout + ran.stderr, ran)
        check(status == 0 or contents(customer.folder) == before, "a refusal changes the folder", ran)
        counts["followed by a policy" if status == 0 else "refused by a policy"] += 1

    try:
        operator.day(True, 3)
        follow(every, every_policy, 0, b", the first")
        follow(two, two_policy, 0)
        operator.stop("south")
        said, _ = operator.day(True, 2)
        check(f"; http://127.0.0.1:{operator.ports['south']}: " in said, "a witness is not named", said)
        follow(every, every_policy, 1, b"the quorum g is not reached: north east cosigned the note")
        follow(two, two_policy, 0)
        operator.stop("east")
        operator.day(True, 1)
        follow(two, two_policy, 1, b"the quorum g is not reached: north cosigned the note")
        # The witnesses come back, and the checkpoint gets their cosignatures.
        operator.start("east")
        operator.start("south")
        said, note = operator.day(False, 3)
        check("no new lines" in said and note.count(b"\xe2\x80\x94") == 4, said, note)
        follow(two, two_policy, 0)
        _, again = operator.day(False, 3)
        check(again == note, "a witness that cosigned is asked for more", again)
        # The day that they missed has too few cosignatures for ever: who asks for all needs one proof past it.
        (folder / "old").write_bytes(every.last())
        proof = printed(run(os.environ["FOHLAZU"], "prove-consistency", folder / "old",
                            operator.folder / "published/checkpoint", operator.folder / "log"))
        printed(run("python3", "-S", SHARE / "fohlazu-follow", every.folder, "-p", every_policy, "-", data=proof))
        check(every.last() == note, "one proof past a day without witnesses")
        # A log that was rewritten is evidence without any witness.
        lines = [*operator.lines[:-1], b"other"]
        text = log_texts.checkpoint_text(ORIGIN.encode(), len(lines), logs.Log(lines).root(0, len(lines)))
        theirs = folder / "theirs"
        theirs.write_bytes(text + b"\n" + operator.key.line(text))
        ran = script("fohlazu-follow", every.folder, "-p", every_policy, theirs)
        check(ran.returncode == 3 and b"two histories of one log" in ran.stderr, ran)
        # A witness that does not know the log, or answers with no cosignature, is named, and the rest is published.
        operator.witnesses["south"].known = {}
        said, _ = operator.day(True, 2)
        check("status 404, unknown origin" in said, said)
        for answer, what in ((200, "text/plain", b"cosigned\n"), "no cosignature"), ((200, "", b""), "no cosignature"), \
                ((500, "text/plain", b"\x1b[2Jdown\n"), "status 500, \\u{1b}[2Jdown"), ((409, "", b"soon"), "status 409"):
            operator.witnesses["south"].answer = lambda body, answer=answer: answer
            said, _ = operator.day(source.randrange(2), 2)
            check(what in said, said)
            counts["days with a broken witness"] += 1
        try_hostile(operator, two, follow, two_policy, counts)
    finally:
        for name in list(operator.servers):
            operator.stop(name)


def try_hostile(operator, customer, follow, policy, counts):
    """A witness takes no room and no name of another's, and counts once under two URLs. Who asks for two of the three
    can go on each time."""
    def line(name, raw):
        return b"\xe2\x80\x94 %s %s\n" % (name, b64encode(raw))

    north = operator.witnesses["north"].key
    for answer, what in [
        (b"".join(line(b"w%d.example" % number, bytes([number]) * 76) for number in range(9)), "is no cosignature"),
        (line(b"w" * 20_000, bytes(76)), "is no cosignature"), (line(b"w", bytes(4)), "is no cosignature"),
        (line(b"w\xff", bytes(76)), "is no cosignature"), (line(b"w", bytes(76))[:-1], "is no cosignature"),
        (line(ORIGIN.encode(), operator.key.id + bytes(64)), "its name and ID are the log's or those of another -w"),
        (line(north.name.encode(), north.id + bytes(72)), "its name and ID are the log's or those of another -w"),
    ]:
        operator.witnesses["south"].answer = lambda body, answer=answer: (200, "text/plain", answer)
        said, note = operator.day(True, 2)
        check(what in said and note.count(b"\xe2\x80\x94") == 3, said, note)
        while customer.last() != note:
            follow(customer, policy, 0)
        counts["days with a hostile witness"] += 1
    said, _ = operator.day(True, 2, ["-w", f"http://127.0.0.1:{operator.ports['north']}/"])
    check(said.count("its name and ID are the log's or those of another -w") == 2, said)


def try_policies(folder, source):
    counts = Counter()
    notes = Notes(folder / "notes", source)
    try_trees(notes, counts)
    try_notes(notes, counts)
    try_malformed(notes, counts)
    try_asked(folder, source, counts)
    return counted(counts)
