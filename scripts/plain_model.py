"""A plain model of the engine, which foretells the reply to each line of a script: lists of batches, one for what is stored and one for each
handle, and no index, mark in a table or kept plan. Scripts of this folder compare the program with it."""
import collections

TASKS = "memtable_flusher compactor compaction_worker garbage_collector batch_writer"
LAST = 2 ** 63 - 1

CLOSED = "Closed error: db is closed"
FENCED = "Closed error: detected newer DB client"
UNAVAILABLE = "Unavailable error: object store error (unavailable)"
NOT_FOUND = "Data error: object store error (not found)"
NO_MANIFEST = "Data error: failed to find latest transactional object (e.g. manifest) version"
NO_OPERATOR = "Invalid error: merge operator missing. A merge operator is required to read merge operands"
OVERTAKEN = "Unavailable error: transactional object (e.g. manifest) op timeout after 8 tries"
NO_LOG = "Invalid error: attempted a WAL operation when the WAL is disabled"

Batch = collections.namedtuple("Batch", "number time ops")


class Refused(Exception):
    """A command answers this error."""


class Fault(Exception):
    """A call of the store failed."""


class Manifest:
    def __init__(self, number, **fields):
        self.number, self.__dict__ = number, {"number": number, **fields}

    def next(self, **changes):
        return Manifest(**{**self.__dict__, "number": self.number + 1, **changes})


class Store:
    """The objects of a store, whose calls with these numbers fail, and take place all the same where they landed."""

    def __init__(self, failing):
        self.failing, self.calls = failing, 0
        self.manifests, self.logs, self.tables = {}, {}, {}

    def call(self, change=lambda: None):
        self.calls += 1
        landed = self.failing.get(self.calls)
        if landed is not False:
            change()
        if landed is not None:
            raise Fault()

    def latest(self):
        self.call()
        return self.manifests[max(self.manifests)] if self.manifests else None

    def put_manifest(self, manifest):
        self.call(lambda: self.manifests.__setitem__(manifest.number, manifest))

    def put_new(self, manifest):
        """Puts a manifest where none is under its number, and says whether it did."""
        free = manifest.number not in self.manifests
        self.call(lambda: self.manifests.setdefault(manifest.number, manifest))
        return free

    def last_log(self, after):
        self.call()
        return max([after, *self.logs])

    def read_log(self, which):
        self.call()
        return self.logs[which]

    def find_log(self, which):
        self.call()
        return self.logs.get(which)

    def put_log(self, which, batches):
        self.call(lambda: self.logs.__setitem__(which, list(batches)))

    def read_table(self, which):
        self.call()
        if which not in self.tables:
            raise Refused(NOT_FOUND)
        return self.tables[which]

    def put_table(self, which, batches):
        self.call(lambda: self.tables.__setitem__(which, list(batches)))

    def newest(self, mark, last, number):
        """The newest number in a log file, from the last one downwards to one that has any above this, or this."""
        for which in range(last, mark, -1):
            found = max([number] + [each.number for each in self.read_log(which)])
            if found > number:
                return found
        return number

    def replay(self, mark, last, above):
        found = [each for which in range(mark + 1, last + 1) for each in self.read_log(which)]
        return [each for each in found if each.number > above]


# ---- reads
def read(batches, bound, key, merges):
    """The value of a key, with the number and the time of its newest operation, or None."""
    tail = []
    for batch in batches:
        for kind, of, value in batch.ops:
            if of == key and (bound is None or batch.number <= bound):
                tail = tail + [(kind, value, batch)] if kind == "merge" else [(kind, value, batch)]
    if not tail or [each[0] for each in tail] == ["delete"]:
        return None
    if any(kind == "merge" for kind, *_ in tail) and not merges:
        raise Refused(NO_OPERATOR)
    value = "".join(part for kind, part, _ in tail if kind != "delete")
    return value, tail[-1][2].number, tail[-1][2].time


def row_text(found):
    return "%s number %d created %d" % found


def kept_of(ops):
    """What a batch keeps of operations: a put and a delete take the place of those on their key before."""
    kept = []
    for kind, key, value in ops:
        if kind != "merge":
            kept = [each for each in kept if each[1] != key]
        kept.append((kind, key, value))
    return kept


class Handle:
    def __init__(self, keeps_log, view, stored, tick):
        self.keeps_log, self.view, self.line, self.durable, self.tick = keeps_log, view, stored, len(stored), tick
        self.epoch, self.counter, self.result, self.tasks = view.epoch, 0, None, True

    def check(self):
        if self.result:
            raise Refused(self.result)

    def above(self, number):
        return [each for each in self.line if each.number > number]

    def unflushed(self):
        counted = self.above(self.view.last) + (self.above(self.durable) if self.keeps_log else [])
        return sum(len(key) + len(value) for batch in counted for _, key, value in batch.ops)

    def rows(self, store):
        tables = [store.read_table(which) for which in self.view.tables]
        return [each for table in tables for each in table] + self.above(self.view.last)


class Reader:
    def __init__(self, mode, skips, lag, view):
        self.mode, self.skips, self.lag, self.view, self.memory, self.mark, self.result = mode, skips, lag, view, [], view.mark, None
        self.number, self.lease, self.begun = view.last, None, None

    def check(self):
        if self.result:
            raise Refused(self.result)

    def rows(self, store):
        tables = [store.read_table(which) for which in self.view.tables]
        return [each for table in tables for each in table] + self.memory


class Poll:
    """What a reader becomes by a poll of single calls, as far as that has come."""

    def __init__(self, reader):
        self.view, self.memory, self.number, self.mark, self.lease = reader.view, reader.memory, reader.number, reader.mark, reader.lease

    def take(self, found):
        """Takes the next batches of a log file, up to one that isn't the next."""
        for each in found:
            if each.number == self.number + 1:
                self.memory, self.number = self.memory + [each], each.number
            elif each.number > self.number:
                return False
        return True

    def leave(self, reader):
        reader.memory = [each for each in self.memory if each.number > self.view.last]
        reader.view, reader.number, reader.mark, reader.lease = self.view, self.number, self.mark, self.lease


class Run:
    """A run of commands over a store: what each is answered."""

    def __init__(self, store, limit, merges, length=None):
        self.store, self.limit, self.merges, self.length = store, limit, merges, length
        self.objects, self.writes = [], []

    def reply(self, moment, words):
        try:
            return getattr(self, words[0])(moment, *words[1:])
        except Refused as refused:
            return "error " + str(refused)
        except Fault:
            return "error " + UNAVAILABLE

    def handle(self, which):
        found = self.objects[which] if which < len(self.objects) else None
        if not isinstance(found, Handle):
            raise Refused("unknown object")
        return found

    def add(self, one):
        self.objects.append(one)
        return len(self.objects) - 1

    # ---- handles
    def open(self, moment, kind="log"):
        old = self.store.latest()
        mark, above = (old.mark, old.last) if old else (0, 0)
        last = self.store.last_log(mark)
        view = old.next(epoch=old.epoch + 1, following=last + 1) if old else Manifest(
            1, epoch=1, tables=[], last=0, tick=None, mark=0, following=1, checkpoints=[], segments=[])
        self.store.put_manifest(view)
        self.store.put_log(last + 1, [])
        found = [each for which in range(mark + 1, last + 1) for each in self.store.read_log(which)]
        stored = [each for which in view.tables for each in self.store.tables[which]] + [each for each in found if each.number > above]
        ticks = [each.time for each in stored if each.number > above] + ([view.tick] if view.tick is not None else [])
        return "handle %d" % self.add(Handle(kind == "log", view, stored, max(ticks, default=None)))

    def write(self, which, moment, ops):
        handle = self.handle(which)
        handle.check()
        if not ops:
            raise Refused("Invalid error: empty write batch not allowed")
        if handle.unflushed() >= self.limit:
            raise Refused("backpressure %d of %d" % (handle.unflushed(), self.limit))
        for _, key, _ in kept_of(ops):
            if self.length and len(key) < self.length:
                raise Refused("Invalid error: segment extractor produced an empty prefix for key " + key)
        if handle.tick is not None and moment < handle.tick:
            raise Refused("Invalid error: invalid clock tick, must be monotonic. last_tick=`%d`, next_tick=`%d`" % (handle.tick, moment))
        handle.line = handle.line + [Batch(len(handle.line) + 1, moment, kept_of(ops))]
        handle.tick = moment
        self.writes.append((handle, len(handle.line)))
        return "write %d number %d" % (len(self.writes) - 1, len(handle.line))

    def put(self, moment, which, key, value):
        return self.write(which, moment, [("put", key, value)])

    def delete(self, moment, which, key):
        return self.write(which, moment, [("delete", key, "")])

    def merge(self, moment, which, key, value):
        self.handle(which)
        if not self.merges:
            raise Refused(NO_OPERATOR)
        return self.write(which, moment, [("merge", key, value)])

    def batch(self, moment, which, ops):
        return self.write(which, moment, ops)

    def current(self, handle):
        """The latest manifest, where no handle was opened since."""
        latest = self.store.latest()
        if latest.epoch > handle.epoch:
            handle.result = FENCED
            raise Refused(FENCED)
        return latest

    def store_batches(self, handle, kind):
        latest = self.current(handle)
        unstored = handle.above(handle.durable)
        if kind == "wal":
            if unstored:
                self.store.put_log(self.store.last_log(latest.mark) + 1, unstored)
                handle.durable = len(handle.line)
            handle.view = latest
            return
        if len(handle.line) == latest.last:
            handle.view = latest
            return
        last = self.store.last_log(latest.mark)
        if handle.keeps_log and unstored:
            last += 1
            self.store.put_log(last, unstored)
        table, which = handle.above(latest.last), (handle.epoch, handle.counter)
        handle.counter += 1
        self.store.put_table(which, table)
        ticks = [each.time for each in table] + ([latest.tick] if latest.tick is not None else [])
        view = latest.next(tables=latest.tables + [which], last=len(handle.line), tick=max(ticks), mark=last, following=last + 1,
                           segments=self.segments(latest, table))
        self.store.put_manifest(view)
        handle.durable, handle.view = len(handle.line), view

    def flush(self, moment, which, kind=None):
        handle = self.handle(which)
        handle.check()
        kind = kind or ("wal" if handle.keeps_log else "memtable")
        if kind == "wal" and not handle.keeps_log:
            raise Refused(NO_LOG)
        try:
            self.store_batches(handle, kind)
        except Fault:
            handle.result, handle.broken = UNAVAILABLE, True
            raise
        return "flushed"

    def refresh(self, moment, which):
        handle = self.handle(which)
        handle.check()
        handle.view = self.current(handle)
        return "refreshed"

    def compact(self, moment, which):
        handle = self.handle(which)
        handle.check()
        latest = self.current(handle)
        if len(latest.tables) > 1:
            joined = [each for table in latest.tables for each in self.store.read_table(table)]
            table = (handle.epoch, handle.counter)
            handle.counter += 1
            self.store.put_table(table, joined)
            latest = latest.next(tables=[table])
            self.store.put_manifest(latest)
        handle.view = latest
        return "compacted"

    def snapshot(self, moment, which):
        handle = self.handle(which)
        handle.check()
        return "snapshot %d at %d" % (self.add((handle, len(handle.line))), len(handle.line))

    # `await` is a word of the language
    def await_(self, moment, which):
        if which >= len(self.writes):
            raise Refused("unknown object")
        handle, number = self.writes[which]
        if number <= handle.durable:
            return "durable"
        handle.check()
        return "pending"

    # ---- reads
    def rows_of(self, which, remote):
        found = self.objects[which] if which < len(self.objects) else None
        if found is None:
            raise Refused("unknown object")
        if isinstance(found, Reader):
            found.check()
            return found.rows(self.store), found.number
        handle, bound = found if isinstance(found, tuple) else (found, len(found.line))
        handle.check()
        return handle.rows(self.store), min(bound, handle.durable) if remote else bound

    def get(self, moment, which, key, remote=None):
        rows, bound = self.rows_of(which, remote)
        found = read(rows, bound, key, self.merges)
        return "value " + row_text(found) if found else "none"

    def scan(self, moment, which, low, high, *words):
        rows, bound = self.rows_of(which, "remote" in words)
        keys = sorted({key for batch in rows for _, key, _ in batch.ops}, reverse="desc" in words)
        found = [(key, read(rows, bound, key, self.merges)) for key in keys if within(key, low, high)]
        lines = ["row %s %s" % (key, row_text(value)) for key, value in found if value]
        return "\n".join(["rows %d" % len(lines), *lines])

    def seek(self, moment, which, low, high, take, key, *words):
        rows, bound = self.rows_of(which, "remote" in words)
        if not within(key, low, high):
            raise Refused("Invalid error: cannot seek to a key outside the iterator range. key=`%s`, range=`%s %s`" % (key, low, high))
        down = "desc" in words
        taken, left, fault = [], [], None
        for each in sorted({each for batch in rows for _, each, _ in batch.ops}, reverse=down):
            try:
                value = read(rows, bound, each, self.merges) if within(each, low, high) else None
            except Refused as refused:
                fault = refused
                break
            if value:
                (taken if len(taken) < take else left).append((each, value))
        if fault and len(taken) < take:
            raise fault
        if taken and key <= taken[-1][0]:
            raise Refused("Invalid error: cannot seek to a key less than the last returned key")
        if fault:
            raise fault
        lines = ["row %s %s" % (each, row_text(value)) for each, value in taken + [row for row in left if (row[0] <= key if down else row[0] >= key)]]
        return "\n".join(["rows %d" % len(lines), *lines])

    def status(self, moment, which):
        found = self.objects[which] if which < len(self.objects) else None
        if found is None or isinstance(found, tuple):
            raise Refused("unknown object")
        reason = {None: "none", CLOSED: "clean", FENCED: "fenced"}.get(found.result, "panic")
        number = found.number if isinstance(found, Reader) else found.durable
        memory = found.memory if isinstance(found, Reader) else found.above(found.view.last)
        return " ".join(["status durable %d manifest %d reason %s segments" % (number, found.view.number, reason), *self.segments(found.view, memory)])

    def segments(self, view, batches):
        """The prefixes of a manifest and of batches, each once, rising."""
        return sorted({*view.segments, *(key[:self.length] for batch in batches for _, key, _ in batch.ops if self.length)})

    # ---- readers
    def follow(self, moment, *words):
        mode, skips = words[0], "skip" in words
        lag = words[-1] if "lag" in words else 0
        if mode == "managed":
            refuse_options(words[1], words[2])
        latest = self.store.latest()
        if latest is None:
            raise Refused(NO_MANIFEST)
        if mode == "pinned":
            return self.pin(latest, words[1], skips, lag)
        reader = Reader(mode, skips, lag, latest)
        if mode == "managed":
            self.take_lease(reader, latest, words[1], moment)
        self.replay(reader, reader.view, 0)
        return "follower %d whole at %d" % (self.add(reader), reader.number)

    def take_lease(self, reader, latest, lifetime, moment):
        """Commits a checkpoint in place of the reader's, and goes by the manifest that does."""
        others = [each for each in latest.checkpoints if not reader.lease or each[0] != reader.lease[0]]
        which, end = latest.number + 1, min(LAST, moment + lifetime)
        view = latest.next(checkpoints=others + [(which, end)])
        self.store.put_manifest(view)
        reader.lease, reader.view = (which, end, lifetime), view

    def replay(self, reader, view, lag):
        """Takes what log files have under a manifest, after what is known where that leads up to its tables; but only where that leaves it
        further behind than this."""
        if reader.skips:
            reader.memory, reader.number = [], view.last
            return
        leads = reader.number >= view.last
        mark = max(reader.mark, view.mark) if leads else view.mark
        number = max(reader.number, view.last)
        last = self.store.last_log(mark)
        if lag and self.store.newest(mark, last, number) <= number + lag:
            last = mark
        fresh = self.store.replay(mark, last, number)
        memory = [each for each in (reader.memory if leads else []) + fresh if each.number > view.last]
        reader.memory, reader.mark, reader.number = memory, last, view.last + len(memory)

    def pin(self, latest, which, skips, lag):
        if which not in [each for each, _ in latest.checkpoints]:
            raise Refused("Data error: checkpoint missing. checkpoint_id=`00000000-0000-0000-0000-%012x`" % which)
        self.store.call()
        view = self.store.manifests[which]
        reader = Reader("pinned", skips, lag, view)
        if not skips:
            found = [each for log in range(view.mark + 1, view.following) for each in self.store.read_log(log)]
            reader.memory = [each for each in found if each.number > view.last]
            reader.number += len(reader.memory)
        return "follower %d whole at %d" % (self.add(reader), reader.number)

    def reader(self, which):
        found = self.objects[which] if which < len(self.objects) else None
        if not isinstance(found, Reader):
            raise Refused("unknown object")
        return found

    def begin(self, moment, which):
        reader = self.reader(which)
        reader.check()
        reader.begun = self.steps(reader, moment)
        return "begun"

    def step(self, moment, which):
        reader = self.reader(which)
        if not reader.begun:
            raise Refused("unknown object")
        poll, reader.begun = reader.begun, None
        try:
            next(poll)
        except StopIteration as end:
            return end.value
        except (Fault, Refused) as failed:
            if reader.mode == "managed":
                reader.result = str(failed) or UNAVAILABLE
            raise
        reader.begun = poll
        return "stepped"

    def steps(self, reader, moment):
        """A poll, which stops before each of its calls of the store but the first."""
        if reader.mode == "pinned":
            return "whole at %d" % reader.number
        for _ in range(8):
            poll = Poll(reader)
            latest = self.store.latest()
            if reader.mode == "latest":
                poll.view = latest
            elif (latest.tables, latest.last, latest.segments) != (reader.view.tables, reader.view.last, reader.view.segments):
                yield
                latest = self.replace(poll, latest, moment)
                if not latest:
                    yield
                    continue
            latest = yield from self.step_logs(reader, poll, latest)
            if latest and poll.lease and moment > poll.lease[1] - poll.lease[2] // 2:
                yield
                if poll.lease[0] in [each for each, _ in latest.checkpoints]:
                    latest = self.renew(poll, latest, moment)
                    if not latest:
                        yield
                        continue
                else:
                    latest = self.replace(poll, latest, moment)
                    if not latest:
                        yield
                        continue
                    latest = yield from self.step_logs(reader, poll, latest)
            poll.leave(reader)
            return "%s at %d" % ("whole" if latest else "truncated", reader.number)
        raise Refused(OVERTAKEN)

    def replace(self, poll, latest, moment):
        """Puts a manifest with a checkpoint in place of the reader's, and goes by it."""
        _, _, lifetime = poll.lease
        which, end = latest.number + 1, min(LAST, moment + lifetime)
        view = latest.next(checkpoints=[each for each in latest.checkpoints if each[0] != poll.lease[0]] + [(which, end)])
        if not self.store.put_new(view):
            return None
        poll.view, poll.lease = view, (which, end, lifetime)
        return view

    def renew(self, poll, latest, moment):
        """Puts a manifest in which the reader's checkpoint has another end."""
        which, _, lifetime = poll.lease
        end = min(LAST, moment + lifetime)
        view = latest.next(checkpoints=[(each, end if each == which else was) for each, was in latest.checkpoints])
        if not self.store.put_new(view):
            return None
        poll.lease = which, end, lifetime
        return view

    def step_logs(self, reader, poll, latest):
        """Takes what log files have, and answers the manifest that was read last, or none where something is missing."""
        if reader.skips or poll.number < poll.view.last:
            poll.memory, poll.number, poll.mark = [], poll.view.last, latest.mark
        poll.mark = max(poll.mark, latest.mark)
        if reader.skips:
            return latest
        yield
        last = self.store.last_log(poll.mark)
        if last == poll.mark:
            yield
            latest = self.store.latest()
            return latest if latest.mark <= poll.mark else None
        if reader.lag:
            reads = yield from self.step_looks(reader, poll, last)
            if not reads:
                return None if reads is None else latest
        while poll.mark < last:
            yield
            found = self.store.find_log(poll.mark + 1)
            if found is None or not poll.take(found):
                return None
            poll.mark += 1
        return latest

    def step_looks(self, reader, poll, last):
        """Looks at log files from the last one downwards: whether they are to be read, or None where one is missing."""
        for which in range(last, poll.mark, -1):
            yield
            found = self.store.find_log(which)
            if found is None:
                return None
            newest = max([0] + [each.number for each in found])
            if newest > poll.number:
                return newest > poll.number + reader.lag
        return False

    def poll(self, moment, which):
        reader = self.reader(which)
        reader.check()
        reader.begun = None
        if reader.mode == "latest":
            saw = dict(reader.__dict__)
            try:
                reader.view = self.store.latest()
                self.replay(reader, reader.view, reader.lag)
            except Fault:
                reader.__dict__ = saw
                raise
        if reader.mode == "managed":
            self.poll_managed(reader, moment)
        return "whole at %d" % reader.number

    def poll_managed(self, reader, moment):
        saw = dict(reader.__dict__)
        try:
            latest, old = self.store.latest(), reader.view
            if (latest.tables, latest.last, latest.segments) != (old.tables, old.last, old.segments):
                self.take_lease(reader, latest, reader.lease[2], moment)
                latest = reader.view
            self.replay(reader, latest, reader.lag)
            if reader.view is not old:
                saw = dict(reader.__dict__)  # only the renewal of the lease that it took may fail then
            which, end, lifetime = reader.lease
            if moment > end - lifetime // 2:
                if which in [each for each, _ in latest.checkpoints]:
                    end = min(LAST, moment + lifetime)
                    self.store.put_manifest(latest.next(checkpoints=[(each, end if each == which else was) for each, was in latest.checkpoints]))
                    reader.lease = which, end, lifetime
                else:
                    self.take_lease(reader, latest, lifetime, moment)
        except Fault:
            reader.__dict__ = {**saw, "lease": reader.lease, "result": UNAVAILABLE}
            raise

    # ---- the store
    def checkpoint(self, moment, lifetime=None):
        latest = self.store.latest()
        if latest is None:
            raise Refused(NO_MANIFEST)
        end = None if lifetime is None else min(LAST, moment + lifetime)
        self.store.put_manifest(latest.next(checkpoints=latest.checkpoints + [(latest.number + 1, end)]))
        return "checkpoint %d" % (latest.number + 1)

    def sweep(self, moment):
        store = self.store
        latest = store.latest()
        if latest is None:
            raise Refused(NO_MANIFEST)
        left = [(which, end) for which, end in latest.checkpoints if end is None or end >= moment]
        if left != latest.checkpoints:
            latest = latest.next(checkpoints=left)
            store.put_manifest(latest)
        for _ in left:
            store.call()
        store.call()
        kept = [latest, *(store.manifests[which] for which, _ in left)]
        tables = {each for manifest in kept for each in manifest.tables}
        mark = min(manifest.mark for manifest in kept)
        numbers = {manifest.number for manifest in kept}
        for which in sorted(set(store.tables) - tables):
            store.call(lambda: store.tables.pop(which))
        for which in sorted(each for each in store.logs if each <= mark):
            store.call(lambda: store.logs.pop(which))
        for which in sorted(set(store.manifests) - numbers):
            store.call(lambda: store.manifests.pop(which))
        return "swept"

    # ---- closing
    def close(self, moment, which, kind="memtable"):
        found = self.objects[which] if which < len(self.objects) else None
        if isinstance(found, Reader):
            return self.close_reader(found)
        handle = self.handle(which)
        if handle.result == CLOSED:
            raise Refused(CLOSED)
        names, handle.tasks = (" " + TASKS if handle.tasks else ""), False
        if handle.result:
            return "ended" + names
        handle.result = CLOSED
        try:
            if kind == "wal" and not handle.keeps_log:
                raise Refused(NO_LOG)
            if kind != "none":
                fenced = handle.result
                self.store_batches(handle, kind)
                handle.result = fenced
        except Refused as refused:
            handle.result = CLOSED
            return "error %s; ended%s" % (refused, names)
        except Fault:
            handle.broken = True
            return "error %s; ended%s" % (UNAVAILABLE, names)
        return "ended" + names

    def close_reader(self, reader):
        if reader.result == CLOSED:
            return "ended"
        reader.check()
        reader.result, reader.begun = CLOSED, None
        if reader.mode == "pinned":
            return "ended"
        try:
            if reader.lease:
                latest = self.store.latest()
                others = [each for each in latest.checkpoints if each[0] != reader.lease[0]]
                if others != latest.checkpoints:
                    self.store.put_manifest(latest.next(checkpoints=others))
        except Fault:
            return "error %s; ended manifest_poller" % UNAVAILABLE
        return "ended manifest_poller"


def refuse_options(lifetime, interval):
    if lifetime < 1000:
        raise Refused("Invalid error: invalid checkpoint lifetime. lifetime=`%dms`" % lifetime)
    if lifetime < 2 * interval:
        raise Refused("Invalid error: checkpoint lifetime must be at least double the manifest poll interval. lifetime=`%dms`, interval=`%dms`" % (lifetime, 2 * interval))


def within(key, low, high):
    above = low == "*" or (key >= low[1:] if low[0] == "[" else key > low[1:])
    below = high == "*" or (key <= high[1:] if high[0] == "[" else key < high[1:])
    return above and below


# ---- lines
def text_of(moment, words):
    parts = []
    for word in words:
        if isinstance(word, list):
            ops = [" ".join([kind, key] + ([value] if kind != "delete" else [])) for kind, key, value in word]
            parts += [" ; ".join(ops)] if ops else []
        else:
            parts.append(str(word))
    return " ".join([str(moment), *parts])
