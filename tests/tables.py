"""Random calls of dynamic tables. Each answer is that of a plain second body: lists that are scanned, and no counts
(RFC 9204, sections 2.1, 3.2 and 4.4)."""
from asked import Question, shown_field, to_field
from recorded import Numbers

PART = "tables beside a plain body"
CRATE = "h3_qpack_tests"
# The fields of the random blocks, and the indexes of their names in the static table.
NAMES = (b"a", b"age", b":path", b"some-name")
STATIC = {b"age": 2, b":path": 1}
VALUES = (b"", b"x", b"some-value")
# How many streams the random blocks have.
STREAMS = 3
# How many blocks a table is given under each limit.
BLOCKS = 400
# The entries, the streams and the calls of many blocks.
MANY_ENTRIES, MANY_STREAMS, MANY_CALLS = 64, 300, 4000
# How often fields of equal hashes are put, thirty each time, before one is sought.
ALIKE = 250
# The second half of a name of sixteen bytes whose hash does not depend on the first: the constant of a step of the hash.
FORGETTING = 0xE7037ED1A0B428DB
KINDS = ("table", "hashed-table")
NO_ROOM = "refused MaxTableSizeReached: no room within the capacity"


def size_of(pair):
    """Returns the size of a field (RFC 9204, section 3.2.1)."""
    return len(pair[0]) + len(pair[1]) + 32


class Entries:
    """The entries of a table. It keeps all that was ever inserted, of which the first are evicted."""

    def __init__(self, capacity):
        self.capacity, self.inserted, self.dropped, self.size = capacity, [], 0, 0

    def may_go(self, _absolute):
        """Whether an entry may be evicted."""
        return True

    def gone_for(self, room):
        """Returns how many are evicted once the rest fits this many bytes, or nothing where one of them has to stay."""
        gone, size = self.dropped, self.size
        while size > room:
            if not self.may_go(gone + 1):
                return None
            size -= size_of(self.inserted[gone])
            gone += 1
        return gone

    def gone_for_field(self, pair):
        """Returns how many are evicted for a field, or nothing if it can't be inserted."""
        room = self.capacity - size_of(pair)
        return None if room < 0 else self.gone_for(room)

    def evict(self, gone):
        """Evicts the first entries."""
        self.size -= sum(map(size_of, self.inserted[self.dropped : gone]))
        self.dropped = gone

    def store(self, pair):
        """Adds an entry."""
        self.inserted.append(pair)
        self.size += size_of(pair)

    def put(self, pair):
        """Puts a field, and returns the answer. It is passed over at capacity 0, or if an entry that has to stay is in its
        place."""
        gone = self.gone_for_field(pair)
        if gone is not None:
            self.evict(gone)
            self.store(pair)
        return NO_ROOM if 0 < self.capacity < size_of(pair) else "done"

    def resize(self, capacity):
        """Sets a capacity, and returns the answer."""
        gone = self.gone_for(capacity)
        if gone is None:
            return NO_ROOM
        self.evict(gone)
        self.capacity = capacity
        return "done"

    def live(self):
        """Returns how many entries are live."""
        return len(self.inserted) - self.dropped

    def newest(self, is_sought):
        """Returns the number of the newest live entry that is sought, or nothing."""
        for absolute in range(len(self.inserted), self.dropped, -1):
            if is_sought(self.inserted[absolute - 1]):
                return absolute
        return None

    def ask_state(self, question):
        """Asks for the number of insertions, for the oldest live entry, and for one before it."""
        live = self.live()
        question.ask("inserted", str(len(self.inserted)))
        for relative in {live, max(live - 1, 0)}:
            oldest = f"entry{shown_field(*self.inserted[self.dropped])}" if relative < live else refused_relative(relative)
            question.ask(f"relative {relative}", oldest)


def refused_relative(index):
    """Returns the answer where there is no entry."""
    return f"refused BadRelativeIndex({index}): no entry at relative index {index}"


class Handle(Entries):
    """A table as an encoder uses it, by blocks that reference entries."""

    def __init__(self, capacity, limit):
        super().__init__(capacity)
        self.limit, self.known, self.block = limit, 0, 0
        self.sent, self.references, self.waiting, self.blocked = set(), set(), [], []

    def may_go(self, absolute):
        """Whether an entry may be evicted: no block references it, and it is received if it was sent."""
        return not (absolute in self.sent and absolute > self.known) and all(it[1] != absolute for it in self.references)

    def hand_out(self, base, absolute):
        """Returns an entry under a base, if it may be referenced."""
        if absolute is None or len(self.blocked) >= self.limit and absolute > self.known:
            return "NotFound"
        self.references.add((self.block, absolute))
        if absolute <= base:
            return f"Relative {{ index: {base - absolute}, absolute: {absolute} }}"
        return f"PostBase {{ index: {absolute - base - 1}, absolute: {absolute} }}"

    def find(self, base, pair):
        """Returns what a block finds for a field."""
        return self.hand_out(base, self.newest(lambda it: it == pair))

    def insert(self, base, pair):
        """Returns how a block inserts a field, or what it finds for its name."""
        gone = self.gone_for_field(pair) if len(self.blocked) < self.limit else None
        if gone is not None:
            self.evict(gone)
            answer = self.inserted_as(base, pair)
            self.store(pair)
            self.sent.add(len(self.inserted))
            self.references.add((self.block, len(self.inserted)))
            return answer
        if pair[0] in STATIC:
            return f"NotInserted(Static({STATIC[pair[0]]}))"
        return f"NotInserted({self.hand_out(base, self.newest(lambda it: it[0] == pair[0]))})"

    def inserted_as(self, base, pair):
        """Returns the answer of an insertion that is about to be made."""
        total = len(self.inserted)
        places = f"postbase: {total - base}", f"absolute: {total + 1}"
        equal, named = self.newest(lambda it: it == pair), self.newest(lambda it: it[0] == pair[0])
        if equal:
            return f"Duplicated {{ relative: {total - equal}, {places[0]}, {places[1]} }}"
        if pair[0] in STATIC:
            return f"InsertedWithStaticNameRef {{ {places[0]}, index: {STATIC[pair[0]]}, {places[1]} }}"
        if named:
            return f"InsertedWithNameRef {{ {places[0]}, relative: {total - named}, {places[1]} }}"
        return f"Inserted {{ {places[0]}, {places[1]} }}"

    def required(self):
        """Returns the greatest entry that the block in progress references, or 0."""
        return max((it[1] for it in self.references if it[0] == self.block), default=0)

    def commit(self, stream, required):
        """Ends the block in progress."""
        if required > self.known:
            self.blocked.append(required)
        if required:
            self.waiting.append((self.block, stream, required))
        self.block += 1

    def release(self, block):
        """Gives a block up."""
        self.references = {it for it in self.references if it[0] != block}
        self.waiting = [it for it in self.waiting if it[0] != block]

    def oldest(self, stream):
        """Returns the oldest block of a stream, or nothing."""
        return next((it for it in self.waiting if it[1] == stream), None)

    def acknowledge(self, stream):
        """Releases the oldest block of a stream, and returns the answer."""
        oldest = self.oldest(stream)
        if not oldest:
            return f"refused UnknownStreamId({stream}): unknown stream {stream}"
        self.release(oldest[0])
        return "done"

    def cancel(self, stream):
        """Releases every block of a stream."""
        while self.oldest(stream):
            self.acknowledge(stream)

    def receive(self, increment):
        """More insertions are known to be received."""
        self.known += increment
        self.blocked = [it for it in self.blocked if it > self.known]


def any_pair(numbers):
    """Returns a field by chance."""
    return NAMES[numbers.below(len(NAMES))], VALUES[numbers.below(len(VALUES))]


def ask_block(question, table, numbers):
    """Asks for a block by chance, which is sent or given up."""
    stream, base = numbers.below(STREAMS), len(table.inserted)
    words, answers = "", [f"base {base}"]
    for _ in range(numbers.below(4)):
        pair = any_pair(numbers)
        finds = numbers.below(3) == 0
        words += to_field(*pair).replace("| ", "| reuse " if finds else "| insert ", 1)
        answers.append((table.find if finds else table.insert)(base, pair))
    if numbers.below(4) == 0:
        question.ask(f"gives-up{words}", "; ".join(answers))
        table.release(table.block)
        return
    required = table.required()
    question.ask(f"commits {stream} {required}{words}", "; ".join([*answers, "done"]))
    table.commit(stream, required)


def ask_other_call(question, table, numbers):
    """Asks for what a decoder says, or for a call of the table itself."""
    stream, kind = numbers.below(STREAMS), numbers.below(8)
    if kind == 0:
        capacity = numbers.below(200)
        question.ask(f"sets {capacity}", table.resize(capacity))
    elif kind == 1:
        pair = any_pair(numbers)
        question.ask(f"puts{to_field(*pair)}", table.put(pair))
    elif kind == 2:
        question.ask(f"cancels {stream}", "done")
        table.cancel(stream)
    elif kind <= 4:
        increment = numbers.below(3)
        question.ask(f"receives {increment}", "done")
        table.receive(increment)
    else:
        question.ask(f"acknowledges {stream}", table.acknowledge(stream))


def random_question(capacity):
    """Returns the question of random calls of a table of a capacity, under five limits of blocked blocks."""
    question = Question(PART, f"table_of_{capacity}", CRATE)
    for limit in range(5):
        numbers, table = Numbers(20_220_606), Handle(capacity, limit)
        question.begin(f"table {capacity}")
        question.ask(f"limits {limit}", "done")
        for _ in range(BLOCKS):
            ask_block(question, table, numbers)
            ask_other_call(question, table, numbers)
            table.ask_state(question)
    return question


def ask_tracked(question, table):
    """Asks for how many blocks a table holds."""
    expected = f"{len(table.waiting)} unacknowledged, {len(table.blocked)} blocked, {table.known} known"
    question.ask("tracked", expected)


def ask_acknowledgment(question, table, stream):
    """Asks for what the oldest block of a stream requires, and acknowledges it."""
    oldest = table.oldest(stream)
    question.ask(f"oldest {stream}", f"Some({oldest[2]})" if oldest else "None")
    question.ask(f"acknowledges {stream}", table.acknowledge(stream))


def ask_one_of_many(question, table, numbers):
    """Asks for a block of one field, for an acknowledgment, a cancellation or an increment."""
    stream, kind = numbers.below(MANY_STREAMS), numbers.below(400)
    if kind == 0:
        increment = numbers.below(5)
        question.ask(f"receives {increment}", "done")
        table.receive(increment)
    elif kind < 10:
        question.ask(f"cancels {stream}", "done")
        table.cancel(stream)
    elif kind < 60:
        ask_acknowledgment(question, table, stream)
    else:
        pair = b"n", bytes([numbers.below(MANY_ENTRIES)])
        found = table.find(MANY_ENTRIES, pair)
        required = table.required()
        words = to_field(*pair).replace("| ", "| reuse ", 1)
        question.ask(f"commits {stream} {required}{words}", f"base {MANY_ENTRIES}; {found}; done")
        table.commit(stream, required)


def many_blocks_question():
    """Returns the question of thousands of blocks of many streams. Then every block is acknowledged, a stream after another,
    or cancelled with it."""
    question, numbers = Question(PART, "many_blocks", CRATE), Numbers(9204)
    table = Handle(MANY_ENTRIES * 34, 65_534)
    question.begin(f"table {table.capacity}")
    question.ask(f"limits {table.limit}", "done")
    for number in range(MANY_ENTRIES):
        pair = b"n", bytes([number])
        question.ask(f"puts{to_field(*pair)}", table.put(pair))
    for _ in range(MANY_CALLS):
        ask_one_of_many(question, table, numbers)
        ask_tracked(question, table)
    question.ask("sets 0", NO_ROOM)
    for stream in range(MANY_STREAMS):
        for _ in range(stream % 8):
            ask_acknowledgment(question, table, stream)
        question.ask(f"cancels {stream}", "done")
        table.cancel(stream)
        ask_tracked(question, table)
    question.ask("unacknowledged", "0")
    question.ask(f"receives {MANY_ENTRIES}", "done")
    question.ask("blocked", "0")
    question.ask("sets 0", "done")
    return question


def shown_place(absolute):
    """Returns the number of an entry as an answer shows it."""
    return f"Some({absolute})" if absolute else "None"


def ask_newest(question, table, pair):
    """Asks for the newest entry with a field, and for the newest with its name. No more entries are compared for it than the
    number of the live ones has binary digits."""
    equal, named = table.newest(lambda it: it == pair), table.newest(lambda it: it[0] == pair[0])
    most = table.live().bit_length()
    question.ask(f"newest 0 {most}{to_field(*pair)}", f"{shown_place(equal)} true {shown_place(named)}")


def any_bytes(numbers, names, values):
    """Returns a field whose name and value are a byte each, below these bounds."""
    return bytes([numbers.below(names)]), bytes([numbers.below(values)])


def ask_put(question, table, pair):
    """Puts a field. One that is larger than the capacity is refused."""
    question.ask(f"puts{to_field(*pair)}", table.put(pair))


def small_question():
    """Returns the question of small tables. Before each search a field is put, or the capacity changes."""
    question, numbers = Question(PART, "newest_of_few", CRATE), Numbers(0x1234_5678_9ABC_DEF1)
    for kind in KINDS:
        table = Entries(0)
        question.begin(f"{kind} 0")
        for _ in range(3000):
            if numbers.below(8) == 0:
                capacity = numbers.below(201)
                question.ask(f"sets {capacity}", table.resize(capacity))
            else:
                ask_put(question, table, any_bytes(numbers, 2, 3))
            ask_newest(question, table, any_bytes(numbers, 2, 3))
    return question


def large_question():
    """Returns the question of large tables, to which a field is put before each search."""
    question, numbers = Question(PART, "newest_of_many", CRATE), Numbers(0x0FED_CBA9_8765_4321)
    for kind in KINDS:
        table = Entries(4096)
        question.begin(f"{kind} 4096")
        for _ in range(1000):
            ask_put(question, table, any_bytes(numbers, 8, 16))
            ask_newest(question, table, any_bytes(numbers, 8, 16))
        assert table.live() > 100, "the table is not large"
        table.ask_state(question)
    return question


def alike(number):
    """Returns a field without a value, under a name whose hash is that of all such names."""
    return (number | FORGETTING << 64).to_bytes(16, "little"), b""


def ask_alike(question, table, numbers, times):
    """Puts fields of equal hashes, some of them equal, and asks for one after each thirty."""
    for _ in range(times):
        for _ in range(30):
            ask_put(question, table, alike(numbers.below(40_000)))
        ask_newest(question, table, alike(numbers.below(40_000)))


def alike_question(share):
    """Returns the question of thousands of fields of equal hashes. Nearly all are evicted, and it begins again."""
    question, numbers = Question(PART, "newest_of_alike", CRATE), Numbers(0x0123_4567_89AB_CDEF)
    table, times = Entries(320_000), ALIKE // share
    question.begin("hashed-table 320000")
    ask_alike(question, table, numbers, times)
    assert table.live() > times * 24, "the table is not full"
    table.ask_state(question)
    for capacity in (1_000, 0, 160_000):
        question.ask(f"sets {capacity}", table.resize(capacity))
        ask_alike(question, table, numbers, times)
    assert table.live() > times * 12, "the table is not full again"
    table.ask_state(question)
    return question


def read_questions(share):
    """Returns all questions. If a share of the rounds is asked for, there are fewer fields of equal hashes."""
    questions = [random_question(it) for it in (0, 40, 80, 120, 200)]
    return [*questions, many_blocks_question(), small_question(), large_question(), alike_question(share)]
