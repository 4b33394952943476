#!/usr/bin/env python3
"""Test vectors for the three moves, computed from docs/SPECIFICATION.md alone.

    python3 tests/vectors/reference.py            writes vectors.txt beside this file, and the constants of the tests
    python3 tests/vectors/reference.py --check    writes nothing; fails if one of the two files has another content

Each case is a statement with a key, and a mask that is drawn from pseudo-random bytes. The program computes the commitments
message and the answer to each challenge, judges each answer, and judges changed answers too, which must get their cause.
"""

import hashlib
import sys
from dataclasses import dataclass
from pathlib import Path

HERE = Path(__file__).resolve().parent
TEXT_FILE = HERE / "vectors.txt"
CONSTANTS_FILE = HERE.parent.parent / "crates" / "move_examples" / "src" / "cases.rt"

WIDTH = 32
CHALLENGES = (1, 2, 3)


# ---------------------------------------------------------------------------------------------------------------------
# Pseudo-random bytes
# ---------------------------------------------------------------------------------------------------------------------


class Stream:
    """Bytes of a linear congruential generator, how many were taken, and how many words a drawing skipped."""

    def __init__(self, seed):
        self.state = seed
        self.count = 0
        self.skipped = 0

    def byte(self):
        self.state = (self.state * 1103515245 + 12345) % 2**31
        self.count += 1
        return (self.state >> 16) % 256

    def word(self):
        high = self.byte()
        return 256 * high + self.byte()

    def bytes(self, count):
        return bytes(self.byte() for _ in range(count))

    def residues(self, count, q):
        return [self.word() % q for _ in range(count)]


# ---------------------------------------------------------------------------------------------------------------------
# Lists of residues
# ---------------------------------------------------------------------------------------------------------------------


def plus(a, b, q):
    return [(x + y) % q for x, y in zip(a, b, strict=True)]


def minus(a, b, q):
    return [(x - y) % q for x, y in zip(a, b, strict=True)]


def product(matrix, columns, vector, q):
    rows = parts(matrix, columns)
    return [sum(a * x for a, x in zip(row, vector, strict=True)) % q for row in rows]


def parts(entries, length):
    return [entries[start : start + length] for start in range(0, len(entries), length)]


def joined(lists):
    return [entry for part in lists for entry in part]


def as_bytes(numbers):
    """Two bytes for each number, the high byte first."""
    return b"".join(number.to_bytes(2, "big") for number in numbers)


def as_numbers(content):
    return [256 * high + low for high, low in zip(content[0::2], content[1::2], strict=True)]


def is_permutation(positions):
    return sorted(positions) == list(range(len(positions)))


def rearranged(permutations, layers, layer_len):
    """Permutation j on layer j: at place i stands the entry from place P(i)."""
    pairs = zip(parts(permutations, layer_len), parts(layers, layer_len), strict=True)
    return joined([layer[position] for position in positions] for positions, layer in pairs)


# ---------------------------------------------------------------------------------------------------------------------
# Statements: what the three kinds have in common, and each kind
# ---------------------------------------------------------------------------------------------------------------------


@dataclass
class Statement:
    q: int
    rows: int
    columns: int
    bound: int
    matrix: list
    target: list

    def times(self, vector):
        return product(self.matrix, self.columns, vector, self.q)

    def size(self):
        return self.layer_count() * self.layer_len()

    def has_every_shape(self, layers):
        return all(self.has_shape(layer) for layer in parts(layers, self.layer_len()))


def has_ones(layer, count):
    """So many ones, and the rest 0."""
    return layer.count(1) == count and layer.count(0) == len(layer) - count


class Weight(Statement):
    kind = "weight"

    def layer_count(self):
        return 1

    def layer_len(self):
        return self.columns

    def free_len(self):
        return 0

    def has_shape(self, layer):
        return has_ones(layer, self.bound)

    def image(self, layers, _free):
        return self.times(layers)

    def is_key(self, key):
        return len(key) == self.columns and self.has_shape(key) and self.times(key) == self.target

    def split(self, key):
        return list(key), []


class Noise(Statement):
    kind = "noise"

    def layer_count(self):
        return 1

    def layer_len(self):
        return self.rows

    def free_len(self):
        return self.columns

    def has_shape(self, layer):
        return has_ones(layer, self.bound)

    def image(self, layers, free):
        return plus(self.times(free), layers, self.q)

    def is_key(self, key):
        is_binary = all(entry in (0, 1) for entry in key)
        return len(key) == self.columns and is_binary and self.has_shape(self.split(key)[0])

    def split(self, key):
        return minus(self.target, self.times(key), self.q), list(key)


class Short(Statement):
    kind = "short"

    def layer_count(self):
        return self.bound.bit_length()

    def layer_len(self):
        return 3 * self.columns

    def free_len(self):
        return 0

    def has_shape(self, layer):
        return all(layer.count(entry) == self.columns for entry in (0, 1, self.q - 1))

    def image(self, layers, _free):
        total = [0] * self.layer_len()
        for j, layer in enumerate(parts(layers, self.layer_len())):
            total = plus(total, [2**j * entry for entry in layer], self.q)
        return self.times(total[: self.columns])

    def is_key(self, key):
        is_short = all(abs(entry) <= self.bound for entry in key)
        return len(key) == self.columns and is_short and self.times(key) == self.target

    def split(self, key):
        return joined(self.layer(key, j) for j in range(self.layer_count())), []

    def layer(self, key, j):
        digits = [self.signed_digit(entry, j) for entry in key]
        for entry in (self.q - 1, 0, 1):
            digits += [entry] * (self.columns - digits.count(entry))
        return digits

    def signed_digit(self, entry, j):
        digit = abs(entry) // 2**j % 2
        return digit if entry >= 0 else -digit % self.q


# ---------------------------------------------------------------------------------------------------------------------
# Masks
# ---------------------------------------------------------------------------------------------------------------------


@dataclass
class Mask:
    permutations: list
    layers: list
    free: list
    coins: list  # coins 1 to 3, at places 0 to 2


def draw_below(stream, bound):
    while True:
        word = stream.word()
        if word < bound * (65536 // bound):
            return word % bound
        stream.skipped += 1


def draw_permutation(stream, length):
    positions = list(range(length))
    for i in range(length - 1, 0, -1):
        place = draw_below(stream, i + 1)
        positions[place], positions[i] = positions[i], positions[place]
    return positions


def draw_mask(stream, statement):
    permutations = joined(draw_permutation(stream, statement.layer_len()) for _ in range(statement.layer_count()))
    layers = [draw_below(stream, statement.q) for _ in range(statement.size())]
    free = [draw_below(stream, statement.q) for _ in range(statement.free_len())]
    coins = [stream.bytes(WIDTH) for _ in range(3)]
    return Mask(permutations, layers, free, coins)


# ---------------------------------------------------------------------------------------------------------------------
# Messages
# ---------------------------------------------------------------------------------------------------------------------

COMMITMENT_TAGS = (1, 2, 3)
ANSWER_TAGS = {1: (11, 12, 13, 14), 2: (21, 22, 23, 24, 25), 3: (31, 32, 33, 34, 35)}


@dataclass
class Field:
    offset: int  # of the tag, in the message
    content: bytes

    def content_offset(self):
        return self.offset + 3


class No(Exception):
    """A no, with the number and the place of its cause."""

    def __init__(self, number, place):
        super().__init__(f"{number} at {place}")
        self.number = number
        self.place = place


def written(tags, contents):
    fields = zip(tags, contents, strict=True)
    return b"".join(bytes([tag]) + len(content).to_bytes(2, "big") + content for tag, content in fields)


def read(message, tags, lengths):
    fields = []
    offset = 0
    for tag, length in zip(tags, lengths, strict=True):
        field = read_field(message, offset, tag, length)
        fields.append(field)
        offset = field.content_offset() + length
    if offset < len(message):
        raise No(84, offset)
    return fields


def read_field(message, offset, tag, length):
    head = message[offset : offset + 3]
    if len(head) < 3:
        raise No(81, offset)
    own_length = int.from_bytes(head[1:], "big")
    content = message[offset + 3 : offset + 3 + own_length]
    if len(content) < own_length:
        raise No(81, offset)
    if head[0] != tag:
        raise No(82, offset)
    if own_length != length:
        raise No(83, offset)
    return Field(offset, content)


def answer_lengths(statement, challenge):
    layers = 2 * statement.size()
    free = 2 * statement.free_len()
    if challenge == 1:
        return (layers, layers, WIDTH, WIDTH)
    return (layers, layers, free, WIDTH, WIDTH)


# ---------------------------------------------------------------------------------------------------------------------
# The console's moves
# ---------------------------------------------------------------------------------------------------------------------


def commitment(coins, message):
    return hashlib.sha256(coins + message).digest()


def commitments(statement, key, mask):
    layers, _ = statement.split(key)
    masked = plus(mask.layers, layers, statement.q)
    messages = (
        as_bytes(mask.permutations) + as_bytes(statement.image(mask.layers, mask.free)),
        as_bytes(rearranged(mask.permutations, mask.layers, statement.layer_len())),
        as_bytes(rearranged(mask.permutations, masked, statement.layer_len())),
    )
    return [commitment(coins, message) for coins, message in zip(mask.coins, messages, strict=True)]


def answer(statement, key, mask, challenge):
    layers, free = statement.split(key)
    coins_1, coins_2, coins_3 = mask.coins
    length = statement.layer_len()
    if challenge == 1:
        permuted_key = rearranged(mask.permutations, layers, length)
        permuted_mask = rearranged(mask.permutations, mask.layers, length)
        contents = (as_bytes(permuted_key), as_bytes(permuted_mask), coins_2, coins_3)
    elif challenge == 2:
        masked_key = plus(mask.layers, layers, statement.q)
        masked_free = plus(mask.free, free, statement.q)
        contents = (as_bytes(mask.permutations), as_bytes(masked_key), as_bytes(masked_free), coins_1, coins_3)
    else:
        contents = (as_bytes(mask.permutations), as_bytes(mask.layers), as_bytes(mask.free), coins_1, coins_2)
    return written(ANSWER_TAGS[challenge], contents)


# ---------------------------------------------------------------------------------------------------------------------
# The exchange's judgement
# ---------------------------------------------------------------------------------------------------------------------


def judge(statement, given, challenge, message):
    """None for a yes; for a no the number and the place of its cause."""
    try:
        fields = read(message, ANSWER_TAGS[challenge], answer_lengths(statement, challenge))
        if challenge == 1:
            judge_first(statement, given, fields)
        else:
            judge_later(statement, given, challenge, fields)
    except No as no:
        return (no.number, no.place)
    return None


def judge_first(statement, given, fields):
    permuted_key, permuted_mask, coins_2, coins_3 = fields
    key_layers = residues_of(permuted_key, statement.q)
    mask_layers = residues_of(permuted_mask, statement.q)
    for j, layer in enumerate(parts(key_layers, statement.layer_len())):
        if not statement.has_shape(layer):
            raise No(87, j)
    check_opened(given, 2, coins_2, as_bytes(mask_layers))
    check_opened(given, 3, coins_3, as_bytes(plus(key_layers, mask_layers, statement.q)))


def judge_later(statement, given, challenge, fields):
    positions, layers, free, coins_1, upper_coins = fields
    layers = residues_of(layers, statement.q)
    free = residues_of(free, statement.q)
    permutations = permutations_of(positions, statement.layer_len())
    image = statement.image(layers, free)
    if challenge == 2:
        image = minus(image, statement.target, statement.q)
    check_opened(given, 1, coins_1, as_bytes(permutations) + as_bytes(image))
    upper = 3 if challenge == 2 else 2
    check_opened(given, upper, upper_coins, as_bytes(rearranged(permutations, layers, statement.layer_len())))


def residues_of(field, q):
    numbers = as_numbers(field.content)
    for i, number in enumerate(numbers):
        if number >= q:
            raise No(85, field.content_offset() + 2 * i)
    return numbers


def permutations_of(field, layer_len):
    positions = as_numbers(field.content)
    for j, list_of_layer in enumerate(parts(positions, layer_len)):
        if not is_permutation(list_of_layer):
            raise No(86, j)
    return positions


def check_opened(given, number, coins, message):
    if given[number - 1] != commitment(coins.content, message):
        raise No(88, number)


# ---------------------------------------------------------------------------------------------------------------------
# Changed answers
# ---------------------------------------------------------------------------------------------------------------------


@dataclass
class Forgery:
    """An answer with four bytes replaced."""

    challenge: int
    change: str  # in words
    offset: int
    replaced: bytes

    def applied(self, message):
        return message[: self.offset] + self.replaced + message[self.offset + 4 :]


class Forger:
    """Makes changed answers out of a right one."""

    def __init__(self, statement, challenge, message):
        self.statement = statement
        self.challenge = challenge
        self.message = message
        self.fields = read(message, ANSWER_TAGS[challenge], answer_lengths(statement, challenge))

    def all(self):
        lists, layers, *free_part, lower_coins, upper_coins = self.fields
        found = [
            self.another_tag(layers),
            self.another_length(lists, -1),
            self.another_length(upper_coins, 1),
            self.too_large_residue(layers),
            self.another_first_residue(layers),
            self.another_last_residue(layers),
            self.exchanged_neighbours(lists),
            self.doubled_neighbour(lists),
            self.other_coins(lower_coins),
            self.other_coins(upper_coins),
        ]
        if free_part and self.statement.free_len() > 0:
            found += [self.too_large_residue(free_part[0]), self.another_first_residue(free_part[0])]
        return found

    def forged(self, change, offset, replaced):
        return Forgery(self.challenge, change, offset, replaced)

    def bytes_at(self, offset):
        return self.message[offset : offset + 4]

    def another_tag(self, field):
        head = self.bytes_at(field.offset)
        return self.forged("another tag", field.offset, bytes([head[0] + 1]) + head[1:])

    def another_length(self, field, step):
        head = self.bytes_at(field.offset)
        length = int.from_bytes(head[1:3], "big") + step
        words = "a shorter length" if step < 0 else "a longer length"
        return self.forged(words, field.offset, head[:1] + length.to_bytes(2, "big") + head[3:])

    def too_large_residue(self, field):
        offset = last_pair(field)
        before, _ = as_numbers(self.bytes_at(offset))
        return self.forged("a residue that is the modulus", offset, as_bytes([before, self.statement.q]))

    def another_first_residue(self, field):
        offset = field.content_offset()
        first, behind = as_numbers(self.bytes_at(offset))
        return self.forged("another first residue", offset, as_bytes([(first + 1) % self.statement.q, behind]))

    def another_last_residue(self, field):
        offset = last_pair(field)
        before, last = as_numbers(self.bytes_at(offset))
        return self.forged("another last residue", offset, as_bytes([before, (last + 1) % self.statement.q]))

    def exchanged_neighbours(self, field):
        offset = self.last_differing_pair(field)
        first, second = as_numbers(self.bytes_at(offset))
        return self.forged("two entries exchanged", offset, as_bytes([second, first]))

    def doubled_neighbour(self, field):
        offset = self.last_differing_pair(field)
        first, _ = as_numbers(self.bytes_at(offset))
        return self.forged("an entry like its neighbour", offset, as_bytes([first, first]))

    def other_coins(self, field):
        offset = last_pair(field)
        coins = self.bytes_at(offset)
        return self.forged("other coins", offset, coins[:3] + bytes([coins[3] ^ 1]))

    def last_differing_pair(self, field):
        """The offset of the last two neighbours that differ."""
        offset = last_pair(field)
        while self.message[offset : offset + 2] == self.message[offset + 2 : offset + 4]:
            offset -= 2
        return offset


def last_pair(field):
    return field.content_offset() + len(field.content) - 4


# ---------------------------------------------------------------------------------------------------------------------
# Strangers: answers without a key
# ---------------------------------------------------------------------------------------------------------------------

STRANGER_SEED = 28


@dataclass
class Stranger:
    """Messages made from a vector that is no key, as if it were one."""

    name: str
    constant: str
    commitments: list
    answers: list  # to the challenges 1 to 3
    causes: list


def stranger(name, constant, statement, vector, mask, aims_at_2=False):
    given = commitments(statement, vector, mask)
    if aims_at_2:
        given[0] = commitment_for_2(statement, vector, mask)
    answers = [answer(statement, vector, mask, challenge) for challenge in CHALLENGES]
    causes = [judge(statement, given, challenge, message) for challenge, message in zip(CHALLENGES, answers)]
    return Stranger(name, constant, given, answers, causes)


def commitment_for_2(statement, vector, mask):
    """Commitment 1 to what challenge 2 checks, in place of the mask's image."""
    layers, free = statement.split(vector)
    masked = plus(mask.layers, layers, statement.q)
    image = statement.image(masked, plus(mask.free, free, statement.q))
    shown = minus(image, statement.target, statement.q)
    return commitment(mask.coins[0], as_bytes(mask.permutations) + as_bytes(shown))


def strangers():
    """Each of them gets a yes to two challenges and a no to the third."""
    statement = small_weight().statement
    mask = draw_mask(Stream(STRANGER_SEED), statement)
    found = [
        stranger("right shape, wrong image", "WRONG_IMAGE", statement, [1, 1, 0, 0], mask),
        stranger("right image, wrong shape", "WRONG_SHAPE", statement, [0, 0, 0, 0], mask),
        stranger("wrong image, commitment 1 made for challenge 2", "WRONG_MASK", statement, [1, 1, 0, 0], mask, True),
    ]
    wanted = [[None, (88, 1), None], [(87, 0), None, None], [None, None, (88, 1)]]
    require([one.causes for one in found] == wanted, "each stranger gets two yes and a no")
    return found


# ---------------------------------------------------------------------------------------------------------------------
# Cases
# ---------------------------------------------------------------------------------------------------------------------


@dataclass
class Case:
    name: str
    seed: int
    is_small: bool
    statement: Statement
    key: list
    stream: Stream  # what is left of the case's bytes, for the mask


def small_weight():
    statement = Weight(q=5, rows=1, columns=4, bound=2, matrix=[1, 2, 3, 4], target=[0])
    return Case("small weight", 17, True, statement, [1, 0, 0, 1], Stream(17))


def small_short():
    statement = Short(q=11, rows=1, columns=2, bound=5, matrix=[1, 2], target=[10])
    return Case("small short", 3, True, statement, [5, -3], Stream(3))


def small_noise():
    statement = Noise(q=2, rows=4, columns=2, bound=1, matrix=[1, 0, 0, 1, 1, 1, 1, 0], target=[1, 1, 1, 1])
    return Case("small noise", 11, True, statement, [1, 1], Stream(11))


def large_weight(seed):
    q, rows, columns = 65535, 64, 256
    stream = Stream(seed)
    matrix = stream.residues(rows * columns, q)
    key = [stream.byte() % 2 for _ in range(columns)]
    statement = Weight(q, rows, columns, key.count(1), matrix, product(matrix, columns, key, q))
    return Case("large weight", seed, False, statement, key, stream)


def large_short(seed):
    """The largest sizes: 15 layers of 768 entries. The key begins with the largest and the smallest entry."""
    q, rows, columns, bound = 65535, 64, 256, 32767
    stream = Stream(seed)
    matrix = stream.residues(rows * columns, q)
    key = [stream.word() % q - bound for _ in range(columns)]
    key[0:2] = [bound, -bound]
    statement = Short(q, rows, columns, bound, matrix, product(matrix, columns, key, q))
    return Case("large short", seed, False, statement, key, stream)


def large_noise(name, seed, rows, columns):
    """The noise is 1 at every fourth place."""
    q = 2
    stream = Stream(seed)
    matrix = stream.residues(rows * columns, q)
    key = [stream.byte() % 2 for _ in range(columns)]
    noise = [1 if i % 4 == 0 else 0 for i in range(rows)]
    target = plus(product(matrix, columns, key, q), noise, q)
    statement = Noise(q, rows, columns, noise.count(1), matrix, target)
    return Case(name, seed, False, statement, key, stream)


def cases():
    return [
        small_weight(),
        large_weight(seed=34),
        small_short(),
        large_short(seed=4),
        small_noise(),
        large_noise("square noise", 26, 128, 128),
        large_noise("wide noise", 7, 64, 256),
    ]


# ---------------------------------------------------------------------------------------------------------------------
# Results, and the checks on them
# ---------------------------------------------------------------------------------------------------------------------


@dataclass
class AnswerResult:
    challenge: int
    message: bytes
    last_field: int  # the offset of the last field
    lower_opened: int  # the lower number of the two opened commitments
    changes: list  # pairs of a changed answer and its cause


@dataclass
class Result:
    case: Case
    bytes_read: int
    commitments: list
    answers: list


def result(case):
    check_key(case)
    before = case.stream.count
    mask = draw_mask(case.stream, case.statement)
    check_mask(case, mask)
    given = commitments(case.statement, case.key, mask)
    answers = [answer_result(case, mask, given, challenge) for challenge in CHALLENGES]
    return Result(case, case.stream.count - before, given, answers)


def check_key(case):
    statement = case.statement
    require(statement.is_key(case.key), f"{case.name}: the key is a key of the statement")
    layers, free = statement.split(case.key)
    require(statement.has_every_shape(layers), f"{case.name}: the layers of the key have every shape")
    require(statement.image(layers, free) == statement.target, f"{case.name}: their image is the target")


def check_mask(case, mask):
    """Each permutation can be told from its inverse, and the coins from each other."""
    for positions in parts(mask.permutations, case.statement.layer_len()):
        require(is_permutation(positions), f"{case.name}: positions are permutations")
        twice = [positions[position] for position in positions]
        require(twice != sorted(positions), f"{case.name}: no permutation is its own inverse")
    require(len(set(mask.coins)) == 3, f"{case.name}: the coins differ")


def answer_result(case, mask, given, challenge):
    message = answer(case.statement, case.key, mask, challenge)
    fields = read(message, ANSWER_TAGS[challenge], answer_lengths(case.statement, challenge))
    lower_opened = 2 if challenge == 1 else 1
    found = AnswerResult(challenge, message, fields[-1].offset, lower_opened, [])
    check_verdicts(case, given, found)
    for forgery in Forger(case.statement, challenge, message).all():
        cause = judge(case.statement, given, challenge, forgery.applied(message))
        require(cause is not None, f"{case.name}: answer {challenge} with {forgery.change} is not accepted")
        found.changes.append((forgery, cause))
    return found


def check_verdicts(case, given, found):
    """A yes to the answer; a no to one cut or made longer, against other commitments, and to another challenge."""

    def verdict(judged_by, challenge, message):
        return judge(case.statement, judged_by, challenge, message)

    message, own = found.message, found.challenge
    name = f"{case.name}: answer {own}"
    require(verdict(given, own, message) is None, f"{name} is accepted")
    require(verdict(given, own, message[:-1]) == (81, found.last_field), f"{name} without its last byte is cut off")
    require(verdict(given, own, message + bytes(1)) == (84, len(message)), f"{name} with a byte more has a byte left over")
    moved = given[1:] + given[:1]
    require(verdict(moved, own, message) == (88, found.lower_opened), f"{name} does not open moved commitments")
    for other in CHALLENGES:
        require(other == own or verdict(given, other, message) == (82, 0), f"{name} answers no other challenge")


def check_worked_examples():
    """Examples of the specification."""
    weight, short, noise = small_weight().statement, small_short().statement, small_noise().statement
    keys = [[1, 0, 0, 1], [0, 1, 1, 0], [1, 1, 0, 0], [1, 0, 0, 0]]
    require([weight.is_key(key) for key in keys] == [True, True, False, False], "the keys of the weight example")
    require(rearranged([1, 2, 3, 0], [1, 0, 0, 1], 4) == [0, 0, 1, 1], "1001 rearranged")
    require(weight.image([1, 2, 3, 4], []) == [0], "the image of 1, 2, 3, 4")
    require(plus([1, 2, 3, 4], [1, 0, 0, 1], 5) == [2, 2, 3, 0], "a masked key")
    require(short.split([5, -3])[0][:6] == [1, 10, 10, 0, 0, 1], "layer 0 of the short example")
    keys = [[1, 1], [1, 0], [0, 0], [0, 1]]
    require([noise.is_key(key) for key in keys] == [True, True, False, False], "the keys of the noise example")


def require(condition, words):
    if not condition:
        sys.exit(f"not so: {words}")


def digest(message):
    return hashlib.sha256(message).hexdigest()


# ---------------------------------------------------------------------------------------------------------------------
# The readable file
# ---------------------------------------------------------------------------------------------------------------------

TEXT_HEAD = """\
Test vectors for the three moves, under the hash scheme. Written by reference.py; docs/SPECIFICATION.md has the rules.

Pseudo-random bytes: a number x begins as the case's seed. For each byte, x becomes (x * 1103515245 + 12345) modulo 2^31, and
the byte is the whole part of x / 65536, modulo 256. A small case draws its mask from the first bytes. A large case uses the
bytes in this order: the matrix, two for each entry, high byte first, modulo q; the key; the mask. An entry of a large weight
or noise key is a byte modulo 2. One of the large short key is two bytes, high byte first, modulo 65535, minus 32767; but its
first two entries are 32767 and -32767. Large targets are made from the key; for noise, y - A*key is 1 at the places 0, 4, 8
and so on.

A changed answer has four bytes replaced, from an offset on, and gets a no with a cause, by number and place. Every answer
also gets a no where its last byte is missing, a zero byte is added, the commitments are moved on by one place (2, 3, 1), or
it is judged for another challenge.
"""


def text_of(results, found_strangers):
    sections = [text_of_case(found) for found in results] + [text_of_stranger(one) for one in found_strangers]
    return "\n".join([TEXT_HEAD] + sections)


def text_of_case(found):
    lines = text_of_statement(found.case)
    lines.append(f"random bytes read: {found.bytes_read}, words skipped: {found.case.stream.skipped}")
    lines.append(f"commitments message: {written(COMMITMENT_TAGS, found.commitments).hex()}")
    for one in found.answers:
        lines += text_of_answer(one, found.case.is_small)
    return "\n".join(lines) + "\n"


def text_of_statement(case):
    statement = case.statement
    if case.is_small:
        matrix = f"matrix: {listed(statement.matrix)}"
    else:
        matrix = f"matrix, two bytes for each entry: SHA-256 {digest(as_bytes(statement.matrix))}"
    return [
        f"== {case.name}",
        f"kind: {statement.kind}, q {statement.q}, rows {statement.rows}, columns {statement.columns}, bound {statement.bound}",
        f"seed: {case.seed}",
        f"sizes: layers {statement.layer_count()}, layer length {statement.layer_len()}, free length {statement.free_len()}",
        matrix,
        f"target: {listed(statement.target)}",
        f"key: {listed(case.key)}",
    ]


def text_of_answer(one, is_small):
    lines = [f"answer {one.challenge}: length {len(one.message)}, SHA-256 {digest(one.message)}"]
    if is_small:
        lines.append(f"    {one.message.hex()}")
    for forgery, (number, place) in one.changes:
        change = f"{forgery.replaced.hex()} at {forgery.offset}, {forgery.change}"
        lines.append(f"    changed: {change}: no, {number} at {place}")
    return lines


def text_of_stranger(one):
    lines = [f"== stranger at the small weight statement: {one.name}", f"seed of the mask: {STRANGER_SEED}"]
    lines.append(f"commitments message: {written(COMMITMENT_TAGS, one.commitments).hex()}")
    for challenge, message, cause in zip(CHALLENGES, one.answers, one.causes):
        verdict = "yes" if cause is None else f"no, {cause[0]} at {cause[1]}"
        lines += [f"answer {challenge}: {verdict}", f"    {message.hex()}"]
    return "\n".join(lines) + "\n"


def listed(numbers):
    return " ".join(str(number) for number in numbers)


# ---------------------------------------------------------------------------------------------------------------------
# The constants of the tests
# ---------------------------------------------------------------------------------------------------------------------

CONSTANTS_HEAD = """\
// What the moves must give on the cases of tests/vectors/vectors.txt. Written by tests/vectors/reference.py, not by hand.
use crate::expected::{Change, Expected, ExpectedAnswer, Stranger};
"""


def constants_of(results, found_strangers):
    sections = [constant_of_case(found) for found in results] + [constant_of_stranger(one) for one in found_strangers]
    return "\n".join([CONSTANTS_HEAD] + sections)


def constant_of_case(found):
    case, statement = found.case, found.case.statement
    first, second, third = found.answers
    fields = [
        ("seed", case.seed),
        ("bound", statement.bound),
        ("target", hex_text(as_bytes(statement.target))),
        ("entries", statement.size()),
        ("free", statement.free_len()),
        ("bytes_read", found.bytes_read),
        ("commitments", hex_text(written(COMMITMENT_TAGS, found.commitments))),
        ("first", struct_of_answer(first)),
        ("second", struct_of_answer(second)),
        ("third", struct_of_answer(third)),
    ]
    name = case.name.upper().replace(" ", "_")
    return f"pub const {name}: Expected<'static> = {struct_text('Expected', fields, 0)};\n"


def struct_of_answer(one):
    fields = [
        ("length", len(one.message)),
        ("digest", f'b"{digest(one.message)}"'),
        ("last_field", one.last_field),
        ("lower_opened", one.lower_opened),
        ("changes", changes_text(one.changes)),
    ]
    return struct_text("ExpectedAnswer", fields, 4)


def changes_text(changes):
    lines = []
    for forgery, (number, place) in changes:
        replaced = ", ".join(str(byte) for byte in forgery.replaced)
        lines.append(f"            Change({forgery.offset}, [{replaced}], {number}, {place}),\n")
    return f"&[\n{''.join(lines)}        ]"


def constant_of_stranger(one):
    fields = [("commitments", hex_text(written(COMMITMENT_TAGS, one.commitments)))]
    for name, message, cause in zip(("first", "second", "third"), one.answers, one.causes):
        number, place = cause or (0, 0)
        fields += [(name, hex_text(message)), (f"{name}_verdict", f"({number}, {place})")]
    return f"pub const {one.constant}: Stranger<'static> = {struct_text('Stranger', fields, 0)};\n"


def struct_text(name, fields, indent):
    margin = " " * indent
    lines = "".join(f"{margin}    {field}: {value},\n" for field, value in fields)
    return f"{name} {{\n{lines}{margin}}}"


def hex_text(content):
    return f'b"{content.hex()}"'


# ---------------------------------------------------------------------------------------------------------------------


def main(words):
    check_worked_examples()
    results = [result(case) for case in cases()]
    found_strangers = strangers()
    files = {TEXT_FILE: text_of(results, found_strangers), CONSTANTS_FILE: constants_of(results, found_strangers)}
    for path, content in files.items():
        if words == ["--check"]:
            require(path.is_file() and path.read_text() == content, f"{path} is as this program writes it")
        else:
            path.write_text(content)


if __name__ == "__main__":
    main(sys.argv[1:])
