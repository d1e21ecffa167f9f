"""Class files whose code or frame maps are changed a little: for comparing verifiers.

A class file is taken apart as far as its methods' code (JVM Specification 4.7.3) and frame maps (4.7.4). Each change keeps the
file's structure, as far as such a change can: another code of the same length, another operand, another target, another
number of places, another range, and another byte of a frame map.
"""
import random
import re
import struct

# Codes whose instructions have the same operands, group by group.
GROUPS = [
    # no operands
    [0] + list(range(1, 11)) + list(range(26, 34)) + list(range(42, 48)) + list(range(50, 54)) + list(range(59, 67))
    + list(range(75, 81)) + list(range(83, 98)) + [100, 101, 104, 105, 108, 109, 112, 113, 116, 117] + list(range(120, 132))
    + [133, 136, 145, 146, 147, 148, 172, 173, 176, 177, 190, 191],
    [21, 22, 25, 54, 55, 58],                       # a local variable
    list(range(153, 168)) + [198, 199],             # a branch
    [192, 193, 187, 189],                           # a class
    [178, 179, 180, 181],                           # a field
    [182, 183, 184],                                # a method
]
GROUPS = [[c for c in group if c not in (178, 179, 48, 49, 81, 82, 98, 99)] for group in GROUPS]
OF = {code: group for group in GROUPS for code in group}
# Codes of one effect on the types of operands, or on those of another local variable: such a change may well be verified.
LIKE = [
    list(range(2, 9)), [9, 10], list(range(26, 30)), list(range(30, 34)), list(range(42, 46)), list(range(59, 63)),
    list(range(63, 67)), list(range(75, 79)), [96, 100, 104, 108, 112, 120, 122, 124, 126, 128, 130],
    [97, 101, 105, 109, 113, 127, 129, 131], [121, 123, 125], [116, 145, 146, 147], list(range(153, 159)),
    list(range(159, 165)), [165, 166], [198, 199], [182, 183], [51, 52, 53, 46], [84, 85, 86, 79],
]
ALIKE = {code: group for group in LIKE for code in group}
TWO = {21, 22, 25, 54, 55, 58, 16, 18, 188}
THREE = set(range(153, 169)) | {17, 19, 20, 132, 178, 179, 180, 181, 182, 183, 184, 187, 189, 192, 193, 198, 199}
FIVE = {185, 186, 200, 201}


def u2(data, at):
    return struct.unpack_from('>H', data, at)[0]


def u4(data, at):
    return struct.unpack_from('>I', data, at)[0]


def pool_end(data):
    """Where the constant pool ends, and its texts by their numbers."""
    at, number, texts = 10, 1, {}
    while number < u2(data, 8):
        if data[at] == 1:
            texts[number] = bytes(data[at + 3:at + 3 + u2(data, at + 1)])
        number += 2 if data[at] in (5, 6) else 1
        at += entry_length(data, at)
    return at, texts


def entry_length(data, at):
    if data[at] == 1:
        return 3 + u2(data, at + 1)
    return {3: 5, 4: 5, 5: 9, 6: 9, 7: 3, 8: 3, 9: 5, 10: 5, 11: 5, 12: 5}[data[at]]


def entries(data):
    """Where the entries of the constant pool begin."""
    at, found, (end, _) = 10, [], pool_end(data)
    while at < end:
        found.append(at)
        at += entry_length(data, at)
    return found


def class_texts(data):
    """The names in the entries of classes."""
    _, texts = pool_end(data)
    return [texts[u2(data, at + 1)].decode() for at in entries(data) if data[at] == 7]


def descriptors(data):
    """The descriptors of members, and of those that the class refers to."""
    _, texts = pool_end(data)
    return [text for text in (it.decode('utf-8', 'replace') for it in texts.values()) if re.match(r'\(.*\)|\[*L.*;$', text)]


def bodies(data):
    """Of each method with code: the offsets of its numbers of places, its code, its handlers and its frame maps."""
    at, texts = pool_end(data)
    at += 6
    at += 2 + 2 * u2(data, at)
    found = []
    for kind in ('field', 'method'):
        count = u2(data, at)
        at += 2
        for _ in range(count):
            attributes = u2(data, at + 6)
            at += 8
            for _ in range(attributes):
                name, length = texts[u2(data, at)], u4(data, at + 2)
                if kind == 'method' and name == b'Code':
                    found.append(body(data, at + 6, texts))
                at += 6 + length
    return found


def body(data, at, texts):
    code = (at + 8, at + 8 + u4(data, at + 4))
    handlers = (code[1] + 2, code[1] + 2 + 8 * u2(data, code[1]))
    maps, more = None, handlers[1] + 2
    for _ in range(u2(data, handlers[1])):
        if texts[u2(data, more)] == b'StackMapTable':
            maps = (more + 6, more + 6 + u4(data, more + 2))
        more += 6 + u4(data, more + 2)
    return {'places': at, 'code': code, 'handlers': handlers, 'maps': maps}


def instructions(data, start, end):
    """The offsets of the instructions within the code."""
    at, found = start, []
    while at < end:
        found.append(at - start)
        code = data[at]
        if code in (170, 171):
            operands = at + 1 + (3 - (at - start)) % 4
            if code == 170:
                low, high = struct.unpack_from('>ii', data, operands + 4)
                at = operands + 12 + 4 * (high - low + 1)
            else:
                at = operands + 8 + 8 * u4(data, operands + 4)
        elif code == 196:
            at += 6 if data[at + 1] == 132 else 4
        else:
            at += 2 if code in TWO else 3 if code in THREE else 4 if code == 197 else 5 if code in FIVE else 1
    return found


def put2(data, at, value):
    struct.pack_into('>H', data, at, value & 0xFFFF)


def change_code(data, part, chance):
    start, end = part['code']
    starts = instructions(data, start, end)
    offset = chance.choice(starts)
    at, code = start + offset, data[start + offset]
    if code in ALIKE and chance.random() < 0.5:
        data[at] = chance.choice([c for c in ALIKE[code] if c != code])
    elif code in OF and chance.random() < 0.6:
        data[at] = chance.choice([c for c in OF[code] if c != code])
    elif 153 <= code <= 167 or code in (198, 199):
        put2(data, at + 1, chance.choice(starts) - offset)
    elif code in TWO:
        data[at + 1] = (data[at + 1] + chance.choice([1, 2, 255])) & 0xFF
    elif code in THREE:
        put2(data, at + 1, u2(data, at + 1) + chance.choice([1, 2, 3, 5, 0xFFFF, 0xFFFD]))
    elif code in OF:
        data[at] = chance.choice(OF[code])


def change_places(data, part, chance):
    at = part['places'] + chance.choice([0, 2])
    put2(data, at, max(0, u2(data, at) + chance.choice([-2, -1, -1, 1])))


def change_handlers(data, part, chance):
    start, end = part['handlers']
    if start == end:
        return change_places(data, part, chance)
    at = start + 8 * chance.randrange((end - start) // 8)
    field = chance.randrange(4)
    if field < 3:
        put2(data, at + 2 * field, chance.choice(instructions(data, *part['code'])))
    else:
        put2(data, at + 6, chance.choice([0, u2(data, at + 6) + 1, u2(data, at + 6) + 2]))


def change_maps(data, part, chance):
    if part['maps'] is None or part['maps'][1] - part['maps'][0] <= 2:
        return change_code(data, part, chance)
    start, end = part['maps']
    at = chance.randrange(start + 2, end)
    data[at] = chance.choice([data[at] ^ 1, (data[at] + 1) & 0xFF, (data[at] - 1) & 0xFF, chance.randrange(8), 251 + chance.randrange(5)])


def mutants(data, count, seed):
    """So many changed copies of a class file, each with one change or two."""
    chance = random.Random(seed)
    parts = bodies(data)
    made = []
    while parts and len(made) < count:
        copy = bytearray(data)
        part = chance.choice(parts)
        for _ in range(chance.choice([1, 1, 1, 2])):
            change = chance.choice([change_code, change_code, change_code, change_places, change_handlers, change_maps, change_maps])
            change(copy, part, chance)
        if copy != data and bytes(copy) not in made:
            made.append(bytes(copy))
    return made
