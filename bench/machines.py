"""Machines of ten peripheral processors and the central one that never stop, as lines for check_probe: a run of each.

The central processor has the program and the data of the first job of sum.in or mixed.in, in a field of its own. The
peripheral programs are below, as octal words, at word 100 and up; every processor begins at a random code of its own and
has random data in its low words.
"""
import random

ROUNDS = 0o177777
PROCESSORS = 10
WORDS = 4096
CENTRAL = 0o4000
FIRST = 0o100
RA, FL, EM = 0o100, 0o210, 0o010000
# Codes of two words.
LONG = [0o01, 0o02, *range(0o20, 0o24), *range(0o50, 0o60), *range(0o64, 0o70), 0o77]

# Counts in A and stores it.
SIMPLE = """
1601        A + 1
3420        to 20
0375        back by two
"""

# By pairs of processors: the even one fills the channel once a pass, the odd one empties it. CC is the channel, DDDD a
# central address of the processor's own. Word 33 is 5, and words 30 to 32 are addresses in 500 to 577.
MIXED = """
2001 2345   A = 12345
2100 0007   A + 7
1003 1125   turn left 3, XOR 25
3420 3121   to 20, + (21)
3222 3323   - (22), XOR (23)
3524 3625   (24) and (25) replaced
3726 4030   (26) replaced, A = ((30))
4131 4432   + ((31)), to the address in 32
5025 1000   A = (1000 + (25))
5133 0600   + (600 + 5)
5433 0600   to 600 + 5
5533 0610   replaced
5600 0620   replaced
1071 2200 7707  shift right 6, AND 7707
0602 1301   over the next where A is plus, AND NOT 1
2000 DDDD   A = the central address
6040        five words from there
3641        one of them replaced
2000 DDDD
6240        and written back
0200 0060   return jump: word 61 reads the clock
2700 3427   A = the central P, to 27
3025 0502   A = (25), over the next where it is not zero
1477        A = 77
{}          the channel
0100 0100   from the beginning
"""

# The first code jumps to the second or goes on to it.
SEND = "66CC NEXT 72CC"
TAKE = "67CC NEXT 70CC"
# Word 61: the clock to 45, back to the address that the return jump left in 60.
CLOCK = "7014 3445 0160 0000"


def octal(text):
    """The words of a program: of each line those before the first that is no octal number of four digits."""
    words = []
    for line in text.splitlines():
        for word in line.split():
            if len(word) != 4 or not word.isdigit():
                break
            words.append(int(word, 8))
    return words


def simple(number):
    return octal(SIMPLE)


def mixed(number):
    text = MIXED.replace("DDDD", f"{0o2000 + 8 * number:04o}")
    after_test = FIRST + len(octal(text.split("{}")[0])) + 2
    channel = SEND if number % 2 == 0 else TAKE
    channel = channel.replace("CC", f"{number // 2:02o}").replace("NEXT", f"{after_test:04o}")
    return octal(text.format(channel))


def peripheral(program, r):
    """The words of all processors, by address."""
    words = {}
    for number in range(PROCESSORS):
        own = {at: r.randrange(WORDS) for at in range(0o20, 0o60)}
        own.update({0o30: 0o500, 0o31: 0o520, 0o32: 0o540, 0o33: 5})
        own.update(enumerate(octal(CLOCK), 0o61))
        own.update(enumerate(program(number), FIRST))
        words.update({number * WORDS + at: word for at, word in own.items()})
    return words


def central(name):
    """The words of the first job of an input of bench/run, which lie at RA and up."""
    words, at = {}, 0
    for line in open(name):
        key, _, value = line.strip().partition("=")
        if key == "at":
            at = int(value, 8)
        elif key == "word":
            if RA <= at < RA + FL:
                words[at] = int(value, 8)
            at += 1
    return words


def start(words, r):
    """The address of one of the codes of a program."""
    places, at = [], 0
    while at < len(words):
        places.append(FIRST + at)
        at += 2 if words[at] >> 6 in LONG else 1
    return r.choice(places)


def record(program, r):
    """The central processor at the start of its field, all channels active and empty, all processors at one of their codes."""
    numbers = [0, RA, FL, EM] + 24 * [0] + [0, 0]
    for _ in range(12):
        numbers += [1, 0, 0, 0]
    for number in range(PROCESSORS):
        numbers += [start(program(number), r), 0, 0]
    return numbers


def pairs(words):
    """How many words are not zero, then the address and the word of each."""
    some = [(at, word) for at, word in sorted(words.items()) if word]
    return [len(some)] + [n for pair in some for n in pair]


def line(name, program, seed, rounds):
    r = random.Random(seed)
    numbers = [5, rounds, CENTRAL] + pairs(central(name)) + [PROCESSORS * WORDS] + pairs(peripheral(program, r))
    return " ".join(f"{n:o}" for n in numbers + record(program, r) + [0, 0, 0]) + "\n"


def lines(name, program, count, rounds):
    return "".join(line(name, program, seed, rounds) for seed in range(count))


def unstopped(answer):
    """Whether an answer of a run has all rounds, and no processor has stopped."""
    numbers = [int(n, 8) for n in answer.split()]
    r = numbers[-109:-1]
    return numbers[:2] == [0, ROUNDS] and r[28] == 0 and not any(r[80::3])
