"""Random EIR programs that write much and end: the same seed and number give the same program on every machine."""
import random

REGISTERS = ("A", "B", "C", "D")  # SP and BP count the turns of loops
COMPARISONS = ("eq", "ne", "lt", "gt", "le", "ge")
WORDS = 48  # of memory that statements use; the registers are kept after them at the end

# Writes the bits of A, highest first: A is doubled 24 times.
BITS = """bits:
\tmov BP, 24
bit:
\tmov B, A
\tge B, 8388608
\tadd B, 48
\tputc B
\tadd A, A
\tsub BP, 1
\tjne bit, BP, 0
\tjmp D"""


class Program:
    """A program that is being written, a statement at a time.

    Each loop counts down a register that nothing else in it sets, and each jump but that of a loop and of a routine's end goes forward.
    So every program ends.
    """

    def __init__(self, seed, number):
        self.random = random.Random(f"{seed}/{number}")
        self.lines, self.labels, self.routines = [], 0, []
        self.is_text = number % 3 != 2  # what is written is ASCII, so that it doesn't lean on how bytes are written
        self.reads = number % 4 == 1

    def label(self):
        self.labels += 1
        return f"l{self.labels}"

    def put(self, text):
        self.lines.append("\t" + text)

    def register(self):
        return self.random.choice(REGISTERS)

    def constant(self):
        kinds = (self.random.randrange(10), self.random.randrange(256), self.random.randrange(1 << 24), (1 << 24) - 1 - self.random.randrange(300))
        return str(self.random.choice(kinds))

    def value(self):
        return self.register() if self.random.random() < 0.5 else self.constant()

    def statement(self, depth):
        kinds = [self.arithmetic] * 4 + [self.comparison] * 2 + [self.memory] * 3 + [self.output] * 4 + [self.skip] * 2
        if depth < 2:
            kinds += [self.loop] * 2
        if depth == 0:
            kinds += [self.bits]
        if self.routines:
            kinds += [self.call]
        if self.reads:
            kinds += [self.input]
        self.random.choice(kinds)(depth)

    def arithmetic(self, depth):
        self.put(f"{self.random.choice(('mov', 'add', 'add', 'sub', 'sub'))} {self.register()}, {self.value()}")

    def comparison(self, depth):
        self.put(f"{self.random.choice(COMPARISONS)} {self.register()}, {self.value()}")

    def memory(self, depth):
        verb, register = self.random.choice(("load", "store")), self.register()
        if self.random.random() < 0.6:
            self.put(f"{verb} {register}, {self.random.randrange(WORDS)}")
            return
        # An address that is computed: one of the words, whatever the register held.
        address = self.random.choice([other for other in REGISTERS if other != register])
        self.put(f"{self.random.choice(COMPARISONS)} {address}, {self.constant()}")
        self.put(f"add {address}, {self.random.randrange(WORDS - 1)}")
        self.put(f"{verb} {register}, {address}")

    def output(self, depth):
        if not self.is_text:
            self.put(f"putc {self.register()}")
            return
        if self.random.random() < 0.3:
            self.put(f"putc {self.random.randrange(33, 127)}")
            return
        # One letter of a register: whether it is below something, as a digit.
        one, other = self.random.sample(REGISTERS, 2)
        self.put(f"mov {one}, {other}")
        self.put(f"{self.random.choice(COMPARISONS)} {one}, {self.value()}")
        self.put(f"add {one}, 48")
        self.put(f"putc {one}")

    def input(self, depth):
        self.put(f"getc {self.register()}")

    def skip(self, depth):
        over = self.label()
        self.put(f"j{self.random.choice(COMPARISONS)} {over}, {self.register()}, {self.value()}")
        for _ in range(self.random.randrange(1, 3)):
            self.random.choice((self.arithmetic, self.memory, self.output))(depth)
        self.lines.append(f"{over}:")

    def loop(self, depth):
        counter, turns, again = ("SP", "BP")[depth], self.random.randrange(2, 6), self.label()
        self.put(f"mov {counter}, {turns}")
        self.lines.append(f"{again}:")
        for _ in range(self.random.randrange(2, 5)):
            self.statement(depth + 1)
        if self.is_text:
            self.put(f"mov A, {counter}")
            self.put(f"add A, {self.random.choice((48, 65, 97))}")
            self.put("putc A")
        self.put(f"sub {counter}, 1")
        self.put(f"jne {again}, {counter}, 0")

    def call(self, depth):
        self.jump_and_return(self.random.choice(self.routines))

    def jump_and_return(self, name):
        after = self.label()
        self.put(f"mov D, {after}")
        self.put(f"jmp {name}")
        self.lines.append(f"{after}:")

    def bits(self, depth):
        """Writes the 24 bits of a register. A, B, D and BP are others after it."""
        self.put(f"mov A, {self.random.choice('ABC')}")
        self.jump_and_return("bits")

    def routine(self, name):
        """A routine that goes back by the register D, which it doesn't set."""
        self.lines.append(f"{name}:")
        for _ in range(self.random.randrange(2, 5)):
            verb, register = self.random.choice(("add", "sub", "mov", "lt", "ge")), self.random.choice("ABC")
            self.put(f"{verb} {register}, {self.random.choice(('A', 'B', 'C', self.constant()))}")
        self.put(f"putc {self.random.randrange(33, 127)}")
        self.put("jmp D")

    def write_state(self):
        """At the end: the registers and a few words of memory, bit by bit."""
        places = [self.random.randrange(WORDS) for _ in range(2)]
        for at, register in enumerate(REGISTERS):
            self.put(f"store {register}, {WORDS + at}")
        for place in [*range(WORDS, WORDS + len(REGISTERS)), *places]:
            self.put(f"load A, {place}")
            self.jump_and_return("bits")
            self.put("putc 10")

    def text(self):
        self.routines = [self.label() for _ in range(self.random.randrange(3))]
        self.lines.append("main:")
        for register in REGISTERS:
            self.put(f"mov {register}, {self.constant()}")
        for _ in range(self.random.randrange(8, 15)):
            self.statement(0)
        self.put("putc 10")
        self.write_state()
        self.put("exit")
        for name in self.routines:
            self.routine(name)
        self.lines.append(BITS)
        words = [self.constant() for _ in range(self.random.randrange(6))]
        return "\n".join(["\t.text", *self.lines] + (["\t.data"] + [f"\t.long {word}" for word in words] if words else [])) + "\n"

    def given(self):
        """An input of a few bytes; not as many as are read, so that its end is met as well."""
        if not self.reads:
            return None
        return bytes(self.random.randrange(32, 127) for _ in range(self.random.randrange(12)))


def program(seed, number):
    """The text of a program, and its input or None."""
    made = Program(seed, number)
    text = made.text()
    return text, made.given()
