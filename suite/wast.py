"""Probes of WebAssembly in the text format, and as scripts (.wast) with a host of their own."""
import ast

# What a probe may begin with: lines that stand for the host's two functions, and for one that writes a number in eight digits.
PARTS = {
    "@out": '(import "env" "putchar" (func $putchar (param i32)))',
    "@in": '(import "env" "getchar" (func $getchar (result i32)))',
    "@hex": """(func $hex (param $number i32) (local $shift i32) (local $digit i32)
  (local.set $shift (i32.const 28))
  (loop $next
    (local.set $digit (i32.and (i32.shr_u (local.get $number) (local.get $shift)) (i32.const 15)))
    (call $putchar (i32.add (local.get $digit) (select (i32.const 48) (i32.const 87) (i32.lt_u (local.get $digit) (i32.const 10)))))
    (local.set $shift (i32.sub (local.get $shift) (i32.const 4)))
    (br_if $next (i32.ge_s (local.get $shift) (i32.const 0))))
  (call $putchar (i32.const 10)))""",
}

# The host of a script: it keeps what is written at 65,536, and has the input from 4 on, its length at 0.
HOST = """(module $env
  (memory 4)
  (data (i32.const 0) "{length}{data}")
  (global $taken (mut i32) (i32.const 0))
  (global $written (mut i32) (i32.const 0))
  (func (export "getchar") (result i32)
    (if (i32.ge_u (global.get $taken) (i32.load (i32.const 0))) (then (return (i32.const 0))))
    (global.set $taken (i32.add (global.get $taken) (i32.const 1)))
    (i32.load8_u offset=3 (global.get $taken)))
  (func (export "putchar") (param $byte i32)
    (i32.store8 offset=65536 (global.get $written) (local.get $byte))
    (global.set $written (i32.add (global.get $written) (i32.const 1))))
  (func (export "written") (result i32) (global.get $written))
  (func (export "byte") (param $at i32) (result i32) (i32.load8_u offset=65536 (local.get $at))))
(register "env" $env)
"""


def module_text(program):
    """The module of a probe: its fields, with the parts that it names."""
    lines = [PARTS.get(line.strip(), line) for line in program.split("\n")]
    text = "\n".join(lines)
    return text + "\n" if text.startswith("(module") else f"(module\n{text})\n"


def quoted(content):
    return "".join(f"\\{byte:02x}" for byte in content)


def script(record, program, made, given):
    """A script that runs a probe, and asserts what it writes and how it ends."""
    head = f";; {record['name']}: {record['tests']}\n"
    is_binary = record.get("hex") == "yes"
    module = f"(module binary \"{quoted(made)}\")\n" if is_binary else module_text(program)
    if record.get("ends") == "refused":
        return head + f"(assert_{record['refusal']} {module.rstrip()} \"{record['message']}\")\n"
    text = head + HOST.format(length=quoted(len(given).to_bytes(4, "little")), data=quoted(given))
    if "start-traps" in record:
        text += f"(assert_trap {module.rstrip()} \"{record['start-traps']}\")\n"
    elif record.get("ends") == "fault":
        kind = "exhaustion" if record["message"] == "call stack exhausted" else "trap"
        text += module + f"(assert_{kind} (invoke \"main\") \"{record['message']}\")\n"
    else:
        text += module + '(assert_return (invoke "main"))\n'
    return text + written(record)


def written(record):
    """Assertions of each byte that is written."""
    wanted = ast.literal_eval("b" + record["out"])
    lines = [f'(assert_return (invoke $env "written") (i32.const {len(wanted)}))']
    lines += [f'(assert_return (invoke $env "byte" (i32.const {at})) (i32.const {byte}))' for at, byte in enumerate(wanted)]
    return "\n".join(lines) + "\n"
