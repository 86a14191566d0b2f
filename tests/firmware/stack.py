#!/usr/bin/env python3
"""What a call of each function of the library takes, read off its machine code: the bytes of stack, how many of these are below the stack pointer, and the registers other than
the general ones. The header has the same table.

  objdump -Dr --no-show-raw-insn target/filkotar/libfilkotar.a | python3 tests/firmware/stack.py

Each function is followed along every jump, with the bytes that it has put on the stack at each instruction. What it calls counts too, with the return address. An instruction that might
do something else to the stack ends the script with status 1 and a line that names it.
"""
import re
import sys

GENERAL = re.compile(r'[re]?(?:[abcd]x|[sd]i|[sb]p)|[abcd][lh]|(?:[sd]i|[sb]p)l|r\d+[dwb]?|rip')
OTHER = re.compile(r'[xyz]?mm\d+|st|k[0-7]')
FILLER = re.compile(r'(?:(?:data16|cs) )*nop[wl]?\b|xchg +%ax,%ax$')
# prefixes, jumps, calls, and what uses the stack without naming it
SPECIAL = re.compile(r'(?:rex|repn?z?|lock|bnd|notrack|data16|addr32|[cdefgs]s)\b|push|pop(?!cnt)|l?call|[il]?ret|j|ljmp|loop|enter|leave|int|sys|xbegin|\W')
TO_THE_STACK = re.compile(r'(-?)(?:0x([0-9a-f]+))?\(%rsp\)')


def put_on(operation, operands):
    """How many bytes an instruction puts on the stack; None where it is none of those that do just this."""
    if operation in ('push', 'pop') and re.fullmatch(r'%r(?!sp)\w+', operands):
        return 8 if operation == 'push' else -8
    if operation in ('sub', 'add') and (m := re.fullmatch(r'\$0x([0-9a-f]+),%rsp', operands)):
        by = int(m[1], 16)
        by -= by >> 63 << 64
        return by if operation == 'sub' else -by
    return None


def leads_to(name, operation, operands, record):
    """The places in the function `name` to which a jump leads; None where it is no jump, or not told."""
    if re.fullmatch('j[a-z]+', operation) and not record and (m := re.fullmatch(r'([0-9a-f]+) <(.*)\+0x\1>', operands)) and m[2] == name:
        return [int(m[1], 16)]
    by_table = [text for text in sections[f'.text.{name}'][0].values() if re.match(r'jmp +\*', text)]
    if operation == 'jmp' and re.fullmatch(r'\*%r\w+', operands) and len(by_table) == 1:
        # through the function's one table, whose entries the linker fills with the ways from the table's start
        entries = sections.get(f'.rodata.{name}', ({}, {}))[1]
        if all(kind == 'R_X86_64_PC32' and symbol == f'.text.{name}' for kind, symbol, _ in entries.values()):
            return [place - offset for offset, (_, _, place) in entries.items()] or None
    return None


def taken(name, callers=()):
    """Of a function with all that it calls: the bytes of stack, those below the stack pointer, and the registers. `callers` are the functions that are under way."""

    def stop(why):
        sys.exit(f'stack.py: {name}: {why}')

    if name in callers:
        stop('it may be called while it runs')
    if f'.text.{name}' not in sections:
        stop('it is called, and the library has no such function')
    code, records = sections[f'.text.{name}']
    after = dict(zip(sorted(code), sorted(code)[1:]))
    on_stack, to_see = {}, [(0, 0)]
    most, below, registers = 0, 0, set()
    while to_see:
        at, depth = to_see.pop()
        if at not in code:
            stop('it leads to a place where it has no instruction')
        if at in on_stack:
            if on_stack[at] != depth:
                stop(f'{code[at]!r} at {at:x} is reached with {on_stack[at]} bytes on the stack and with {depth}')
            continue
        on_stack[at] = depth
        text = code[at].split('#')[0].strip()
        operation, _, operands = text.partition(' ')
        operands = operands.strip()
        record = next((r for offset, r in records.items() if at < offset < after.get(at, at + 16)), None)
        go_on = [after.get(at)]
        if FILLER.match(text):
            pass
        elif put := put_on(operation, operands):
            depth += put
        elif places := leads_to(name, operation, operands, record):
            go_on = places + (go_on if operation != 'jmp' else [])
        elif text == 'ret' and depth == 0:
            go_on = []
        elif operation == 'call' and record and record[0] in ('R_X86_64_PLT32', 'R_X86_64_PC32') and record[2] == -4:
            inner, inner_below, inner_registers = taken(record[1].removeprefix('.text.'), (*callers, name))
            most, below, registers = max(most, depth + 8 + inner), max(below, inner_below), registers | inner_registers
        elif SPECIAL.match(text) or operation.startswith('lea') and '%rsp' in operands or re.search(r'%[re]?spl?\b', TO_THE_STACK.sub('', operands)):
            stop(f'not made for {text!r} at {at:x}, with {depth} bytes on the stack')
        else:
            for m in TO_THE_STACK.finditer(operands):
                under = int(m[2] or '0', 16) if m[1] else 0
                most, below = max(most, depth + under), max(below, under)
            for register in re.findall(r'%(\w+)', operands):
                if OTHER.fullmatch(register):
                    registers.add(register)
                elif not GENERAL.fullmatch(register):
                    stop(f'not made for {text!r} at {at:x}, with the register {register}')
        if depth < 0:
            stop(f'{text!r} at {at:x} takes more off the stack than was put there')
        most = max(most, depth)
        to_see += [(place, depth) for place in go_on]
    for at in code:
        if at not in on_stack and not FILLER.match(code[at]):
            stop(f'nothing leads to {code[at]!r} at {at:x}')
    return most, below, registers


# of each section the instructions and the linker's records (kind, symbol, number beside it), each at its offset
sections = {}
for line in sys.stdin:
    if m := re.match(r'Disassembly of section (.*):$', line):
        if m[1] in sections:
            sys.exit(f'stack.py: there are two sections {m[1]}')
        code, records = sections[m[1]] = {}, {}
    elif m := re.match(r'\s*([0-9a-f]+): (R_\w+)\t(.*?)([+-]0x[0-9a-f]+)?$', line):
        records[int(m[1], 16)] = m[2], m[3], int(m[4] or '0', 16)
    elif m := re.match(r' *([0-9a-f]+):\t(.*)', line):
        code[int(m[1], 16)] = m[2]
for section in sorted(sections):
    if section.startswith('.text.filkotar_'):
        most, below, registers = taken(section.removeprefix('.text.'))
        print(section.removeprefix('.text.'), most, below, *(sorted(registers) or ['none']))
