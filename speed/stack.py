#!/usr/bin/env python3
# speed/stack.py DISASSEMBLY [PREFIX]: how many bytes of stack each exported entry of the archive takes at most, with what a call itself
# puts there. PREFIX is what their names begin with, snjofrask_ where it isn't given.
# DISASSEMBLY is what objdump -dr prints for x86-64, and for the other processors llvm-objdump (speed/stack makes it).
# Every path is followed, calls too; on x86-64 what is written below the stack pointer (the red zone) counts. It knows how clang moves the
# stack pointer, and stops at what it doesn't know. memcpy and its like are whoever links the archive's: of them only the call counts.
import re
import sys

OUTSIDE = re.compile(r'(__aeabi_)?mem(cpy|move|set|clr|cmp)[48]?$')
CALLED = re.compile(r'R_(X86_64_(PLT32|PC32)|ARM_THM_(CALL|JUMP24)|AARCH64_(CALL26|JUMP26)|RISCV_CALL(_PLT)?)$')


class X86_64:
    pushed = 8  # by a call
    by_register = True  # a jump by table looks like one to a function that isn't named
    padding = r'(nop|cs nop|data16|xchg\s+%ax,%ax|int3)'
    flows = (('end', r'(ret|ud2)'), ('call', r'call'), ('jump', r'jmp\s+[0-9a-f]+ <'), ('table', r'jmp'), ('branch', r'j\w+\s+[0-9a-f]+ <'))
    unknown = r'(?!cmp|test).*,%[re]?sp$'

    @staticmethod
    def lowered(text):
        if m := re.match(r'(push|pop)\b', text):
            return 8 if m[1] == 'push' else -8
        if m := re.match(r'(add|sub)q?\s+\$(-?0x[0-9a-f]+),%rsp', text):
            step = int(m[2], 16)
            step -= (step >> 63) << 64
            return step if m[1] == 'sub' else -step
        return None

    @staticmethod
    def below(text):
        return max((int(m[1], 16) for m in re.finditer(r'-(0x[0-9a-f]+)\(%rsp', text)), default=0)


class Other:
    """Processors that keep the return address in a register, and nothing below the stack pointer."""
    pushed = 0
    by_register = True
    padding = r'nop'

    @staticmethod
    def below(_):
        return 0


class Thumb(Other):
    by_register = False
    CONDITION = '(eq|ne|hs|lo|mi|pl|vs|vc|hi|ls|ge|lt|gt|le)'
    flows = (('maybe end', rf'(pop{CONDITION}(\.w)?\s+\{{.*\bpc\}}|bx{CONDITION}\s+lr)'),
             ('end', r'(pop(\.w)?\s+\{.*\bpc\}|bx\s+lr|ldr\s+pc, \[sp\], #4|udf|trap)'), ('call', r'bl\s'), ('table', r'tb[bh]\s'),
             ('jump', r'b(\.w)?\s'), ('branch', rf'(b{CONDITION}(\.w)?|cbn?z)\s'))
    # another branch, or another change of the stack pointer
    unknown = r'(blx|bx|(?!cmp|tst|stm|ldm)\S+\s+(sp\b|pc\b)|.*\bsp\]?!|.*\[sp.*\]!|.*\[sp\], |(ldm|pop)\S*\s+.*\bpc\b)'

    @staticmethod
    def lowered(text):
        if m := re.match(r'(push|pop)(?:\.w)?\s+\{(.*)\}$', text):
            bytes = 4 * len(m[2].split(', '))  # llvm-objdump writes out every register
            return bytes if m[1] == 'push' else -bytes
        if m := re.match(r'(add|sub)w?(?:\.w)?\s+sp, (?:sp, )?#(\d+)$', text):
            return int(m[2]) if m[1] == 'sub' else -int(m[2])
        if m := re.match(r'(?:str\s+\w+, \[sp, #-(\d+)\]!|ldr\s+\w+, \[sp\], #(\d+))$', text):
            return int(m[1]) if m[1] else -int(m[2])
        if re.match(rf'add{Thumb.CONDITION}(\.w)?\s+sp, (sp, )?#\d+$', text):
            return 0  # before a return that is made or not: what is counted is the case that goes on
        return None


class AArch64(Other):
    flows = (('end', r'(ret|brk|udf)\b'), ('call', r'bl\s'), ('table', r'br\s'), ('jump', r'b\s'), ('branch', r'(b\.\w+|cbn?z|tbn?z)\s'))
    unknown = r'(blr|retaa|(?!cmp|tst|str|stp)\S+\s+(w?sp)\b|.*\[sp.*\]!|.*\[sp\], )'

    @staticmethod
    def lowered(text):
        if m := re.match(r'(add|sub)\s+sp, sp, #(\d+)(?:, lsl #(12))?$', text):
            bytes = int(m[2]) << int(m[3] or 0)
            return bytes if m[1] == 'sub' else -bytes
        if m := re.match(r'(?:st[rp]\s+.*\[sp, #-(\d+)\]!|ld[rp]\s+.*\[sp\], #(\d+))$', text):
            return int(m[1]) if m[1] else -int(m[2])
        return None


class RiscV(Other):
    padding = r'(nop|c\.nop|unimp)'
    # a far call is two instructions, and names its function at the first; the reader hands that on to the second
    flows = (('end', r'(ret|unimp|ebreak)\b'), ('call', r'jalr\s+(-?\d+\(ra\)|ra)$'), ('table', r'jr\s'), ('jump', r'j\s'),
             ('branch', r'b\w+\s+.*0x[0-9a-f]+ <'))
    unknown = r'(jalr|jal|b\w+|(?!s[bhw]\b)\S+\s+sp\b|cm\.)'

    @staticmethod
    def lowered(text):
        m = re.match(r'(?:c\.)?addi(?:16sp)?\s+sp, sp, (-?\d+)$', text)
        return -int(m[1]) if m else None


PROCESSORS = {'elf64-x86-64': X86_64, 'elf32-littlearm': Thumb, 'elf64-littleaarch64': AArch64, 'elf32-littleriscv': RiscV}


def read(lines):
    """The processor, and the functions: for each instruction its address, its text, and the function that it names."""
    processor, functions, code, data, handed = None, {}, None, False, None
    for line in lines:
        if m := re.search(r'file format (\S+)', line):
            processor = PROCESSORS.get(m[1]) or sys.exit(f'error: {m[1]}: not a processor that is known')
        elif m := re.match(r'[0-9a-f]+ <(.+)>:$', line):
            data = m[1].startswith('$d')  # a jump's table, among the code
            if not re.match(r'\$|\.L', m[1]):
                code = functions.setdefault(m[1], [])
        elif m := re.match(r'\s+[0-9a-f]+:\s+(R_\w+)\s+(.+?)(?:[-+]0x[0-9a-f]+)?\s*$', line):
            if CALLED.match(m[1]):
                code[-1][2] = m[2].removeprefix('.text.')
        elif m := re.match(r'\s+([0-9a-f]+):\s(?:(?:[0-9a-f]{2} )+)?\s*\t(\S.*)$', line):
            if not data:
                handed = code[-1][2] if code and code[-1][1].startswith('auipc') else None
                code.append([int(m[1], 16), re.sub(r'\s+(@|#|//|;) .*$', '', m[2]).strip(), handed])
    return processor, functions


def refuse(name, text):
    sys.exit(f'error: {name}: {text}: not known how much stack that takes')


class Depths:
    def __init__(self, processor, functions):
        self.processor, self.functions, self.known = processor, functions, {}

    def of(self, name):
        """Bytes below what the call itself pushes."""
        if name not in self.known:
            self.known[name] = None
            self.known[name] = Walk(self, name).most
        if self.known[name] is None:
            refuse(name, 'it calls itself')
        return self.known[name]

    def called(self, name, to):
        if OUTSIDE.match(to or ''):
            return 0
        if to not in self.functions:
            refuse(name, f'call of {to}')
        return self.of(to)


class Walk:
    """Along all paths of a function."""

    def __init__(self, depths, name):
        self.depths, self.name, self.code = depths, name, depths.functions[name]
        self.place = {at: i for i, (at, _, _) in enumerate(self.code)}
        self.seen, self.most = {}, 0
        self.table, self.by_table = None, False  # the depth where a jump by table is, and whether anything is reached by it
        self.todo = [(0, 0)]
        while self.todo or self.only_by_table():
            self.path(*self.todo.pop())
        if self.table is not None and depths.processor.by_register and not self.by_table:
            refuse(name, 'a jump that leads to nothing in it')

    def only_by_table(self):
        left = [i for i in range(len(self.code)) if i not in self.seen and not re.match(self.depths.processor.padding, self.code[i][1])]
        if left and self.table is None:
            refuse(self.name, self.code[left[0]][1] + ', which nothing leads to')
        if left:
            self.todo, self.by_table = [(left[0], self.table)], True
        return bool(left)

    def path(self, i, depth):
        while i is not None and i not in self.seen:
            if i == len(self.code):
                return self.past_end()
            self.seen[i] = depth
            depth, i = self.step(i, depth)
        if i is not None and self.seen[i] != depth:
            refuse(self.name, self.code[i][1] + ', which two depths lead to')

    def past_end(self):
        """Behind a call of a function that doesn't come back there is nothing."""
        last = [text for _, text, _ in self.code if not re.match(self.depths.processor.padding, text)][-1]
        if self.flow(last) != 'call':
            refuse(self.name, 'it runs past its end')

    def flow(self, text):
        return next((flow for flow, form in self.depths.processor.flows if re.match(form, text)), None)

    def step(self, i, depth):
        """The depth after an instruction, and what comes next."""
        processor, (_, text, to) = self.depths.processor, self.code[i]
        self.most = max(self.most, depth + processor.below(text))
        flow = self.flow(text)
        if flow in ('end', 'maybe end'):
            return depth, i + 1 if flow == 'maybe end' else None
        lowered = processor.lowered(text)
        if lowered is None and flow is None and re.match(processor.unknown, text):
            refuse(self.name, text)
        depth += lowered or 0
        self.most = max(self.most, depth)
        if flow == 'call':
            self.most = max(self.most, depth + processor.pushed + self.depths.called(self.name, to))
        elif flow in ('jump', 'branch', 'table'):
            self.leave(flow, depth, text, to)
        return depth, None if flow in ('jump', 'table') else i + 1

    def leave(self, flow, depth, text, to):
        if to is not None:
            # another function in this one's place
            self.most = max(self.most, depth + self.depths.called(self.name, to))
        elif flow == 'table':
            if self.table not in (None, depth):
                refuse(self.name, text)
            self.table = depth
        else:
            at = re.search(r'\b(?:0x)?([0-9a-f]+) <', text)
            if not at or int(at[1], 16) not in self.place:
                refuse(self.name, text)
            self.todo.append((self.place[int(at[1], 16)], depth))


def main():
    processor, functions = read(open(sys.argv[1]))
    depths = Depths(processor, functions)
    prefix = sys.argv[2] if len(sys.argv) > 2 else 'snjofrask_'
    for name in sorted(name for name in functions if name.startswith(prefix)):
        print(name, processor.pushed + depths.of(name))


main()
