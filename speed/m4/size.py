#!/usr/bin/env python3
# speed/m4/size.py SECTIONS SYMBOLS: the bytes of code and constants of a program, without memcpy and its like, which any firmware has.
# SECTIONS is what llvm-size -A prints of it, SYMBOLS what llvm-nm -S -C does.
import re
import sys

sections = re.findall(r'^\.(?:text|rodata)\S*\s+(\d+)', sys.argv[1], re.M)
# one function may have two names
others = set(re.findall(r'^(\w+) (\w+) [tTwW] (?:compiler_builtins::|__aeabi_mem|mem)', sys.argv[2], re.M))
print(sum(map(int, sections)) - sum(int(size, 16) for _, size in others))
