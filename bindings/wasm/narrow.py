"""Rewrites LLVM's text of the library, as the toolchain makes it for x86-64, for WebAssembly with pointers of 32 bits.

The text says each place by its offset in bytes, and each size as 64 bits. Both stay as they are, so a pointer keeps its place of 8 bytes in memory, of which the
lower 4 are used. Four things have to be changed, besides the target:

- a variable that holds a pointer gets 8 bytes;
- a pointer that stands in a group of values, `{ i8, ptr }`, gets the offset 8, as on x86-64;
- an address in a constant gets a place of 8 bytes;
- the address of a pointer is made by the instruction that widens it.

No proof covers this: `narrowed` stops at each form that it does not know.
"""
import re

TARGET = {
    'datalayout': 'e-m:e-p:32:32-p10:8:8-p20:8:8-i64:64-i128:128-n32:64-S128-ni:1:10:20',
    'triple': 'wasm32-unknown-unknown',
}

# The attributes that are of x86-64.
OF_X86 = re.compile(r' ?"(?:target-cpu|target-features|tune-cpu|probe-stack|stack-probe-size)"="[^"]*"')

GROUP = re.compile(r'(?<!<)\{ [^{}]*\bptr\b[^{}]*\}(?!>)')
ADDRESS = re.compile(r'ptr (?:getelementptr (?:inbounds )?\([^()]*\)|@[\w.]+|null)(?=,| })')


class Unknown(Exception):
    """A form that nothing here is written for."""


def narrowed(text):
    """Returns the text for pointers of 32 bits."""
    lines = [narrowed_line(line) for line in text.split('\n')]
    return '\n'.join(lines)


def narrowed_line(line):
    if line.startswith('target '):
        what = line.split()[1]
        return f'target {what} = "{TARGET[what]}"'
    if line.startswith('@'):
        return constant(line)
    if line.startswith('attributes '):
        return OF_X86.sub('', line)
    if 'ptr' not in line or line.startswith(('declare ', 'define ')):
        return grouped(line)
    line = line.replace(' ptrtoaddr ptr ', ' ptrtoint ptr ')
    line = re.sub(r' = alloca ptr,', ' = alloca i64,', line)
    if re.search(r'alloca [^,]*(?<!\w)ptr', line):
        raise Unknown(line)
    return grouped(line)


def grouped(line):
    """`{ i8, ptr }` gets 7 bytes more, so that the pointer is its third value; `{ ptr, i64 }` has its places already."""
    groups = set(GROUP.findall(line)) - {'{ ptr, i64 }'}
    if not groups:
        return line
    if groups != {'{ i8, ptr }'}:
        raise Unknown(line)
    line = line.replace('{ i8, ptr }', '{ i8, [7 x i8], ptr }')
    if re.search(r'\b(?:extractvalue|insertvalue) ', line):
        line = re.sub(r', 1$', ', 2', line)
    return line


def constant(line):
    """Constants are packed, so each address in one is followed by 4 bytes."""
    if '<{ ' not in line or not re.search(r'\bptr\b', line):
        if re.search(r'\bptr\b', line):
            raise Unknown(line[:200])
        return line
    kinds, values = line.split('}> <{', 1)
    many = len(re.findall(r'\bptr\b', kinds))
    kinds = re.sub(r'\bptr\b', 'ptr, [4 x i8]', kinds)
    values, made = ADDRESS.subn(lambda it: f'{it[0]}, [4 x i8] zeroinitializer', values)
    if made != many:
        raise Unknown(line[:200])
    return kinds + '}> <{' + values
