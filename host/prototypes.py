#!/usr/bin/env python3
"""Holds the structs and prototypes of the C header to what crate host exports.

    host/prototypes.py [HEADER [SOURCE ..]]     (host/filzeur.h crates/host/src/*.rt)

Both sides are brought into one form: a function is its result and its arguments in order, a struct its fields in
order, each a C type and a name. A slice is a pointer and a `size_t` called NAME_length; a struct `Name` is
`struct filzeur_name`. Prints a line for each difference and for each thing that it can't read, and its exit status is
1 if there is one."""

import glob
import os
import re
import sys

ROOT = os.path.dirname(os.path.dirname(os.path.abspath(__file__)))
PREFIX = 'filzeur_'
NUMBERS = {'u8': 'uint8_t', 'u16': 'uint16_t', 'u32': 'uint32_t', 'u64': 'uint64_t', 'usize': 'size_t',
           'i8': 'int8_t', 'i16': 'int16_t', 'i32': 'int32_t', 'i64': 'int64_t', 'bool': 'bool'}


class Unread(Exception):
    """Something that this script does not know."""


class Side:
    """The functions and structs of one side: a name leads to the list of its parts, each a type and a name. The first
    part of a function is its result."""

    def __init__(self, name):
        self.name, self.items, self.faults, self.numbers = name, {}, [], {}

    def add(self, name, read, *words):
        try:
            parts = read(*words)
        except Unread as fault:
            self.faults.append('%s: can\'t read `%s` in the %s' % (name, fault, self.name))
            parts = None
        if name in self.items:
            self.faults.append('%s: twice in the %s' % (name, self.name))
        self.items[name] = parts

    def array(self, lengths):
        """The lengths of an array as they stand in C, with numbers for the constants' names."""
        return ''.join('[%s]' % self.numbers.get(length, length) for length in lengths)


def pieces(text, separator):
    """The parts of a list that may end in its separator."""
    return [' '.join(part.split()) for part in text.split(separator) if part.strip()]


def without(pattern, text):
    return re.sub(pattern, ' ', text, flags=re.S)


# ---- the crate


class Crate(Side):
    def __init__(self, text):
        super().__init__('crate')
        text = re.sub(r'//[^\n]*', '', text)
        self.numbers = dict(re.findall(r'\bconst (\w+): \w+ = (\d+);', text))
        attributes = r'((?:#\[[^\]]*\]\s*)*)'
        structs = re.findall(attributes + r'pub struct (\w+)\s*\{([^}]*)\}', text)
        structs = [(name, body) for marks, name, body in structs if 'repr(C)' in marks]
        functions = re.findall(attributes + r'pub extern "C" fn (\w+)\s*\(([^)]*)\)\s*(?:->\s*([^\s{]+))?', text)
        self.structs = {name for name, _ in structs}
        for name, body in structs:
            self.add(self.c_name(name), self.fields, body)
        for marks, name, arguments, result in functions:
            self.add(name, self.function, arguments, result)
            if 'no_mangle' not in marks:
                self.faults.append('%s: not #[unsafe(no_mangle)] in the crate' % name)
        for mark, found in (('extern "C"', functions), ('no_mangle', functions), ('#[repr(C)]', structs)):
            if text.count(mark) > len(found):
                self.faults.append('%s stands %d times in the crate, and %d were read' % (
                    mark, text.count(mark), len(found)))

    @staticmethod
    def c_name(name):
        return 'struct ' + PREFIX + re.sub(r'(?<!^)(?=[A-Z])', '_', name).lower()

    def type(self, word):
        if word in NUMBERS:
            return NUMBERS[word]
        if word in self.structs:
            return self.c_name(word)
        raise Unread(word)

    def part(self, name, word):
        """The C type and name of a field, or of an argument that is no slice."""
        array = re.fullmatch(r'\[(.*); ?(\w+)\]', word)
        if array:
            kind, spelled = self.part(name, array[1])
            return kind, spelled.replace(name, name + self.array([array[2]]), 1)
        return self.type(word), name

    def fields(self, body):
        parts = []
        for field in pieces(body, ','):
            found = re.fullmatch(r'(?:pub )?(\w+) ?: ?(.+)', field)
            if not found:
                raise Unread(field)
            parts.append(self.part(*found.groups()))
        return parts

    def function(self, arguments, result):
        parts = [(self.type(result) if result else 'void', 'result')]
        for argument in pieces(arguments, ','):
            found = re.fullmatch(r'(\w+) ?: ?(&?)(mut )?(.+)', argument)
            if not found or found[3] and not found[2]:
                raise Unread(argument)
            name, lent, written, word = found.groups()
            inner = re.fullmatch(r'\[(\w+)\]', word)
            kind = self.type(inner[1] if inner else word)
            if not lent:
                parts.append((kind, name))
                continue
            parts.append(('%s%s *' % ('' if written else 'const ', kind), name))
            if inner:
                parts.append(('size_t', name + '_length'))
        return parts


# ---- the header


class Header(Side):
    def __init__(self, text):
        super().__init__('header')
        text = without(r'/\*.*?\*/', text)
        text = without(r'//[^\n]*', text)
        text = without(r'#ifdef __cplusplus\n.*?\n#endif', text)
        text = re.sub(r'(?m)^\s*#[^\n]*$', '', text).strip()
        self.numbers = dict(re.findall(r'\b(\w+) = (\d+)', text))
        while text:
            constants = re.match(r'enum\s*\w*\s*\{[^}]*\}\s*;', text)
            struct = re.match(r'(struct\s+\w+)\s*\{([^}]*)\}\s*;', text)
            function = re.match(r'([^;{}()]*[\s*])(\w+)\s*\(([^()]*)\)\s*;', text)
            found = constants or struct or function
            if not found:
                self.faults.append('can\'t read `%s` in the header' % text.split('\n')[0])
                break
            if struct:
                self.add(' '.join(struct[1].split()), self.fields, struct[2])
            elif function:
                self.add(function[2], self.function, function[1], function[3])
            text = text[found.end():].lstrip()

    def part(self, words):
        found = re.fullmatch(r'(.*[ *])(\w+)((?: ?\[\w+\])*)', words)
        if not found or ',' in words:
            raise Unread(words)
        return self.type(found[1]), found[2] + self.array(re.findall(r'\w+', found[3]))

    @staticmethod
    def type(words):
        return re.sub(r' ?\*', ' *', ' '.join(words.split()))

    def fields(self, body):
        return [self.part(field) for field in pieces(body, ';')]

    def function(self, result, arguments):
        arguments = [] if arguments.strip() == 'void' else pieces(arguments, ',')
        return [(self.type(result), 'result')] + [self.part(argument) for argument in arguments]


# ---- the comparison


def spelled(part):
    return 'nothing' if part is None else '`%s`' % (' '.join(part)).replace('* ', '*')


def differences(header, crate):
    yield from header.faults + crate.faults
    for name in list(header.items) + [name for name in crate.items if name not in header.items]:
        if name not in header.items or name not in crate.items:
            yield '%s: only in the %s' % (name, 'header' if name in header.items else 'crate')
            continue
        ours, theirs = header.items[name], crate.items[name]
        if ours is None or theirs is None:
            continue
        for i in range(max(len(ours), len(theirs))):
            one, other = (side[i] if i < len(side) else None for side in (ours, theirs))
            if one != other:
                yield '%s: the header has %s, the crate %s' % (name, spelled(one), spelled(other))
                break  # what follows is only shifted


def read(path):
    with open(path, encoding='utf-8') as file:
        return file.read()


def main():
    header = sys.argv[1] if len(sys.argv) > 1 else os.path.join(ROOT, 'host', 'filzeur.h')
    sources = sys.argv[2:] or sorted(glob.glob(os.path.join(ROOT, 'crates', 'host', 'src', '**', '*.rt'),
                                               recursive=True))
    one, other = Header(read(header)), Crate('\n'.join(map(read, sources)))
    found = list(differences(one, other))
    for line in found:
        print(line)
    functions = [name for name in other.items if not name.startswith('struct ')]
    print('prototypes: %d functions and %d structs, %d differences' % (
        len(functions), len(other.items) - len(functions), len(found)))
    sys.exit(1 if found or not functions else 0)


if __name__ == '__main__':
    main()
