#!/usr/bin/env python3
"""What the generators of the test programs share: how calls are listed and how what they leave is shown (src/lib.rt says the same to the programs).

  crates/X_test/vectors.py              writes stdin (calls) and stdout (what is to be printed) beside it
  crates/X_test/vectors.py --check      makes both again and compares them with the files; 1 where they differ
  crates/test_io/generator.py --check   the same of every generator

A generator uses nothing of the product, and every run of it makes the same. Where it asks another tool that is not there, it says so, and the
files are compared without that tool's word."""
import pathlib
import subprocess
import sys

# what the places of a lent slice hold before a call
FREE, FREE_BYTE = 4294967295, 255
# so many places are shown as numbers, more as a hash
FEW = 12


def hashed(s):
    h = 0
    for x in s:
        h = (h * 65599 + x + 1) % 4294967291
    return h


def shown(s, behind=2):
    """What is printed of a slice and of some places behind it, which a call may not touch."""
    s = list(s) + [FREE] * behind
    return ''.join(' %d' % x for x in s) if len(s) <= FEW else ' #%d' % hashed(s)


def shown_bytes(s, behind=2):
    return ' #%d' % hashed(bytes(s) + bytes([FREE_BYTE]) * behind)


def printed(*numbers):
    return ''.join(' %d' % x for x in numbers)


def listed(calls):
    """The calls, each of them lists: the number of the calls, and for each list the number of its elements and the elements."""
    line = lambda lists: ' '.join(' '.join(map(str, [len(l), *l])) for l in lists) + '\n'
    return ('%d\n' % len(calls) + ''.join(map(line, calls))).encode()


class Texts:
    """Texts that stand behind the lists, each once. A call names one by `Texts.place`, two elements of a list."""

    def __init__(self):
        self.all, self.known = b'', {}

    def place(self, text):
        if text not in self.known:
            self.known[text] = len(self.all)
            self.all += text
        return [Place(self, self.known[text]), Place(self, self.known[text] + len(text))]

    def behind(self, calls):
        Place.base = 0
        Place.base = len(listed(calls)) + len(b'texts\n')
        return listed(calls) + b'texts\n' + self.all


class Place:
    """A place of the input, printed at a fixed width, so that the lists' length does not hang on it."""
    base = 0

    def __init__(self, texts, at):
        self.at = at

    def __str__(self):
        return '%07d' % (Place.base + self.at)


def run(file, make):
    """What a generator does: `make` answers stdin and stdout, as bytes, and a remark."""
    folder = pathlib.Path(file).resolve().parent
    stdin, stdout, remark = make()
    print('%s: %s' % (folder.name, remark))
    files = {'stdin': stdin, 'stdout': stdout}
    if sys.argv[1:] != ['--check']:
        for name, text in files.items():
            (folder / name).write_bytes(text)
        return
    for name, text in files.items():
        held = (folder / name).read_bytes()
        if held != text:
            lines = zip(held.split(b'\n') + [b''], text.split(b'\n') + [b''])
            first = next((k for k, (a, b) in enumerate(lines, 1) if a != b), 0)
            sys.exit('%s: the file %s differs from what is made now, at line %d' % (folder.name, name, first))


def main():
    if sys.argv[1:] != ['--check']:
        sys.exit(__doc__)
    generators = sorted(pathlib.Path(__file__).resolve().parent.parent.glob('*_test/vectors.py'))
    running = [subprocess.Popen([sys.executable, str(g), '--check']) for g in generators]
    sys.exit(max([g.wait() for g in running]))


if __name__ == '__main__':
    main()
