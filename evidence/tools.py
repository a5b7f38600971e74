"""What compare.py, calls.py and program.py share: building the programs, talking to them, and where the library is."""

import os
import subprocess
import sys

HERE = os.path.dirname(os.path.abspath(__file__))
ROOT = os.path.dirname(HERE)
BUILT = os.path.join(ROOT, 'target', 'evidence')
LIBRARY = os.environ.get('FILZEUR_LIBRARY', os.path.join(ROOT, 'crates', 'host', 'out', 'libhost.a'))
FLAGS = ['-std=c++17', '-O2', '-Wall', '-Wextra']


def made_by(program):
    """The command that made the program, if it is there."""
    try:
        with open(program + '.made', encoding='utf-8') as file:
            return file.read().split('\n') if os.path.exists(program) else None
    except FileNotFoundError:
        return None


def build(name, source, *words, needed=True):
    """The path of the program, made again if a source or the library is newer; None if it can't be, nor is needed."""
    os.makedirs(BUILT, exist_ok=True)
    program = os.path.join(BUILT, name)
    command = ['g++', *FLAGS, os.path.join(HERE, source), *words, '-o', program]
    sources = [os.path.join(HERE, f) for f in os.listdir(HERE) if f.endswith(('.h', '.cpp'))]
    sources += [word for word in words if os.path.exists(word)]
    if made_by(program) == command and all(os.path.getmtime(f) <= os.path.getmtime(program) for f in sources):
        return program
    done = subprocess.run(command, stderr=None if needed else subprocess.DEVNULL)
    if done.returncode != 0 and needed:
        sys.exit('%s does not build' % source)
    if done.returncode != 0:
        return None
    with open(program + '.made', 'w', encoding='utf-8') as file:
        file.write('\n'.join(command))
    return program


def driver():
    if not os.path.exists(LIBRARY):
        sys.exit('no library at %s (make it with `rt lib` in crates/host, or set FILZEUR_LIBRARY)' % LIBRARY)
    return build('driver', 'driver.cpp', LIBRARY)


def ask(program, lines, *arguments):
    """The answers to the lines, one each. A program that stops early is an error, and which line it was is said."""
    process = subprocess.run([program, *arguments], input='\n'.join(lines) + '\n', stdout=subprocess.PIPE, text=True)
    answers = process.stdout.splitlines()
    if process.returncode != 0 or len(answers) != len(lines):
        sys.exit('%s ended with %d at line %d: %s' % (os.path.basename(program), process.returncode,
                                                      len(answers) + 1, lines[len(answers):][:1]))
    return answers


def spell(*parts):
    """A line for the driver: a list stands as its length and its elements."""
    words = []
    for part in parts:
        if isinstance(part, (list, bytes)):
            words.append(str(len(part)))
            words.extend(map(str, part))
        else:
            words.append(str(part))
    return ' '.join(words)
