"""Compares what clients find in class files with what they find in the stripped ones.

    projection.py PROGRAM QUESTIONS [FOLDER]

asks until so many questions have succeeded, in random worlds, or in the classes of a folder. Each
question that succeeds in the full classes must have the same answer in the stripped ones. Left out
are classes that stripping removes, and clients below one of these. Each time the worlds are the
same.
"""

import os
import random
import subprocess
import sys
import tempfile

from class_files import (ABSTRACT, FINAL, INTERFACE, PRIVATE, PROTECTED, PUBLIC, STATIC, SUPER,
                         Described, Pool, annotations, attribute, class_file, counted, member)

PACKAGES = ['', 'p/', 'p/q/']
FIELDS = [('x', 'I'), ('x', 'J'), ('y', 'Ljava/lang/String;')]
METHODS = [('m', '()V'), ('m', '(I)V'), ('n', '()I'), ('<init>', '()V')]
CONSTANTS = {'I': 7, 'J': 1 << 40, 'Ljava/lang/String;': 'seven'}
MARKS = ['LMark;', 'Lp/Mark;']
ACCESS = [PUBLIC, PRIVATE, PROTECTED, 0]
MOST_CLASSES = 12
ASKED_AT_ONCE = 2000


# ---- random worlds

def random_marks(rng, pool):
    return [annotations(pool, visible, rng.sample(MARKS, rng.randint(1, 2)))
            for visible in (True, False) if rng.random() < 0.2]


def random_field(rng, pool, name, descriptor):
    flags = rng.choice(ACCESS) | rng.choice([0, STATIC, FINAL, STATIC | FINAL])
    attributes = random_marks(rng, pool)
    if rng.random() < 0.4:
        body = pool.constant(descriptor, CONSTANTS[descriptor]).to_bytes(2, 'big')
        attributes.append(attribute(pool, 'ConstantValue', body))
    return member(pool, flags, name, descriptor, attributes)


def random_method(rng, pool, name, descriptor):
    flags = rng.choice(ACCESS) | rng.choice([0, 0, STATIC, ABSTRACT])
    return member(pool, flags, name, descriptor, random_marks(rng, pool))


def random_class(rng, name, names):
    """A class of any kind. Its supertypes are any of the names, also itself and absent ones."""
    pool = Pool()
    kind = rng.choice([SUPER, SUPER, SUPER | ABSTRACT, INTERFACE | ABSTRACT])
    below_any = rng.random() < 0.5 and not (kind & INTERFACE and rng.random() < 0.8)
    superclass = rng.choice(names) if below_any else 'java/lang/Object'
    if name == 'java/lang/Object':
        superclass = None
    interfaces = rng.sample(names, rng.choice([0, 0, 1, 1, 2, 3]))
    fields = [random_field(rng, pool, *f) for f in FIELDS if rng.random() < 0.4]
    methods = [random_method(rng, pool, *m) for m in METHODS if rng.random() < 0.4]
    if rng.random() < 0.2:
        methods.append(member(pool, STATIC, '<clinit>', '()V', []))
    attributes = random_marks(rng, pool)
    if rng.random() < 0.25:
        simple = pool.text('Local') if rng.random() < 0.7 else 0
        entry = b''.join(n.to_bytes(2, 'big') for n in (pool.name(name), 0, simple, 0))
        attributes.append(attribute(pool, 'InnerClasses', counted([entry])))
    flags = kind | rng.choice([0, PUBLIC])
    return class_file(pool, flags, name, superclass, interfaces, fields, methods, attributes)


def write_world(rng, folder):
    """Writes the classes of a world and gives their names."""
    count = rng.randint(2, MOST_CLASSES)
    names = [rng.choice(PACKAGES) + 'ABCDEFGHIJKL'[i] for i in range(count)]
    if rng.random() < 0.5:
        names.append('java/lang/Object')
    for name in names:
        path = os.path.join(folder, name + '.class')
        os.makedirs(os.path.dirname(path), exist_ok=True)
        with open(path, 'wb') as file:
            file.write(random_class(rng, name, names + ['Absent']))
    return names


# ---- questions

def questions_of(name, fields, methods):
    """All questions about a class and these members."""
    yield '--type', name
    yield '--supers', name
    yield '--annotations', name
    for field, descriptor in fields:
        yield '--field', f'{name}#{field}:{descriptor}'
        yield '--constant', f'{name}#{field}'
        yield '--annotations', f'{name}#{field}'
    for method, descriptor in methods:
        sought = f'{name}#{method}:{descriptor}'
        for option in ('--method', '--imethod', '--annotations'):
            yield option, sought


def random_client(rng, names):
    client = ['--from', rng.choice(['p', 'p/q', 'r'])] if rng.random() < 0.7 else []
    return client + (['--under', rng.choice(names)] if rng.random() < 0.7 else [])


class Comparison:
    """Asks both folders and counts."""

    def __init__(self, program):
        self.program, self.succeeded, self.asked, self.differences = program, 0, 0, 0

    def run(self, words):
        done = subprocess.run([self.program, *words], capture_output=True)
        if done.returncode != 0:
            raise SystemExit(f'{words[:6]}: status {done.returncode}: {done.stderr.decode()}')
        return done.stdout.decode('utf-8', 'replace').splitlines()

    def strip(self, full, stripped):
        self.run(['ijar', '--input', full, '--output', stripped])

    def ask(self, folder, client, questions):
        words = [word for question in questions for word in question]
        return self.run(['ask', '--classes', folder, *client, *words])

    def compare(self, full, stripped, client, questions):
        for start in range(0, len(questions), ASKED_AT_ONCE):
            some = questions[start:start + ASKED_AT_ONCE]
            answers = zip(self.ask(full, client, some), self.ask(stripped, client, some), some)
            for before, after, (option, value) in answers:
                self.asked += 1
                if before.startswith(f'{option[2:]} {value} found'):
                    self.succeeded += 1
                    if before != after:
                        self.differences += 1
                        print(f'{full}, {client}:\n  {before}\n  {after}')


def compare_worlds(comparison, wanted):
    rng, worlds = random.Random(1), 0
    while comparison.succeeded < wanted:
        with tempfile.TemporaryDirectory() as folder:
            full, stripped = os.path.join(folder, 'full'), os.path.join(folder, 'stripped')
            names = write_world(rng, full)
            comparison.strip(full, stripped)
            kept = [n for n in names if os.path.exists(os.path.join(stripped, n + '.class'))]
            questions = [q for name in kept for q in questions_of(name, FIELDS, METHODS)]
            for _ in range(4 if kept else 0):
                comparison.compare(full, stripped, random_client(rng, kept), questions)
            worlds += 1
    return f'{worlds} random worlds'


def class_paths(folder):
    for at, _, files in os.walk(folder):
        for file in files:
            if file.endswith('.class') and file != 'module-info.class':
                yield os.path.join(at, file)


def sought_in(rng, described, by_name):
    """Members of a class or of what lies above it, a few of them."""
    fields, methods, above = [], [], described
    while above is not None:
        fields, methods = fields + above.fields, methods + above.methods
        supertypes = [n for n in [above.superclass, *above.interfaces] if n in by_name]
        above = by_name[rng.choice(supertypes)] if supertypes else None
    methods = [m for m in methods if m[0] != '<clinit>']
    return (rng.sample(fields, min(3, len(fields))), rng.sample(methods, min(6, len(methods))))


def compare_folder(comparison, wanted, full):
    rng = random.Random(1)
    with tempfile.TemporaryDirectory() as folder:
        stripped = os.path.join(folder, 'stripped')
        comparison.strip(full, stripped)
        every = [Described(open(path, 'rb').read()) for path in class_paths(full)]
        by_name = {each.name: each for each in every}
        kept = [n for n in by_name if os.path.exists(os.path.join(stripped, n + '.class'))]
        while comparison.succeeded < wanted:
            questions = []
            for name in rng.sample(kept, min(200, len(kept))):
                questions += questions_of(name, *sought_in(rng, by_name[name], by_name))
            package = rng.choice(kept).rpartition('/')[0]
            client = ['--from', package, '--under', rng.choice(kept)]
            comparison.compare(full, stripped, client, questions)
    return f'{len(every)} classes'


def main():
    program, wanted = sys.argv[1], int(sys.argv[2])
    comparison = Comparison(program)
    if len(sys.argv) > 3:
        what = compare_folder(comparison, wanted, sys.argv[3])
    else:
        what = compare_worlds(comparison, wanted)
    print(f'{what}: {comparison.asked} questions, of which {comparison.succeeded} succeeded: '
          f'{comparison.differences} differences')
    sys.exit(1 if comparison.differences else 0)


if __name__ == '__main__':
    main()
