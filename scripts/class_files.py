"""Class files (JVMS 4) as the scripts make and look at them: no more of them than these need."""

import struct

PUBLIC, PRIVATE, PROTECTED, STATIC, FINAL = 0x0001, 0x0002, 0x0004, 0x0008, 0x0010
SUPER, INTERFACE, ABSTRACT = 0x0020, 0x0200, 0x0400
VERSION = 61  # Java SE 17


class Pool:
    """A constant pool that is being made."""

    def __init__(self):
        self.entries, self.numbers, self.next = [], {}, 1

    def add(self, entry, width=1):
        if entry not in self.numbers:
            self.numbers[entry] = self.next
            self.entries.append(entry)
            self.next += width
        return self.numbers[entry]

    def text(self, text):
        raw = text.encode()
        return self.add(struct.pack('>BH', 1, len(raw)) + raw)

    def named(self, tag, text):
        return self.add(struct.pack('>BH', tag, self.text(text)))

    def name(self, name):
        """The number of a class, 0 for none."""
        return self.named(7, name) if name else 0

    def constant(self, descriptor, value):
        """The number of the constant of a field of this descriptor; floats are told by bits."""
        if descriptor == 'Ljava/lang/String;':
            return self.named(8, value)
        tag, form, width = {'J': (5, '>Bq', 2), 'D': (6, '>BQ', 2), 'F': (4, '>BI', 1)}.get(
            descriptor, (3, '>Bi', 1))
        return self.add(struct.pack(form, tag, value), width)

    def bytes(self):
        return struct.pack('>H', self.next) + b''.join(self.entries)


def attribute(pool, name, body):
    return struct.pack('>HI', pool.text(name), len(body)) + body


def counted(items):
    return struct.pack('>H', len(items)) + b''.join(items)


def annotations(pool, visible, descriptors):
    """An attribute of annotations without elements."""
    name = 'RuntimeVisibleAnnotations' if visible else 'RuntimeInvisibleAnnotations'
    marks = [struct.pack('>HH', pool.text(d), 0) for d in descriptors]
    return attribute(pool, name, counted(marks))


def member(pool, flags, name, descriptor, attributes):
    numbers = (flags, pool.text(name), pool.text(descriptor))
    return struct.pack('>HHH', *numbers) + counted(attributes)


def class_file(pool, flags, name, superclass, interfaces, fields, methods, attributes):
    """The bytes of a class whose members and attributes were made with this pool."""
    head = struct.pack('>HHH', flags, pool.name(name), pool.name(superclass))
    names = [struct.pack('>H', pool.name(each)) for each in interfaces]
    rest = counted(names) + counted(fields) + counted(methods) + counted(attributes)
    return struct.pack('>IHH', 0xCAFEBABE, 0, VERSION) + pool.bytes() + head + rest


class Described:
    """The name, the supertypes and the members of a class file: their names and descriptors."""

    def __init__(self, raw):
        self.raw, self.at, self.texts, self.names = raw, 8, {}, {}
        self.read_pool()
        self.skip(2)
        self.name, self.superclass = self.class_name(), self.class_name()
        self.interfaces = [self.class_name() for _ in range(self.number())]
        self.fields, self.methods = self.members(), self.members()

    def number(self, form='>H'):
        (read,) = struct.unpack_from(form, self.raw, self.at)
        self.at += struct.calcsize(form)
        return read

    def skip(self, count):
        self.at += count

    def read_pool(self):
        widths = {3: 4, 4: 4, 5: 8, 6: 8, 7: 2, 8: 2, 15: 3, 16: 2, 19: 2, 20: 2}
        count, at = self.number(), 1
        while at < count:
            tag = self.number('>B')
            if tag == 1:
                length = self.number()
                self.texts[at] = self.raw[self.at:self.at + length].decode('utf-8', 'replace')
                self.skip(length)
            elif tag == 7:
                self.names[at] = self.number()
            else:
                self.skip(widths.get(tag, 4))
            at += 2 if tag in (5, 6) else 1

    def class_name(self):
        return self.texts.get(self.names.get(self.number()))

    def members(self):
        found = []
        for _ in range(self.number()):
            self.skip(2)
            found.append((self.texts[self.number()], self.texts[self.number()]))
            for _ in range(self.number()):
                self.skip(2)
                self.skip(self.number('>I'))
        return found
