"""Books in the form of document 01, written from plain Python values."""
import struct

LISTS = {'files': (0x02, 0x03), 'include': (0x04, 0x05), 'exclude': (0x06, 0x07), 'rootDirs': (0x0E, 0x0F)}
SINGLES = {'baseUrl': 0x09, 'outDir': 0x10, 'declarationDir': 0x11}


class Writer:
    """Commands and text. Equal strings are stored once unless the writer is told to spread them."""

    def __init__(self, spread=False):
        self.commands = bytearray()
        self.text = bytearray()
        self.places = {}
        self.spread = spread
        self.offsets = []           # where each command begins

    def string(self, value):
        value = value.encode('latin-1') if isinstance(value, str) else value
        if self.spread or value not in self.places:
            self.places[value] = len(self.text)
            self.text += value
        return struct.pack('<HH', self.places[value] & 0xFFFF, len(value) & 0xFFFF)

    def raw(self, *parts):
        self.offsets.append(len(self.commands))
        for part in parts:
            self.commands += bytes([part]) if isinstance(part, int) else part

    def put(self, command, *operands):
        """One command; operands are numbers (a byte each) or strings."""
        self.raw(command, *[o if isinstance(o, int) else self.string(o) for o in operands])

    def record(self, path, **fields):
        """A whole record, its fields in the order of the listing."""
        self.put(0x01, path)
        for entry in fields.get('extends', []):
            self.put(0x08, entry)
        for name in ('files', 'include', 'exclude'):
            self.items(name, fields.get(name))
        self.single('baseUrl', fields.get('baseUrl'))
        if fields.get('paths') is not None:
            self.put(0x0A)
            for key, targets in fields['paths']:
                self.put(0x0B, key)
                for target in targets:
                    self.put(0x0C, target)
        for reference in fields.get('references', []):
            self.put(0x0D, reference)
        self.items('rootDirs', fields.get('rootDirs'))
        self.single('outDir', fields.get('outDir'))
        self.single('declarationDir', fields.get('declarationDir'))
        for number, value in sorted(fields.get('flags', {}).items()):
            self.put(0x12, number, int(value))
        for number, value in sorted(fields.get('texts', {}).items()):
            self.put(0x13, number, value)
        self.put(0x14)

    def items(self, name, values):
        if values is not None:
            present, item = LISTS[name]
            self.put(present)
            for value in values:
                self.put(item, value)

    def single(self, name, value):
        if value is not None:
            self.put(SINGLES[name], value)


def book(*records):
    """Commands and text of (path, fields) pairs."""
    writer = Writer()
    for path, fields in records:
        writer.record(path, **fields)
    return bytes(writer.commands), bytes(writer.text)


def save(folder, commands, text, questions, answers=None):
    import os
    os.makedirs(folder, exist_ok=True)
    open(os.path.join(folder, 'book.cmd'), 'wb').write(commands)
    open(os.path.join(folder, 'book.txt'), 'wb').write(text)
    lines = [q if isinstance(q, bytes) else q.encode('latin-1') for q in questions]
    open(os.path.join(folder, 'questions'), 'wb').write(b''.join(q + b'\n' for q in lines))
    if answers is not None:
        open(os.path.join(folder, 'expected'), 'wb').write(answers.encode('latin-1'))
