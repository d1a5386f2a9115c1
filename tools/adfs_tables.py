"""What the tools that make tables share: keys for texts, types for columns, and the files of a graph."""
import csv
import datetime
import os
import re
import sys

KEYS = {'vertices': ['id'], 'edges': ['id', 'source', 'target']}
NAME = re.compile(r'[A-Za-z_][A-Za-z0-9_]*')
MOST = 2 ** 63


def name_of(text):
    """A label or property name: what is no letter of ASCII, digit or _ becomes _."""
    name = re.sub(r'[^A-Za-z0-9_]', '_', text)
    return name if NAME.fullmatch(name) else '_' + name


def is_int(cell):
    return re.fullmatch(r'[+-]?[0-9]+', cell) is not None and -MOST <= int(cell) < MOST


def is_bool(cell):
    return cell.lower() in ('true', 'false')


def is_date(cell):
    if re.fullmatch(r'[0-9]{4}-[0-9]{2}-[0-9]{2}', cell) is None:
        return False
    try:
        return datetime.date.fromisoformat(cell) is not None
    except ValueError:
        return False


def type_of(cells):
    """The narrowest type that all cells have; an empty cell is null in any."""
    full = [cell for cell in cells if cell]
    for kind, test in (('int', is_int), ('bool', is_bool), ('date', is_date)):
        if full and all(map(test, full)):
            return kind
    return 'text'


def distinct(names, taken):
    """The names, each with a number after it where it would stand a second time among them and those that are taken."""
    seen, found = set(taken), []
    for name in names:
        whole, number = name, 1
        while whole in seen:
            number += 1
            whole = f'{name}_{number}'
        seen.add(whole)
        found.append(whole)
    return found


class Keys:
    """Whole numbers for the texts by which others name vertices, from 1 in the order in which they come."""

    def __init__(self):
        self.numbers = {}

    def of(self, text):
        return self.numbers.setdefault(text, len(self.numbers) + 1)


class Graph:
    """The files of a graph in a folder. The manifest names them by that folder, as it is given."""

    def __init__(self, folder):
        self.folder = folder
        self.lines = {'vertices': [], 'edges': []}
        self.types = {'vertices': {}, 'edges': {}}
        os.makedirs(folder, exist_ok=True)

    def table(self, kind, label, properties, rows):
        """Writes a table of elements. A property is a name and a type; a row has the keys and then a cell for each property."""
        names = distinct([name_of(name) for name, _ in properties], KEYS[kind])
        for name, (_, of) in zip(names, properties):
            earlier = self.types[kind].setdefault(name, of)
            if earlier != of:
                sys.exit(f'{label}: {name} is {of} here and {earlier} in an earlier table, and a property has one type')
        taken = {line.rpartition('/')[2] for lines in self.lines.values() for line in lines}
        file, number = f'{label}.csv', 1
        while file in taken or file == 'keys.csv':
            number += 1
            file = f'{label}_{number}.csv'
        self.write(file, [*(f'{key}:int' for key in KEYS[kind]), *(f'{name}:{of}' for name, (_, of) in zip(names, properties))], rows)
        self.lines[kind].append(f'{kind} {label} {os.path.join(self.folder, file)}')

    def write(self, file, header, rows):
        with open(os.path.join(self.folder, file), 'w', newline='', encoding='utf-8') as out:
            table = csv.writer(out, lineterminator='\n')
            table.writerow(header)
            table.writerows(rows)

    def manifest(self):
        path = os.path.join(self.folder, 'graph.txt')
        with open(path, 'w', encoding='utf-8') as out:
            out.write('\n'.join(['adfs 1', *self.lines['vertices'], *self.lines['edges']]) + '\n')
        return path
