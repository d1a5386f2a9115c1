"""What the tools of this folder share: the rules behind each refusal, and readers of queries, replies and tables.

Everything works on bytes, since places in a query file are counted in bytes and a file need not be UTF-8."""
import os
import re
import sys

NAMES = {
    10: 'BadCharacter', 11: 'OpenText', 12: 'OpenComment', 13: 'WideNumber', 14: 'Unexpected', 15: 'Deep',
    40: 'UnknownName', 41: 'UnknownProperty', 42: 'KindMismatch', 43: 'DoubleName', 44: 'TooManyVariables',
    45: 'Disconnected', 46: 'VariableKind', 47: 'TooWide', 48: 'KeyNotSelected', 49: 'BadDate', 52: 'NeedsMore',
}

QUERY_RULES = {
    10: 'no token begins with this byte, or the text is not UTF-8 here; quotes round texts are single ones',
    11: "this text is never closed, so it swallows every later query of the file; a quote inside is doubled: 'O''Hara'",
    12: 'this comment is never closed, so it swallows every later query of the file; it ends at */',
    13: 'a number is at most 9223372036854775807',
    14: 'no query goes on with this word; the end of the query counts as one',
    15: 'expressions are nested at most 64 deep, and each operator of a chain adds a level: put halves of a long '
        'chain in parentheses',
    40: "this is no variable of the pattern, and in ORDER BY no column's name either",
    41: 'no vertex table (for a vertex) or edge table (for an edge) has this property',
    42: 'the operand is of a wrong kind: arithmetic takes whole numbers, AND, OR and NOT take truth values, a '
        'comparison takes two values of one kind, a condition is a truth value',
    43: "an edge's name stands on one edge alone, and a name after AS on one column alone",
    44: 'a pattern has at most 10 vertices and 12 edges',
    45: 'no edges of the pattern join this vertex with the first one',
    46: 'a name is either that of a vertex or that of an edge, and a variable alone is no value: write id(x) or x.p',
    47: 'a match takes at most 40 words: 1, one for each variable, and one for each property, id or label that is used',
    48: 'with DISTINCT each key of ORDER BY is one of the selected columns',
    49: "a date is DATE 'YYYY-MM-DD', a day of the years 0000 to 9999",
    52: 'the query needs more buffers than --pool allows: fewer machines or credits, a smaller --broad, or a larger --pool',
}

TABLE_RULES = {
    30: "line 1 is 'adfs 1'; each further line is empty, begins with '#', or is 'vertices LABEL FILE' or "
        "'edges LABEL FILE' with one space between the words, and all vertices lines stand before the first edges line",
    31: 'a header cell is NAME:TYPE with a type of int, text, bool or date; a vertex table begins with id:int, an edge '
        'table with id:int,source:int,target:int; a name stands once, and has the type that earlier tables give it',
    32: 'a cell is written as the type of its column says',
    33: 'a key is that of one vertex among all vertex tables, or of one edge among all edge tables',
    34: 'source and target are keys of vertices',
    50: 'the machine is a number below --machines',
    51: 'each vertex has a line',
    53: "a line is 'KEY MACHINE' in decimal digits without leading zeros; the key is a vertex's, and has no earlier line",
}

CELL_RULES = {
    20: 'a whole number is a sign or none, and digits; a key is never empty',
    21: 'a whole number is -9223372036854775808 to 9223372036854775807',
    22: 'a truth value is true or false, in any case of letters',
    23: 'a date is YYYY-MM-DD, a day of the civil calendar in the years 0000 to 9999',
    24: 'text is UTF-8',
    25: 'a record has as many cells as the header',
}

REPLAY_RULES = {
    60: 'a line says one step, and the first five lines say what the trace is of',
    61: 'a step may happen where all of its guards hold',
    62: "the line 'finished' comes when all stages are closed",
}

GUARD_RULES = {
    1: 'a worker that there is',
    2: 'the hand as the step finds it: empty for most, else what the step before left in it',
    3: 'a stack that has a top, or an empty one',
    4: 'a child that waits, or none',
    5: "a top that isn't over, or the frame of a message that is",
    6: 'a waiting child of its own machine',
    7: 'room in the open buffer',
    8: 'an open buffer, or none',
    9: "a credit that isn't in use",
    10: "a worker that hasn't retired",
    11: 'a root that nobody claimed, or none of these',
    12: 'a buffer in the pool',
    13: 'room in the inbox, or a message in it',
    14: "a message of a later stage than the top's",
    15: "a counter that is 0 and isn't marked",
    16: "all counters of the stage marked, and a stage that isn't closed",
    17: 'a message of that stage that is on its way',
}

LIMIT_RULES = {
    'FileBytes': 'a file has at most 268,435,456 bytes',
    'TotalBytes': 'all tables together have at most 1,073,741,824 bytes',
    'Tables': 'a manifest names at most 256 tables',
    'Vertices': 'a graph has at most 4,194,304 vertices',
    'Edges': 'a graph has at most 16,777,216 edges',
    'Cells': 'the records of all tables make at most 67,108,864 property cells, empty ones included',
    'Queries': 'a file has at most 4,096 queries',
}

BYTE_ORDER_MARK = b'\xef\xbb\xbf'
TABLE_CELL_END = re.compile(rb'[,\r\n]')
REPLY_CELL_END = re.compile(rb'[,\n]')


def run(main):
    """Runs a tool. What it can't read is told in a line, with status 2."""
    try:
        main()
        sys.stdout.flush()
    except BrokenPipeError:
        os.dup2(os.open(os.devnull, os.O_WRONLY), sys.stdout.fileno())
    except (OSError, ValueError) as fault:
        said = f'{fault.filename}: {fault.strerror}' if isinstance(fault, OSError) and fault.filename else fault
        print(f'{os.path.basename(sys.argv[0])}: {said}', file=sys.stderr)
        sys.exit(2)


def end_at(pattern, raw, at):
    """Where the first of the pattern begins from a place on, or the end."""
    found = pattern.search(raw, at)
    return found.start() if found else len(raw)


def shown(raw):
    """Bytes as text that a terminal can take; what is not UTF-8 shows as \\xNN."""
    return raw.decode('utf-8', 'backslashreplace')


def quoted(raw):
    """Bytes in double quotes, so that a space at an end shows."""
    text = shown(raw).replace('\\', '\\\\').replace('"', '\\"')
    return '"' + ''.join(c if c.isprintable() or c == ' ' else repr(c)[1:-1] for c in text) + '"'


def line_at(raw, place):
    """The line on which a byte stands: its number from 1, its bytes without the end, and where it begins."""
    start = raw.rfind(b'\n', 0, place) + 1
    end = raw.find(b'\n', place)
    end = len(raw) if end < 0 else end
    return raw.count(b'\n', 0, place) + 1, raw[start:end].rstrip(b'\r'), start


def pieces(raw):
    """The pieces of a query file, one for each query: where each begins and ends.

    A file is cut at each ';' outside texts and comments; a piece of blanks and closed comments is none."""
    at, start, token, found = 0, 0, False, []
    while at < len(raw):
        if raw[at:at + 2] == b'/*':
            end = raw.find(b'*/', at + 2)
            token = token or end < 0
            at = len(raw) if end < 0 else end + 2
        elif raw[at:at + 1] == b"'":
            end = raw.find(b"'", at + 1)
            token, at = True, len(raw) if end < 0 else end + 1
        elif raw[at:at + 1] == b';':
            if token:
                found.append((start, at))
            start, token, at = at + 1, False, at + 1
        else:
            token = token or raw[at] not in b' \t\r\n'
            at += 1
    if token:
        found.append((start, len(raw)))
    return found


def reply_record(raw, at):
    """The record of a reply at a place: its cells (None for null) and where the next one begins."""
    cells = []
    while True:
        if raw[at:at + 1] == b'"':
            content, at = [], at + 1
            while True:
                end = raw.index(b'"', at)
                content.append(raw[at:end])
                at = end + 1
                if raw[at:at + 1] != b'"':
                    break
                content.append(b'"')
                at += 1
            cells.append(b''.join(content))
        else:
            end = end_at(REPLY_CELL_END, raw, at)
            cells.append(raw[at:end] if end > at else None)
            at = end
        if raw[at:at + 1] != b',':
            return cells, at + 1
        at += 1


def replies(raw):
    """The replies of a run in order: ('rows', n, columns, rows), ('refused', n, code, name, the words after it) or, from the
    command `plan`, ('plan', n, its lines).

    A reply is read as its R records and not as lines: a text may hold a line feed, and a row may look like a refusal. A
    line of a plan begins with a number."""
    at = 0
    while at < len(raw):
        end = raw.find(b'\n', at)
        end = len(raw) if end < 0 else end
        words = raw[at:end].decode('utf-8', 'replace').split(' ')
        if len(words) < 4 or words[0] != 'query' or not words[1].isdigit() or not words[3].isdigit():
            raise ValueError(f'byte {at}: this is no reply: {shown(raw[at:end])}')
        at = end + 1
        if words[2] == 'rows':
            columns, at = reply_record(raw, at)
            rows = []
            for _ in range(int(words[3])):
                if at >= len(raw):
                    raise ValueError(f'query {words[1]}: the reply ends after {len(rows)} of {words[3]} rows')
                row, at = reply_record(raw, at)
                rows.append(row)
            yield 'rows', int(words[1]), columns, rows
        elif words[2] == 'stages':
            end = raw.find(b'\nquery ', at - 1) + 1 or len(raw)
            yield 'plan', int(words[1]), raw[at:end]
            at = end
        elif words[2] == 'refused' and len(words) > 4:
            yield 'refused', int(words[1]), int(words[3]), words[4], words[5:]
        else:
            raise ValueError(f'byte {at}: this is no reply: {shown(raw[at:end])}')


def records(raw):
    """The records of a table, each with the line on which it begins: (line, cells).

    As the program reads them: a byte order mark is dropped, blank lines are no records, a record ends with a line feed,
    a carriage return or both, and what follows a closing quote joins the cell."""
    at = len(BYTE_ORDER_MARK) if raw.startswith(BYTE_ORDER_MARK) else 0
    line = 1
    while at < len(raw):
        if raw[at] in b'\r\n':
            line += raw[at:at + 1] == b'\n' or raw[at + 1:at + 2] != b'\n'
            at += 1
            continue
        begun, cells = line, []
        while True:
            cell, at, feeds = table_cell(raw, at)
            cells.append(cell)
            line += feeds
            if raw[at:at + 1] != b',':
                break
            at += 1
        yield begun, cells


def table_cell(raw, at):
    """The cell at a place of a table, where it ends, and how many line ends stand inside it."""
    content, feeds = bytearray(), 0
    if raw[at:at + 1] == b'"':
        at += 1
        while at < len(raw):
            end = raw.find(b'"', at)
            end = len(raw) if end < 0 else end
            feeds += raw.count(b'\n', at, end)
            content += raw[at:end]
            at = end + 1
            if raw[at:at + 1] != b'"':
                break
            content += b'"'
            at += 1
        at = min(at, len(raw))
    end = end_at(TABLE_CELL_END, raw, at)
    return bytes(content + raw[at:end]), end, feeds


def manifest_tables(raw):
    """The tables that a manifest names: (line, kind, label, file), the forms of its lines taken as they come."""
    tables = []
    for number, line in enumerate(raw.split(b'\n'), 1):
        words = line.rstrip(b'\r').split(b' ', 2)
        if len(words) == 3 and words[0] in (b'vertices', b'edges'):
            tables.append((number, words[0].decode(), words[1], words[2]))
    return tables
