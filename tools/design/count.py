#!/usr/bin/env python3
"""Counts the places of an older form in crates/*/src and crates/*/proofs. docs/DESIGN-PASS.md tells what they are.

    tools/design/count.py                     in the working tree
    tools/design/count.py COMMIT              at a commit
    tools/design/count.py [COMMIT] --other    counted the other way
    tools/design/count.py [COMMIT] --places   each place on a line: point, group, file:line, name
    tools/design/count.py [COMMIT] --page     as the tables of the page
    .. --point N                              one point alone

A place is a definition (a function, a type, a field, a constant), a loop, or a line. Where a shape tells the old form, the shape is looked
for; where only a reader can tell it, places.txt lists the names, and a name that has gone is no longer counted.
"""

import argparse
import collections
import os
import re
import subprocess
import sys
import tarfile

Place = collections.namedtuple('Place', 'path line name')
Group = collections.namedtuple('Group', 'title today places')


# ---- the tree

def at_commit(commit):
    """The files below crates/ at a commit, by path."""
    if subprocess.run(['git', 'rev-parse', '--verify', '--quiet', commit + '^{commit}'], stdout=subprocess.DEVNULL).returncode != 0:
        sys.exit('no such commit: ' + commit)
    git = subprocess.Popen(['git', 'archive', '--format=tar', commit, 'crates'], stdout=subprocess.PIPE)
    files = {}
    with tarfile.open(fileobj=git.stdout, mode='r|') as tar:
        for entry in tar:
            if entry.isfile():
                files[entry.name] = tar.extractfile(entry).read().decode('utf-8')
    git.wait()
    return files


def in_working_tree():
    """The files below crates/ that git tracks or would add, as they are now."""
    listed = subprocess.run(['git', 'ls-files', '-co', '--exclude-standard', 'crates'], stdout=subprocess.PIPE, check=True)
    files = {}
    for path in listed.stdout.decode('utf-8').split('\n'):
        if path.endswith(('.rt', '.antt')) and os.path.exists(path):
            with open(path, encoding='utf-8') as file:
                files[path] = file.read()
    return files


def without_texts(text):
    """The code with its comments and the insides of its texts blanked, line by line as it was."""
    token = re.compile(r'//[^\n]*|b?"(?:\\.|[^"\\])*"|b?\'(?:\\.|[^\'\\])\'', re.S)

    def blank(match):
        found = match.group(0)
        if found.startswith('//'):
            return ''
        mark = '"' if '"' in found[:2] else "'"
        return found[:found.index(mark)] + mark + mark + '\n' * found.count('\n')

    return token.sub(blank, text)


class Source:
    """One file of code."""

    def __init__(self, path, text):
        self.path = path
        self.lines = without_texts(text).split('\n')
        self.functions = functions(self)

    def places(self, pattern):
        """A place for each match of a pattern within a line."""
        found = []
        for number, line in enumerate(self.lines, 1):
            for match in re.finditer(pattern, line):
                found.append(Place(self.path, number, match.group(0).strip()))
        return found


class Function:
    """A function: its parameters as (name, type) pairs, what it answers, its contract, and the lines of its body."""

    def __init__(self, source, line, name):
        self.source, self.line, self.name = source, line, name
        self.params, self.result, self.contract, self.first, self.last = [], '', '', line, line

    def place(self):
        return Place(self.source.path, self.line, self.name)

    def body(self):
        return self.source.lines[self.first:self.last]

    def takes(self, *names):
        mine = [name for name, _ in self.params]
        return all(name in mine for name in names)


def split_at_commas(text):
    parts, depth, part = [], 0, ''
    for letter in text:
        depth += (letter in '([{<') - (letter in ')]}>')
        if letter == ',' and depth == 0:
            parts.append(part)
            part = ''
        else:
            part += letter
    return [p.strip() for p in parts + [part] if p.strip()]


def read_signature(function, text):
    start = text.index('(', text.index('fn '))
    depth, at = 0, start
    for at in range(start, len(text)):
        depth += (text[at] == '(') - (text[at] == ')')
        if depth == 0:
            break
    for param in split_at_commas(text[start + 1:at]):
        name, _, kind = param.partition(':')
        function.params.append((name.replace('mut ', '').strip(), kind.strip()))
    answer = re.match(r'\s*->\s*(.*?)\s*\{?\s*$', text[at + 1:], re.S)
    function.result = answer.group(1) if answer else ''


def functions(source):
    """The functions of a file in the layout that `rt fmt` gives: a body begins with a brace at the indent of its function, or behind the
    signature where there is no contract, and ends with a brace at that indent."""
    found, lines, head = [], source.lines, re.compile(r'^(\s*)(?:pub(?:\(\w+\))? )?(?:const )?(?:unsafe )?(?:extern "" )?fn (\w+)')
    for number, line in enumerate(lines):
        match = head.match(line)
        if not match:
            continue
        function, indent, end, depth = Function(source, number + 1, match.group(2)), match.group(1), number, 0
        while True:
            depth += lines[end].count('(') - lines[end].count(')')
            if depth <= 0 and '(' in ' '.join(lines[number:end + 1]):
                break
            end += 1
        read_signature(function, '\n'.join(lines[number:end + 1]))
        opening = end
        while opening < len(lines) - 1 and not (lines[opening] == indent + '{' or (opening == end and lines[opening].endswith('{'))):
            opening += 1
        function.contract = ' '.join(line.strip() for line in lines[end + 1:opening])
        function.first, function.last = opening + 1, opening + 1
        while function.last < len(lines) - 1 and lines[function.last] != indent + '}':
            function.last += 1
        found.append(function)
    return found


class Tree:
    """The code, the definitions and the proofs."""

    def __init__(self, files):
        self.sources = [Source(path, files[path]) for path in sorted(files) if re.match(r'crates/\w+/src/.*\.rt$', path)]
        self.proofs = {path: files[path].split('\n') for path in sorted(files) if re.match(r'crates/\w+/proofs/.*\.antt$', path)}
        self.specs = {path: files[path].split('\n') for path in sorted(files) if re.match(r'crates/\w+/specs/.*\.antt$', path)}
        self.functions = [f for source in self.sources for f in source.functions]

    def source(self, short):
        path = 'crates/%s/src/%s.rt' % tuple(short.split('/'))
        return next((s for s in self.sources if s.path == path), None)

    def lines(self, pattern):
        return [p for source in self.sources for p in source.places(pattern)]

    def where(self, test):
        return [f.place() for f in self.functions if test(f)]


# ---- places by name

def inside(source, head, pattern):
    """The first line below a head at which a pattern stands, within the block of that head."""
    for number, line in enumerate(source.lines):
        if re.search(head, line):
            for below in range(number, len(source.lines)):
                if re.search(pattern, source.lines[below]):
                    return below + 1
                if source.lines[below].startswith('}'):
                    return None
    return None


def found_at(source, name):
    """The line of a name in a file: `Type::Variant`, `Type.field`, a type, a constant, or a function."""
    if '::' in name or '.' in name:
        kind, part = re.split(r'::|\.', name)
        pattern = r'^\s+(?:pub )?%s\b' % part if '::' in name else r'^\s+(?:pub )?%s:' % part
        return inside(source, r'\b(?:enum|struct) %s\b' % kind, pattern)
    if re.match(r'[A-Z0-9_]+$', name):
        return inside(source, r'\bconst %s\b' % name, r'\bconst %s\b' % name)
    if name[0].isupper():
        return inside(source, r'\b(?:enum|struct|trait) %s\b' % name, '.')
    return next((f.line for f in source.functions if f.name == name), None)


def lemma_at(tree, path, name):
    """The line that states a lemma. It may be listed as `name=library's`."""
    for number, line in enumerate(tree.proofs.get(path, []), 1):
        if re.match(r'\s*(?:pub )?%s : ' % re.escape(name.split('=')[0]), line):
            return number
    return None


def places_of(tree, short, name):
    """The place of a name of a line of places.txt, if it is still there."""
    if short.endswith('.antt'):
        path = 'crates/%s/proofs/%s' % tuple(short.split('/'))
        number = lemma_at(tree, path, name)
    else:
        source = tree.source(short)
        path, number = source and source.path, source and found_at(source, name)
    return [Place(path, number, name)] if number else []


def listed(tree, point):
    """The groups of a point that places.txt lists."""
    groups, mine = [], False
    for line in open(os.path.join(os.path.dirname(os.path.abspath(__file__)), 'places.txt'), encoding='utf-8').read().split('\n'):
        if line.startswith('point '):
            mine = line == 'point %d' % point
        elif mine and line.startswith('= '):
            groups.append(Group(line[2:], '', []))
        elif mine and line.startswith('+ '):
            groups[-1] = groups[-1]._replace(today=line[2:])
        elif mine and line and not line.startswith('#'):
            short, *names = line.split()
            for name in names:
                groups[-1].places.extend(places_of(tree, short, name))
    return groups


# ---- point 1: shapes of Option and Result, flags beside values, numbers for kinds

def point_1(tree):
    again = r'\w+::Unreadable\(t\) => \w+::Unreadable\(t\)|\w+::Rejected\(r\) => \w+::Rejected\(r\)|return \w+::(?:Rejected|Unreadable)\('
    refusals = Group('Errors handed on by hand: an arm that makes the same refusal again, a `return` with a refusal, `then`',
                     '`?` and `return Err(..)`; `Result::and` for `then`',
                     tree.lines(again) + tree.where(lambda f: f.name == 'then' and f.result == 'Verdict'))
    return listed(tree, 1) + [refusals]


def enums(source):
    """The enums of a file: line, name, and its variants as (name, has fields)."""
    found = []
    for number, line in enumerate(source.lines):
        match = re.match(r'(?:pub )?enum (\w+)', line)
        if match:
            variants, depth = [], 0
            for below in source.lines[number + 1:]:
                if below == '}':
                    break
                variant = re.match(r'\s*([A-Z]\w*)\s*([({]?)', below)
                if depth == 0 and variant:
                    variants.append((variant.group(1), bool(variant.group(2))))
                depth += below.count('{') - below.count('}')
            found.append((number + 1, match.group(1), variants))
    return found


def fields(source):
    """The fields of the structs of a file: line, and `Struct.field: type`."""
    found, struct = [], None
    for number, line in enumerate(source.lines, 1):
        head = re.match(r'(?:pub )?struct (\w+) \{', line)
        struct = head.group(1) if head else None if line == '}' else struct
        field = re.match(r'\s+(?:pub )?(\w+): (.*),$', line)
        if struct and field:
            found.append((number, '%s.%s: %s' % (struct, field.group(1), field.group(2))))
    return found


def other_1(tree):
    """By shape: enums that mix variants with and without fields or have one named for a refusal; `bool` fields; functions whose answer is a
    number and that have a `return` or an arm with a bare number; numeric constants."""
    mixed, flags, numbers = [], [], []
    for source in tree.sources:
        flags += [Place(source.path, line, kind) for line, kind in fields(source) if kind.endswith(': bool')]
        for line, name, variants in enums(source):
            kinds = {fields for _, fields in variants}
            refusals = {'Rejected', 'Unreadable', 'Accepted', 'Unknown', 'Other', 'Nothing', 'Nobody'}
            if len(kinds) == 2 or refusals & {v for v, _ in variants}:
                mixed.append(Place(source.path, line, name))
    for f in tree.functions:
        bare = re.compile(r'(?:return|=>|else \{|^    ) ?(?:\d\w*|[A-Z][A-Z_]+)(?:;| \}|,|$)')
        if re.match(r'(u8|u16|u32|u64|usize)$', f.result) and any(bare.search(line) for line in f.body()):
            numbers.append(f.place())
    constants = tree.lines(r'^(?:pub )?const \w+: (?:u8|u16|u32|u64|usize) = ')
    return [('enums that mix variants with and without fields, or have one named for a refusal or for none', mixed),
            ('`bool` fields', flags),
            ('functions that answer a number, one of them written out', numbers),
            ('constants that are one number', constants)]


# ---- point 2: twins

def only_says(f):
    """Whether a function puts texts with numbers and does nothing else."""
    body = ' '.join(line.strip() for line in f.body())
    calls = set(re.findall(r'\b([a-z_]+)\(', body)) - {'say'}
    return f.takes('out', 'at') and 'say(' in body and not calls


def point_2(tree):
    messages = Group('Messages: a function that puts one text with its numbers, or one of a few', 'one enum of messages with `Display`, or `write!` at the caller',
                     tree.where(only_says))
    return listed(tree, 2) + [messages]


def bodies_alike(tree, least):
    """Functions whose bodies have the same shape, of so many words and signs at least."""
    alike = collections.defaultdict(list)
    for f in tree.functions:
        words = re.findall(r'\w+|[^\w\s]', ' '.join(f.body()))
        kept = {'let', 'mut', 'for', 'in', 'while', 'if', 'else', 'match', 'return', 'as', 'true', 'false'}
        key = tuple(w if w in kept or not re.match(r'\w', w) else ('0' if w[0].isdigit() else 'x') for w in words)
        if len(key) >= least:
            alike[key].append(f.place())
    return [places for places in alike.values() if len(places) > 1]


def other_2(tree):
    """By shape: bodies that are the same but for their names, numbers and texts."""
    long, short = bodies_alike(tree, 30), bodies_alike(tree, 12)
    structs = collections.defaultdict(list)
    for source in tree.sources:
        for number, line in enumerate(source.lines):
            match = re.match(r'(?:pub )?struct (\w+) \{', line)
            if match:
                fields = []
                for below in source.lines[number + 1:]:
                    if below == '}':
                        break
                    fields += re.findall(r'^\s+(?:pub )?(\w+):', below)
                structs[tuple(fields)].append(Place(source.path, number + 1, match.group(1)))
    return [('functions in %d groups of bodies with one shape, of 30 words and signs or more' % len(long), sum(long, [])),
            ('the same of 12 or more, in %d groups' % len(short), sum(short, [])),
            ('structs with the same fields', sum((places for places in structs.values() if len(places) > 1), []))]


# ---- point 3: loops

# Loops over numbers that are numbers: a heading for each controller, the lengths of a table, handles. They are no places.
NUMBERS_MEANT = {'bench_plain/summary headings', 'vectors/frames lengths', 'speed/main all'}

Loop = collections.namedtuple('Loop', 'place head block')


def loops(tree):
    """The loops, each with its first line and its block."""
    found = []
    for f in tree.functions:
        lines = f.source.lines
        for number in range(f.first, f.last):
            if not re.match(r'\s+(?:while|for|loop)\b.*\{$', lines[number]):
                continue
            indent = re.match(r'\s*', lines[number]).group(0)
            end = number + 1
            while end < f.last and lines[end] != indent + '}':
                end += 1
            found.append(Loop(Place(f.source.path, number + 1, f.name), lines[number].strip(), '\n'.join(lines[number + 1:end])))
    return found


def loop_kind(loop):
    if loop.head.startswith('while'):
        return 'counted' if re.search(r'\b\w+ [+-]= ', loop.block) else 'steps'
    match = re.match(r'for (\w+) in .*\.\.', loop.head)
    if not match:
        return 'items'
    if match.group(1) == '_':
        return 'times'
    if '%s %s' % (short_path(loop.place.path), loop.place.name) in NUMBERS_MEANT:
        return 'meant'
    return 'index' if re.search(r'\[[^\]]*\b%s\b' % match.group(1), loop.block) else 'number'


LOOPS = [
    ('counted', '`while` that counts an index by hand', '`for`, an iterator chain, or the library\'s method (`copy_from_slice`, `fill`, `==`, `position`, `rev`, `chunks_exact`)'),
    ('steps', '`while` that counts steps down until it is done', '`for _ in 0..u64::MAX` with `break`'),
    ('index', '`for i in a..b` that indexes arrays by i', '`iter()`, `zip`, `enumerate`, `iter_mut`; `all`, `any`, `position`, `fold`'),
    ('number', '`for i in a..b` that hands the number on, to a function that indexes', 'the element handed on, by `iter().enumerate()`'),
    ('times', '`for _ in 0..n`', '`nth`, `take` or `last` of an iterator over words or texts'),
]


def point_3(tree):
    by_kind = collections.defaultdict(list)
    for loop in loops(tree):
        by_kind[loop_kind(loop)].append(loop.place)
    return [Group(title, today, by_kind[kind]) for kind, title, today in LOOPS]


def other_3(tree):
    """By lines: `while`, a number counted up or down, `for` over numbers, and reads and writes at a variable index."""
    return [('lines with `while`', tree.lines(r'^\s+while ')),
            ('lines that count up or down by one', tree.lines(r'\b\w+ [+-]= 1;')),
            ('`for` over numbers', tree.lines(r'^\s+for \w+ in [^{]*\.\.')),
            ('reads and writes at an index that is a variable', tree.lines(r'\b\w+\[[^\]]*\b[a-z]\w*\b[^\]]*\]'))]


# ---- point 4: equality, order, copying, conversion and printing

def is_a_test_by_match(f):
    body = ' '.join(line.strip() for line in f.body())
    arms = [arm.strip(' {}') for arm in re.findall(r'=> (\{ \w+ \}|[^,]+)', body)]
    return f.result == 'bool' and 'match ' in body and 'if ' not in body and set(arms) <= {'true', 'false', 'n <= LARGEST_BYTE'}


def is_a_print(f):
    return f.takes('out', 'at') and f.result == 'usize'


def views(tree):
    found = []
    for path, lines in tree.specs.items():
        for number, line in enumerate(lines, 1):
            match = re.match(r'(?:abbrev |unfoldable )?pub (view\w*|question_of|visit_of|turn_of|reason_of|answer_of|call_of) :', line)
            if match:
                found.append(Place(path, number, match.group(1)))
    return found


def point_4(tree):
    return listed(tree, 4) + [
        Group('A test of a variant by a `match`', '`matches!`, or `==` with a derive', tree.where(is_a_test_by_match)),
        Group('Types that derive `Clone` and `Copy` alone', '`PartialEq, Eq, Debug`, and `Default` or `Ord` where it is meant', tree.lines(r'#\[derive\(Clone, Copy\)\]')),
        Group('A number taken apart into bytes, a line each', '`to_be_bytes`', tree.lines(r'% 256\) as u8')),
        Group('`as` between types of numbers', '`u32::from`, `usize::from`, `try_from`', tree.lines(r'\bas (?:u8|u16|u32|u64|usize)\b')),
        Group('A field copied into a variable of its name', 'the field itself, a pattern, or a method of the struct', tree.lines(r'let (?:mut )?(\w+) = \w+\.\1;')),
        Group('A variable copied back into the field of its name', 'the array changed where it stands: a method with `&mut self`', tree.lines(r'^\s+\w+\.(\w+) = \1;')),
        Group('`name: name` in a struct', '`name`', tree.lines(r'^\s+(\w+): \1,$') + tree.lines(r'\{ (\w+): \1 \}')),
        Group('Printing by hand: a function that puts text at a position of a buffer', '`Display`, and `write!` into a text of fixed size', tree.where(is_a_print)),
        Group('A view of a type in the definitions', '`impl Model`, or ghost members of the type', views(tree)),
    ]


def other_4(tree):
    """By lines: comparisons of two fields, arms from a variant to a number or back, casts, and byte texts."""
    return [('comparisons of a field of one value with the same field of another', tree.lines(r'\bx\.(\w+)(?:\[\w\])? == y\.\1')),
            ('arms from a variant to a number', tree.lines(r'^\s+\w+::\w+(?:\(_\))? => \d+,')),
            ('arms from a number to a variant', tree.lines(r'^\s+\d+ => \w+::\w+,')),
            ('arms from a variant to true or false', tree.lines(r'=> (?:true|false),$')),
            ('shifts and remainders of bytes', tree.lines(r'>> (?:8|16|24)\)|/ (?:256|65536|16777216) %|<< (?:8|16|24)\)|\* (?:256|65536)\b')),
            ('calls that put text', tree.lines(r'\b(?:put|put_\w+|say|say_one|numbered)\(out,|\b(?:say|put|say_one)\($'))]


# ---- point 5: facts in many contracts, parameters that travel together

FACTS = [
    ('`Alike modes requests marks`: as many of each', r'Alike modes\S* requests\S* marks', 'a slice of `Controller`: one length'),
    ('`Alike recoverings tx_errors rx_errors`', r'Alike recoverings\S* tx_errors\S* rx_errors', 'a slice of `Errors`'),
    ('`Alike pendings dones fulls`', r'Alike pendings\S* dones\S* fulls', 'a slice of `Mailbox`'),
    ('`Alike owners receivings pools`, `Alike pools receivings pendings`', r'Alike (?:owners\S* receivings\S* pools|pools\S* receivings\S* pendings)', 'a slice of `Owner`'),
    ('`SettingsAlike`', r'SettingsAlike', 'a slice of `Settings`'),
    ('`Places ..`: so many of each', r'\bPlaces ', 'arrays of structs, `[Controller; CONTROLLERS]`: the length is the type\'s'),
    ('A length that is the chip\'s number of objects', r'length \S+ ≡ (?:chip|\(rules\.chip\))\.objects', 'the same'),
    ('Two arrays of objects have one length', r'length (?:receivings|pendings|pools|paddings)\S* ≡ length (?:pools|owners|payloads)\S*', 'a slice of structs'),
    ('A count within the length of an array', r'(?:count|total|controller_count|object_count) ≤ length', 'the slice of those in use'),
    ('A number within the length of an array', r'\b(?:c|h|object|controller|lowest|other) < length', 'the element, handed over by `iter_mut().enumerate()`'),
    ('A count within the chip\'s', r'(?:controller_count|object_count) ≤ (?:chip|\(rules\.chip\))\.(?:controllers|objects)', 'a ghost field of the struct that has the count and the places'),
    ('`Room` and its kin: the sheet has room, and the counts fit', r'\w*Room\b', 'a struct `Sheet` with a ghost field'),
    ('`words_each ..` ≤ the length of the sheet', r'words_each[^}]*≤ length sheet', 'the same'),
    ('`Lent size count ram`', r'Lent size', 'a struct over the memory, with the size of an object'),
    ('`head_size ≤ size`, and the object within the memory', r'head_size ≤ size|size \* object \+ size ≤ length ram', 'the bytes of the object as a slice: `chunks_exact(size)`'),
    ('`verdict_reason gate ≡ 0 → ..`: only behind a gate that passes', r'verdict_reason gate ≡ 0 →', 'the gate as a `Result`, and the call behind `?`'),
    ('The bytes hold the header and so many records', r'header_size \+ can_format\.record_size|at \+ can_format\.record_size', 'a record as `&[u8; RECORD_SIZE]`'),
    ('An object\'s number is a byte', r'\bh < 256|\bh < 2 \^ 8|object < drafts\.most_objects|count ≤ 2 \^ 8', 'the number as `u8`'),
    ('`gathered ..`: the state from nineteen parameters', r'\bgathered initialised', 'one `&mut State`'),
    ('`Controlled`, `Held`, `Holds`, `Pooled`, `Owned`, `Received`, `Contending`, `Waiting`, `Filtered`, `Carried`: these arrays are the core\'s',
     r'Controlled |Held |Holds |Pooled |Owned |Received |Contending |Waiting |Filtered |Carried ', 'an `impl Model` of the struct that has the arrays'),
    ('`Performed ..`: the outcome of a call', r'Performed\b', 'a method\'s contract over one struct'),
    ('`whole_of ..`, `Stepped`: the outcome of a call in a list', r'whole_of|Stepped', 'the same'),
    ('`Put at .. out.old out.new result`: what is put where', r'\bPut at ', '`Display`: the text of a value, once for each type'),
    ('`CommandRead .. out.old out.new result`', r'CommandRead', '`Result<Command, Trouble>`'),
    ('`drafts.Added`, `drafts.with_record` and their kin', r'drafts\.(?:Added|with_record|with_own_pool|in_pools)', 'an `impl Model` of a struct `Draft`'),
]

FAMILIES = [
    ('modes, requests, marks', 'modes requests marks', 'a slice of `Controller`'),
    ('recoverings, tx_errors, rx_errors', 'recoverings tx_errors rx_errors', 'a slice of `Errors`'),
    ('owners, receivings, pools', 'owners receivings pools', 'a slice of `Owner`'),
    ('owners, receivings, with pools or without', 'owners receivings', 'the same'),
    ('pendings, dones, fulls', 'pendings dones fulls', 'a slice of `Mailbox`'),
    ('payloads, paddings, codes, masks', 'payloads paddings codes masks', 'a slice of `Settings`'),
    ('owners, pendings, dones, fulls', 'owners pendings dones fulls', 'one struct of a core\'s objects'),
    ('initialised, beside a count', 'initialised', 'a field of one struct, the core'),
    ('controller_count, object_count', 'controller_count object_count', 'the same'),
    ('size, ram', 'size ram', 'a struct over the memory'),
    ('ram, sheet', 'ram sheet', 'a struct of what is lent to a call'),
    ('state, ram, sheet', 'state ram sheet', 'the same, with methods'),
    ('memory, sheet', 'memory sheet', 'the same in the bench'),
    ('out, at', 'out at', 'a text of fixed size that knows its length'),
    ('out, at, line', 'out at line', 'the same, and a struct of a line'),
    ('out, at, state', 'out at state', '`Display` of the state'),
    ('book, ram', 'book ram', 'a struct of a night, with methods'),
    ('out, book', 'out book', 'the same'),
    ('draft', 'draft', 'a struct `Draft`, with methods'),
    ('text, out', 'text out', 'a reader of a line that has both'),
    ('controller, payload', 'controller payload', 'a struct of an object in words'),
    ('trouble, name, line', 'trouble name line', 'one error with its command'),
    ('bytes, version, controller_count', 'bytes version controller_count', 'a struct of the header'),
    ('code, mask', 'code mask', 'a struct `Filter`'),
    ('tx, rx', 'tx rx', 'a struct of two counts'),
    ('kinds, places, values, handles, starts, ends', 'kinds places values handles starts ends', 'a slice of `Event`'),
    ('stdout, out', 'stdout out', 'a struct of the output'),
    ('identifier, sdu', 'identifier sdu', 'a struct `Frame`'),
]


def point_5(tree):
    groups = []
    for title, pattern, today in FACTS:
        groups.append(Group('Fact. ' + title, today, tree.where(lambda f: re.search(pattern, f.contract))))
    for title, names, today in FAMILIES:
        groups.append(Group('Parameters. ' + title, today, tree.where(lambda f: f.takes(*names.split()))))
    return groups


def clauses(f):
    """The facts that a function asks for, each alone: a `requires` taken apart at ×, without `.now`, `.old` and `.new`."""
    found = set()
    for clause in re.findall(r'requires(?: \w+)? \{(.*?)\}(?= requires| ensures|$)', f.contract):
        for fact in re.split(r' × ', re.sub(r'\.(?:now|old|new)\b', '', clause)):
            fact = fact.strip()
            while fact.startswith('(') and fact.endswith(')') and fact.count('(') == fact.count(')') and '(' not in fact[1:-1]:
                fact = fact[1:-1]
            found.add(fact)
    return found


def other_5(tree):
    """By text: every fact of a `requires`, to the letter, that three functions or more ask for; and the functions with many parameters."""
    facts = collections.defaultdict(list)
    for f in tree.functions:
        for fact in clauses(f):
            facts[fact].append(f.place())
    often = [places for places in facts.values() if len(places) >= 3]
    return [('functions with a `requires`', tree.where(lambda f: 'requires' in f.contract)),
            ('functions with one of the %d facts that three or more ask for to the letter' % len(often), sorted({p for places in often for p in places})),
            ('functions with eight parameters or more', tree.where(lambda f: len(f.params) >= 8)),
            ('functions with sixteen or more', tree.where(lambda f: len(f.params) >= 16))]


# ---- point 6: lengths beside buffers, parallel arrays, searches

ARRAYS = {'modes', 'requests', 'marks', 'recoverings', 'tx_errors', 'rx_errors', 'owners', 'receivings', 'pools', 'pendings', 'dones', 'fulls',
          'payloads', 'paddings', 'codes', 'masks', 'kinds', 'places', 'values', 'handles', 'starts', 'ends'}


def takes_parallel_arrays(f):
    return len([name for name, kind in f.params if name in ARRAYS and '[' in kind]) > 1


def point_6(tree):
    return listed(tree, 6) + [
        Group('A buffer and a position in it: `out` and `at`, the answer the position behind', 'a text of fixed size that knows its length; `write!`', tree.where(is_a_print)),
        Group('Parallel arrays: functions that take two or more', 'a slice of structs', tree.where(takes_parallel_arrays)),
        Group('Numbers of a text with zeros behind them', 'a slice of the numbers there are', tree.lines(r'\[(?:[^\[\],;]+, ){4}0\]')),
        Group('Text as bytes: `b".."`', '`&str`', tree.lines(r'b""')),
    ]


def other_6(tree):
    """By lines: slices up to a count, parts between positions, array parameters."""
    return [('slices from or up to a position: `[..n]`, `[a..b]`', tree.lines(r'\[[^\];]*\.\.[^\];]*\]')),
            ('calls of `of_bytes`, `of_words`, `between`, `limited`', tree.lines(r'\b(?:of_bytes|of_words|between|limited)\((?!\w+: )')),
            ('fields that are arrays', tree.lines(r'^    pub \w+: \[\w+; \w+\],')),
            ('parameters that are arrays or slices of numbers or flags', tree.lines(r'^\s+\w+: &(?:mut )?\[(?:u8|u16|u32|u64|bool)(?:; \w+)?\],'))]


# ---- point 7: switches on which step to run

def point_7(tree):
    tables = Group('Tables of functions', '(there are none)', tree.lines(r'\bfn\('))
    return listed(tree, 7) + [tables]


def other_7(tree):
    """By shape: a `match` with three arms or more, each of them a call; and `if` over a flag of a style or a poll."""
    found = []
    for f in tree.functions:
        body = f.body()
        for number, line in enumerate(body):
            if re.match(r'\s+match .*\{$', line):
                indent = re.match(r'\s*', line).group(0)
                end = number + 1
                while end < len(body) and body[end] not in (indent + '}', indent + '},'):
                    end += 1
                arms = [b for b in body[number + 1:end] if re.match(indent + r'    \S.*=>', b)]
                calls = [a for a in arms if re.search(r'=> (?:\{$|\w+(?:::\w+)*\()', a)]
                if len(arms) >= 3 and len(calls) * 2 >= len(arms):
                    found.append(Place(f.source.path, f.first + number + 1, f.name))
    return [('`match` with three arms or more, half of them calls at least', found),
            ('`if` over `plain`, `by_bus_off`, `two_bytes` or `leaves`', tree.lines(r'\bif (?:\w+\.)?(?:plain|by_bus_off|two_bytes|leaves)\b'))]


# ---- point 8: proofs

def answers(tree):
    """The answers of all answer files: path, line, name, lines."""
    found = []
    for path, lines in tree.proofs.items():
        if not path.endswith('/Answers.antt'):
            continue
        start = None
        for number, line in enumerate(lines + ['pub end : ']):
            if re.match(r'(?:abbrev )?(?:pub )?[^\s:]+ : ', line) or line.startswith('pub '):
                if start is not None:
                    found.append((path, start + 1, lines[start].split(' : ')[0].replace('pub ', '').replace('abbrev ', ''), lines[start:number]))
                start = number
    return found


def let_windows(lines):
    """Every three lines in a row of an answer that each begin with a `let`."""
    lets = [re.sub(r'\s+', ' ', line.strip()) for line in lines]
    return {tuple(lets[i:i + 3]) for i in range(len(lets) - 2) if all(line.startswith('let ') for line in lets[i:i + 3])}


def repeated_lets(tree):
    seen = collections.defaultdict(list)
    for answer in answers(tree):
        for window in let_windows(answer[3]):
            seen[window].append(answer)
    places = {}
    for window, where in seen.items():
        if len(where) > 1:
            for path, line, name, _ in where:
                places[path, line] = Place(path, line, name)
    return [places[key] for key in sorted(places)]


def statements(tree):
    """The lemmas that stand outside of answer and invariant files, with the line that states them."""
    found = []
    for path, lines in tree.proofs.items():
        if path.endswith(('/Answers.antt', '/Invariants.antt', '/Lib.antt')):
            continue
        for number, line in enumerate(lines, 1):
            match = re.match(r'(?:pub )?([^\s:{(]+) : (.*)$', line)
            if match:
                found.append((Place(path, number, match.group(1)), match.group(2)))
    return found


def stated_twice(tree):
    """Lemmas whose statement, but for the names of what it speaks of, stands in two files."""
    by_text = collections.defaultdict(list)
    for place, text in statements(tree):
        if len(text) > 30:
            names = {}
            key = re.sub(r'\b[a-z]\w*\b|[a-z]₁|[a-z]₂', lambda m: names.setdefault(m.group(0), 'v%d' % len(names)) if len(m.group(0)) < 3 else m.group(0), text)
            by_text[key].append(place)
    return sorted(p for places in by_text.values() if len({q.path for q in places}) > 1 for p in places)


def files(tree, ending):
    return [Place(path, 1, path.split('/proofs/')[1].rsplit('/', 1)[0]) for path in tree.proofs if path.endswith(ending)]


def short_answers(tree):
    """Answer files with no answer of more than one line of proof."""
    longest = collections.defaultdict(int)
    for path, _, name, lines in answers(tree):
        body = [line for line in lines[1:] if line.strip() and not line.startswith(('unfolding', '--', '    →'))]
        longest[path] = max(longest[path], len(body))
    return [Place(path, 1, path.split('/proofs/')[1].rsplit('/', 1)[0]) for path in sorted(longest) if longest[path] <= 1]


def point_8(tree):
    return [
        Group('Answers with a `let` block of three lines or more that another answer has', 'one lemma, or `#[tactic(auto, using(..))]`', repeated_lets(tree)),
        Group('Answer files', 'each tried without it; what the check finds alone goes', files(tree, '/Answers.antt')),
        Group('Of them those with no answer of more than one line', 'the first to be tried', short_answers(tree)),
        Group('Invariant files', 'fewer, as loops become iterator chains', files(tree, '/Invariants.antt')),
        Group('Lemmas that are stated in two files', 'one lemma, in the lower crate', stated_twice(tree)),
    ] + listed(tree, 8)


def other_8(tree):
    """By lines: `let` lines that stand in two answers to the letter; lemmas; lines of proofs."""
    seen = collections.defaultdict(set)
    for path, line, name, lines in answers(tree):
        for text in lines:
            if text.strip().startswith('let '):
                seen[re.sub(r'\s+', ' ', text.strip())].add((path, line, name))
    often = sorted({where for places in seen.values() if len(places) > 1 for where in places})
    return [('answers', [Place(path, line, name) for path, line, name, _ in answers(tree)]),
            ('answers with a `let` line that another answer has', [Place(*where) for where in often]),
            ('lemmas outside of answer and invariant files', [place for place, _ in statements(tree)])]


# ---- what is printed

POINTS = [point_1, point_2, point_3, point_4, point_5, point_6, point_7, point_8]
OTHERS = [other_1, other_2, other_3, other_4, other_5, other_6, other_7, other_8]


def distinct(groups):
    return len({(p.path, p.line, p.name) for group in groups for p in group.places})


def short_path(path):
    return re.sub(r'\.rt$|/Answers\.antt$', '', re.sub(r'^crates/(\w+)/(?:src|proofs|specs)/', r'\1/', path))


def where(places, names):
    """The places by file, with their lines, and with their names where these tell more; where there are very many, with how many a file has."""
    by_file = collections.OrderedDict()
    for place in sorted(places):
        by_file.setdefault(place.path, []).append(place)
    if len(places) > 120:
        counted = collections.Counter(short_path(p.path) if len(by_file) < 100 else p.path.split('/')[1] for p in sorted(places))
        return '; '.join('%s (%d)' % entry for entry in counted.items())
    names = names and all(re.match(r'[\w.:-]+$', p.name) for p in places)
    lines = lambda found: ','.join(str(n) for n in sorted({p.line for p in found}))
    shown = lambda found: ', '.join('%d %s' % (p.line, p.name) for p in found) if names else lines(found)
    return '; '.join('%s:%s' % (short_path(path), shown(found)) for path, found in by_file.items())


def print_counts(number, groups):
    print('point %d: %d places in %d groups' % (number, distinct(groups), len(groups)))
    for group in groups:
        print('  %5d  %s' % (len(group.places), group.title))


def print_places(number, groups):
    for group in groups:
        for place in group.places:
            print('%d\t%s\t%s:%d\t%s' % (number, group.title, place.path, place.line, place.name))


def print_table(number, groups):
    print('| Group | Places | Where | Today\'s form |')
    print('| --- | --- | --- | --- |')
    for group in groups:
        print('| %s | %d | %s | %s |' % (group.title.replace('|', '\\|'), len(group.places), where(group.places, number not in (5, 6, 8)) or '-', group.today.replace('|', '\\|')))
    print()


def print_other(number, counts):
    print('point %d, the other way' % number)
    for title, places in counts:
        print('  %5d  %s' % (len(places), title))


def read_arguments():
    parser = argparse.ArgumentParser(description='Counts the places of an older form: docs/DESIGN-PASS.md.')
    parser.add_argument('commit', nargs='?', help='the commit that is counted; none: the working tree')
    parser.add_argument('--other', action='store_true', help='counted the other way')
    parser.add_argument('--places', action='store_true', help='each place on a line')
    parser.add_argument('--page', action='store_true', help='as the tables of the page')
    parser.add_argument('--point', type=int, choices=range(1, 9), help='one point alone')
    return parser.parse_args()


def main():
    asked = read_arguments()
    tree = Tree(at_commit(asked.commit) if asked.commit else in_working_tree())
    for number in [asked.point] if asked.point else range(1, 9):
        if asked.other:
            counts = OTHERS[number - 1](tree)
            groups = [Group(title, '', places) for title, places in counts]
        else:
            groups = POINTS[number - 1](tree)
        if asked.places:
            print_places(number, groups)
        elif asked.other:
            print_other(number, counts)
        elif asked.page:
            print_table(number, groups)
        else:
            print_counts(number, groups)


if __name__ == '__main__':
    main()
