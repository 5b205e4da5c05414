#!/usr/bin/env python3
"""Counts, in the Rust of every crate, the places that are written in the forms of an older language.

    python3 tools/old-forms.py [FOLDER] [--list]

A line a form, with the number of the point of docs/DESIGN-PASS.md that it belongs to; --list prints each place too.
The forms are found by text, so a place that is found is one to look at and no fault by itself.
"""
import pathlib
import re
import sys

arguments = [a for a in sys.argv[1:] if not a.startswith('--')]
LIST = '--list' in sys.argv
ROOT = pathlib.Path(arguments[0] if arguments else '.')

SOURCES = sorted(ROOT.glob('crates/*/src/*.rt'))

# point, form, pattern of a line
LINES = [
    (1, 'enums of our own', r'^\s*(pub )?enum \w+'),
    (1, 'numbers for refusals or statuses', r'\b(refusal|status|first_fault|fault|OK|[A-Z_]+)\w*(: u16\b|: u8,)|fn \w*(refusal|status|order|fault|check_bytes)\w*\(.*-> u(8|16)|^\) -> u(8|16)'),
    (1, 'flags beside a value', r'^\s+(pub )?(held|adds|debited|more|moved|clears): bool,'),
    (1, 'a number in place of None, by its comment', r'//.*(\b0 where|nothing and (0|at)\b|, or 0\b|; 0 without|; 0 where|16 for one)'),
    (1, 'a value for none among others', r'\bNoFile\b.*(=>|,)|\bNobody\b.*(=>|,)|=> (16|0xFF|0),'),
    (3, 'loops that count by hand', r'^\s*(while|loop)\b'),
    (4, 'fields copied one by one', r'^\s+let (mut )?(\w+) = \w+\.\2;'),
    (4, 'matches that answer true or false', r'=> (true|false),'),
    (6, 'buffers cut at a length beside them', r'&(mut )?\w+\[0\.\.\w+\]'),
    (7, 'a bool that says which step', r'\b(opens|opening|last|bench): bool'),
]


def functions(text):
    """name, head and body of each function"""
    for m in re.finditer(r'^[ ]*(?:pub(?:\(crate\))? )?(?:extern "C" )?(?:const )?fn (\w+)', text, re.M):
        start = text.find('\n{', m.start())
        indent = len(m.group(0)) - len(m.group(0).lstrip(' '))
        opening = re.compile(r'(^' + ' ' * indent + r'\{\n|\{\n)', re.M)
        o = opening.search(text, m.end())
        if not o:
            continue
        close = re.compile(r'^' + ' ' * indent + r'\}', re.M).search(text, o.end())
        if not close:
            continue
        yield m.group(1), text[m.start():o.start()], text[o.end():close.start()]


def shape(body):
    """the body with every name and number alike"""
    body = re.sub(r'//.*', '', body)
    words = re.findall(r'\w+|[^\w\s]', body)
    keep = {'if', 'else', 'while', 'for', 'in', 'return', 'let', 'mut', 'match', 'self', 'as', 'true', 'false'}
    return tuple(w if w in keep or not re.match(r'\w', w) else '_' for w in words)


def main():
    found = {}
    for path in SOURCES:
        text = path.read_text()
        where = str(path.relative_to(ROOT))
        for number, line in enumerate(text.split('\n'), 1):
            for point, form, pattern in LINES:
                if line.strip().startswith('//') and 'comment' not in form:
                    continue
                if re.search(pattern, line):
                    found.setdefault((point, form), []).append(f'{where}:{number}: {line.strip()}')
    shapes = {}
    heads = {}
    for path in SOURCES:
        text = path.read_text()
        where = str(path.relative_to(ROOT))
        for name, head, body in functions(text):
            s = shape(body)
            if len(s) >= 24:
                shapes.setdefault(s, []).append(f'{where}: {name}')
            parameters = head.split('(', 1)[1] if '(' in head else ''
            parameters = re.split(r'\n\s*(requires|ensures)|-> ', parameters)[0]
            count = len(re.findall(r'\b\w+: ', parameters)) + ('self' in parameters)
            if count >= 6:
                found.setdefault((5, 'functions of six parameters or more'), []).append(f'{where}: {name} ({count})')
            for clause in re.findall(r'requires(?: \w+)? \{ (.*) \}', head):
                for fact in re.split(r' × ', clause):
                    heads.setdefault(fact.strip(' ()').replace('.old', '').replace('.now', ''), []).append(f'{where}: {name}')
    for s, places in shapes.items():
        if len(places) > 1:
            found.setdefault((2, 'functions of one shape, counted in groups'), []).append('; '.join(places))
    for fact, places in heads.items():
        if len(places) >= 3:
            found.setdefault((5, 'facts that three contracts or more require'), []).append(f'{fact}: ' + '; '.join(places))
    for point, form in sorted(found):
        places = found[point, form]
        print(f'{point}  {len(places):4}  {form}')
        if LIST:
            for p in places:
                print(f'           {p}')


main()
