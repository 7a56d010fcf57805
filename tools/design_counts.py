#!/usr/bin/env python3
"""Counts, in the sources of a commit, the places of which docs/DESIGN-PASS.md speaks.

    tools/design_counts.py [COMMIT] [--list]

Each count is of a form that can be read off the text; which of them is an old form is judged by hand on that page.
"""
import re
import subprocess
import sys

FUNCTION = re.compile(r'^\s*(?:pub(?:\(crate\))? )?fn (\w+)')


def sources(commit):
    """The paths and texts of src/ at the commit, or as they stand."""
    names = subprocess.run(['git', 'ls-tree', '-r', '--name-only', commit, 'crates'], capture_output=True, text=True,
                           check=True).stdout.split('\n')
    for name in sorted(names):
        if re.fullmatch(r'crates/\w+/src/.*\.rt', name):
            text = subprocess.run(['git', 'show', f'{commit}:{name}'], capture_output=True, text=True, check=True).stdout
            yield name, text


def enums(text):
    """Each enum with its variants."""
    for found in re.finditer(r'^(?:pub )?enum (\w+)(?:<[^>]*>)? \{\n(.*?)^\}', text, re.M | re.S):
        body = re.sub(r'//.*', '', found[2])
        flat, depth = '', 0
        for character in body:
            depth += character in '({'
            depth -= character in ')}'
            flat += ';' if character == ',' and depth == 0 else character
        yield found[1], [' '.join(variant.split()) for variant in flat.split(';') if variant.strip()]


def functions(text):
    """Each function's name, its head up to the body and its body."""
    lines = text.split('\n')
    at = 0
    while at < len(lines):
        begin = FUNCTION.match(lines[at])
        at += 1
        if not begin:
            continue
        indent = len(lines[at - 1]) - len(lines[at - 1].lstrip())
        start = at - 1
        while at < len(lines) and lines[at] != ' ' * indent + '}':
            at += 1
        whole = lines[start:at + 1]
        opening = next((n for n, line in enumerate(whole) if line == ' ' * indent + '{' or
                        (n == 0 and line.endswith('{'))), None)
        if opening is None:
            opening = next((n for n, line in enumerate(whole) if line.startswith(' ' * indent + ')') and line.endswith('{')), 0)
        yield begin[1], '\n'.join(whole[:opening + 1]), '\n'.join(whole[opening + 1:])


def places(commit):
    """The places of each form: a form's name, and where it stands."""
    found = {}

    def put(form, name, what):
        found.setdefault(form, []).append(f'{name}: {what}')

    for name, text in sources(commit):
        for enum, variants in enums(text):
            if len(variants) == 2 and any('(' in v or '{' in v for v in variants):
                put('1a own enum of two variants, at least one with a value', name, enum)
            elif any(re.match(r'(Refused|Failed|Wrong|Unwritten|Unread)\b.*[({]', v) for v in variants):
                put('1b own enum of more variants, one of them a failure with its reason', name, enum)
        for struct in re.finditer(r'^(?:pub )?struct (\w+)(?:<[^>]*>)? \{\n(.*?)^\}', text, re.M | re.S):
            if re.search(r'\b(verdict: Verdict|fits: bool|error: i32|number: u8)\b', struct[2]):
                put('1c struct with a flag or a number that says whether its value counts', name, struct[1])
        kinds = re.findall(r'^pub const [A-Z_]+: u8 = \d+;$', text, re.M)
        for kind in kinds if len(kinds) > 3 else []:
            put('1d a kind by its number', name, kind)
        for fn, head, body in functions(text):
            if re.match(r'(match|identity)_(rows|page|values)$', fn):
                put('2a function that differs from another in the way of listing alone', name, fn)
            if re.search(r'^\s*(?:\'\w+: )?while .*\n(?:.*\n)*?.*[+-]= 1;', body, re.M):
                put('3a function with a while loop that counts by one', name, fn)
            for loop in re.finditer(r'for (\w+) in 0\.\.(\w+)\.len\(\)', body):
                put('3b for loop over the indexes of a slice', name, f'{fn} ({loop[1]})')
            if re.fullmatch(r'(two_bytes|four_bytes|put_four_bytes|wide|number|high_half|low_half)', fn):
                put('4a conversion by hand', name, fn)
            if re.fullmatch(r'(least|larger|excess|distance|sum|one_more|is_between|is_digit)', fn):
                put('4b order or arithmetic of the library by hand', name, fn)
            if re.search(r'\b(least|wide|larger)\(', body):
                put('4c function that calls least, wide or larger', name, fn)
            if re.search(r'(\w+): (\w+),\n\s+\1: \2\b', body) or re.search(r'\b(\w+): \1,', body):
                put('4d field written again by its own name', name, fn)
            if re.search(r'^\s*let (\w+) = (\w+)\.\1;$', body, re.M):
                put('4e field copied into a local of its name', name, fn)
            parameters = re.search(r'\((.*?)\)(?: ->|\n| \{|$)', head, re.S)
            names = re.findall(r'(\w+):', parameters[1]) if parameters else []
            if {'reaching', 'unbalanced'} <= set(names):
                put('5a reaching and unbalanced travel together', name, fn)
            if {'left', 'right', 'lifts'} <= set(names):
                put('5b the coefficients and their tops travel together', name, fn)
            if {'out', 'at'} <= set(names):
                put('5c out and at travel together', name, fn)
            if 'InRoom' in head:
                put('5d the contract says InRoom', name, fn)
            if len(names) > 5:
                put('5e more than five parameters', name, fn)
            if re.search(r'\bi = \w+;(?:.*\n)*.*while i < \w+ \{\n.*\[i\] ==', body):
                put('6a a search by hand', name, fn)
        for struct in re.finditer(r'^(?:pub )?struct (\w+)(?:<[^>]*>)? \{\n(.*?)^\}', text, re.M | re.S):
            arrays = re.findall(r': \[\w+; (\w+)\]', struct[2])
            if len(arrays) > len(set(arrays)):
                put('6b struct with arrays of one length beside one another', name, struct[1])
            if arrays and re.search(r'\b(count|places|unbalanced|number): usize', struct[2]):
                put('6c struct with an array and how much of it counts', name, struct[1])
    return found


def main():
    arguments = [a for a in sys.argv[1:] if a != '--list']
    found = places(arguments[0] if arguments else 'HEAD')
    for form in sorted(found):
        print(f'{len(found[form]):4} {form}')
        if '--list' in sys.argv:
            for place in found[form]:
                print(f'       {place}')


if __name__ == '__main__':
    main()
