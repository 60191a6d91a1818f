#!/usr/bin/env python3
"""The places in src/ that docs/DESIGN-PASS.md counts: python3 tools/places.py [-v] [ROOT]. With -v it lists each."""
import collections
import pathlib
import re
import sys

verbose = '-v' in sys.argv[1:]
root = pathlib.Path(next((a for a in sys.argv[1:] if a != '-v'), '.'))
lines = []      # (place, text without comment)
functions = []  # (place, name, parameters, clauses, body)

FN = re.compile(r'^( *)(?:pub(?:\(crate\))? )?(?:extern "C" )?fn (\w+)(?:<.*?>)?\((.*?)\)((?: ->[^{]*?)?)\s*'
                r'((?:^ *(?:requires|ensures)\*?[^\n]*\n)*)\s*\{\n(.*?)^\1\}$', re.S | re.M)

for path in sorted(root.glob('crates/*/src/*.rt')):
    crate = path.parent.parent.name
    text = re.sub(r'//.*', '', path.read_text())
    for number, line in enumerate(text.splitlines(), 1):
        lines.append((f'{path.relative_to(root)}:{number}', line))
    for m in FN.finditer(text):
        functions.append((f'{crate}::{m[2]}', m[2], m[3], m[5], m[6]))


def report(point, what, places):
    print(f'{point}  {len(places):4}  {what}')
    if verbose:
        for place in places:
            print(f'            {place}')


def grep(pattern):
    found = re.compile(pattern)
    return [f'{place}: {line.strip()}' for place, line in lines if found.search(line)]


def shape(body):
    keep = 'if return let mut while for in match loop break self Self as true false Ok Err Some None'.split()
    word = lambda t: t if t in keep else 'N' if t[0].isdigit() else 'I' if re.match(r'\w', t) else t
    return ' '.join(word(t) for t in re.findall(r'\w+|[^\s\w]', body))


def names(parameters):
    return re.findall(r'(\w+):', parameters)


report(1, 'enums of the shape of Option or Result', grep(r'\benum \w*Answer\b'))
report(1, 'lines that make or take apart such an enum', grep(r'\b(Key)?Answer::'))
report(1, 'functions that hand a refusal on by hand', [f[0] for f in functions if re.search(r'if let Answer::Refused\(_\)', f[4])])
report(1, 'numbers for kinds: parameters, fields and arguments',
       grep(r'\b(stage|wanted): u8|fits\(\d|begin_with\(.*\), \d|stage [=!]= \d|stage: \d|stage = \d'))
twins = collections.defaultdict(list)
for function in functions:
    twins[shape(function[4])].append(function[0])
report(2, 'groups of functions that differ in names and numbers alone (13 tokens or more)',
       [', '.join(group) for body, group in twins.items() if len(group) > 1 and len(body.split()) > 12])
report(3, 'while and loop', grep(r'^\s*(let \w+ = )?(while|loop)\b'))
report(4, 'functions that make numbers of bytes, or bytes of numbers, by hand',
       [f[0] for f in functions if len(re.findall(r'[/*%] (?:0x10*|256|0x80)\b', f[4])) > 1])
report(4, 'equality written by hand: functions over bytes',
       [f[0] for f in functions if f[1] in ('same_block', 'zero_from', 'still_zero', 'zeros', 'same', 'count_same')])
report(4, 'tests written as ifs that return true or false', grep(r'^\s+return (true|false);'))
report(4, 'locals that only read a field', grep(r'^\s*let \w+ = \w+(\.\w+)+;$'))
report(5, 'functions that take engine, width and round keys', [f[0] for f in functions if {'engine', 'width', 'keys'} <= set(names(f[2]))])
report(5, 'functions that take width and round keys alone',
       [f[0] for f in functions if {'width', 'keys'} <= set(names(f[2])) and 'engine' not in names(f[2])])
report(5, 'of both, with the subkeys beside', [f[0] for f in functions if {'width', 'keys', 'k'} <= set(names(f[2]))])
facts = collections.defaultdict(list)
for function in functions:
    for clause in re.findall(r'requires \w* ?\{(.*)\}', function[3]):
        for fact in clause.split(' × '):
            facts[fact.strip(' ()')].append(function[0])
report(5, 'facts in the requires of three functions or more',
       [f'{fact}: {", ".join(where)}' for fact, where in facts.items() if len(where) > 2])
report(6, 'a slice with a count of what is meant of it beside, as parameters',
       [f'{f[0]}({", ".join(names(f[2]))})' for f in functions
        if re.search(r'\w+: &(mut )?\[\w+\][^:]*, n: usize|n: usize, (?:src|input|text)', re.sub(r'\s+', ' ', f[2]))])
report(6, 'fixed arrays with a length beside, as fields', grep(r'^\s+pub (tail|lens): (Tail|\[u32; 126\])'))
report(7, 'flags that say which step to run', grep(r'\bopens: bool|if opens|, (true|false), input'))
