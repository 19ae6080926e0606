#!/usr/bin/env python3
"""Counts the places in src/ that docs/DESIGN-PASS.md speaks of, by its points, and lists them.

    python3 tools/design_places.py [-l] [POINT..]    -l: each place, as file:line

It goes by text, so a place that it lists is looked at, and may stand with a reason.
"""
import glob, re, sys
from collections import defaultdict

LITERAL = r'(?:0x[0-9A-Fa-f_]+|[0-9][0-9_]*)'


def sources():
    for path in sorted(glob.glob('crates/*/src/**/*.rt', recursive=True)):
        yield path, open(path).read()


def strip(line):
    return re.sub(r'//.*', '', line)


def lines(pattern, skip=None):
    """Each line of code, not of a contract, that has the pattern."""
    found = []
    for path, text in sources():
        for n, line in enumerate(text.split('\n'), 1):
            code = strip(line)
            if re.search(r'ghost use|requires|ensures|[≡≤×λ→∷]', code):
                continue
            if re.search(pattern, code) and not (skip and re.search(skip, code)):
                found.append(f'{path}:{n}: {code.strip()}')
    return found


def functions():
    """(place, name, parameters, contract, body) of each function."""
    for path, text in sources():
        for m in re.finditer(r'^( *)(?:pub )?(?:extern "C" )?fn (\w+)(?:<[^>]*>)?\(', text, re.M):
            depth, i = 1, m.end()
            while depth:
                depth += {'(': 1, ')': -1}.get(text[i], 0)
                i += 1
            start = re.compile(r'^' + m.group(1) + r'\{$|\{$', re.M)
            head = text[i:]
            b = start.search(head)
            end = re.compile(r'^' + m.group(1) + r'\}', re.M).search(head, b.end() if b else 0)
            if not (b and end):
                continue
            place = f'{path}:{text.count(chr(10), 0, m.start()) + 1}'
            params = re.sub(r'\s+', ' ', text[m.end():i - 1]).strip(' ,')
            yield place, m.group(2), params, head[:b.start()], head[b.end():end.start()]


def enums():
    for path, text in sources():
        for m in re.finditer(r'enum (\w+) \{\n(.*?)\n\}', text, re.S):
            variants = [v for v in (strip(l).strip(' ,') for l in m.group(2).split('\n')) if v]
            yield f'{path}:{text.count(chr(10), 0, m.start()) + 1}', m.group(1), variants


def structs(pattern):
    """The structs of which a field has the pattern."""
    found = []
    for path, text in sources():
        for m in re.finditer(r'struct (\w+) \{\n(.*?)\n\}', text, re.S):
            if re.search(pattern, m.group(2)):
                found.append(f'{path}:{text.count(chr(10), 0, m.start()) + 1}: {m.group(1)}')
    return found


def point_1():
    """own enums of two cases of which one at least holds a value"""
    return [f'{p}: {n} {{ {", ".join(v)} }}' for p, n, v in enums() if len(v) == 2 and any('(' in x for x in v)]


def point_1_accepted():
    """an enum of refusals with a case for none, and the functions that answer it"""
    return [f'{p}: {n}' for p, n, v in enums() if 'Accepted' in v] + lines(r'-> Refusal\b|: Refusal\b')


def point_1_flags():
    """structs with a flag or a count that says whether the other fields count"""
    return structs(r'\b(refusal|moved|movers|found|passes_known): ')


def point_1_kinds():
    """a kind compared with a number"""
    return lines(r'(\[KIND\]|\br\[0\]|\bkind|\bk|\)\[0\]|\bbyte_of\(plan, j, 0\)) (==|!=|<|<=|>=) ' + LITERAL + r'\b|\b' + LITERAL
                 + r' (<|<=) (kind|k)\b', r'while|for ')


def point_1_numbers():
    """a refusal given or tested as a number"""
    return lines(r'return (24|26|27|256 \+ .*);|plan::number\(\w+\) (==|!=) 0|\b(number|refused|n) != 0|let n = plan::number', r'case\.number')


def point_2():
    """functions whose bodies are alike but for numbers, constants and types, with more than one line of work"""
    groups = defaultdict(list)
    for place, name, params, contract, body in functions():
        t = re.sub(r'//.*', '', body)
        t = re.sub(r'\b' + name + r'\b', 'F', t)
        t = re.sub(r'\b[ui](8|16|32|64|size)\b', 'T', t)
        t = re.sub(r'\b[A-Z][A-Z0-9_]*\b|\b' + LITERAL + r'\b', 'N', t)
        t = re.sub(r'\s+', ' ', t).strip()
        p = re.sub(r'\b[ui](8|16|32|64|size)\b', 'T', params)
        if len(t) > 12:
            groups[(t, len(p.split(',')))].append(f'{place}: {name}')
    return ['  '.join(g) for g in groups.values() if len(g) > 1]


def point_3():
    """loops that count or step by hand"""
    return lines(r'\bwhile\b')


def point_4():
    """equality, order or a conversion written by hand: a match to booleans without a field used, a function that is one cast"""
    found = []
    for place, name, params, contract, body in functions():
        t = re.sub(r'//.*', '', body).strip()
        if re.fullmatch(r'\*?\w+ as \w+', t):
            found.append(f'{place}: {name}: {t}')
        elif re.fullmatch(r'match \w+ \{(\s*\w+::\w+(\(_\))? => (true|false),)+\s*\}', t):
            found.append(f'{place}: {name}: match to a bool')
        elif re.fullmatch(r'let \w+::\w+\(_\) = \w+ else \{\s*return false;\s*\};\s*true', t):
            found.append(f'{place}: {name}: a case tested')
        elif re.fullmatch(r'if \w+ <=? \w+ \{\s*\w+\s*\} else \{\s*\w+\s*\}', t):
            found.append(f'{place}: {name}: min or max')
        elif re.fullmatch(r'if \w+ <=? \w+ \{\s*(return )?0;?\s*\}( else \{)?\s*\w+ - \w+\s*\}?', t):
            found.append(f'{place}: {name}: saturating difference')
    return found


def point_5():
    """functions of eight parameters or more"""
    return [f'{pl}: {n} ({len(ps.split(","))})' for pl, n, ps, c, b in functions() if len(ps.split(',')) >= 8]


def point_5_facts():
    """a fact about one value in the contracts of three functions or more"""
    facts = defaultdict(list)
    for place, name, params, contract, body in functions():
        for m in re.finditer(r'requires[^{]*\{(.*?)\}\s*(?=requires|ensures|$)', contract, re.S):
            for part in re.split(r' × ', m.group(1)):
                part = re.sub(r'[()]', '', part).strip()
                if re.fullmatch(r'(length )?[a-z]\w*(\.now|\.old)?(\.len)? [≡≤] \d+|Proper \w+\.now|FactRow \w+\.now', part):
                    facts[re.sub(r'\b[a-z]\w*(?=\.(now|old|len))', 'x', part)].append(f'{place}: {name}')
    return [f'{k}: {len(v)} functions' for k, v in sorted(facts.items(), key=lambda z: -len(z[1])) if len(v) >= 3]


def point_6():
    """an array with a length beside it in a struct, a table of numbers read by a stride"""
    return structs(r'\blen: usize|: \[\w+; \d+\]') + lines(r'\[7 \* \w+( \+ \d)?\]')


def point_7():
    """an enum of steps, matched to run one"""
    return lines(r'^\s*(Walk|Call)::\w+(\(\w+\))? => ')


POINTS = [('1 enums', point_1), ('1 accepted', point_1_accepted), ('1 flags', point_1_flags), ('1 kinds', point_1_kinds),
          ('1 numbers', point_1_numbers), ('2', point_2), ('3', point_3), ('4', point_4), ('5 parameters', point_5), ('5 facts', point_5_facts),
          ('6', point_6), ('7', point_7)]


def main():
    args = [a for a in sys.argv[1:] if a != '-l']
    for name, count in POINTS:
        if args and not any(name.startswith(a) for a in args):
            continue
        found = count()
        print(f'{name}: {len(found)} ({count.__doc__})')
        if '-l' in sys.argv:
            print(''.join(f'    {f}\n' for f in found), end='')


main()
