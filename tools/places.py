#!/usr/bin/env python3
"""Lists the places in crates/*/src that docs/DESIGN-PASS.md counts.

    python3 tools/places.py [COMMIT] [--point N]

Without a commit it reads the working tree. A line is a place to look at; the page says what became of it.
"""
import collections
import glob
import re
import subprocess
import sys

args = [a for a in sys.argv[1:] if a != '--point']
only = None
if '--point' in sys.argv:
    only = sys.argv[sys.argv.index('--point') + 1]
    args.remove(only)
commit = args[0] if args else None


def sources():
    if commit:
        names = subprocess.run(['git', 'ls-tree', '-r', '--name-only', commit, 'crates'], capture_output=True, text=True, check=True).stdout.split('\n')
        for name in names:
            if re.fullmatch(r'crates/\w+/src/\w+\.rt', name):
                yield name, subprocess.run(['git', 'show', f'{commit}:{name}'], capture_output=True, text=True, check=True).stdout
    else:
        for name in sorted(glob.glob('crates/*/src/*.rt')):
            yield name, open(name).read()


FILES = list(sources())
TOKEN = re.compile(r"b?'(?:\\.|[^'])'|b?\"[^\"]*\"|\w+|[^\w\s]")


def functions():
    """Each function: file, line, name, parameters, clauses, body."""
    for name, text in FILES:
        lines = text.split('\n')
        for n, line in enumerate(lines):
            m = re.match(r'(\s*)(?:pub(?:\(crate\))? )?(?:extern "C" )?fn (\w+)', line)
            if not m:
                continue
            indent = m.group(1)
            head, body, clauses, at = line, [], [], n
            while not re.search(r'\)( -> .*)?( \{|;|$)', lines[at].rstrip()) or lines[at].rstrip().endswith(','):
                at += 1
                head += ' ' + lines[at].strip()
            while lines[at].rstrip() != indent + '{' and not lines[at].rstrip().endswith((' {', ';')):
                at += 1
                if at >= len(lines) or lines[at].strip() == '':
                    break
                if lines[at].rstrip() != indent + '{':
                    clauses.append(lines[at].strip())
            while at < len(lines) and lines[at].rstrip() != indent + '}' and not lines[at].rstrip().endswith(';' if not body else '\0'):
                at += 1
                if at < len(lines):
                    body.append(lines[at])
            yield name, n + 1, m.group(2), head, clauses, '\n'.join(body)


def grep(pattern):
    for name, text in FILES:
        for n, line in enumerate(text.split('\n')):
            if re.search(pattern, line) and not line.strip().startswith('//') and not line.startswith(('use ', 'ghost use')):
                yield f'{name[7:]}:{n + 1}: {line.strip()}'


def show(point, what, rows):
    rows = list(rows)
    if only is None or only == point:
        print(f'\n## {point}. {what}: {len(rows)}')
        for row in rows:
            print('  ' + row)


def twins():
    shapes = collections.defaultdict(list)
    for name, line, fn, head, clauses, body in functions():
        tokens = TOKEN.findall(body)
        if len(tokens) < 10:
            continue
        shape = ' '.join('x' if re.match(r'\w|b?[\'"]', t) and t not in ('if', 'else', 'match', 'for', 'while', 'return', 'let', 'Ok', 'Err', 'Some', 'None') else t for t in tokens)
        shapes[shape].append(f'{name[7:]}:{line} {fn}')
    for shape, where in shapes.items():
        if len(where) > 1:
            yield f'{len(where)} of one shape: ' + ', '.join(where)
    names = collections.defaultdict(set)
    for name, text in FILES:
        for kind, item in re.findall(r'^(?:pub(?:\(crate\))? )?(const|fn|struct|enum) (\w+)', text, re.M):
            names[kind, item].add(name[7:])
    for (kind, item), where in names.items():
        if len(where) > 1 and item not in ('main',):
            yield f'{kind} {item} stands {len(where)} times: ' + ', '.join(sorted(where))


def repeated():
    facts = collections.defaultdict(list)
    pairs = collections.defaultdict(list)
    for name, line, fn, head, clauses, body in functions():
        crate = name.split('/')[1]
        for clause in clauses:
            m = re.match(r'(?:requires|ensures)\s*\w*\s*\{ (.*) \}', clause)
            if m and clause.startswith('requires'):
                for fact in re.split(r' × ', m.group(1).strip('()')):
                    facts[crate, fact.strip('() ')].append(f'{fn}')
        params = re.findall(r'(\w+): ((?:&mut |&)?[\w\[\]<>; ]+)', head[head.find('('):head.rfind(')')])
        for i, a in enumerate(params):
            for b in params[i + 1:]:
                pairs[crate, f'{a[0]}: {a[1].strip()}, {b[0]}: {b[1].strip()}'].append(fn)
    for (crate, fact), fns in sorted(facts.items()):
        if len(set(fns)) > 2:
            yield f'{crate}: requires {fact}: {len(set(fns))} functions: ' + ', '.join(sorted(set(fns)))
    for (crate, pair), fns in sorted(pairs.items()):
        if len(set(fns)) > 2:
            yield f'{crate}: parameters {pair}: {len(set(fns))} functions: ' + ', '.join(sorted(set(fns)))


show('1', 'own enums', grep(r'\benum \w+'))
show('1', 'flags in structs', grep(r'^\s*(?:pub(?:\(crate\))? )?\w+: bool,'))
show('1', 'arms that hand on or put a value in place of an error or of none', grep(r'(Err\((?:_|\w+)\) => (?!\{)|Err\(_\) =>|None => (?:None|Ok|Err|false|0|held|return|Slot)|Ok\(\(\)\) => Ok|_ => Err)'))
show('1', 'results that are a pair, or 0 for none', grep(r'-> (?:Option<)?\(\w|=> 0,$|return 0;|^\s*0$'))
show('2', 'functions of one shape, names that stand twice', twins())
show('3', 'loops', grep(r'^\s*(?:for|while|loop)\b'))
show('4', 'comparison, conversion and printing by hand', grep(r'fn (?:same|number|of|is_for|layer_\w+|tell_\w+|handed_on|came_of|joined_of|declined|found|of_pick|noted|said|two_bytes|half_at|word_at|hex_digit|put_decimal|by_fabric|by_bank)\b|as u16 \* 256'))
show('5', 'facts and pairs of parameters in three functions or more', repeated())
show('6', 'arrays in types and results', grep(r'^\s*(?:pub(?:\(crate\))? )?\w+: \[.*;.*\],|-> \(\[|^\s*(?:pub(?:\(crate\))? )?(?:len|count): usize,'))
show('7', 'matches on which step to run', grep(r'match (?:\*?(?:change|call|ask|turn|step|command|request|kind))\b'))
