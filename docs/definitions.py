#!/usr/bin/env python3
"""Checks docs/DEFINITIONS.md against the definitions that the clauses of `joana` reach, and writes its counts anew.

Headings and descriptions are kept; a file that is new on the page is listed on standard error, to be put
under a heading with a description by hand. Usage: docs/definitions.py [--write]
"""
import glob, os, re, sys, textwrap
from collections import OrderedDict

ROOT = os.path.dirname(os.path.dirname(os.path.abspath(__file__)))
CRATES = os.path.join(ROOT, 'crates')
WORD = re.compile(r"[A-Za-z_«][A-Za-z0-9_'»-]*")
START = re.compile(r"^(?:(?:abbrev|unfoldable|irreducible|opaque|pub|data|record)\s+)+([^\s:({]+)")


def uses_of(text, opening='use'):
    """name here -> (path, name there)"""
    found = {}
    for path, names in re.findall(opening + r"\s+Rattle\.([\w.]+)\.\{([^}]*)\}", text):
        for item in names.split(','):
            parts = item.split()
            if parts:
                found[parts[-1]] = (path, parts[0])
    return found


def parse_specs():
    defs, makers, uses = {}, {}, {}
    for path in sorted(glob.glob(CRATES + '/*/specs/**/*.antt', recursive=True)):
        crate = path[len(CRATES) + 1:].split('/')[0]
        module = os.path.relpath(path, f'{CRATES}/{crate}/specs')[:-5].replace('/', '.')
        if module == 'Lib':
            continue
        key, text = (crate, module), open(path, encoding='utf-8').read()
        uses[key] = uses_of(text)
        text = re.sub(r"(?m)^use [^{\n]*(\{[^}]*\})?", "", text)
        name = None
        for line in text.split('\n'):
            bare = line.split('--')[0].rstrip()
            if not bare:
                continue
            started = START.match(bare) if not bare[0].isspace() else None
            if started and started.group(1) != 'use':
                name = started.group(1)
                defs.setdefault(key, OrderedDict())[name] = []
            if name:
                defs[key][name].append(bare)
                made = re.match(r"^\s+(?:pub\s+)?([\w'-]+)\s*:", bare)
                if made and defs[key][name][0].split(' ')[0:3].count('data'):
                    makers[(key, made.group(1))] = name
    return defs, makers, uses


def parse_types():
    types = {}
    for path in sorted(glob.glob(CRATES + '/*/src/**/*.rt', recursive=True)):
        crate = path[len(CRATES) + 1:].split('/')[0]
        text = open(path, encoding='utf-8').read()
        rel = os.path.relpath(path, f'{CRATES}/{crate}')
        brought = {}
        for start, names in re.findall(r"(?m)^use (\w+)[\w:]*::(\{[^}]*\}|\w+);", text):
            for name in WORD.findall(names):
                brought[name] = crate if start == 'crate' else start
        for found in re.finditer(r"(?m)^pub (?:struct|enum) (\w+)[^\n;{]*(\{|;|\()", text):
            end = text.index('\n}', found.start()) + 2 if found.group(2) == '{' and '}' not in text[found.start():text.index('\n', found.start())] else text.index('\n', found.start())
            lines = [l for l in text[found.start():end].split('\n') if l.strip() and not l.strip().startswith('//')]
            types[(crate, found.group(1))] = (rel, lines, brought)
    return types


def main():
    defs, makers, uses = parse_specs()
    types = parse_types()
    top = open(CRATES + '/joana_top/src/top.rt', encoding='utf-8').read()
    ghost = uses_of(top, 'ghost use')
    body = top[top.index('pub fn joana'):]
    clauses = body[:body.index('\n{')]
    reached, reached_types, library, todo = set(), set(), {}, []

    def see(path, name):
        parts = path.split('.')
        if 'declared' in parts[2:3] and os.path.isdir(f'{CRATES}/{parts[0]}'):
            crate = parts[0]
            for word in [name] + parts[::-1]:
                if (crate, word) in types:
                    see_type(crate, word)
                    return
            return
        if parts[1:2] == ['specs'] and (parts[0], '.'.join(parts[2:])) in defs:
            key = (parts[0], '.'.join(parts[2:]))
            name = name if name in defs[key] else makers.get((key, name), name)
            if name in defs[key] and (key, name) not in reached:
                reached.add((key, name))
                todo.append((key, name))
        else:
            library.setdefault(parts[0], {}).setdefault('.'.join(p for p in parts[1:] if p != 'specs'), set()).add(name)

    def see_type(crate, name):
        if (crate, name) in reached_types:
            return
        reached_types.add((crate, name))
        for word in WORD.findall('\n'.join(types[(crate, name)][1])):
            owner = types[(crate, name)][2].get(word, crate)
            # contracts see these two as lists and numbers
            if (owner, word) in types and word not in ('List', 'Id', 'Name'):
                see_type(owner, word)

    for word in set(WORD.findall(clauses)):
        if word in ghost:
            see(*ghost[word])
    # the contract of `Status::code`, and those of the traits `Files` and `Sink`
    see('joana_base.specs.Status', 'code_of')
    for name in ('UnlessFailed', 'OnFailed'):
        see('jo_io.specs.Files', name)
    while todo:
        key, name = todo.pop()
        text = '\n'.join(defs[key][name])
        signs = [w for w in list(uses[key]) + list(defs[key]) if '◌' in w and (f" {w.strip('◌')} " in text or (w == '◌>>=◌' and '←' in text))]
        for word in set(WORD.findall(text)) | set(signs):
            if word in defs[key] and word != name:
                see(f'{key[0]}.specs.{key[1]}', word)
            elif (key, word) in makers:
                see(f'{key[0]}.specs.{key[1]}', word)
            elif word in uses[key]:
                see(*uses[key][word])
    page(defs, types, reached, reached_types, library)


def wrapped(text, indent='  '):
    whole = re.sub(r'(`[^` ]+`) (\d)', '\\1\N{NO-BREAK SPACE}\\2', text).replace('\N{NO-BREAK SPACE}', '~')
    return textwrap.fill(whole, 110, subsequent_indent=indent, break_long_words=False, break_on_hyphens=False).replace('~', ' ')


def page(defs, types, reached, reached_types, library):
    """Writes names and counts anew, section by section; says what the page lacks."""
    path = os.path.join(ROOT, 'docs/DEFINITIONS.md')
    lines_of = lambda key, names: sum(len(defs[key][n]) for n in names)
    believed, rest = OrderedDict(), OrderedDict()
    for key in defs:
        believed[key] = [n for n in defs[key] if (key, n) in reached]
        rest[key] = [n for n in defs[key] if (key, n) not in reached]
    by_file = OrderedDict()
    for crate, name in sorted(reached_types):
        by_file.setdefault(f'{crate}/{types[(crate, name)][0]}', []).append((crate, name))
    sections = re.split(r'(?m)^(?=##)', open(path, encoding='utf-8').read())
    seen, out = set(), []
    first, second = 0, 0
    for section in sections:
        title = section.split('\n', 1)[0]
        sum_here = 0

        def item(m):
            nonlocal sum_here
            text = ' '.join(m.group(0).split())
            specs = re.match(r'- `(\w+)/specs/([\w/]+)` \((.*); \d+ lines\): ', text)
            plain = re.match(r'- `(\w+/src/[\w/]+\.rt)`: ', text)
            if specs:
                key = (specs.group(1), specs.group(2).replace('/', '.'))
                seen.add(key)
                names = believed.get(key, [])
                if not names:
                    print('gone:', key)
                    return ''
                sum_here += lines_of(key, names)
                return wrapped(f'- `{key[0]}/specs/{specs.group(2)}` ({specs.group(3)}; {lines_of(key, names)} lines): '
                               + ', '.join(f'`{n}` {len(defs[key][n])}' for n in names) + '.') + '\n'
            if plain:
                names = by_file.pop(plain.group(1), [])
                sum_here += sum(len(types[t][1]) for t in names)
                return (wrapped(f'- `{plain.group(1)}`: ' + ', '.join(f'`{n[1]}` {len(types[n][1])}' for n in names) + '.') + '\n') if names else ''
            return m.group(0)

        if title.startswith('### ') and not title.startswith('### Words'):
            section = re.sub(r'(?ms)^- .*?(?=^- |^$|\Z)', item, section)
            if title.startswith('### Types'):
                for file, names in by_file.items():
                    section = section.rstrip('\n') + '\n' + wrapped(f'- `{file}`: ' + ', '.join(f'`{n[1]}` {len(types[n][1])}' for n in names) + '.') + '\n\n'
                    sum_here += sum(len(types[t][1]) for t in names)
            section = re.sub(r'\(\d+ lines\)', f'({sum_here} lines)', section, count=1)
            first += sum_here
        elif title.startswith('## What only'):
            rows = dict(re.findall(r'(?m)^\| `([\w/]+)` \| \d+ \| \d+ \| (.*) \|$', section))
            table, beside = [], []
            for key, names in rest.items():
                name = f'{key[0]}/specs/{key[1].replace(".", "/")}'
                if names and believed[key]:
                    beside.append(wrapped(f'- `{name}` ({lines_of(key, names)} lines): ' + ', '.join(f'`{n}`' for n in names) + '.'))
                elif names:
                    if name not in rows:
                        print('new row, to be described:', name)
                    table.append(f'| `{name}` | {len(names)} | {lines_of(key, names)} | {rows.get(name, "")} |')
            second = sum(lines_of(k, n) for k, n in rest.items())
            section = re.sub(r'(?ms)(^\|---.*?\n).*?(^\nBeside these, .*?\n\n).*', lambda m: m.group(1) + '\n'.join(table) + '\n' + m.group(2) + '\n'.join(beside) + '\n', section)
        out.append(section)
    for key in believed:
        if believed[key] and key not in seen:
            print('new file, to be put under a heading:', f'- `{key[0]}/specs/{key[1].replace(".", "/")}` (; {lines_of(key, believed[key])} lines): .')
    count, kinds = len(reached), sum(len(types[t][1]) for t in reached_types)
    first -= kinds
    text = ''.join(out)
    text = re.sub(r'## What must be believed: .*', f'## What must be believed: {count} definitions, {first} lines', text)
    text = re.sub(r'(## What only proofs, and contracts of other calls, need): .*', lambda m: f'{m.group(1)}: {sum(len(n) for n in rest.values())} definitions, {second} lines', text)
    print(f'believed: {count} definitions, {first} lines, types {kinds} lines; the rest: {second} lines')
    if '--write' in sys.argv:
        open(path, 'w', encoding='utf-8').write(text)


if __name__ == '__main__':
    main()
