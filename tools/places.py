#!/usr/bin/env python3
"""Counts the places of docs/DESIGN-PASS.md in crates/*/src, by text.

usage: python3 tools/places.py [--list POINT] [CRATE ..]     at the top of the repository
"""
import collections, glob, re, sys

TYPES = r'\b(u8|u16|u32|u64|i32|i64|usize|f64|bool)\b'


def functions(text):
    """(name, parameters, result, clauses, body) of each function."""
    for m in re.finditer(r'(?m)^[ \t]*(?:pub(?:\(crate\))? )?(?:extern "C" )?fn (\w+)', text):
        at = text.index('(', m.end())
        depth, i = 0, at
        while True:
            depth += {'(': 1, ')': -1}.get(text[i], 0)
            i += 1
            if depth == 0:
                break
        params = text[at + 1:i - 1]
        opened = re.compile(r'\n[ \t]*\{\n|\{\n').search(text, i)
        # the body begins at the first brace alone at the end of a line that is no clause
        j = i
        while True:
            k = text.find('{', j)
            if k < 0:
                break
            line = text[text.rfind('\n', 0, k) + 1:k]
            if re.search(r'\b(requires|ensures)( \w+)? $', line):
                d, k2 = 0, k
                while True:
                    d += {'{': 1, '}': -1}.get(text[k2], 0)
                    k2 += 1
                    if d == 0:
                        break
                j = k2
                continue
            break
        if k < 0:
            continue
        d, e = 0, k
        while True:
            d += {'{': 1, '}': -1}.get(text[e], 0)
            e += 1
            if d == 0:
                break
        head = text[i:k]
        result = re.match(r'\s*->\s*([^\n{]+?)\s*(?:\n|\{|$)', head)
        yield m.group(1), params, result.group(1) if result else '', head, text[k:e], text[:m.start()].count('\n') + 1


def plain(text):
    return re.sub(r'(?m)//.*$', '', text)


def places(files):
    found = collections.OrderedDict((p, []) for p in ('1 enums', '1 flags', '1 numbers', '2 twins', '3 counted', '3 indexed', '4 by hand', '5 facts', '5 groups', '6 lengths', '6 parallel', '7 switches'))
    twins, facts, groups = collections.defaultdict(list), collections.defaultdict(set), collections.defaultdict(list)
    for path in files:
        text = plain(open(path).read())
        where = path.split('/')[1]
        for m in re.finditer(r'(?m)^(?:pub )?enum (\w+) \{(.*?)^\}', text, re.S):
            if re.search(r'\b(Refused|Refusal\(|Nothing|Outside|Skipped|Singular|Short)\b', m.group(2)):
                found['1 enums'].append(f'{where} {m.group(1)}')
        for m in re.finditer(r'(?m)^(?:pub )?struct (\w+) \{(.*?)^\}', text, re.S):
            if re.search(r'\b(refusal: u32|\w*seen: bool|found: bool|known: bool)\b', m.group(2)):
                found['1 flags'].append(f'{where} {m.group(1)}')
            lens = re.search(r'\b(length|size|count|used|len): (usize|u64)', m.group(2))
            if lens and re.search(r': \[', m.group(2)):
                found['6 lengths'].append(f'{where} {m.group(1)}')
        for name, params, result, head, body, line in functions(text):
            at = f'{where} {name}'
            if result == 'u32' and 'extern' not in text[max(0, text.find('fn ' + name) - 14):text.find('fn ' + name)] and re.search(r'refusal::[A-Z]|refusal', body):
                found['1 numbers'].append(at)
            shape = re.sub(r'\b\d[\w.]*\b|\b[A-Z][A-Z_0-9]+\b', 'N', re.sub(TYPES, 'T', params + '->' + result + body))
            shape = re.sub(r'\s+', ' ', re.sub(r'\b%s\b' % name, 'SELF', shape))
            if body.count('\n') > 3:
                twins[shape].append(at)
            for m in re.finditer(r'\bwhile ([^{]*)\{', body):
                d, e = 1, m.end()
                while d:
                    d += {'{': 1, '}': -1}.get(body[e], 0)
                    e += 1
                if re.search(r'\b(\w+) (\+=|-=) 1;|\b(\w+) = \3 [+-] 1;', body[m.end():e]):
                    found['3 counted'].append(at)
            for m in re.finditer(r'\bfor (\w+) in [^{]*\.\.[^{]*\{', body):
                d, e = 1, m.end()
                while d:
                    d += {'{': 1, '}': -1}.get(body[e], 0)
                    e += 1
                if re.search(r'\[%s\]|\[\w+ \+ %s\]' % (m.group(1), m.group(1)), body[m.end():e]):
                    found['3 indexed'].append(at)
            if re.match(r'(same|equal|is_equal|below|less|no_later|at_most|copy|clone|larger|smaller)(_|$)', name):
                found['4 by hand'].append(at)
            for f in set(re.findall(r'(?<!\.)\b([A-Z][a-z]\w+)\b(?![.(])', ' '.join(re.findall(r'(?:requires|ensures)[^{]*\{(.*?)\}\s*(?=\n)', head, re.S)))):
                facts[where + ' ' + f].add(name)
            ps = [p.strip() for p in re.sub(r'\s+', ' ', params).split(',') if p.strip()]
            for k in range(len(ps) - 2):
                groups[' , '.join(ps[k:k + 3])].append(at)
            slices = re.findall(r'(\w+): &(?:mut )?\[', params)
            if {'times', 'freqs'} <= set(slices):
                found['6 parallel'].append(at)
            if re.search(r'\b(second|stage|kind|which): (bool|u8|u32|usize)', params):
                found['7 switches'].append(at)
    types = set(re.findall(r'(?m)^(?:pub )?(?:struct|enum) (\w+)', ' \n'.join(open(f).read() for f in glob.glob('crates/*/src/**/*.rt', recursive=True))))
    found['2 twins'] = [' = '.join(v) for v in twins.values() if len(v) > 1]
    found['5 facts'] = [k + ': ' + str(len(v)) for k, v in sorted(facts.items()) if len(v) > 2 and k.split()[1] not in types]
    found['5 groups'] = [k + ': ' + str(len(v)) for k, v in sorted(groups.items()) if len(v) > 2]
    return found


def main():
    args = sys.argv[1:]
    point = args[args.index('--list') + 1] if '--list' in args else None
    names = [a for a in args if a not in ('--list', point)]
    files = sorted(f for f in glob.glob('crates/*/src/**/*.rt', recursive=True) if not names or f.split('/')[1] in names)
    for p, v in places(files).items():
        if point is None:
            print(f'{p:12} {len(v)}')
        elif p.startswith(point):
            for line in v:
                print(f'{p}: {line}')


main()
