#!/usr/bin/env python3
"""Counts, in every src/ of a checkout, the places that docs/DESIGN-PASS.md speaks of.

    tools/places.py            counts, a line for each point
    tools/places.py -v [N]     each place, of point N alone if it is given
    tools/places.py --at COMMIT ..   the same for a commit
"""
import os, re, subprocess, sys, tempfile, collections

COPIED = re.compile(r'^\s*(\w+): (?:self|\w+)(?:\.\w+)?\.\1,$')


def sources(root):
    for folder, _, files in sorted(os.walk(os.path.join(root, 'crates'))):
        if '/src' in folder and '/out/' not in folder:
            for f in sorted(files):
                if f.endswith('.rt'):
                    path = os.path.join(folder, f)
                    yield os.path.relpath(path, root), open(path).read()


def close(text, i, opening, closing):
    depth = 0
    while i < len(text):
        if text[i:i + 2] == '//':
            i = text.index('\n', i)
        elif text[i] == '"':
            i += 1
            while text[i] != '"':
                i += 2 if text[i] == '\\' else 1
        elif text[i] == "'" and re.match(r"'(\\.|[^\\'])'", text[i:]):
            i += len(re.match(r"'(\\.|[^\\'])'", text[i:]).group(0)) - 1
        elif text[i] == opening:
            depth += 1
        elif text[i] == closing:
            depth -= 1
            if depth == 0:
                return i + 1
        i += 1
    raise ValueError('unbalanced')


CLAUSE = re.compile(r'\s*(ensures|requires)\*?\s*\w*\s*\{')


def functions(text):
    """name, line, parameters, clauses, body of each function"""
    for m in re.finditer(r'^[ ]*(?:pub )?(?:const )?(?:extern "C" )?fn (\w+)', text, re.M):
        j = text.index('(', close(text, m.end(), '<', '>') if text[m.end()] == '<' else m.end())
        end = close(text, j, '(', ')')
        parameters = text[j + 1:end - 1]
        clauses, k = [], end
        while True:
            b = k
            while text[b] not in '{;':
                b += 1
            head = text[k:b]
            if re.search(r'(ensures|requires)\*?\s*\w*\s*$', head) and text[b] == '{':
                k = close(text, b, '{', '}')
                clauses.append(text[b + 1:k - 1])
                continue
            break
        body = '' if text[b] == ';' else text[b:close(text, b, '{', '}')]
        yield m.group(1), text.count('\n', 0, m.start()) + 1, parameters, clauses, body


def bare(code):
    """code without names of variables, numbers and types: what twins share"""
    code = re.sub(r'//.*', '', code)
    code = re.sub(r'\b(u8|u16|u32|u64|usize|i32|bool)\b', 'T', code)
    code = re.sub(r'\b\d[\d_]*\b', '0', code)
    code = re.sub(r'\b[A-Z][A-Z_]+\b', 'C', code)
    names = {}
    code = re.sub(r'\b(?!let|mut|if|else|while|for|in|return|match|fn|as|true|false|T|C\b)[a-z_]\w*\b',
                  lambda m: names.setdefault(m.group(0), 'v%d' % len(names)), code)
    return re.sub(r'\s+', ' ', code)


def places(root):
    found = collections.defaultdict(list)
    twins = collections.defaultdict(list)
    facts = collections.defaultdict(list)
    for path, text in sources(root):
        lines = text.split('\n')

        def note(point, line, what):
            found[point].append((path, line, what))
        for n, line in enumerate(lines, 1):
            code = line.split('//')[0]
            said = line.strip()
            if re.match(r'\s*(pub )?enum \w+', code):
                body = text[text.index(said):]
                body = body[:body.index('\n}')]
                if re.search(r'Refused\(|Accepted|Some\w*\(|None\b', body):
                    note('1 own Option or Result', n, said)
            if re.match(r'\s*(pub )?(full|over|above|refusal|met|free|raised|refuted|tared): (bool|u32),', code):
                note('1 a flag beside a value', n, said)
            if re.match(r'\s*(pub )?const (LEAF|JOIN|DUMMY|OUTPUT|WAITING|COUNT|MAXIMUM|WEIGHT): u32', code) and 'rules::' not in code:
                note('1 a number for a kind', n, said)
            if re.search(r'Refused\(\w+\)|refused\((4|n)\)|\*refusal = |^\s*refusal: (0|1?[0-9]|n),|return (1|2|4|5|7);', code):
                note('1 a number for a refusal', n, said)
            if re.search(r'^\s*//.*(, 0 where (there|it is|it has|that)|0 for (none|a number)|0 where the(re| room)|or 1, which)', line):
                note('1 a number for nothing', n, said)
            if re.search(r'\bwhile\b', code):
                note('3 index loops', n, said)
            if re.search(r'\b(tares_used|buckets_used|used): (u32|usize),', code) or re.search(r'\b(used|many): usize,?$', code) and re.search(r'\[u(32|64)[;\]]', lines[n - 2] if n > 1 else ''):
                note('6 an array with a length beside', n, said)
            if re.search(r'== (COUNT|MAXIMUM|WEIGHT)\b|letter == b', code):
                note('7 a switch on a step', n, said)
        for m in re.finditer(r'(?:^\s*\w+: [\w.]+,\n|^\s*\w+,\n){3,}', text, re.M):
            copied = [l for l in m.group(0).split('\n') if COPIED.match(l)]
            if len(copied) >= 3:
                note('4 fields copied one by one', text.count('\n', 0, m.start()) + 1, copied[0].strip() + ' ..')
        for name, line, parameters, clauses, body in functions(text):
            if re.search(r'\b(answer_number|precision_value|maximum_value|coarse_value|refusal|bit)\b', name) and re.search(r'match|if ', body):
                note('4 a conversion by hand', line, name)
            if len(body) > 40:
                twins[bare(parameters) + bare(body)].append((path, line, name))
            if re.search(r'if x < y \{\s*return (x|y);\s*\}\s*(x|y)', body):
                note('2 the library\'s by hand', line, name)
            p = re.sub(r'\s+', ' ', parameters)
            if re.search(r'\b(s|store): &\[u32\], records: usize', p):
                note('5 a store and its count', line, name)
            if re.search(r'm: Marks', p) and re.search(r'&mut \[', p):
                note('5 what is lent and its marks', line, name)
            for q in re.findall(r'\b(?:half|halved): bool, l: u32, r: u32|\blo: u32, many: usize|tares: &\[u32\], buckets: &\[u32\], lim', p):
                note('5 other parameters that travel together', line, name + ': ' + q)
            for c in clauses:
                for q in set(re.findall(r'Stores [\w.]+ [\w.]+ rs|Reads [\w.]+ rs', c)):
                    facts['the words hold records'].append((path, line, name))
    for key, group in twins.items():
        if len(group) > 1:
            found['2 twins'] += [(p, n, name + ' (like ' + group[0][2] + ')') for p, n, name in group]
    for fact, group in facts.items():
        found['5 a fact in contracts: ' + fact] += group
    return found


def main(words):
    root = os.path.join(os.path.dirname(os.path.abspath(__file__)), '..')
    if '--at' in words:
        i = words.index('--at')
        commit = words[i + 1]
        del words[i:i + 2]
        root = tempfile.mkdtemp()
        archive = subprocess.run(['git', 'archive', commit, 'crates'], cwd=os.path.dirname(os.path.abspath(__file__)) + '/..', stdout=subprocess.PIPE, check=True)
        subprocess.run(['tar', 'x', '-C', root], input=archive.stdout, check=True)
    found = places(root)
    for point in sorted(found):
        print('%4d  %s' % (len(found[point]), point))
        if '-v' in words and (len(words) < 2 or point.startswith(words[-1])):
            for path, line, what in found[point]:
                print('      %s:%d: %s' % (path, line, what))


main(sys.argv[1:])
