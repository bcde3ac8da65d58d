#!/usr/bin/env python3
# Places of src/ in which a form stands that a plainer one may take the place of: by point, the count and with -v each place.
# count_forms.py [-v] [FOLDER]: FOLDER holds crates/, and is the repository's top if it is left out.
import glob, os, re, sys

VERBOSE = '-v' in sys.argv[1:]
ARGS = [a for a in sys.argv[1:] if a != '-v']
TOP = ARGS[0] if ARGS else os.path.join(os.path.dirname(os.path.abspath(__file__)), '..')

FILES = sorted(glob.glob(os.path.join(TOP, 'crates/*/src/**/*.rt'), recursive=True))


def short(path):
    parts = os.path.relpath(path, os.path.join(TOP, 'crates')).split(os.sep)
    return parts[0] + '/' + '/'.join(parts[2:])


def without_comments(text):
    return re.sub(r'//[^\n]*', '', text)


# Each function: its file, name, parameters, result, clauses and body.
FUNCTION = re.compile(r'(?:pub )?(?:extern "C" )?fn (\w+)(?:<(?:->|[^>])*>)?\(')


def functions(text):
    for m in FUNCTION.finditer(text):
        i, depth = m.end(), 1
        while depth:
            depth += {'(': 1, ')': -1}.get(text[i], 0)
            i += 1
        parameters = text[m.end():i - 1]
        # the body begins at the first line that is a brace alone, or at a brace behind the head
        head = re.compile(r'\n\{\n|[^\n]\{\n').search(text, i)
        if not head:
            continue
        start = text.index('{', head.start() if text[head.start()] == '\n' else head.start() + 1)
        signature = text[i:start]
        j, depth = start + 1, 1
        while depth:
            depth += {'{': 1, '}': -1}.get(text[j], 0)
            j += 1
        result = re.match(r'\s*->\s*([^\n{]+)', signature)
        yield m.group(1), parameters, result.group(1).strip() if result else '', signature, text[start + 1:j - 1]


def shape(text):
    text = re.sub(r'b?"[^"]*"', 'S', text)
    text = re.sub(r'\b\d[\d_]*\b', 'N', text)
    names = {}
    return re.sub(r'\s+', ' ', re.sub(r'\b[A-Za-z_]\w*\b', lambda m: m.group(0) if m.group(0) in KEEP else names.setdefault(m.group(0), 'v%d' % len(names)), text)).strip()


KEEP = set('if else while for in match let mut return loop fn pub struct enum true false as usize u8 u16 u32 u64 bool Some None Ok Err N S'.split())

found = {}


def place(point, where, what):
    found.setdefault(point, []).append((where, what))


by_shape, types_by_shape, parameter_sets, clauses = {}, {}, {}, {}
for path in FILES:
    text = without_comments(open(path, encoding='utf-8').read())
    where = short(path)
    for m in re.finditer(r'enum (\w+)[^{]*\{(.*?)\n\}', text, re.S):
        variants = re.findall(r'^    (\w+)(.*?),$', m.group(2), re.M)
        if len(variants) <= 3 and any(v[1] for v in variants) and any(not v[1] or 'Refus' in v[0] or v[0] in ('Wrong', 'Bad') for v in variants):
            place('1 enums of the shape of Option or Result', where, m.group(1))
    for m in re.finditer(r'struct (\w+)[^{;]*\{(.*?)\n\}', text, re.S):
        fields = re.findall(r'^    (?:pub )?(\w+): ([^\n]+),$', m.group(2), re.M)
        if len(fields) > 1 and any(t == 'bool' and n in ('more', 'shown', 'out_of_range', 'found') for n, t in fields):
            place('1 a flag with a value beside it', where, m.group(1))
        types_by_shape.setdefault(tuple(f[0] for f in fields) + tuple(f[1] for f in fields), []).append((where, m.group(1)))
    for m in re.finditer(r'((?:^(?:pub )?const \w+: u8 = [^\n]*;\n\n?){3,})', text, re.M):
        place('1 numbers for kinds or refusals', where, ' '.join(re.findall(r'const (\w+)', m.group(1))))
    for name, parameters, result, signature, body in functions(text):
        at = where + '::' + name
        if result == 'u8' and len(re.findall(r'(?:return |=> )\w+', body)) > 2:
            place('1 numbers for kinds or refusals', where, name)
        lines = [l for l in body.split('\n') if l.strip()]
        kinds = [t.strip().split(':')[-1].strip() for t in parameters.split(',') if t.strip()]
        if len(lines) >= 2:
            by_shape.setdefault(shape(body), []).append(at)
        for m in re.finditer(r'\b(while|loop)\b([^{]*)\{', body):
            place('3 loops that count by hand', at, (m.group(1) + m.group(2)).strip())
        if re.match(r'(same|order|before|at_most|wide|bit|held_to|copy|print_answer|same_\w+|exchange|put_row|between|is_letter|saturating_sub)\w*$', name) and 'extern' not in signature:
            place('4 equality, order, copying, conversion, printing by hand', at, '')
        names = [p.split(':')[0].strip() for p in parameters.split(',') if ':' in p]
        for group in (('settings', 'hall', 'line'), ('hall', 'hall_index', 'line', 'line_index'), ('text', 'whole', 'fract')):
            if all(n in names for n in group):
                parameter_sets.setdefault(group, []).append(at)
        for clause in re.findall(r'requires (?:\w+ )?\{ (.*?) \}\n', signature + '\n'):
            clauses.setdefault(clause, []).append(at)
        if any(k == 'bool' for k in kinds) and 'extern' not in signature:
            for n, k in zip(names, kinds):
                if k == 'bool' and re.search(r'\bif !?%s\b' % n, body):
                    place('7 switches on which step to run', at, n)
        if re.search(r'match \w+ \{\n\s+0 =>', body):
            place('7 switches on which step to run', at, 'match on a number')
        if 'size' in names and any(n in names for n in ('buffer', 'target', 'text')) or 'count' in names and 'lines' in names:
            place('6 buffers with a length beside them', at, '')
    for m in re.finditer(r'const (\w+): \[\w+; \d+\] = \[', text):
        if re.search(r'const \w+: \[\w+; %s\] = \[' % re.search(r'; (\d+)\]', m.group(0)).group(1), text[m.end():]):
            place('6 parallel arrays', where, m.group(1))
for s, all_at in by_shape.items():
    if len(all_at) > 1:
        for at in all_at:
            place('2 twins: functions', at, 'with %d others' % (len(all_at) - 1))
for s, all_at in types_by_shape.items():
    if len(all_at) > 1 and len(s) > 2:
        for where, name in all_at:
            place('2 twins: types', where, name)
for group, all_at in parameter_sets.items():
    for at in all_at:
        place('5 parameters that travel together', at, ' '.join(group))
for clause, all_at in clauses.items():
    if len(all_at) > 2:
        for at in all_at:
            place('5 a fact in the contracts of three functions or more', at, clause)
answers = 0
for path in glob.glob(os.path.join(TOP, 'crates/*/proofs/**/*.antt'), recursive=True):
    if os.sep + 'out' + os.sep not in path:
        answers += len(re.findall(r'^(?:abbrev )?pub [^\n]* : goal\.', open(path, encoding='utf-8').read(), re.M))
for point in sorted(found):
    print('%5d  %s' % (len(found[point]), point))
    if VERBOSE:
        for where, what in found[point]:
            print('         %s  %s' % (where, what))
print('%5d  8 answers and invariants' % answers)
