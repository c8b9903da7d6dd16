"""Counts the forms of docs/DESIGN-PASS.md in a checkout: python3 tools/count_forms.py [ROOT]."""
import collections
import glob
import re
import sys

root = sys.argv[1] if len(sys.argv) > 1 else '.'
sources = {p[len(root):].lstrip('/'): open(p).read()
           for p in sorted(glob.glob(root + '/crates/*/src/**/*.rt', recursive=True))}


def lines(pattern):
    """The lines of the sources that a pattern matches."""
    return [f'{p}:{i} {l.strip()[:70]}' for p, s in sources.items()
            for i, l in enumerate(s.split('\n'), 1) if re.match(pattern, l)]


def show(title, found):
    print(f'{title}: {len(found)}')
    for place in found:
        print('   ', place)


# The parameters of each function, and the facts that each requires.
longest, facts = {}, collections.defaultdict(set)
for p, s in sources.items():
    for m in re.finditer(r'\bfn (\w+)(?:<[^>(]*>)?\(([^)]*(?:\([^)]*\)[^)]*)*)\)', s):
        longest[f'{p} {m.group(1)}'] = len([x for x in re.split(r',(?![^<\[]*[>\]])', m.group(2)) if x.strip()])
    name = None
    for l in s.split('\n'):
        if m := re.match(r'\s*(?:pub )?fn (\w+)', l):
            name = f'{p.split("/")[1]}::{m.group(1)}'
        if (m := re.match(r'\s*requires\s*\w*\s*\{(.*)\}\s*$', l)) and name:
            for fact in m.group(1).split(' × '):
                facts[re.sub(r'\b(\w+)\.(old|now)\b', r'\1', fact.strip().strip('()'))].add(name)

show('1 enums', lines(r'(pub )?enum '))
show('3 loops', lines(r'\s*(while|loop)\b'))
print('3 for:', len(lines(r'\s*for\b')))
show('4 records read by hand', lines(r'\s*(pub )?fn (at|from_slice|eq|cmp|clone|fmt|from|try_from)\b'))
show('5 functions with ten parameters or more', [f'{n} {k}' for k, n in sorted(longest.items()) if n >= 10])
show('5 facts that three functions or more require',
     [f'{len(v)} {k}' for k, v in sorted(facts.items(), key=lambda x: -len(x[1])) if len(v) >= 3])
show('6 buffers with a place or a count beside them',
     lines(r'.*&mut \[(u8|usize)\], (at|end|start|len|count|length): usize'))
show('7 switches', lines(r'.*match (mode|fault|check)\b'))
proofs = [open(p).read().count('\n') for p in glob.glob(root + '/crates/*/proofs/**/*.antt', recursive=True)]
print('8 proofs:', len(proofs), 'files,', sum(proofs), 'lines')
