#!/usr/bin/env python3
"""Counts, in crates/*/src, the places that are written as an older language had them: `tools/places.py` prints a number for each kind of
place, `tools/places.py KIND` the places themselves, and a folder as second argument reads that copy of the repository."""
import glob, os, re, sys

def functions(text):
    """Each function: its name, its line, its header up to the body, and its body."""
    for m in re.finditer(r'^( *)(?:pub(?:\(\w+\))? )?(?:extern "C" )?fn (\w+)', text, re.M):
        start = m.start()
        open_at = re.search(r'\{\n', text[m.end():])
        # clauses stand between the header and the body; the body opens on a line of its own, or ends the header's line
        body_open = re.search(r'(?m)^%s\{\n|\) (?:-> [^\n]*)?\{\n|\) \{\n' % m.group(1), text[m.end():])
        if not body_open:
            continue
        at = m.end() + body_open.end()
        close = re.search(r'(?m)^%s\}$' % m.group(1), text[at:])
        end = at + close.start() if close else len(text)
        yield m.group(2), text.count('\n', 0, start) + 1, text[m.start():m.end() + body_open.start()], text[at:end]

def each(pattern, flags=re.M):
    def find(text):
        for m in re.finditer(pattern, text, flags):
            yield text.count('\n', 0, m.start()) + 1, m.group(0).strip().split('\n')[0]
    return find

def option_like(text):
    """Enums of two variants, one of which carries nothing."""
    for m in re.finditer(r'^(?:pub )?enum (\w+)[^\{]*\{\n(.*?)^\}', text, re.M | re.S):
        variants = re.findall(r'^    (\w+)(?=[,({ ])', m.group(2), re.M)
        if len(variants) == 2 and re.search(r'^    \w+,$', m.group(2), re.M) and re.search(r'^    \w+[({ ]', m.group(2), re.M):
            yield text.count('\n', 0, m.start()) + 1, 'enum ' + m.group(1)

def flags_beside(text):
    """Fields of a struct that are a flag or an optional failure beside its other fields."""
    for m in re.finditer(r'^(?:pub )?struct (\w+)[^;\{]*\{\n(.*?)^\}', text, re.M | re.S):
        for f in re.finditer(r'^    (?:pub )?(\w+): (?:bool|Option<Error>),$', m.group(2), re.M):
            yield text.count('\n', 0, m.start(2) + f.start()) + 1, m.group(1) + '.' + f.group(1)

def codes(text):
    """A number that stands for none, for a kind or for a refusal: handed back as a literal beside other results."""
    for name, line, head, body in functions(text):
        if re.search(r'-> (?:u8|usize|Packed)\b', head) and name not in ('number', 'from', 'kind_load', 'kept'):
            if re.search(r'^\s*(?:return )?(?:refused\()?(?:3|4|5|10|11|16|17|64|65)\)?;?$', body, re.M) or len(re.findall(r'=> \d+,$', body, re.M)) >= 3 \
                    or re.search(r'^\s*(?:return )?[12];?$', body, re.M) and 'count' not in name and name != 'digits_at':
                yield line, name

def loops(text):
    yield from each(r'^\s*(?:while|loop)\b.*$')(text)

def ranges(text):
    yield from each(r'^\s*for \w+ in [^\n]*\.\.[^\n]*$')(text)

def by_hand(text):
    """Tests of an enum's variant, empty records and conversions written out."""
    for name, line, head, body in functions(text):
        if len(re.findall(r'=> (?:true|false),$', body, re.M)) >= 2 and 'match' in body:
            yield line, name + ': a test of variants'
        elif re.match(r'no_|nobody|none$|zero_', name) and re.search(r'^\s+\w+: 0,$', body, re.M):
            yield line, name + ': an empty record'
        elif len(re.findall(r'=> (?:\w+::\w+|\d+),$', body, re.M)) >= 9:
            yield line, name + ': a conversion'
        elif re.search(r'\[i\] != \w+\[i\]', body):
            yield line, name + ': equality'
        elif re.match(r'\s*if \w+ \{\s*return [\w:]+;\s*\}\s*[\w:]+\s*$', body) and re.search(r'\w+: bool\)', head):
            yield line, name + ': a conversion'
        elif re.match(r'\s*\w+ as \w+\s*$', body):
            yield line, name + ': a conversion'

def buffers(text):
    yield from each(r'^\s*out: &mut \[u8; 65536\],|fn [^\n]*out: &mut \[u8; 65536\]')(text)

def together(text):
    """Parameters that travel together: the five of an opening."""
    for name, line, head, body in functions(text):
        if 'process_home: [u8; 16]' in head and 'object_home: [u8; 16]' in head:
            yield line, name

def switches(text):
    """A flag among the parameters that says which step to run."""
    for name, line, head, body in functions(text):
        for p in re.findall(r'\b(drains|lent|blanks|followed|to_object|typing)\b: bool', head):
            yield line, name + ': ' + p

def chains(text):
    """A test of several, written as one return after another."""
    for name, line, head, body in functions(text):
        if '-> bool' in head and len(re.findall(r'return (?:false|true);', body)) >= 1 and not re.search(r'\b(?:while|for|loop|match)\b', body):
            yield line, name

KINDS = [
    ('1 enums of the shape of Option', option_like), ('1 a flag beside a value', flags_beside), ('1 a number for none, a kind or a refusal', codes),
    ('3 while and loop', loops), ('3 for over a range', ranges),
    ('4 tests, empty records, conversions, equality by hand', by_hand),
    ('5 the parameters of an opening', together), ('5 and 6 a buffer and a place in it', buffers),
    ('7 a flag that says which step', switches), ('tests as returns, one after another', chains),
]

def main():
    wanted = sys.argv[1] if len(sys.argv) > 1 else ''
    root = sys.argv[2] if len(sys.argv) > 2 else os.path.join(os.path.dirname(__file__), '..')
    for title, find in KINDS:
        found = []
        for path in sorted(glob.glob(os.path.join(root, 'crates/*/src/*.rt'))):
            text = open(path, encoding='utf-8').read().split('#[cfg(test)]')[0]
            found += ['%s:%d %s' % (os.path.relpath(path, root), line, what) for line, what in find(text)]
        if not wanted:
            print('%4d  %s' % (len(found), title))
        elif title.startswith(wanted):
            print('\n'.join(['%d  %s' % (len(found), title)] + ['      ' + f for f in found]))

main()
