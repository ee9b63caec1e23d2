#!/usr/bin/env python3
"""Groups of functions of crates/*/src that differ only in names of functions, integer types, numbers and clauses."""
import collections, glob, re

def functions(path):
    text = re.sub(r'//.*', '', open(path).read())
    for m in re.finditer(r'^( *)(?:pub )?(?:extern "C" )?fn (\w+)', text, re.M):
        indent = m.group(1)
        end = text.find('\n' + indent + '}', m.start())
        whole = text[m.start():end]
        clause = re.search(r'\n\s*(requires|ensures)\b', whole)
        body = whole.find('\n' + indent + '{\n') if clause else whole.find('{')
        yield m.group(2), (whole[:clause.start()] if clause else whole[:body]) + whole[body:]

def shape(text):
    text = re.sub(r'\b\w+::', '', text)
    text = re.sub(r'\b\w+\(', 'F(', text)
    text = re.sub(r'\b(u8|u16|u32|u64|usize)\b', 'INT', text)
    text = re.sub(r'\b\d+(INT|u64|u32|u16|u8|usize)?\b', 'N', text)
    return re.sub(r'\s+', '', text)

found = collections.defaultdict(list)
for path in sorted(glob.glob('crates/*/src/*.rt')):
    for name, text in functions(path):
        found[shape(text)].append(path.split('/')[1] + '::' + name)
groups = [g for g in found.values() if len(g) > 1]
for group in groups:
    print(' '.join(group))
print(len(groups), 'groups,', sum(map(len, groups)), 'functions')
