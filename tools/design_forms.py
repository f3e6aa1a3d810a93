#!/usr/bin/env python3
# design_forms.py: counts the places of docs/DESIGN-PASS.md in another way than design_places.py: by what a body or a comment looks like, not by names and clauses.
# It lists more than is to be changed; each place found is to be changed or to have its reason beside it.
import collections
import glob
import itertools
import re

FUNCTION = re.compile(r'^((?: *//[^\n]*\n| *#\[[^\n]*\n)*)( *)(?:pub )?(?:extern "C" )?(?:const )?fn (\w+)(?:<[^\n(]*>)?\((.*?)\)(.*?)(?:\n\2| )\{\n(.*?)\n\2\}', re.S | re.M)
NONE = re.compile(r'(?:one more|\+ 1|, )(?:than)?[^.;\n]*\b0 (?:for|if) (?:none|no|not|they are not)', re.I)

found = collections.defaultdict(list)
travel = collections.Counter()
for path in sorted(glob.glob('crates/*/src/*.rt')):
    crate = path.split('/')[1]
    text = open(path).read()
    for lead, _, name, parameters, clauses, body in FUNCTION.findall(text):
        place = f'{crate}::{name}'
        bare = re.sub(r'//[^\n]*', '', body)
        # 1: an answer that is a number for something else
        if NONE.search(lead):
            found['1 a number that stands for none, by the comment'].append(place)
        if re.search(r'-> (?:usize|u32|i64)', clauses) and re.search(r'return (?:0|1);', bare):
            found['1 an answer of 0 or 1 that leaves early'].append(place)
        # 3: a loop with one verdict, one count or one sum
        for loop in re.findall(r'^( *)(for [^\n]*|while [^\n]*|loop )\{\n(.*?)\n\1\}', bare, re.S | re.M):
            lines = [line.strip() for line in loop[2].split('\n') if line.strip() not in ('', '}')]
            if re.search(r'return (?:true|false|Some|None|Err)', loop[2]) and len(lines) <= 4:
                found['3 a loop that leaves with a verdict (all, any, find)'].append(place)
            if len(lines) <= 3 and re.search(r'\b\w+ \+= ', loop[2]):
                found['3 a loop that counts or adds up (count, sum)'].append(place)
            if loop[1].startswith(('while', 'loop')):
                found['3 while and loop'].append(place)
            if re.match(r'for \w+ in 0\.\.', loop[1]) and re.search(r'\[\w+\]', loop[2]):
                found['3 a loop over an index that reads a slice by it'].append(place)
        # 4
        if re.search(r'return 0;\n.*\n? *\w+ - \w+$', bare, re.S) or re.search(r'if \w+ < \w+ \{\n *return \w+;\n *\}\n *\w+$', bare):
            found['4 a difference or a maximum by hand'].append(place)
        # 6: a slice and the number of what is in use in it
        names = [p.split(':')[0].strip() for p in parameters.split(',') if ':' in p]
        kinds = dict((p.split(':', 1)[0].strip(), p.split(':', 1)[1].strip()) for p in parameters.split(',') if ':' in p)
        for one, next_one in zip(names, names[1:]):
            if re.match(r"&(?:'\w+ )?(?:mut )?\[", kinds[one]) and kinds[next_one] == 'usize' and re.search(rf'\b{next_one}\b[^×}}]* ≤ length {one}\.', clauses):
                found['6 a slice with its count behind it' + (', written' if '&mut' in kinds[one] else ', read')].append(place)
        # 7
        if re.search(r'\bbool\b', ' '.join(kinds.values())):
            found['7 a parameter that is a truth value'].append(place)
        # 5: what travels together
        for group in itertools.combinations(sorted(f'{n}: {kinds[n]}' for n in names), 3):
            travel[group] += 1
for what in sorted(found):
    print(f'{what}: {len(found[what])}')
    for place in found[what]:
        print('   ', place)
print('5 three parameters that travel together through five functions or more')
for group, count in travel.most_common():
    if count >= 5:
        print('   ', count, ', '.join(group))
