#!/usr/bin/env python3
# design_places.py [-v]: counts, in crates/*/src, the places of the eight points of docs/DESIGN-PASS.md; -v names each place.
import collections
import glob
import re
import sys

VERBOSE = '-v' in sys.argv[1:]
FUNCTION = re.compile(r'^( *)(?:pub )?(?:extern "C" )?(?:const )?fn (\w+)(?:<[^\n(]*>)?\((.*?)\)(.*?)(?:\n\1| )\{\n(.*?)\n\1\}', re.S | re.M)
# What an enum calls the answer that there is none, or that something is refused.
NONE = {'Refused', 'Overlap', 'Nothing', 'Missing', 'Elsewhere', 'End', 'Short', 'TooMany', 'TooLarge', 'Full', 'Gone', 'Wrong', 'Unclean', 'Disjoint'}
KIND = r'(?:operation|rank|fate|region|edge|stronger)'
COMPARED = re.compile(r'\b' + KIND + r' *(?:==|!=|<=|<) *\d+|\d+ *(?:==|!=|<=|<) *\b' + KIND + r'\b')
# What the library has: a comparison, a maximum, a difference that stays at 0, bytes of a word, a conversion, by hand.
BY_HAND = {'is_lower', 'larger', 'less_one', 'place_number', 'wide', 'wide8', 'wide32', 'read_word', 'write_word', 'put_number', 'numbered', 'digit_of', 'start_of', 'divide', 'same_bytes', 'same_words', 'is_zero', 'less'}


def functions():
    for path in sorted(glob.glob('crates/*/src/*.rt')):
        crate = path.split('/')[1]
        text = re.sub(r'//[^\n]*', '', open(path).read())
        for m in FUNCTION.finditer(text):
            yield crate, m.group(2), ' '.join(m.group(3).split()), m.group(4), m.group(5)


def told(name, places):
    print(f'{name}: {len(places)}')
    if VERBOSE:
        for place in places:
            print('   ', place)


enums, loops, bare, compared, codes = [], [], [], [], []
for path in sorted(glob.glob('crates/*/src/*.rt')):
    crate = path.split('/')[1]
    text = re.sub(r'//[^\n]*', '', open(path).read())
    for m in re.finditer(r'^(?:pub )?enum (\w+)[^{]*\{(.*?)\n\}', text, re.S | re.M):
        variants = re.findall(r'^    (\w+)', m.group(2), re.M)
        if len(variants) < 6 and NONE & set(variants):
            enums.append(f'{crate}::{m.group(1)}')
everything = list(functions())
facts, need = collections.defaultdict(set), collections.defaultdict(set)
travel, lengths, switches, hand = collections.defaultdict(set), [], [], []
for crate, name, parameters, clauses, body in everything:
    place = f'{crate}::{name}'
    loops += [place] * len(re.findall(r'^ *while ', body, re.M))
    bare += [place] * len(re.findall(r'^ *loop ', body, re.M))
    compared += [f'{place}: {c}' for c in COMPARED.findall(body)]
    if re.search(r'-> usize', clauses) and re.search(r'return [1-9]\d*;', body):
        codes.append(place)
    for c in re.finditer(r'requires(?: \w+)? \{ (.*) \}', clauses):
        for fact in c.group(1).split(' × '):
            facts[fact.strip('() ')].add(place)
    names = [p.split(':')[0].strip() for p in parameters.split(',')]
    for group in ('table source', 'rows n', 'table source changes notes incoming changed marks rows prepared', 'splices prepared', 'rows marks', 'b listed', 'notes incoming changed'):
        if set(group.split()) <= set(names):
            travel[group].add(place)
    if re.search(r'\d+ \* \w+(?: \+ \d+)? ≤ length \w+\.(?:now|old)', clauses) and re.search(r'&(?:mut )?\[u32\]', parameters):
        lengths.append(place)
    if re.search(r'\w+: bool\b', parameters) or re.search(r'\bjob: Job\b', parameters):
        switches.append(place)
    if name in BY_HAND:
        hand.append(place)
told('1 enums of the shape of Option or Result', enums)
told('1 functions that answer a code', codes)
told('1 comparisons of a kind with a number', compared)
told('3 while loops', loops)
told('3 loops without a condition', bare)
told('4 functions that do by hand what the library has', hand)
often = sorted((f for f in facts if len(facts[f]) > 2), key=lambda f: -len(facts[f]))
told('5 facts in the requires of three functions or more', [f'{len(facts[f])} {f}' for f in often])
for group in travel:
    told(f'5 functions that take {group}', sorted(travel[group]))
told('6 functions that take a slice of words with a count beside it', lengths)
told('7 functions that take a switch', switches)
print('functions:', len(everything))
