#!/usr/bin/env python3
"""Counts, by the points of docs/DESIGN-PASS.md, the places in crates/*/src. Usage: tools/places.py [POINT] in the repository's folder."""
import collections
import pathlib
import re
import sys

ITEM = re.compile(r'^(?:pub(?:\([a-z]+\))? )?(?:extern "C" )?(fn|enum|struct) (\w+)', re.M)


def sources():
    for path in sorted(pathlib.Path('crates').glob('*/src/*.rt')):
        yield str(path), path.read_text()


def bare(text):
    """The text without comments and strings."""
    text = re.sub(r'b?"(?:\\.|[^"\\])*"', '""', text, flags=re.S)
    return re.sub(r'//[^\n]*', '', text)


def blocks(text, kind):
    """Items of a kind (also methods): name, header and body."""
    for m in re.finditer(r'^( *)(?:pub(?:\([a-z]+\))? )?(?:extern "C" )?%s (\w+)' % kind, text, re.M):
        end = text.find('\n' + m.group(1) + '}', m.end())
        whole = text[m.start():end]
        at = re.search(r'^%s\{' % m.group(1), whole, re.M)
        head, body = (whole[:at.start()], whole[at.start():]) if at else whole.split('{', 1) if '{' in whole else (whole, '')
        yield m.group(2), head, body, text.count('\n', 0, m.start()) + 1


def point_1():
    for path, text in sources():
        text = bare(text)
        for name, head, body, line in blocks(text, 'enum'):
            arms = re.findall(r'^ +(\w+)(\([^)]*\)|\s*\{[^}]*\})?,?$', body, re.M)
            empty = [a for a, data in arms if not data]
            if len(arms) == 2 and len(empty) == 1 or any(a in ('Refused', 'Damaged', 'Nothing') for a, _ in arms):
                yield path, line, 'enum %s has the shape of Option or Result' % name
        for name, head, body, line in blocks(text, 'struct'):
            for field in re.findall(r'\b(refusal): u32', head + body):
                yield path, line, 'struct %s: a refusal as a number beside values' % name
        for name, head, body, line in blocks(text, 'fn'):
            sign = head.split('requires')[0].split('ensures')[0]
            for p in re.findall(r'\b(unit|said|mark|number|n|family|argument|more|names): (?:u8|u32|usize)', sign):
                if p not in ('n', 'number') or ': u32' in sign:
                    yield path, line, 'fn %s: %s is a number for a kind or a refusal' % (name, p)
            if re.search(r'-> u32', sign):
                yield path, line, 'fn %s answers a refusal as a number' % name
        for m in re.finditer(r'^(?:pub )?const (\w+(?:_FAMILY|_GROUP)|NOT_GIVEN|NO_MARK|SECONDS_FROM_NOW|SECONDS_SINCE|MS_FROM_NOW|NO_MORE|ANY_MORE|NONE_NAMED|EACH_FIELD|EACH_PAIR'
                             r'|ONE_FIELD|KEPT|IF_MISSING|MATCHED|EXACT|ONLY_FIRST|ONLY_SECOND|DIFFERENT): (?:u8|usize)', text, re.M):
            yield path, text.count('\n', 0, m.start()) + 1, 'const %s is a number for a kind' % m.group(1)


KEYWORDS = set('let mut if else while for in return match fn as true false loop break continue pub ref move self Self Some None Ok Err'.split())


def point_2():
    groups = collections.defaultdict(list)
    for path, text in sources():
        for name, head, body, line in blocks(bare(text), 'fn'):
            tokens = re.findall(r'[A-Za-z_]\w*|\d\w*|\S', body)
            known = {}
            shape = []
            for t in tokens:
                if re.match(r'\d', t) or re.match(r'[A-Z_]{2,}\w*$', t):
                    shape.append('0')
                elif re.match(r'[A-Za-z_]', t) and t not in KEYWORDS:
                    shape.append(known.setdefault(t, 'v%d' % len(known)))
                else:
                    shape.append(t)
            if len(shape) >= 18:
                groups[' '.join(shape)].append((path, line, name))
    for same in groups.values():
        if len(same) > 1:
            for path, line, name in same:
                yield path, line, 'fn %s has the shape of %s' % (name, ', '.join(n for p, l, n in same if (p, l) != (path, line)))


def point_3():
    for path, text in sources():
        text = bare(text)
        for m in re.finditer(r'^ *(?:\'\w+: )?while (?!let)(.*) \{$', text, re.M):
            yield path, text.count('\n', 0, m.start()) + 1, 'while %s' % m.group(1)


def point_4():
    for path, text in sources():
        for name, head, body, line in blocks(bare(text), 'fn'):
            if re.match(r'(same|equal|eq|least|is_less|at_most|copy|clone|copy_bytes|copy_word|clear|capital|put_decimal)(_|$)', name) or re.match(r'(state_of|instant_of|number_of|expiry_of)$', name):
                yield path, line, 'fn %s' % name
        for m in re.finditer(r'=> (true|false),\n.*=> (true|false),', text):
            yield path, text.count('\n', 0, m.start()) + 1, 'a match that answers true or false'


def point_5():
    facts, pairs = collections.defaultdict(list), collections.defaultdict(list)
    for path, text in sources():
        for name, head, body, line in blocks(bare(text), 'fn'):
            contract = ' '.join(re.findall(r'requires.*?(?=ensures|requires|$)', head, re.S))
            for fact in set(re.findall(r'well_formed|Inside|FieldsReady|length \w+\.\w+ ≡ slot_size|buffer_least ≤ length|answer_most ≤ length|\bHeld\b|HeldAt|HeldIn|SlotBytes|HeldBytes|Sought'
                                       r'|Looked|Storable|FoundIn|WithinLimits|is_left|FilterSize|time < time_limit', contract)):
                facts[re.sub(r'\w+\.\w+ ', '', fact)].append((path, line, name))
            names = re.findall(r'\b(\w+): &', head.split('requires')[0].split('ensures')[0])
            for i, a in enumerate(names):
                for b in names[i + 1:i + 2]:
                    pairs[a, b].append((path, line, name))
    for fact, where in facts.items():
        if len(where) >= 3:
            yield '%d functions' % len(where), 0, 'ask %s' % fact
    for (a, b), where in pairs.items():
        if len(where) >= 3:
            yield '%d functions' % len(where), 0, 'take %s and %s' % (a, b)


def point_6():
    for path, text in sources():
        text = bare(text)
        for name, head, body, line in blocks(text, 'struct'):
            if re.search(r': \[', head + body) and re.search(r'\b(count|size|len): usize', head + body):
                yield path, line, 'struct %s: places with a count beside' % name
            if len(re.findall(r': \[', head + body)) > 1:
                yield path, line, 'struct %s: parallel arrays' % name
        for name, head, body, line in blocks(text, 'fn'):
            sign = head.split('requires')[0].split('ensures')[0]
            if re.search(r': &mut \[\w+; \w+\]|: &\[\w+; \w+\]', sign) and 'hints' in sign:
                yield path, line, 'fn %s: hints beside places' % name
            if re.search(r'(waiting|places): &(mut )?\[[^\]]*\][^,]*,\s*count: usize', sign):
                yield path, line, 'fn %s: places with a count beside' % name
            for m in re.finditer(r'let mut (\w+)(?:: \[u8; \d+\])? = \[', body):
                if re.search(r'&%s\[\.\.' % m.group(1), body):
                    yield path, line, 'fn %s: %s is filled, and its length stands beside' % (name, m.group(1))


def point_7():
    for path, text in sources():
        for name, head, body, line in blocks(bare(text), 'fn'):
            if re.search(r'match (?:self\.|row\.)?(family|names|more|deed|pass|form|count|kind)\b', body) or re.search(r'^ +[A-Z_]+_FAMILY =>', body, re.M):
                yield path, line, 'fn %s switches on a kind' % name


def main():
    wanted = sys.argv[1:] or list('1234567')
    for number in wanted:
        found = list(globals()['point_' + number]())
        print('point %s: %d' % (number, len(found)))
        for path, line, what in found:
            print('  %s%s: %s' % (path, ':%d' % line if line else '', what))


main()
