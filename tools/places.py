#!/usr/bin/env python3
"""Counts the places of docs/DESIGN-PASS.md below crates/*/src, one line for each point, and lists them where a point is named.

    tools/places.py [FOLDER [POINT]]

Each count is of text, so that a place can be named by FILE:LINE and counted again: it says where to look, not what is wrong there.
1  enums that carry a refusal, or none or one value, beside nothing else; fields and results that are a number of 01's table
2  pairs of functions in one crate whose bodies are the same but for names and numbers; arms of a switch that call one function
3  loops that count by hand: a `while` whose body ends in `i += ..`
4  functions that std or a derive has: conversions, least and greatest, wrapping and saturating sums, comparison
5  functions of over six parameters; parameters of an array's whole type that five or more functions share
6  arrays of a fixed length that stand for a list, beside a length
7  switches on a number whose arms call functions
8  proof files that walk a function by hand (Proof.antt)"""
import glob, os, re, sys

TOP = sys.argv[1] if len(sys.argv) > 1 else '.'
ASKED = sys.argv[2] if len(sys.argv) > 2 else None


def sources():
    for path in sorted(glob.glob(os.path.join(TOP, 'crates/*/src/**/*.rt'), recursive=True)):
        yield os.path.relpath(path, TOP), open(path, encoding='utf-8').read()


def balanced(text, at, opening='{', closing='}'):
    depth = 0
    for i in range(at, len(text)):
        depth += {opening: 1, closing: -1}.get(text[i], 0)
        if depth == 0:
            return i
    return len(text) - 1


def without_comments(text):
    return re.sub(r'//[^\n]*', '', text)


def body_at(text, at):
    """Where the body of a function begins whose parameters end at `at`; none where a trait declares it alone."""
    while True:
        found = re.compile(r'[;{\[(]').search(text, at)
        if not found or found.group() == ';':
            return None
        if found.group() == '{':
            line = text[text.rfind('\n', 0, found.start()) + 1:found.start()]
            if not re.match(r'\s*(requires|ensures)\b', line):
                return found.start()
        at = balanced(text, found.start(), found.group(), {'{': '}', '[': ']', '(': ')'}[found.group()]) + 1


def functions():
    """(file, line, name, parameters, body) of each function that has a body."""
    for path, text in sources():
        for found in re.finditer(r'^[ ]*(?:pub(?:\([a-z]+\))? )?(?:extern "C" )?fn (\w+)(?:<[^(]*>)?\(', text, re.M):
            end = balanced(text, found.end() - 1, '(', ')')
            parameters = [p for p in re.split(r',(?![^\[<(]*[\]>)])', without_comments(text[found.end():end])) if p.strip()]
            start = body_at(text, end + 1)
            if start is not None:
                body = without_comments(text[start:balanced(text, start) + 1])
                yield path, text.count('\n', 0, found.start()) + 1, found.group(1), parameters, body


def answers():
    for path, text in sources():
        for found in re.finditer(r'^(?:pub(?:\([a-z]+\))? )?enum (\w+) \{', text, re.M):
            inside = without_comments(text[found.end():balanced(text, found.end() - 1)])
            variants = re.findall(r'^    (\w+)', inside, re.M)
            if 'Refused' in variants or 'Broken' in variants or 'Nothing' in variants:
                yield '%s:%d enum %s' % (path, text.count('\n', 0, found.start()) + 1, found.group(1))
        for found in re.finditer(r'^(?:pub(?:\([a-z]+\))? )?struct (\w+) \{', text, re.M):
            inside = without_comments(text[found.end():balanced(text, found.end() - 1)])
            fields = re.findall(r'^    (?:pub )?(\w+): ([^\n]*),', inside, re.M)
            told = [f for f, t in fields if re.match(r'(Opening|Counts?|\w*(Output|Out|Made|Sum|Step|Taken|Did)|Result<.*|Option<.*|bool)$', t)]
            if told and len(fields) in (2, 3):
                yield '%s:%d struct %s: %s beside a value' % (path, text.count('\n', 0, found.start()) + 1, found.group(1), told[0])


def shape(body):
    words = re.findall(r'[A-Za-z_]\w*|[0-9][\w.]*|[^\s\w]', body)
    kept = {'let', 'mut', 'if', 'else', 'while', 'for', 'in', 'match', 'return', 'as', 'true', 'false', 'loop'}
    return tuple(w if w in kept or not re.match(r'\w', w) else 'x' for w in words)


def twins():
    by_shape = {}
    for path, line, name, parameters, body in functions():
        s = shape(body)
        if len(s) >= 30:
            by_shape.setdefault((path.split('/')[1], s), []).append('%s:%d %s' % (path, line, name))
    for places in by_shape.values():
        for other in places[1:]:
            yield '%s ~ %s' % (other, places[0])
    for path, line, name, parameters, body in functions():
        called = re.findall(r'\n\s+[0-9]+ => (\w+)(?:::<[^>]*>)?\(', body)
        if len(called) > 2 and len(set(called)) < len(called):
            yield '%s:%d %s: %d arms call %s' % (path, line, name, len(called), called[-1])


def loops():
    for path, text in sources():
        for found in re.finditer(r'^( *)while [^\n]*\{\n', text, re.M):
            inside = text[found.end():balanced(text, found.end() - 2)]
            if re.search(r'\b\w+ [+-]= [^\n]*;\s*$', inside) or re.search(r'^ *\w+ [+-]= 1;$', inside, re.M):
                yield '%s:%d' % (path, text.count('\n', 0, found.start()) + 1)


def by_hand():
    names = r'(wrapping_\w+|saturating_\w+|least|greatest|lower|min|max|eq|same|number|\w+_of_bits|bits_of_\w+|le16_at|le32_at|wide|is_opened|\w+_or_zero)'
    for path, line, name, parameters, body in functions():
        if re.fullmatch(names, name) and not path.startswith('crates/gauge_line'):
            yield '%s:%d %s' % (path, line, name)


def together():
    for path, line, name, parameters, body in functions():
        if len(parameters) > 6:
            yield '%s:%d %s: %d parameters' % (path, line, name, len(parameters))


def buffers():
    for path, text in sources():
        for found in re.finditer(r'fn \w+[^;{]*\[[^\]]*; (LONGEST)\]|: \[\w+; (LONGEST|\d{4,})\]', text):
            yield '%s:%d' % (path, text.count('\n', 0, found.start()) + 1)


def switches():
    for path, line, name, parameters, body in functions():
        called = re.findall(r'\n\s+(?:0x)?[0-9a-f]+ => (?:Ok\()?(?:[\w:]+?)(?:::<[^>]*>)?\(', body)
        if len(called) > 2:
            yield '%s:%d %s: %d arms' % (path, line, name, len(called))


def walks():
    for path in sorted(glob.glob(os.path.join(TOP, 'crates/*/proofs/**/Proof.antt'), recursive=True)):
        yield os.path.relpath(path, TOP)


for point, found in (('1', answers), ('2', twins), ('3', loops), ('4', by_hand), ('5', together), ('6', buffers), ('7', switches), ('8', walks)):
    places = list(found())
    print('%s %d' % (point, len(places)))
    if ASKED == point:
        for place in places:
            print('  ' + place)
