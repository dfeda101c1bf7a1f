"""Counts the places in crates/*/src that docs/DESIGN-PASS.md speaks of, point by point.

    python3 tools/places.py [FOLDER] [--list=TITLE]

FOLDER is a checkout (this one, if none is given). Each point has a rule that a line or a declaration meets;
--list=TITLE prints the places of the points whose titles begin so.
"""
import glob
import os
import re
import sys


def sources(top):
    for path in sorted(glob.glob(os.path.join(top, 'crates', '*', 'src', '*.rt'))):
        crate = path.split(os.sep)[-3]
        with open(path, encoding='utf-8') as file:
            yield crate, file.read()


def functions(text):
    """Name, parameters, result and body of each function."""
    for m in re.finditer(r'^ *(?:pub )?(?:extern "C" )?fn (\w+)(?:<[^>]*>)?\(', text, re.M):
        depth, k = 1, m.end()
        while depth:
            depth += {'(': 1, ')': -1}.get(text[k], 0)
            k += 1
        params = [p.strip() for p in re.sub(r'\s+', ' ', text[m.end():k - 1]).split(',') if p.strip()]
        indent = re.match(r' *', text[m.start():].lstrip('\n')).group(0)
        start = re.search(r'^%s\{$' % indent, text[k:], re.M)
        end = text.index('\n%s}' % indent, k + start.start()) if start else k
        head = text[k:k + start.start()] if start else ''
        result = re.match(r' -> ([^\n]*?)(?: \{)?(?:\n|$)', head)
        yield m.group(1), params, result.group(1) if result else '', text[k + start.end():end] if start else ''


def enums(text):
    for m in re.finditer(r'^(?:pub )?enum (\w+) \{\n(.*?)^\}', text, re.M | re.S):
        lines = [v.strip().rstrip(',') for v in m.group(2).split('\n')]
        variants = [v for v in lines if v and not v.startswith('//')]
        yield m.group(1), variants


def own_options(crate, text):
    """Enums of two variants of which one holds a value, or of three where one holds a refusal's number."""
    for name, variants in enums(text):
        held = [v for v in variants if '(' in v]
        refused = re.compile(r'(Refused|Stops|NotRead|NotEntered)\((u32|Refusal)\)')
        if len(variants) == 2 and held or any(refused.search(v) for v in variants):
            yield name


def flags(crate, text):
    """Functions whose number says 0 (or another number) for nothing, and structs with such a number."""
    for name, params, result, body in functions(text):
        if crate in ('executor', 'executor_c', 'reader_c'):
            continue
        returned = re.findall(r'(?:return|=>|^) *(\d+)(?:;|,|$)', body, re.M)
        numbered = set(returned) & REFUSALS and '0' in returned
        refused = 'refusal' in name or re.search(r'\b(refusal|code|no) != 0', body) or numbered
        if result in ('u32', 'usize') and refused:
            yield name
        elif name in NONE and (result in ('u32', 'u64', 'usize', 'Lead') or 'wait: u32' in params):
            yield name
    for m in re.finditer(r'^pub struct (\w+) \{\n(.*?)^\}', text, re.M | re.S):
        above = text[max(0, m.start() - 40):m.start()]
        if re.search(r'pub (refusal|code): u32', m.group(2)) and '#[repr(C)]' not in above:
            yield m.group(1)


# Functions, found by reading, whose number says by one of its values that there is none, or that something is so.
NONE = ('easy', 'distinct', 'keep', 'top_kind', 'lead_of', 'find_handler', 'waits', 'leave', 'result_kind',
        'set_global', 'set_builtin', 'clear', 'start', 'answer')

REFUSALS = {'1', '2', '3', '4', '5', '6', '7', '10', '11', '12', '13', '14', '15', '16'}


def refusal_numbers(crate, text):
    """Lines that write a refusal or an answer as a number."""
    for line in text.split('\n'):
        code = line.split('//')[0]
        made = re.search(r'(Refused|Stops|answered|stands|placed)\((\d+)\b', code)
        accepted = re.search(r'(answered|placed|stands)\(0\b', code)
        alone = re.match(r'\s*(return )?(2|4|5|6|7|1[0-6]|10[0-4]);?$', code)
        after = re.search(r'(code|=>|\|) ?:? ?(1[0-6]|10[0-4]),?$', code)
        if made and not accepted:
            yield line.strip()
        elif alone and crate not in ('image', 'cells', 'utf8', 'replies'):
            yield line.strip()
        elif after and crate in ('runs', 'callbacks', 'turns', 'settings'):
            yield line.strip()
        elif re.search(r'code == 10\d', code):
            yield line.strip()
        elif re.search(r'=> 5,$', code) and crate in ('callbacks', 'settings'):
            yield line.strip()


def kind_numbers(crate, text):
    """Lines that test or write a kind (a tag, a frame's kind, an opcode, an error's kind) as a number, but for those of
    `try_from`, where a number becomes a name, and for contracts."""
    text = re.sub(r'^( *)fn try_from\(.*?^\1\}', '', text, flags=re.M | re.S)
    for line in text.split('\n'):
        code = line.split('//')[0]
        if re.match(r'\s*(requires|ensures) ', code):
            continue
        if re.search(r'\b(tag|kind|op|from|number)\b(\([^()]*\))? (==|!=|<|>|<=|>=) \d', code):
            yield line.strip()
        elif re.search(r'\b(tag|kind): \d', code):
            yield line.strip()
        elif re.match(r'\s*[\d| .=]+ => ', code) and not re.search(r'\(0\)', code):
            yield line.strip()


def hand_loops(crate, text):
    """Loops that count by hand."""
    lines = text.split('\n')
    for k, line in enumerate(lines):
        m = re.match(r'^(\s*)while (.+) \{$', line)
        if not m:
            continue
        end = next(j for j in range(k, len(lines)) if lines[j] == m.group(1) + '}')
        if any(re.search(r'^\s*\w+(\.\w+)? [+-]= ', x) for x in lines[k:end]):
            yield line.strip()


def program_parameters(crate, text):
    """Functions that take a program as image, rows, constants, inner and codes, or as a part of them."""
    for name, params, result, body in functions(text):
        names = {p.split(':')[0].strip() for p in params}
        if {'rows', 'constants', 'inner'} <= names or {'image', 'rows'} <= names or {'rows', 'inner'} <= names:
            if crate not in ('layout', 'lookups') and name not in ('enter', 'read_image', 'filled', 'made'):
                yield name


def answers(top):
    files = sorted(glob.glob(os.path.join(top, 'crates', '*', 'proofs', '*', '**', 'Answers.antt'), recursive=True))
    count = 0
    for path in files:
        with open(path, encoding='utf-8') as file:
            count += len(re.findall(r'^pub [^:]+ : goal', file.read(), re.M))
    return len(files), count


POINTS = {
    '1 own enums in the place of Option or Result': own_options,
    '1 numbers or structs in which a number says that there is none': flags,
    '1 refusals and answers as numbers': refusal_numbers,
    '1 kinds as numbers': kind_numbers,
    '3 loops that count by hand': hand_loops,
    '5 a program as five parameters, or some of them': program_parameters,
}


def main():
    args = [a for a in sys.argv[1:] if not a.startswith('--list')]
    shown = [a.split('=', 1)[1] for a in sys.argv[1:] if a.startswith('--list=')]
    top = args[0] if args else '.'
    for title, rule in POINTS.items():
        places = [(crate, place) for crate, text in sources(top) for place in rule(crate, text)]
        print('%4d  %s' % (len(places), title))
        if shown and title.startswith(shown[0]):
            for crate, place in places:
                print('        %s: %s' % (crate, place))
    files, count = answers(top)
    print('%4d  8 files of answers, with %d answers' % (files, count))


if __name__ == '__main__':
    main()
