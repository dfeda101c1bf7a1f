"""Prints the lists at the end of docs/DESIGN-PASS.md: what changed in words since a commit, before and now.

    python3 tools/words.py COMMIT

It stands on the toolchain's `port/contracts.py`, which finds functions, clauses and definitions by text; which laws
went and what cited them it finds itself. STANDS says what promises now what a function promised that went, STATED what
states now what a law stated that went; both were found by reading.
"""
import collections
import json
import os
import re
import subprocess
import sys
import tempfile

STANDS = {
    'asks::null': '`cells::Cell::NULL`',
    'calls_replay::got': '`impl From<asks::Got> for Answer`',
    'calls_replay::part': '`impl From<asks::Part> for Answer`',
    'calls_replay::plain': '`impl From<u32> for Answer`',
    'calls_replay::ran': '`impl From<runs::Ran> for Answer`',
    'cells::wide': 'std: `u16::from_le_bytes` and its kin',
    'counts::refusal': '`counts::check`, the same equation over `number_of result`',
    'form::both': '`&&`',
    'form::filled': '`reader::filled`, with `form/specs/EntryLaws.filled_is`',
    'form::frames_size': '`placing::last_frame`, in `form::top_kind`',
    'fuel::cast_signed': 'std: `cast_signed`',
    'fuel::cast_unsigned': 'std: `cast_unsigned`',
    'fuel::min': 'std: `min`',
    'fuel::saturate': 'std: `i32::saturating_add`',
    'fuel::saturating_add': 'std: `i32::saturating_add`',
    'fuel::saturating_neg': 'std: `i32::saturating_neg`',
    'ints::is_negative': "std: i64's order",
    'ints::product': 'std: `wrapping_mul`, in `ints::mul`',
    'ints::quotient': 'std: `wrapping_div`, in `ints::div`',
    'ints::unsigned_abs': 'std: `wrapping_div`, in `ints::div`',
    'ints::with_sign': 'std: `wrapping_div`, in `ints::div`; the definitions of these names stay',
    'ints_replay::divided': '`map_or(Answer::ZeroDivisor, Answer::Int)`',
    'ints_replay::int': '`Answer::Int`',
    'ints_replay::truth': '`Answer::Bool`',
    'jumps::dropped': '`moves::Running::dropped`, the same clauses',
    'layout::push_five': 'a row is one struct',
    'layout::push_row': 'a row is one struct',
    'layout::refusal_of': '`layout::enterable`, the same equation over `number_of result`',
    'loads::drop_values': '`moves::Running::dropped`, the same clauses',
    'loans::lent_bytes': '`loans::parted`: the front that is used, and what lies behind',
    'lookups::capture': '`lookups::Program::capture`, the same clauses',
    'lookups::constant': '`lookups::Program::constant`, the same clauses',
    'lookups::global': '`lookups::Program::global`, the same clauses',
    'lookups::inner_code': '`lookups::Program::inner_code`, the same clauses',
    'lookups::locals': '`lookups::Program::locals`, the same clauses',
    'lookups::opcode': '`lookups::Program::opcode`, the same clauses',
    'lookups::params': '`lookups::Program::params`, the same clauses',
    'lookups::variadic': '`lookups::Program::variadic`, the same clauses',
    'makes::dropped': '`moves::Running::dropped`, the same clauses',
    'operators::arithmetic': '`operators::binary`, whose clause `arithmetic` says the same: for every program, at each operator but `Eq` and `Ne`',
    'program::field': '`program::row`, of which it is a field',
    'program::wide32': '`as usize` of a u32; `program` itself and `reader::opcode_fine` called it',
    'program::wide8': '`u16::from`',
    'reader::kind_number': '`reader::opcode_fine`, by a `match` over the kind',
    'reader::limits': '`reader::opcode_fine`, by a `match` over the kind',
    'reader::tables_fine': '`reader::read_image` and `all_fine`',
    'reader::wide16': '`usize::from`',
    'readings::bytes_part': '`readings::bytes_spot`',
    'readings::message_part': '`readings::message`',
    'readings::placed': '`readings::answered`',
    'readings::text_part': '`readings::text_spot`',
    'scan::untargeted': 'std: `then_some(0)`',
}


STATED = {
    'acts/specs/Acted `as_failed`': 'acts.Failing',
    'acts/specs/ThrowLaws `fail_throws`': 'acts.fail_done acts.fail_failed acts.fail_refused',
    'actions/specs/Tables `begins_below`': 'acts.begins_under callbacks.begins_below',
    'actions/specs/Tables `lower_all`': 'acts.lower_all',
    'answers/specs/PutLaws `puts_none`': 'answers.puts_many',
    'asks/specs/Entries `place_of`': 'asks.known_place',
    'asks/specs/Formed `known_in`': 'asks.known_spot',
    'asks/specs/Formed `none_in`': 'asks.never asks.unknown_spot',
    'asks/specs/Named `named_none`': 'asks.named_high asks.named_low',
    'callbacks/specs/LeftLaws `left_gone`': 'callbacks.left_return callbacks.left_tail_call '
    'callbacks.left_tail_perform',
    'callbacks/specs/LeftLaws `left_there`': 'callbacks.left_error callbacks.left_panic callbacks.left_perform',
    'cells/specs/CellsLaws `same_cells`': 'loads.cells_len makes.same_cells',
    'counts/specs/Judged `granted`': 'acts.no_refusal requests.granted',
    'image/proofs/Parts `both_false`': 'loads.both_false reader.both_false requests.both_false',
    'image/proofs/Parts `both_in`': 'machine.both_in machine.both_true memory.join',
    'image/proofs/Parts `both_swap`': 'replies.both_swap settings.both_swap',
    'image/proofs/Parts `both_true`': 'memory.both_true reader.both_true requests.both_true',
    'layout/specs/ImageLaws `passed`': 'layout.fine',
    'layout/specs/Reads `layout_unsized`': 'layout.layout_long layout.layout_short',
    'layout/specs/Tables `pushed_row`, for a row at once': 'layout.pushed_both layout.pushed_five',
    'machine/proofs/DemandLaws `no`': 'asks.no',
    'machine/proofs/FormLaws `top_few`': 'acts.top_handlers_lem callbacks.few_below',
    'machine/proofs/FormLaws `turn_most`': 'runs.low_turn',
    'machine/proofs/Refusals `effects_length`': 'memory.length_effects plan.length_effects',
    'machine/proofs/Refusals `frame_cost_lem`': 'counts.frame_some',
    'machine/proofs/Refusals `frames_few`': 'actions.frames_few captures.some_cost counts.frames_few',
    'machine/proofs/RequestRefusals `put_back_length`': 'actions.length_back',
    'machine/proofs/StepLaws `ready_running`': 'machine.running_law',
    'machine/proofs/Store `same_code`': 'groups.same_code steps.same_code',
    'memory/proofs/StateLaws `bit_false`': 'callbacks.bit_false runs.bit_false',
    'memory/proofs/StateLaws `bit_true`': 'callbacks.bit_true runs.bit_true',
    'moves/specs/Frames `live_below`': 'acts.live_under callbacks.live_under',
    'moves/specs/Frames `live_drop`': 'callbacks.live_below',
    'moves/specs/Frames `live_under`': 'captures.live_under counts.live_under',
    'moves/specs/Starts `frames_last`': 'actions.frames_last',
    'moves/specs/Starts `frames_up`': 'actions.frames_up',
    'plan/proofs/ErrorLaws `shown_is`': 'actions.error_args groups.error_kind requests.error_some values.kind_least',
    'plan/proofs/InsideLaws `refused_does`': 'loads.refused_does operators.refused',
    'plan/proofs/InsideLaws `top_none`': 'loads.top_none operators.top_none',
    'plan/proofs/InsideLaws `top_some`': 'loads.top_some operators.top_some',
    'plan/proofs/ParsedLaws `parsed_count`': 'actions.parsed_count captures.parsed_count counts.length_parsed',
    'plan/proofs/ParsedLaws `parsed_used`': 'actions.parsed_used captures.parsed_used counts.used_parsed',
    'plan/proofs/RestLaws `same_join`': 'acts.same_two groups.same_both runs.same_both slices.same_on',
    'plan/proofs/RestLaws `same_refl`': 'actions.same acts.same_refl callbacks.same groups.same_refl loads.still '
    'makes.still operators.still runs.same_refl steps.same_refl',
    'program/specs/Looks `row_of`': 'program.place_is',
    'readings/specs/Lines `message_at`': 'readings.message_missing readings.message_there',
    'readings/specs/ReadingLaws `bytes_in`': "readings.bytes_in'",
    'readings/specs/ReadingLaws `bytes_not`': "readings.bytes_not' readings.bytes_unknown readings.bytes_unknown'",
    'readings/specs/ReadingLaws `bytes_other`': "readings.bytes_other'",
    'readings/specs/ReadingLaws `text_image`': "readings.text_image'",
    'readings/specs/ReadingLaws `text_not`': "readings.text_not' readings.text_unknown readings.text_unknown'",
    'readings/specs/ReadingLaws `text_other`': "readings.text_other'",
    'readings/specs/ReadingLaws `text_page`': "readings.text_page'",
    'scan/specs/Answers `none_fits`': 'form.scanned_bad scan.bad_not scan.misfit_not',
    'scan/specs/Answers `some_fits`': 'form.scanned_fits scan.at_fits scan.below_fits',
    'scan/specs/Answers `some_is`': 'form.scanned_end scan.at_is scan.below_is',
    'scan/specs/Heads `end_past`': 'scan.end_handlers scan.end_locals scan.end_stack scan.short',
    'scan/specs/Tables `program_of`': 'scan.P',
    'settings/specs/SettingLaws `set_in`': "settings.set_in'",
    'settings/specs/SettingLaws `set_not`': "settings.set_not' settings.set_unknown settings.set_unknown'",
    'settings/specs/SettingLaws `set_over`': "settings.set_over'",
    'std: `cases_order`': 'cells.apart',
    'std: `false≢true`': 'image.clash',
    'std: `mul-mod_first`': 'ints.mod_times',
    'std: `mul-mod_second`': 'ints.times_mod',
    'std: `nil_from_length`': 'memory.none',
    'std: `pos_of_ne-zero`': 'acts.some image.positive reader.least',
    'std: `then_some`': 'scan.limited scan.scanned',
    'steps/specs/SteppedLaws `kept_cells`': 'steps.same_cells',
    'values/specs/Constants `bool_is`': 'values.bool_false values.bool_true',
}

# a word of a law; `use M.{a, b as c}` or `use M as m`; the head of a declaration
WORD = re.compile(r"[^\s(){}\[\],;:λ→≡×∙∷.]+(?:\.[^\s(){}\[\],;:λ→≡×∙∷.]+)*")
USE = re.compile(r'(?:pub |unfoldable |ghost )*use (?:Rattle\.)?([^\s{}]+?)(?:\.\{([^}]*)\})?(?: as ([^\s;]+))?;?')
GROUP = r'[({](?:[^(){}]|[({](?:[^(){}]|[({][^(){}]*[)}])*[)}])*[)}]'
DECLARED = re.compile(r'(?:(?:abbrev|unfoldable|pub|record|data) )*([^\s:(){}.,=]+)(?: %s)* :(?= |$)' % GROUP)


def norm(text):
    text = re.sub(r'\s+', ' ', text).replace('( ', '(')
    return re.sub(r', ?\)', ')', text).strip()


def with_program(text):
    """The text with a program as one argument, in the place of five."""
    text = norm(text)
    five = 'image: &[u8], rows: &[u32], constants: &[u32], inner: &[u32], codes: usize'
    text = text.replace(five, 'program: &lookups::Program')
    text = re.sub(r'image: &\[u8\], rows: &\[u32\](?!, constants)', 'program: &lookups::Program', text)
    text = text.replace('program_in image.now rows.now constants.now inner.now codes', 'program_of program.now')
    for word in ('image', 'rows', 'constants', 'inner'):
        text = re.sub(r'(?<![\w.])%s\.now\b' % word, 'program.now.%s.now' % word, text)
    return text


def function(place):
    crate, rest = re.match(r'(\w+) src/\w+\.rt (.*)$', place).groups()
    return crate + '::' + rest.split(' (')[0].replace(' ', '::')


def code(text):
    return '`' + text.replace('|', '\\|') + '`'


def clause(kind, parts):
    return kind + (' ' + parts[0] if parts[0] else '') + ' { ' + parts[1] + ' }'


def statement(text):
    """A definition whole, a law without its proof."""
    if text[:2] in ('["', "['"):
        text = text[2:-2]
    if re.match(r'(abbrev|unfoldable|pub record|record|pub data|data)', text):
        return norm(text)
    name = re.match(r'(?:pub )?([^\s:]+)', text).group(1)
    proof = re.search(r'\s%s(?=[ \{])' % re.escape(name), text[len(name) + 4:])
    text = text[:len(name) + 4 + proof.start()] if proof else text
    return re.sub(r' unfolding .*$', '', norm(text))


def named(use, names):
    """Adds to names what a `use` brings: a name with its module, or a module alone."""
    module, listed, renamed = use.groups()
    for one in (listed or '').split(','):
        name, _, other = one.strip().partition(' as ')
        names[other or name] = (module, name)
    if listed is None:
        names[renamed or module.split('.')[-1]] = (module, None)


def parsed(text):
    """The names that a file's `use` lines bring, and its declarations: name, the module blocks around, lines."""
    names, declared, blocks = {}, [], []
    for line in text.split('\n'):
        words, depth = line.strip(), len(line) - len(line.lstrip(' '))
        if not words or words.startswith('--'):
            continue
        if blocks and not blocks[-1][1].endswith('where'):
            blocks[-1] = (blocks[-1][0], blocks[-1][1] + ' ' + words)
            continue
        while blocks and depth <= blocks[-1][0]:
            blocks.pop()
        top = depth == (blocks[-1][0] + 2 if blocks else 0)
        if top and words.startswith('module '):
            blocks.append((depth, words))
        elif top and USE.fullmatch(words):
            named(USE.fullmatch(words), names)
        elif top and DECLARED.match(words):
            declared.append((DECLARED.match(words).group(1), [block for _, block in blocks], [words]))
        elif declared:
            declared[-1][2].append(words)
    return names, declared


def bound(blocks, lines):
    """The names that a declaration binds itself."""
    text = ' '.join(blocks + lines)
    found = re.findall(r'\blet ([^\s:=(){}]+) [:=]', text)
    for names in re.findall(r'[({]([^(){}:=]+?) : ', text) + re.findall(r'λ ([^(){}.:]+)\.', text):
        found += names.split()
    return set(found + [head.group(1) for head in map(DECLARED.match, lines[1:]) if head])


def meant(word, names):
    """The module and the name that a word stands for, by what `use` lines bring."""
    first, _, rest = word.partition('.')
    module, name = names.get(first, ('', ''))
    return (module, rest.split('.')[0] if name is None else name)


def files(top, folder, ending):
    """The files of a folder of each crate: the crate, the file as a module, its text."""
    for crate in sorted(os.listdir(os.path.join(top, 'crates'))):
        for place, _, found in os.walk(os.path.join(top, 'crates', crate, folder)):
            for file in sorted(found):
                path = os.path.join(place, file)
                if file.endswith(ending):
                    with open(path, encoding='utf-8') as opened:
                        module = os.path.relpath(path, os.path.join(top, 'crates'))[:-len(ending)]
                        yield crate, module.replace('/', '.'), opened.read()


def heads(crate, text):
    """Each function of a file: its name, the laws that it is told to use, its signature with the clauses."""
    owner, using, head = '', [], None
    for line in text.split('\n'):
        block = re.match(r'(?:pub )?(?:impl|trait)\b(?:<[^>]*>)? (?:.* for )?(\w+)', line)
        owner = block.group(1) + '::' if block else '' if line == '}' else owner
        using += re.findall(r"\w+::(?:specs|proofs)::[\w:']+", line.replace('crate::', crate + '::'))
        start = re.match(r'( *)(?:pub(?:\([^)]*\))? )?(?:const )?(?:extern "C" )?fn (\w+)', line)
        if start:
            head = (crate + '::' + (owner if start.group(1) else '') + start.group(2), using, [])
            using = []
        if head:
            head[2].append(line)
            clauses = re.match(r'\s*(requires|ensures)', line)
            if line.strip() == '{' or not clauses and line.endswith((' {', ' }', ';')):
                yield head[0], head[1], ' '.join(head[2])
                head = None


def laws(top):
    """The declarations of specs/ and proofs/ but the answers, as crate, module and name; and what cites what: a law as
    its module and name, a function, whose answers, clauses or `using` cite, as crate::name."""
    declared, cited = [], collections.defaultdict(set)
    for crate, module, text in [x for folder in ('specs', 'proofs') for x in files(top, folder, '.antt')]:
        names, found = parsed(text)
        answers = re.fullmatch(r'\w+\.proofs\.(.+)\.(?:Answers|Invariants)', module)
        for name, blocks, lines in found:
            here = crate + '::' + answers.group(1).strip('+') if answers else (module, name)
            if not answers:
                declared.append((crate, module, name))
                names[name] = here
            own = bound(blocks, lines)
            for word in WORD.findall(re.sub(r'([{;]) \S+ = ', r'\1 ', ' '.join(lines))):
                if word.split('.')[0] not in own and meant(word, names) != here:
                    cited[meant(word, names)].add(here)
    for crate, _, text in files(top, 'src', '.rt'):
        names = {}
        for use in re.findall(r'ghost use .*', text):
            named(USE.fullmatch(use), names)
        for name, using, head in heads(crate, text):
            for law in using:
                module, _, law = law.replace('::', '.').rpartition('.')
                cited[(module, law)].add(name)
            for word in WORD.findall(head):
                cited[meant(word, names)].add(name)
    return declared, cited


def citing(law, cited):
    """The functions that cite a law, by themselves or through others."""
    found, seen, todo = set(), set(), [law]
    while todo:
        one = todo.pop()
        if isinstance(one, str):
            found.add(one)
        elif one not in seen:
            seen.add(one)
            todo.extend(cited[one])
    return sorted(found)


def standing(name, present):
    """What promises now what a function promised: itself, or what STANDS names, in its own crate if that is named."""
    if name in present:
        return name
    text = STANDS.get(name, '?')
    there = [x for x in re.findall(r'`([^`]+)`', text) if x in present]
    own = [x for x in there if x.startswith(name.split('::')[0] + '::')]
    return '%s (for %s)' % ((own + there + [text])[0], name)


def went(old, new):
    print('\n### Definitions and laws that went\n')
    print('Laws of proofs/ are among them, but for the answers and invariants of a function. Behind the dash stands '
          'the law or definition that states it now, by its path or of std; these were found by reading. Else it is '
          'the functions that cited it, in answers, clauses or `using`, by themselves or through other laws: their '
          'contracts stand, some in the words above, and are proved without it. One in brackets went, and before it '
          'stands what promises now what it promised.\n')
    stated = {law: place for place, all_laws in STATED.items() for law in all_laws.split()}
    there = {(crate, name) for crate, _, name in laws(new)[0]}
    present = {name for crate, _, text in files(new, 'src', '.rt') for name, _, _ in heads(crate, text)}
    declared, cited = laws(old)
    gone, lines = {}, {}
    for crate, module, name in declared:
        if (crate, name) not in there:
            gone.setdefault((crate, name), set()).update(citing((module, name), cited))
    for (crate, name), found in sorted(gone.items()):
        now = sorted({standing(x, present) for x in found})
        now = [x for x in now if ' (for ' not in x or x.split(' (for ')[0] not in now]
        now = stated.get(crate + '.' + name, ', '.join(now) or '(cited by nothing)')
        lines.setdefault((crate, now), []).append(name)
    for (crate, found), names in lines.items():
        print('- %s: %s — %s' % (crate, ', '.join(map(code, names)), found))


def functions(said):
    signatures = {function(x[0]): (norm(x[1]), norm(x[2])) for x in said['signatures changed']}
    clauses = {}
    for place, old_needs, old_gives, new_needs, new_gives in said['contracts changed']:
        old = [clause('requires', c) for c in old_needs] + [clause('ensures', c) for c in old_gives]
        new = [clause('requires', c) for c in new_needs] + [clause('ensures', c) for c in new_gives]
        clauses[function(place)] = ([norm(x) for x in old], [norm(x) for x in new])
    plain, others = collections.OrderedDict(), []
    for name in sorted(set(signatures) | set(clauses)):
        old, new = signatures.get(name, ('', ''))
        before, after = clauses.get(name, ([], []))
        if with_program(old) == new and [with_program(x) for x in before] == after:
            plain.setdefault(name.split('::')[0], []).append(name.split('::', 1)[1])
        else:
            others.append((name, [old] * bool(old), [new] * bool(new), before, after))
    print('### Only the program as one parameter\n')
    print('; '.join('%s: %s' % (crate, ', '.join(map(code, names))) for crate, names in plain.items()) + '.\n')
    print('### Other changes of signature or clause\n\n| function | before | now |\n|---|---|---|')
    for name, old, new, before, after in others:
        old += [x for x in before if x not in after]
        new += [x for x in after if x not in before]
        print('| %s | %s | %s |' % (code(name), '<br>'.join(map(code, old)), '<br>'.join(map(code, new))))
    print('\n### Functions that went\n\nWhat each promised is promised by what stands behind the dash.\n')
    for place in said['functions not found again']:
        print('- %s — %s' % (code(function(place)), STANDS.get(function(place), '?')))


def definitions(said):
    public = re.compile(r'(abbrev |unfoldable )?pub ')
    print('\n### Definitions and laws whose text changed\n\n| crate, name | before | now |\n|---|---|---|')
    for crate, name, old, new in said['definitions']['changed']:
        old, new = statement(old[0]), statement(new[0])
        if old != new and (public.match(old) or public.match(new)):
            print('| %s: %s | %s | %s |' % (crate, name, code(old), code(new)))


def main():
    commit = sys.argv[1]
    kit = os.path.dirname(subprocess.run(['rt', 'doc'], capture_output=True, text=True, check=True).stdout.strip())
    with tempfile.TemporaryDirectory() as old:
        subprocess.run('git archive %s | tar -x -C %s' % (commit, old), shell=True, check=True)
        script = os.path.join(kit, 'port', 'contracts.py')
        words = ['python3', script, old, '.', '--json']
        said = json.loads(subprocess.run(words, capture_output=True, text=True, check=True).stdout)
        functions(said)
        definitions(said)
        went(old, '.')


if __name__ == '__main__':
    main()
