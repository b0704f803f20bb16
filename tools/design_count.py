#!/usr/bin/env python3
"""Counts, in crates/*/src, the places that docs/DESIGN-PASS.md speaks of, point by point, and lists them.

    tools/design_count.py [--at COMMIT] [--list] [POINT..]

Without --at it reads the files of the checkout. Each rule is a line of RULES or a function below: it goes by text, so
that it finds candidates; which of them stay, and why, stands beside them in the source and in the page.
"""
import io
import re
import subprocess
import sys
import tarfile


def sources(commit, pattern=r'crates/\w+/src/.*\.rt$'):
    """Yields (path, text) of each file whose path fits, by default of the sources."""
    if commit is None:
        names = subprocess.run(['git', 'ls-files', 'crates', 'docs'], capture_output=True, text=True).stdout.split()
        for name in names:
            if re.match(pattern, name):
                yield name, open(name, encoding='utf8').read()
        return
    archive = subprocess.run(['git', 'archive', commit, 'crates', 'docs'], capture_output=True).stdout
    with tarfile.open(fileobj=io.BytesIO(archive)) as tar:
        for member in tar.getmembers():
            if member.isfile() and re.match(pattern, member.name):
                yield member.name, tar.extractfile(member).read().decode('utf8')


def bare(text):
    """The text without comments."""
    return re.sub(r'//[^\n]*', '', text)


def functions(text):
    """Yields (name, parameters, contract, body) of each function."""
    for m in re.finditer(r'\bfn (\w+)(<[^(]*>)?\(', text):
        i = m.end()
        depth = 1
        while depth and i < len(text):
            depth += {'(': 1, ')': -1}.get(text[i], 0)
            i += 1
        rest = text[i:]
        b = re.search(r'(^\{|\) \{|> \{|\w \{|\] \{)\n', rest, re.M)
        if not b:
            continue
        start = b.end() - 2
        j, depth = start, 0
        while j < len(rest):
            depth += {'{': 1, '}': -1}.get(rest[j], 0)
            j += 1
            if depth == 0:
                break
        yield m.group(1), text[m.end():i - 1], rest[:start], rest[start:j]


def parameters(text):
    """The parameters of a list, without self and the handle that writes."""
    out = []
    for part in re.split(r',\s*(?![^<(\[]*[>)\]])', text):
        part = ' '.join(part.split())
        if ':' in part and not part.startswith('rt:'):
            out.append(part)
    return out


def shaped(files):
    """Point 1: enums of two variants, one of which or both hold a value."""
    for path, text in files:
        for m in re.finditer(r'enum (\w+) \{([^}]*)\}', bare(text)):
            variants = [v for v in re.split(r',\s*(?![^(]*\))', ' '.join(m.group(2).split())) if v]
            if len(variants) == 2 and any('(' in v for v in variants):
                yield path, 'enum ' + m.group(1)


def flags(files):
    """Point 1: a flag or a number of a refusal with a value beside it, in a struct or handed on and returned."""
    for path, text in files:
        t = bare(text)
        for m in re.finditer(r'struct (\w+)(?:<[^{]*>)? \{([^}]*)\}', t):
            if re.search(r'\b(written|more|agrees|ended): bool|\bnumber: u(32|64)|failed: Option', m.group(2)):
                yield path, 'struct ' + m.group(1)
        for name, params, _, _ in functions(t):
            if re.search(r'\bwell: bool|failure: &mut Option|agrees: &mut bool', params):
                yield path, 'fn ' + name


def kinds(files):
    """Point 1: numbers for kinds: a code, a number of a set-up or of a cut that functions take."""
    for path, text in files:
        for name, params, _, _ in functions(bare(text)):
            if re.search(r'\b(code|kind|number|letter): u(8|32|64)\b|\bcode: usize', params):
                yield path, 'fn ' + name


SAME = [(r'\bf(32|64)\b', 'F'), (r'\bu(32|64|8)\b', 'U'), (r'_(f32|f64|u32|u64|F32|F64|32|64)\b', '_N'),
        (r'\b(f32|f64)_', 'F_'), (r'\b(complex|real)(_sync)?\b', 'S'), (r'\b(Complex|Real)(\w*)', r'S\2'),
        (r'\bC32\b', 'F'), (r'binary(32|64)', 'binary'), (r'Receiver(32|64)\b', 'ReceiverN'), (r'_(real|complex)\b', '_S')]


def alike(text):
    for a, b in SAME:
        text = re.sub(a, b, text)
    text = re.sub(r'0x[0-9a-f_]+|\b\d[\d_.]*(e-?\d+)?\b', '0', text)
    return ' '.join(text.split())


def twins(files):
    """Point 2: functions and types whose text is the same but for a type, a size or a constant."""
    groups = {}
    for path, text in files:
        t = bare(text)
        for name, params, _, body in functions(t):
            if len(body.split()) > 3 and 'self' not in params:
                groups.setdefault(alike(params + '|' + body), []).append((path, 'fn ' + name))
        for m in re.finditer(r'struct (\w+)(?:<[^{]*>)? \{([^}]*)\}', t):
            if m.group(2).count(':') > 1:
                groups.setdefault(alike('struct ' + m.group(2)), []).append((path, 'struct ' + m.group(1)))
    for places in groups.values():
        if len(places) > 1:
            yield from places


def loops(files):
    """Point 3: loops that are no `for`."""
    for path, text in files:
        for m in re.finditer(r'(?m)^\s*(while [^{]*|loop) \{', bare(text)):
            yield path, ' '.join(m.group(1).split())


HAND = r'same_\w+|alike\w*|least|counted|flags?|number(_of)?|counts_of|symbol_code|detector(_code)?|constellation(_code)?' \
       r'|state_of|record_of|receiver_of|params_of|params_record|values_of|widen|narrow|no_state|no_params|no_receiver\w*' \
       r'|put|put_decimal|put_thousandths|write|line|heading|both|either|start|nothing|none'


def by_hand(files):
    """Point 4: equality, order, conversion, defaults and printing as functions of their own."""
    for path, text in files:
        for name, params, _, _ in functions(bare(text)):
            if re.fullmatch(HAND, name):
                yield path, 'fn ' + name


def clauses(files):
    """Point 5: a fact that three contracts or more require, and three parameters that travel together thrice."""
    facts, travel = {}, {}
    for path, text in files:
        t = bare(text)
        for name, params, contract, _ in functions(t):
            for m in re.finditer(r'requires[^{\n]*\{([^\n]*)\}', contract):
                fact = re.sub(r'\b(s|r|x|t|state|receiver|result|self|slot|last|pair|desk|carrier|timing|first)(\.\w+)*\b', '_', m.group(1).strip())
                facts.setdefault(fact, []).append((path, 'fn ' + name + ' requires ' + m.group(1).strip()))
            names = parameters(params)
            for i in range(len(names) - 2):
                travel.setdefault(tuple(sorted(names[i:i + 3])), []).append((path, 'fn ' + name + ' (' + ', '.join(names[i:i + 3]) + ')'))
    for groups in (facts, travel):
        for places in groups.values():
            if len(places) > 2:
                yield places[0][0], '%s, and %d more' % (places[0][1], len(places) - 1)


def buffers(files):
    """Point 6: arrays whose places have meanings, and buffers with a count or a place beside."""
    for path, text in files:
        for name, params, contract, _ in functions(bare(text)):
            if re.search(r'&(mut )?\[u64; (5|16)\]', params):
                yield path, 'fn ' + name
            elif re.search(r'&mut \[u8\]', params) and re.search(r'-> usize', contract):
                yield path, 'fn ' + name
            elif re.search(r'Window', params + contract):
                yield path, 'fn ' + name


def switches(files):
    """Point 7: a match on a letter, or on a kind handed in, that runs one of several functions."""
    for path, text in files:
        for name, params, _, body in functions(bare(text)):
            if re.search(r'match (letter|handing|op\.letter|number|command)\b', body):
                calls = re.findall(r'=>\s*\{?\s*[\w:*]+\(', body)
                if len(calls) > 2:
                    yield path, 'fn ' + name
            elif 'Handing' in params:
                yield path, 'fn ' + name


def uncited(files, commit):
    """Point 8: laws of proofs/Laws that no other line of the crates names, and no page but those of the port and the pass."""
    pages = ' '.join(text for path, text in sources(commit, r'docs/.*\.(md|patch)$') if not re.search(r'PORT|DESIGN', path))
    every = list(sources(commit, r'crates/\w+/(src|specs|proofs)/.*\.(rt|antt)$'))
    words = {}
    for _, text in every:
        for word in re.findall(r"[^\s(){}.,;:\[\]`]+", text):
            words[word] = words.get(word, 0) + 1
    for path, text in every:
        if '/proofs/Laws/' in path:
            for m in re.finditer(r'(?m)^(?:  )?(?:abbrev |unfoldable )?(?:pub )?([a-z][^\s:]*) : ', text):
                name = m.group(1)
                line = r'(?m)^\s*(?:abbrev |unfoldable )?(?:pub )?' + re.escape(name) + r'(?: : |(?: [^=\n]*)? =(?:\s|$))'
                own = len(re.findall(line, text))
                if words.get(name, 0) <= own and not re.search(r'(?<![\w-])' + re.escape(name) + r'(?![\w-])', pages):
                    yield path.replace('/proofs/', '/src/proofs/'), name


RULES = [('1', shaped), ('1', flags), ('1', kinds), ('2', twins), ('3', loops), ('4', by_hand), ('5', clauses),
         ('6', buffers), ('7', switches), ('8', uncited)]


def main(args):
    commit, show = None, '--list' in args
    args = [a for a in args if a != '--list']
    if '--at' in args:
        i = args.index('--at')
        commit = args[i + 1]
        del args[i:i + 2]
    files = list(sources(commit))
    total = {}
    for point, rule in RULES:
        if args and point not in args:
            continue
        places = list(rule(files, commit) if rule is uncited else rule(files))
        total[point] = total.get(point, 0) + len(places)
        print('%s  %-9s %4d   %s' % (point, rule.__name__, len(places), rule.__doc__.split(': ', 1)[1].split('.')[0]))
        if show:
            for path, what in sorted(places):
                print('      %s  %s' % (path.replace('crates/', '').replace('/src/', '/'), what))
    print('   '.join('point %s: %d' % x for x in sorted(total.items())))


if __name__ == '__main__':
    main(sys.argv[1:])
