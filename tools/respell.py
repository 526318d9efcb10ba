#!/usr/bin/env python3
# Brings the repository's own definitions and laws to the kit's spelling: words in snake case, where they were in camel case (boundsOf) or had hyphens (calls-back).
# Types, modules, functions of src/, the goals and steps that the check names, and what the kit's library declares keep their names. Pages follow, but for docs/CHANGES.md,
# which tells what was. Where all is spelled so already nothing changes.
#
# Usage: tools/respell.py [FOLDER]
# Prints what it changed, and 'falls together' for a name that would meet another in a file.
import glob
import os
import re
import sys

DECLARED = re.compile(r'^ *(?:pub |abbrev |unfoldable |instance |let |@\S+ )*(?P<names>[^\s():{}\[\]◌λ→=]+(?: [^\s():{}\[\]◌λ→=]+)*) :(?= |$)')
ANSWER = re.compile(r'^(?:pub |abbrev )*(?P<name>\S+) : goal\.')
BLOCK = re.compile(r'^(?:pub )?(?:record|data) ')
USE = re.compile(r'^(?P<head>\s*(?:ghost )?(?:pub )?use (?P<path>[^\s{}]+))\.\{(?P<names>[^}]*)\}(?P<tail>.*)$')
TOKEN = re.compile(r"[^\s(){}\[\],;\"`|λ]+")
GIVEN = ('Goals', 'Given')
CODE = re.compile(r'`[^`\n]+`')
STRING = re.compile(r'("(?:[^"\\]|\\.)*")')

# Laws that the rule would give the name of a definition beside them.
OTHERWISE = {
    'after-root': 'root_held',
    'after-roots': 'roots_held',
    'any-key': 'any_key_marked',
    'at-end': 'at_the_end',
    'attributes-by': 'attributes_by_command',
    'automatic-element': 'automatic_element_written',
    'automatic-name': 'automatic_name_bindable',
    'bound-after': 'bound_after_commands',
    'call-room': 'call_room_enough',
    'callees-read': 'callees_read_back',
    'calls-of-all': 'calls_of_all_roots',
    'calls-so-far': 'calls_determined',
    'children-by': 'children_by_command',
    'children-end': 'children_ended',
    'classic-element': 'classic_element_written',
    'element-at': 'element_headed',
    'flags-kept': 'flags_kept_back',
    'fragment-at': 'fragment_headed',
    'import-good': 'import_good_always',
    'in-group': 'in_group_bytes',
    'in-order': 'in_order_bounds',
    'is-key': 'valued_key',
    'kept-state': 'kept_state_packed',
    'key-after-spread': 'key_after_spread_marked',
    'lines-of': 'lines_of_each',
    'members-by': 'members_by_command',
    'name-by': 'name_by_command',
    'no-key': 'without_key',
    'node-child': 'node_child_behind',
    'notice-room': 'notice_room_enough',
    'notices-of-all': 'notices_of_all_roots',
    'notices-so-far': 'notices_determined',
    'on-keyword': 'by_keyword',
    'on-search': 'by_search',
    'on-sign': 'by_sign',
    'on-value': 'by_value',
    'on-word': 'by_word',
    'opened-by': 'opening_judged',
    'optional-good': 'optional_good_always',
    'priced-attributes': 'priced_attributes_within',
    'priced-children': 'priced_children_within',
    'priced-node': 'priced_node_within',
    'priced-value': 'priced_value_within',
    'properties-by': 'properties_by_command',
    'root-by': 'root_by_command',
    'same-form': 'same_form_itself',
    'scopes-by': 'scopes_by_command',
    'text-length': 'text_length_read',
    'text-survives': 'text_survives_line',
    'value-by': 'value_by_command',
}


def spelled(name):
    if name in OTHERWISE:
        return OTHERWISE[name]
    if not re.fullmatch(r"[a-z][A-Za-z0-9_'₀-₉\-]*", name):
        return name
    return re.sub(r'(?<=[^_])([A-Z])', lambda m: '_' + m.group(1).lower(), name).replace('-', '_')


def moves(names):
    return {n for n in names if spelled(n) != n}


def in_camel_case(name):
    return re.fullmatch(r"[a-z][a-z0-9_']*[A-Z][A-Za-z0-9_'₀-₉]*", name) is not None


class Source:
    """A file of definitions or laws: what it declares at any depth, of that the fields and constructors, the goals that it answers, and what it brings in."""

    def __init__(self, path, crates):
        self.path = path
        self.lines = open(path, encoding='utf-8').read().split('\n')
        self.names, self.fields, self.goals, self.brought, self.foreign = set(), set(), set(), set(), set()
        inside = False
        for line in self.lines:
            if line.lstrip().startswith('--'):
                continue
            if line[:1] not in (' ', ''):
                inside = bool(BLOCK.match(line))
            use, answer, told = USE.match(line), ANSWER.match(line), DECLARED.match(line)
            if use:
                parts = use['path'].split('.')
                own = parts[0] == 'Rattle' and len(parts) > 1 and parts[1] in crates
                names = [n.split(' as ')[-1].strip() for n in use['names'].split(',')]
                (self.goals if parts[-1] in GIVEN else self.brought if own else self.foreign).update(names)
            elif answer:
                self.goals.add(answer['name'])
            elif told:
                names = told['names'].split()
                self.names.update(names)
                if inside and line.startswith(' '):
                    self.fields.update(names)
        self.foreign -= self.names | self.brought


def respell_line(line, local, fields, goals, apart={}):
    def token(m):
        parts = m.group(0).split('.')
        if parts[0] == 'goal':
            return m.group(0)
        done = []
        for i, part in enumerate(parts):
            known = fields if i and parts[0] == 'c' else local if not i else local | fields
            done.append(apart[part] if not i and part in apart else spelled(part) if part in known and not (i == 0 and part in goals) else part)
        return '.'.join(done)

    use = USE.match(line)
    if use and use['path'].split('.')[-1] in GIVEN:
        return line
    if use:
        return f"{use['head']}.{{{TOKEN.sub(token, use['names'])}}}{use['tail']}"
    if re.match(r'\s*(ghost )?(pub )?use ', line):
        return line
    return TOKEN.sub(token, line)


def respell_parts(line, local, fields, goals, apart={}):
    """A line but for what stands between quotation marks."""
    return ''.join(part if part.startswith('"') else respell_line(part, local, fields, goals, apart) for part in STRING.split(line))


def respell_code(line, own):
    """A line of src/, but for its comment."""
    code, sign, comment = line.partition('//')
    return respell_parts(code, own, own, set()) + sign + comment


def main():
    if len(sys.argv) > 1:
        os.chdir(sys.argv[1])
    crates = {p.split('/')[1] for p in glob.glob('crates/*/src')}
    sources = [Source(p, crates) for p in sorted(glob.glob('crates/*/specs/**/*.antt', recursive=True) + glob.glob('crates/*/proofs/**/*.antt', recursive=True))]
    own = moves(set().union(*(s.names for s in sources)))
    fields = moves(set().union(*(s.fields for s in sources)))
    laws = moves(set().union(*(s.names for s in sources if not re.search(r'/proofs/.+/', s.path))))
    changed = 0

    def write(path, old, new):
        nonlocal changed
        if new != old:
            open(path, 'w', encoding='utf-8').write(new)
            changed += 1

    for s in sources:
        camel = {n for line in s.lines if not line.lstrip().startswith('--') for part in STRING.split(line)[::2] for t in TOKEN.findall(part) for n in t.split('.') if in_camel_case(n)}
        local = (moves(s.names | s.brought) | fields | camel) - s.foreign
        told = {n for n in moves(s.names) if '-' in n}
        # laws that the kit's own script spelled as a definition in camel case will be
        apart = {n: OTHERWISE[n.replace('_', '-')] for n in s.names | s.brought if n.replace('_', '-') in OTHERWISE and n in {spelled(c) for c in camel}}
        before = {t.split('.')[0] for line in s.lines if not line.lstrip().startswith('--') and not line.startswith('use ') for t in TOKEN.findall(line)}
        for n in sorted(local & before):
            if spelled(n) in before | s.brought | s.foreign | s.names and n not in s.goals and spelled(n) not in apart:
                print(f'falls together: {s.path}: {n} with {spelled(n)}')
        lines = [respell_line(line, told, set(), s.goals) if line.lstrip().startswith('--') else respell_parts(line, local, fields, s.goals, apart) for line in s.lines]
        write(s.path, '\n'.join(s.lines), '\n'.join(lines))
    for path in sorted(glob.glob('crates/*/src/**/*.rt', recursive=True)):
        old = open(path, encoding='utf-8').read()
        write(path, old, '\n'.join(respell_code(line, own) for line in old.split('\n')))
    for path in sorted(glob.glob('crates/*/must-fail/*.edit') + glob.glob('tests/edits/*/*.edit')):
        old = open(path, encoding='utf-8').read()
        write(path, old, '\n'.join(line if line.startswith(('#', 'file:')) else respell_line(line, own, own, set()) for line in old.split('\n')))
    for path in ['README.md'] + sorted(glob.glob('docs/*.md')):
        if os.path.basename(path) not in ('CHANGES.md', 'PORT.md'):
            old = open(path, encoding='utf-8').read()
            write(path, old, CODE.sub(lambda m: respell_line(m.group(0), laws, laws, set()), old))
    print(f'{len(own)} names, {changed} files changed')


main()
