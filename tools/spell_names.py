#!/usr/bin/env python3
"""Respells the repository's own definitions and lemmas by tools/spelling.tsv (old, a tab, new), in the folder it is run in.

    tools/spell_names.py

Run it once, at the top of the repository, right after the toolchain's own port script. Words get snake case; a lemma that
would then be called like a definition, and a definition that would be called like a function, ends in `_lem` or `_of`.
It turns whole names: in specs and proofs the text and the quoted names of comments, in sources the clauses and ghost items,
in must-fail edits and pages what is certain to be such a name. A name stays where the file has it from a library or from
the goals that the toolchain makes. It prints the files in which an old name meets its new one.
"""
import os
import re

HERE = os.path.dirname(os.path.abspath(__file__))
TABLE = dict(l.rstrip('\n').split('\t')[:2] for l in open(os.path.join(HERE, 'spelling.tsv'), encoding='utf-8') if l.strip())
TOKEN = re.compile(r"[^\s(){}.;,@\"«»`\[\]|:⟦⟧⌜⌝]+")
CAMEL = re.compile(r"[a-z][A-Z]")
MADE = {'c', 'w', 'l', 'g', 'a', 'goal', 'need'}
OURS = re.compile(r"Rattle\.(\w+)\.")


def libraries():
    return {it for it in os.listdir('crates')}


def staying(text, crates):
    """The names that a file has from a library or from made goals, and those that it answers as goals."""
    out = set()
    for path, items in re.findall(r"\buse ([^\s;{]+)\.\{([^}]*)\}", text):
        crate = OURS.match(path + '.')
        if crate and crate[1] in crates and not re.search(r"\.(Goals|Given|Tie)$", path):
            continue
        out |= {part.strip() for it in items.split(',') for part in it.split(' as ')}
    out |= set(re.findall(r"(?m)^\s*(?:abbrev |pub )*(\S+) : (?:goal|need)\.", text))
    return out


def respell(text, stay, only=None):
    """The text with its names respelled; `only` says which old names are certain here."""
    def turn(found):
        old = found[0]
        new = TABLE.get(old)
        if new is None or old in stay or (only and not only(old)):
            return old
        at = found.start()
        if at and text[at - 1] == '.':
            head = re.search(r"([^\s(){};,]*)\.$", text[:at])[1]
            if head in MADE:
                return old
        return new
    return TOKEN.sub(turn, text)


def is_camel(name):
    return bool(CAMEL.search(name))


def spans(comment):
    """A comment: the names in its code spans, and elsewhere what can be nothing but a name."""
    return re.sub(r"`[^`]*`|[^`]+", lambda m: respell(m[0], set()) if m[0][0] == '`' else respell(m[0], set(), is_camel), comment)


def in_antt(text, crates):
    stay = staying(text, crates)
    out = []
    for line in text.split('\n'):
        code = re.match(r"(.*?)((?:(?<=\s)|^)--(?:\s.*)?$|$)", line)
        out.append(respell(code[1], stay) + spans(code[2]))
    return '\n'.join(out)


CLAUSE = re.compile(r"\bghost\s+use\b|\b(?:requires|ensures)\b\*?\s*(?:\w+\s*)?(?=\{)|\bghost\b\s*(?:\w+\s*[:=]\s*)?(?=\{)|(?<=:\s)\{|//[^\n]*")


def in_rt(text, crates):
    stay = staying(text, crates)
    out, at = [], 0
    while True:
        found = CLAUSE.search(text, at)
        if not found:
            return ''.join(out) + text[at:]
        out.append(text[at:found.start()])
        if found[0].startswith('//'):
            out.append(spans(found[0]))
            at = found.end()
            continue
        end = found.end()
        if found[0].startswith('ghost') and 'use' in found[0]:
            end = text.index(';', end) + 1
        else:
            end = text.index('{', found.start())
            depth = 0
            while True:
                depth += {'{': 1, '}': -1}.get(text[end], 0)
                end += 1
                if depth == 0:
                    break
        out.append(text[found.start():found.end()] + respell(text[found.end():end], stay))
        at = end


def in_page(text):
    return re.sub(r"`[^`\n]+`", lambda m: respell(m[0], set()), text)


def old_names_stand():
    """Whether a name that only this script turns still stands: a second run would turn new names again."""
    olds = {it for it in TABLE if is_camel(it)}
    for folder, _, files in os.walk('crates'):
        for name in files:
            if name.endswith('.antt') and olds & set(TOKEN.findall(open(os.path.join(folder, name), encoding='utf-8').read())):
                return True
    return False


def main():
    if not old_names_stand():
        raise SystemExit('spell_names: the names are respelled already')
    crates = libraries()
    for folder, dirs, files in os.walk('.'):
        dirs[:] = sorted(d for d in dirs if d not in ('out', '.git', 'target', 'tools'))
        for name in sorted(files):
            path = os.path.join(folder, name)
            if not name.endswith(('.antt', '.rt', '.edit', '.md')):
                continue
            text = open(path, encoding='utf-8').read()
            if name.endswith('.antt'):
                new = in_antt(text, crates)
            elif name.endswith('.rt'):
                new = in_rt(text, crates)
            elif name.endswith('.edit'):
                new = respell(text, set(), is_camel)
            else:
                new = in_page(text)
            if new == text:
                continue
            if name.endswith(('.antt', '.rt')):
                before, after = set(TOKEN.findall(text)), set(TOKEN.findall(new))
                for old, to in sorted(TABLE.items()):
                    if old in before and old not in after and to in before:
                        print(f'meets: {path}: {old} becomes {to}, which stands there already')
            open(path, 'w', encoding='utf-8').write(new)


if __name__ == '__main__':
    main()
