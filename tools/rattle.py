"""Reads Rattle sources for the scripts of this repository: which function a place belongs to, and where its body is."""
import re
from pathlib import Path
from typing import NamedTuple


class Function(NamedTuple):
    """A function of a source: its name, the types or traits around it, and where its head, its body and its end are."""

    name: str
    owners: tuple
    start: int
    body: int
    end: int


# Comments, texts and characters. A lifetime is no character: no quote ends it.
IGNORED = re.compile(r'//[^\n]*|/\*.*?\*/|b?r#*".*?"#*|b?"(?:\\.|[^"\\])*"|b?\'(?:\\.[^\']*|[^\'\\])\'', re.S)
ITEM = re.compile(r'\b(?:(mod|trait)\s+(\w+)|(impl)\b|(macro_rules)!|fn\s+(\w+))')
CLAUSE = re.compile(r'\b(?:requires|ensures)\b|\bghost\s+\w+\s*:')


def blanked(text):
    """Returns the text with spaces for comments, texts and characters, so that every brace in it is one of the code."""
    return IGNORED.sub(lambda found: re.sub(r'[^\n]', ' ', found[0]), text)


def group_end(text, at):
    """Returns where the group that opens at this place ends: after its closing brace, or at the end of the text."""
    depth = 0
    for found in re.compile(r'[{}]').finditer(text, at):
        depth += 1 if found[0] == '{' else -1
        if depth == 0:
            return found.end()
    return len(text)


def body_of(text, at, end):
    """Returns where the body of the function whose parameters begin here starts and ends. It starts at its end if there is none."""
    since, depth = at, 0
    for found in re.compile(r'[()\[\]{;]').finditer(text, at, end):
        if found.start() < since:
            continue
        if found[0] in '([':
            depth += 1
        elif found[0] in ')]':
            depth -= 1
        elif depth == 0 and found[0] == ';':
            return found.end(), found.end()
        elif depth == 0:
            close = group_end(text, found.start())
            if not CLAUSE.search(text, since, found.start()):
                return found.start(), close
            since = close
    return end, end


def owner_of(head):
    """Returns the name by which the prover calls an impl with this head: its type, then its trait and what that is of, if there is one."""
    head = head.removeprefix('impl').lstrip().split(' where ')[0]
    own = ''
    if head.startswith('<'):
        depth = 0
        for at, letter in enumerate(head):
            depth += (letter == '<') - (letter == '>')
            if depth == 0:
                own, head = head[1:at], head[at + 1:]
                break
    parameters = {re.sub(r':.*', '', it).strip().removeprefix('const ').strip() for it in own.split(',')}
    trait, _, type_ = head.rpartition(' for ')
    of = re.search(r'<(.*)>', trait)
    arguments = [it.strip() for it in of[1].split(',')] if of else []
    names = [re.sub(r'<.*', '', it).split('::')[-1].strip(' &') for it in (type_, trait)]
    return ''.join(names + [it[:1].upper() + it[1:] for it in arguments if it not in parameters and not it.startswith("'")])


def functions(text):
    """Returns the functions of a source, in order. Those inside of a body or a macro have no entry of their own."""
    code, found = blanked(text), []

    def read(at, end, owners):
        while item := ITEM.search(code, at, end):
            keyword, name = item[1] or item[3] or item[4] or 'fn', item[2] or item[5]
            if keyword == 'fn':
                body, at = body_of(code, item.end(), end)
                found.append(Function(name, owners, item.start(), body, at))
                continue
            opened = re.compile(r'[{;]').search(code, item.end(), end)
            if not opened or opened[0] == ';':
                at = opened.end() if opened else end
                continue
            at = group_end(code, opened.start())
            if keyword == 'macro_rules':
                continue
            owner = owner_of(' '.join(code[item.start():opened.start()].split())) if keyword == 'impl' else name
            read(opened.end(), at - 1, owners + (owner,))

    read(0, len(code), ())
    return found


def module_of(path):
    """Returns the module of a source by its path below src/: `utf_8::first` for `src/utf_8/first.rt`."""
    parts = Path(path).with_suffix('').parts[1:]
    return '::'.join(parts[:-1] if parts[-1] in ('lib', 'main', 'mod') else parts)
