"""Reads which module of the crates has the item that a name of a source means, for tools/modules and tools/limits."""
import re
from pathlib import Path

USE = re.compile(r'^[ \t]*(pub(?:\([^)]*\))? )?use ([^;]*);', re.M)


def without_comments(text):
    return re.sub(r'//.*', '', text)


def parts_of(tree):
    """Yields each path of a `use`, and the name that it has after it."""
    before, brace, inside = tree.partition('{')
    if not brace:
        path, _, alias = (word.strip() for word in tree.partition(' as '))
        path = tuple(path.split('::'))
        yield path, alias or path[-1]
        return
    depth, start = 0, 0
    inside = inside[:inside.rindex('}')] + ','
    for at, letter in enumerate(inside):
        depth += (letter == '{') - (letter == '}')
        if letter == ',' and not depth:
            for path, name in parts_of(inside[start:at].strip()) if inside[start:at].strip() else ():
                path = tuple(word for word in before.strip().split('::') if word) + path
                yield (path[:-1], path[-2]) if path[-1] == 'self' else (path, name)
            start = at + 1


class Modules:
    """The modules of the crates of a folder: of each its path as a tuple of names, its source and its text without comments."""

    def __init__(self, top):
        self.sources, self.texts = {}, {}
        for path in sorted((Path(top) / 'crates').glob('*/src/**/*.rt')):
            crate, _, *names = path.relative_to(Path(top) / 'crates').with_suffix('').parts
            module = (crate, *(name for name in names if name not in ('lib', 'main')))
            self.sources[module] = path
            self.texts[module] = without_comments(path.read_text('utf-8'))
        self.uses = {module: [(bool(public), path, name) for public, tree in USE.findall(text) if 'Rattle.' not in tree
                              for path, name in parts_of(re.sub(r'\s+', ' ', tree))] for module, text in self.texts.items()}

    def absolute(self, module, path):
        """Returns the path from the crate on, or an empty one if it leads to no module of these crates."""
        first, *rest = path
        if first == 'crate':
            return (module[0], *rest)
        while first in ('super', 'self') and rest:
            module = module[:-1] if first == 'super' else module
            first, *rest = rest
            if first not in ('super', 'self'):
                return (*module, first, *rest)
        for start in ((*module, first), (*module[:-1], first), (first,)):
            if start in self.texts:
                return (*start, *rest)
        return ()

    def owner(self, path, seen=()):
        """Returns the module that has an item: the one that the longest part of its path names, or from where that re-exports it."""
        size = next((size for size in range(len(path), 0, -1) if path[:size] in self.texts), 0)
        module, item = path[:size], path[size:size + 1]
        for public, again, name in self.uses.get(module, ()):
            if public and item == (name,) and (module, name) not in seen:
                return self.owner(self.absolute(module, again), (*seen, (module, name))) or module
        return module

    def imports(self, module):
        """Returns the modules that a module imports, other than those around it and inside of it."""
        paths = [path for _, path, _ in self.uses[module]]
        paths += [tuple(found.split('::')) for found in re.findall(r'\bcrate(?:::\w+)+', USE.sub('', self.texts[module]))]
        owners = {self.owner(self.absolute(module, path)) for path in paths}
        return {other for other in owners if other and other[:len(module)] != module and module[:len(other)] != other}
