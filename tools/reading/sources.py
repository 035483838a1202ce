"""The sources as tools/path and tools/cited read them: the definitions of an .antt file (specs/ and proofs/ of a crate)
and of an .rt file (src/), the lines of each, and what the file's `use` lines bring. Nothing here knows the language
beyond how it is laid out: a definition begins with its line, and what belongs to it is further in, or begins with its
name."""
import functools
import os
import re
import sys

ROOT = os.path.dirname(os.path.dirname(os.path.dirname(os.path.abspath(__file__))))
KEYWORDS = ('pub', 'abbrev', 'unfoldable', 'record', 'data', 'private', 'opaque')
NAME = r'[^\s:(){},;.]+'


class Definition:
    """A definition with its lines. `kind` is abbrev, unfoldable, record, data, law, struct, enum, fn or const; `parts`
    are its pieces, one after another, each with the name that it gives (a field's, a constructor's, or none)."""

    def __init__(self, kind, name, file, number, lines, above, around=()):
        self.kind, self.name, self.file, self.number = kind, name, file, number
        self.lines, self.above, self.around = lines, above, list(around)
        self.parts = []

    def __str__(self):
        return '%s:%s' % (self.file.title, self.name)

    def members(self, *kinds):
        """The names that its parts give, where it is of one of these kinds."""
        return [part.name for part in self.parts if part.name and self.kind in kinds]

    def code_lines(self):
        return sum(1 for line in self.lines if self.file.code(line))

    def comment_lines(self):
        return len(self.above) + sum(1 for line in self.lines if line.strip() and not self.file.code(line))


class Part:
    """One piece of a definition: its header, a field, a constructor or variant, a signature, an equation."""

    def __init__(self, form, name, text):
        self.form, self.name, self.text = form, name, text


class Use:
    """One name that a `use` brings: the module, the name there, the name here. Without a name it is the module."""

    def __init__(self, module, there, here, public):
        self.module, self.there, self.here, self.public = module, there, here, public


class File:
    """A source file. `path` begins at the repository's root, `title` is as documents cite it: crate:specs/File.antt."""

    def __init__(self, path):
        self.path = path
        folders = path.split('/')
        self.crate = folders[1]
        self.title = '%s:%s' % (self.crate, '/'.join(folders[2:]))
        with open(os.path.join(ROOT, path)) as file:
            self.lines = file.read().split('\n')
        self.definitions = {}
        self.members = {}
        self.uses = {}

    def add(self, definition):
        self.definitions.setdefault(definition.name, definition)
        for name in definition.members('data', 'enum'):
            self.members.setdefault(name, definition)

    def own(self, name):
        """The definition of that name in this file, or the one that has it as a constructor."""
        return self.definitions.get(name) or self.members.get(name)

    def everything(self):
        """Every name that a document may cite: definitions, fields, constructors, variants."""
        names = set(self.definitions)
        for definition in self.definitions.values():
            names.update(definition.members('record', 'data', 'struct', 'enum'))
        return names


def stop(message):
    """Ends the command: something that it has to read is not there."""
    print(message, file=sys.stderr)
    sys.exit(2)


def indent(line):
    return len(line) - len(line.lstrip(' '))


@functools.lru_cache(None)
def source(path):
    """The file at a path below the root, read once; none where there is no such file."""
    if not os.path.isfile(os.path.join(ROOT, path)):
        return None
    return AnttFile(path) if path.endswith('.antt') else RtFile(path)


def brought(text):
    """The names of a `use ..{a, b as c}`: (there, here) of each."""
    for item in text.split(','):
        words = item.split()
        if words:
            yield words[0], words[-1]


# ---- .antt

class AnttFile(File):
    def __init__(self, path):
        super().__init__(path)
        self.read_uses()
        self.read_definitions()

    @staticmethod
    def code(line):
        """The line without its comment."""
        return re.sub(r'(^|\s)--(\s.*|$)', '', line).strip()

    def read_uses(self):
        form = r'^ *(pub )?use (\S+?)(?:\.\{([^}]*)\}| as (\S+))$'
        for public, module, names, alias in re.findall(form, '\n'.join(self.lines), re.M):
            if alias:
                self.uses[alias] = Use(module, None, alias, bool(public))
            for there, here in brought(names):
                self.uses[here] = Use(module, there, here, bool(public))

    def read_definitions(self):
        """Goes down the lines: `above` are the comment lines just read, `modules` the headers of the modules around."""
        above, modules, i = [], [], 0
        while i < len(self.lines):
            line = self.lines[i]
            if not self.code(line):
                above = above + [line] if line.strip() else []
                i += 1
                continue
            modules = [(far, text) for far, text in modules if far < indent(line)]
            start, end = started(line), i + 1
            if re.match(r'\s*module ', line):
                end = self.header_end(i)
                modules.append((indent(line), self.joined(i, end)))
            elif start:
                end = self.block_end(i, *start)
                definition = Definition(*start, self, i + 1, self.lines[i:end], above, [text for _, text in modules])
                definition.parts = list(self.parts_of(definition))
                self.add(definition)
            above, i = [], end

    def joined(self, i, end):
        return ' '.join(self.code(line) for line in self.lines[i:end])

    def header_end(self, i):
        """The line after a header, which ends with `where`."""
        while i < len(self.lines) and not re.search(r'\bwhere$', self.code(self.lines[i])):
            i += 1
        return i + 1

    def block_end(self, i, kind, name):
        """The line after a definition: what is further in is part of it, and so are equations and what closes them."""
        far, end, k = indent(self.lines[i]), i + 1, i + 1
        while k < len(self.lines):
            line = self.lines[k]
            if self.code(line):
                if indent(line) < far or (indent(line) == far and not continues(line.strip(), kind, name)):
                    break
                end = k + 1
            k += 1
        return end

    def parts_of(self, definition):
        """A record or data: its header, then each field or constructor. Others: the signature, then each equation."""
        codes = [(indent(line), self.code(line)) for line in definition.lines if self.code(line)]
        if definition.kind in ('record', 'data'):
            count = next(k for k, (_, text) in enumerate(codes) if re.search(r'\bwhere$', text)) + 1
            yield Part('header', None, ' '.join(text for _, text in codes[:count]))
            body = codes[count:]
            for piece in pieces(body, lambda far, text: far == body[0][0]):
                words = re.match(r'(?:pub )?(%s)(.*)' % NAME, piece)
                yield Part('member', words.group(1), words.group(2))
        else:
            far = codes[0][0]
            first = True
            for piece in pieces(codes, lambda there, text: there == far and text[0] not in ')}'):
                yield Part('signature' if first else 'equation', None, piece)
                first = False


def started(line):
    """The kind and name of the definition that a line begins; none where it begins none."""
    keyed = re.match(r'\s*((?:(?:%s) )+)(%s)(?=\s|$)' % ('|'.join(KEYWORDS), NAME), line)
    if keyed:
        kinds = [word for word in keyed.group(1).split() if word not in ('pub', 'private', 'opaque')]
        if kinds:
            return kinds[0], keyed.group(2)
    law = re.match(r'\s*(?:pub )?(%s)(?: \{[^}]*\})* :(?=\s|$)' % NAME, line)
    return ('law', law.group(1)) if law else None


def continues(text, kind, name):
    """Whether a line as far in as a definition's first one belongs to it: an equation, or a bracket that closes one."""
    if text[0] in ')}':
        return True
    return kind not in ('record', 'data') and re.match(r'(unfolding|%s)(?=[\s=]|$)' % re.escape(name), text) is not None


def pieces(codes, begins):
    """Lines put together to pieces, of which each begins with a line that `begins` takes."""
    piece = []
    for far, text in codes:
        if piece and begins(far, text):
            yield ' '.join(piece)
            piece = []
        piece.append(text)
    if piece:
        yield ' '.join(piece)


# ---- .rt

class RtFile(File):
    FORM = re.compile(r'\s*(?:pub(?:\(\w+\))? )?(?:extern "C" )?(struct|enum|fn|const) (\w+)')

    def __init__(self, path):
        super().__init__(path)
        # functions and methods; a method of one type may be called as one of another
        self.functions = []
        self.read_uses()
        self.read_definitions()

    @staticmethod
    def code(line):
        return re.sub(r'(^|\s)//.*$', '', line).strip()

    def read_uses(self):
        text = '\n'.join(self.lines)
        for module, names, alias in re.findall(r'^ghost use (\S+?)(?:\.\{([^}]*)\}| as (\S+));', text, re.M):
            if alias:
                self.uses[alias] = Use(module, None, alias, False)
            for there, here in brought(names):
                self.uses[here] = Use(module, there, here, False)
        self.ghosts = set(self.uses)
        form = r'^(pub )?use ([\w:]+)::(?:\{([^}]*)\}|(\w+(?: as \w+)?));'
        for public, module, several, one in re.findall(form, text, re.M):
            for there, here in brought(several or one):
                if here not in self.ghosts:
                    self.uses[here] = Use(module, there, here, bool(public))

    def own(self, name):
        """What a contract names is what a `ghost use` brings, though the file has a function of that name."""
        return None if name in self.ghosts else super().own(name)

    def read_definitions(self):
        above = []
        for i, line in enumerate(self.lines):
            start = self.FORM.match(line) if self.code(line) else None
            if start:
                definition = Definition(*start.groups(), self, i + 1, self.lines[i:self.block_end(i)], above)
                definition.parts = list(self.parts_of(definition))
                self.add(definition)
                if definition.kind == 'fn':
                    self.functions.append(definition)
            if line.strip().startswith('//'):
                above = above + [line]
            elif not line.strip().startswith('#['):
                above = []

    def block_end(self, i):
        """The line after a definition: its own line, or the line on which its last bracket closes. A function's
        contract has brackets too; its body begins with a line that is one."""
        far = indent(self.lines[i])
        for k in range(i, len(self.lines)):
            text = self.code(self.lines[k])
            if indent(self.lines[k]) == far and (text.endswith(';') or text.endswith('}')):
                return k + 1
        return len(self.lines)

    def parts_of(self, definition):
        """A struct or enum: its fields or variants. A function: what stands before its body."""
        codes = [(indent(line), self.code(line)) for line in definition.lines if self.code(line)]
        if definition.kind in ('struct', 'enum') and len(codes) > 1:
            yield Part('header', None, codes[0][1])
            body = codes[1:-1]
            for piece in pieces(body, lambda far, text: far == body[0][0] and text[0] not in ')}'):
                words = re.match(r'(?:pub )?(\w+)(.*)', piece)
                yield Part('member', words.group(1), words.group(2))
        else:
            texts = [text for _, text in codes]
            yield Part('header', None, '\n'.join(texts[:texts.index('{')] if '{' in texts else texts))

    def type_named(self, name):
        """The struct or enum of that name: of this file, or where a `use` of this file has it from."""
        own = self.definitions.get(name)
        if own:
            return own if own.kind in ('struct', 'enum') else None
        use = self.uses.get(name)
        home = rust_module(self.crate, use.module) if use and use.there else None
        return home.type_named(use.there) if home else None


def rust_module(crate, path):
    """The file of a Rust path such as crate::records or wheel_rules::calls."""
    words = path.split('::')
    return module_file(crate if words[0] == 'crate' else words[0], words[1:])


def module_file(crate, words):
    """The file of src/ that holds a module."""
    tries = ['/'.join(words) + '.rt'] if words else ['lib.rt', 'main.rt']
    found = [source('crates/%s/src/%s' % (crate, name)) for name in tries]
    return next((file for file in found if file), None)
