"""What a text names: its words, those that it binds itself, and the definitions that the others stand for."""
import os
import re

from sources import ROOT, module_file, source, stop

TOKEN = re.compile(r'[(){},;]|\.[^\s(){},;.]+|[^\s(){},;.]+(?:\.[^\s(){},;.]+)*|\.')
MARKS = ('(', ')', '{', '}', ',', ';', '.', ':', '=', 'λ')
# words of the language, which no `use` brings
KNOWN = {'pub', 'abbrev', 'unfoldable', 'unfolding', 'record', 'data', 'where', 'module', 'let', 'in', 'Type', 'Unit',
         'tt', 'ensures', 'requires', 'now', '_'}
# stands for a definition of the library, which is not followed
LIBRARY = 'library'


class Reading:
    """The definitions that texts name. What could not be resolved is kept in `unknown`, for a warning."""

    def __init__(self):
        self.unknown = set()
        self.named = {}

    def of_definition(self, definition):
        """The definitions that a definition names, in the order of its text."""
        if definition not in self.named:
            find = self.of_type if definition.kind in ('struct', 'enum') else self.of_parts
            self.named[definition] = find(definition)
        return self.named[definition]

    def of_type(self, definition):
        """Those of a Rattle struct or enum: the types of its fields."""
        words = [word for part in definition.parts for word in re.findall(r'\w+', part.text)]
        return distinct(filter(None, (definition.file.type_named(word) for word in words)))

    def of_parts(self, definition, forms=('header', 'signature', 'member', 'equation')):
        """Those of its parts of these forms. What the modules around it, its header and its earlier fields bind is
        bound in all that follows; what a signature or an equation binds only there."""
        found, held = [], {definition.name}
        for text in definition.around:
            found += self.of_text(definition.file, text, held)
            held |= bound(tokens(text))
        for part in definition.parts:
            if part.form in forms:
                found += self.of_text(definition.file, part.text, held, part.form == 'equation')
            if part.form == 'header':
                held |= bound(tokens(part.text))
            if part.name:
                held.add(part.name)
        return distinct(found)

    def of_text(self, file, text, held, equation=False):
        """Those of one piece of text in a file, where the names `held` are bound."""
        words = tokens(text)
        held = held | bound(words)
        if equation:
            held |= self.arguments(file, words)
        found = []
        for i, word in enumerate(words):
            if is_name(word) and head(word) not in held and not is_label(words, i):
                meant = self.meaning(file, word)
                if meant is None and word not in KNOWN:
                    self.unknown.add('%s: %s' % (file.title, word))
                if meant not in (None, LIBRARY):
                    found.append(meant)
        return found

    def arguments(self, file, words):
        """The names that the left side of an equation binds: all but the function's own and those of constructors."""
        names = set()
        for word in left_side(words)[1:]:
            meant = self.meaning(file, word) if is_name(word) else LIBRARY
            if meant is None or (meant != LIBRARY and meant.kind not in ('data', 'enum')):
                names.add(word)
        return names

    def meaning(self, file, word):
        """The definition that a word stands for in a file, LIBRARY, or none where it is not known."""
        if '.' in word:
            name, field = word.split('.', 1)
            use = file.uses.get(name)
            if use and not use.there:
                return defined_in(use.module, field)
            word = name
        use = file.uses.get(word)
        return file.own(word) or (defined_in(use.module, use.there) if use and use.there else None)


def defined_in(module, name):
    """What a name of a module stands for; a module of this project that has no such name is an error."""
    parts = re.fullmatch(r'Rattle\.(\w+)\.(specs|proofs)\.(.*)', module)
    if not parts or not os.path.isdir(os.path.join(ROOT, 'crates', parts.group(1))):
        return LIBRARY
    crate, half, path = parts.groups()
    words = path.split('.')
    if words[0] == 'declared':
        return declared(crate, words[1:], module)
    file = source('crates/%s/%s/%s.antt' % (crate, half, '/'.join(words)))
    if not file:
        stop('no module %s' % module)
    use = file.uses.get(name)
    meant = file.own(name) or (defined_in(use.module, use.there) if use and use.public else None)
    if not meant:
        stop('no %s in %s' % (name, file.path))
    return meant


def declared(crate, words, module):
    """The struct or enum of src/ that a module `declared.records.Clock`, or its `TheVariants`, stands for."""
    words = [word for word in words if word != 'TheVariants']
    file = module_file(crate, words[:-1])
    meant = file.type_named(words[-1]) if file else None
    if not meant:
        stop('no type for %s' % module)
    return meant


# ---- words

def tokens(text):
    return TOKEN.findall(text)


def is_name(word):
    """Whether a word may name a definition: no mark, no number, no field `.next`, no operator."""
    return word not in MARKS and not word[0].isdigit() and word[0] != '.' and any(c.isalpha() for c in word)


def head(word):
    """The name before the fields of `clock.old.free`, or before a definition of a module."""
    return word.split('.', 1)[0]


def is_label(words, i):
    """Whether a word is the name of a field in `record { heads = ..; tails = .. }`."""
    return 0 < i < len(words) - 1 and words[i + 1] == '=' and words[i - 1] in ('{', ';')


def bound(words):
    """The names that a text binds: those before the ':' of a bracket, between λ and its dot, and after `let`."""
    names = set()
    for i, word in enumerate(words):
        plain = names_from(words, i + 1)
        after = words[i + 1 + len(plain):i + 2 + len(plain)]
        if word in ('(', '{') and after == [':'] or word == 'λ':
            names.update(plain)
        elif word == '{' and after == ['}'] and len(plain) == 1 and words[i - 1] != 'record':
            names.update(plain)
        elif word == 'let':
            names.update(plain[:1])
    return names


def names_from(words, i):
    """The names that stand one after another from there on."""
    plain = []
    while i < len(words) and is_name(words[i]):
        plain.append(words[i])
        i += 1
    return plain


def left_side(words):
    """The words before the `=` of an equation; one within brackets belongs to them."""
    depth = 0
    for i, word in enumerate(words):
        depth += (word in ('(', '{')) - (word in (')', '}'))
        if word == '=' and depth == 0:
            return words[:i]
    return []


def distinct(items):
    return list(dict.fromkeys(items))
