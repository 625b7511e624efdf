"""Which definitions the promises and the theorems rest on: names are followed from the contracts of public functions, and from the statements of theorems,
through specs/ and proofs/.

Read off the text, by each file's `use` lines. A theorem is followed by its statement alone, with what the modules around it assume; a definition, a
record and a data type by all of it."""
import glob, os, re

NAME = re.compile(r'(?<![.\w])[^\s(){}.,;λ«»]+')  # a field's name, behind its dot, is none
DECLARES = re.compile(r'^(\s*)((?:unfoldable |abbrev |pub )*)(?:(record|data) )?([^\s:(){}=]+)(?: [({][^{}()]*(?:\([^()]*\)[^{}()]*)*[)}])* :(?: |$)')
OTHER = re.compile(r'\s*(?:use|module|infix\w*|mod|pub mod|syntax|ruleset)\b')
FIELD = re.compile(r'^\s+(?:pub )?([^\s:(){}=]+) :(?: |$)')


class Declared:
    def __init__(self, name, theorem, lines, around):
        self.name, self.theorem, self.lines, self.around, self.fields = name, theorem, lines, around, []


def code(line):
    return re.sub(r'--.*', '', line).rstrip()


def declarations(text):
    """Every name that a file declares. A record's fields belong to it, what stands in a `where` to what stands above."""
    out, now, record, open_, modules = {}, None, None, False, []
    for line in map(code, text.split('\n')):
        if not line.strip():
            continue
        deep = len(line) - len(line.lstrip())
        if record is not None and deep > record:
            now.lines.append(line)
            now.fields += FIELD.findall(line)
            continue
        record = None
        # a module's parameters, of one line or more, are assumed by what stands in it
        if modules and not modules[-1][1].endswith('where'):
            modules[-1][1] += ' ' + line.strip()
            continue
        modules = [x for x in modules if x[0] < deep]
        m = DECLARES.match(line)
        if OTHER.match(line):
            now = None
            if line.lstrip().startswith('module '):
                modules.append([deep, line])
        elif m and (m.group(2) or m.group(3) or deep == 0):
            theorem = not m.group(3) and not re.search('unfoldable|abbrev', m.group(2))
            now = out[m.group(4)] = Declared(m.group(4), theorem, [line], [x[1] for x in modules])
            open_ = True
            if m.group(3):
                record = deep
        elif now:
            if now.theorem and re.match(rf'\s*(?:unfolding\b|{re.escape(now.name)}(?=\s|$))', line):
                open_ = False
            if open_ or not now.theorem:
                now.lines.append(line)
    return out


def imports(text):
    """Every name that a file brings in from a crate here: its crate, folder, module and name there."""
    out = {}
    for module, names in re.findall(r'^\s*(?:ghost )?use (Rattle\.[\w.]+)\.\{([^}]*)\}', text, re.M):
        m = re.fullmatch(r'Rattle\.(\w+)\.(specs|proofs)\.(\w+)', module)
        for item in names.split(',') if m else []:
            there, _, here = item.partition(' as ')
            if there.strip():
                out[(here or there).strip()] = (*m.groups(), there.strip())
    return out


class Meaning:
    def __init__(self, crates='crates'):
        self.files, self.seen = {}, set()
        for file in glob.glob(f'{crates}/*/specs/*.antt') + glob.glob(f'{crates}/*/proofs/*.antt'):
            text = open(file, encoding='utf-8').read()
            crate, folder, module = file.split('/')[-3:]
            if module != 'Lib.antt':
                self.files[crate, folder, module[:-5]] = declarations(text), imports(text)

    def words(self, text, own, brought):
        """What names in a text stand for, operators by their parts."""
        found = set(NAME.findall(text))
        for name in list(own) + list(brought):
            parts = [p for p in name.split('◌') if p]
            if '◌' in name and parts and all(p in found for p in parts):
                found.add(name)
        return found

    def follow(self, crate, folder, module, name):
        key = crate, folder, module, name
        own, brought = self.files.get(key[:3], ({}, {}))
        if name not in own or key in self.seen:
            return
        self.seen.add(key)
        for word in self.words('\n'.join(own[name].around + own[name].lines), own, brought):
            if word in own:
                self.follow(crate, folder, module, word)
            elif word in brought:
                self.follow(*brought[word])

    def contract(self, source, clauses):
        brought = imports(source)
        for word in self.words('\n'.join(clauses), {}, brought):
            if word in brought:
                self.follow(*brought[word])

    def reached(self, crate, folder, module):
        """The definitions of a file that were reached, and how many lines they are."""
        own = self.files[crate, folder, module][0]
        names = [n for n, d in own.items() if (crate, folder, module, n) in self.seen and not d.theorem]
        return names, sum(len(own[n].lines) for n in names)
