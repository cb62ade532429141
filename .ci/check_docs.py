#!/usr/bin/env python3
"""Keeps the documents and the definitions true to the code.

Refuses (status 1, a line each):
- a name in backticks in README.md or docs/ that is no file, item, definition, clause, lemma, crate, command or word of the language;
- a definition of specs/ that no other definition, contract, test or public lemma cites (a file whose header says that it serves
  proofs only is cited by these);
- a name that is defined in the specs/ of two files;
- an index of docs/DEFINITIONS.md that isn't that of the definitions on which the clauses of `run` rest (`--write` writes it anew).
Words of the toolchain that the documents speak of stand in .ci/known_words, one a line. Definitions that wait for a crate which is
not here yet stand in .ci/awaited.
"""
import glob, os, re, sys

ROOT = os.path.join(os.path.dirname(os.path.abspath(__file__)), '..')
NAME = r"[A-Za-z_][A-Za-z0-9_']*(?:-[A-Za-z_][A-Za-z0-9_']*)*"
DEFINITION = re.compile(r"^(?:unfoldable\s+)?(?:abbrev\s+|record\s+|data\s+)?(?:pub\s+)?(?:abbrev\s+|record\s+|data\s+)?(?:unfoldable\s+)?(?:pub\s+)?(" + NAME + r")\b")
BEGIN, END = '<!-- index: begin -->', '<!-- index: end -->'
LEADS = re.compile(r"^(?:unfoldable|abbrev|record|data|pub)\b")


def read(path):
    with open(path, encoding='utf-8') as file:
        return file.read()


def files(pattern):
    return sorted(path for path in glob.glob(os.path.join(ROOT, pattern), recursive=True) if '/out/' not in path)


def without_comments(text, mark):
    return '\n'.join(line for line in text.split('\n') if not line.lstrip().startswith(mark))


def definitions():
    """The definitions of specs/: name -> the files that define it."""
    found = {}
    for path in files('crates/*/specs/*.antt'):
        for line in read(path).split('\n'):
            if LEADS.match(line) and not line.startswith('pub mod'):
                name = DEFINITION.match(line)
                if name:
                    found.setdefault(name.group(1), set()).add(path)
    return found


def code_names():
    """Every name that the code, the definitions and the lemmas declare."""
    names = set()
    for path in files('crates/*/src/*.rt'):
        text = read(path)
        names.update(re.findall(r"\b(?:fn|struct|enum|trait|const|static|mod|type)\s+(" + NAME + ")", text))
        names.update(re.findall(r"\b(?:ensures|requires|ghost)\s+(" + NAME + r")\s*[:={]", text))
        names.update(re.findall(r"^\s+(?:pub )?(" + NAME + r")\s*[:,({]", text, re.M))
        names.update(re.findall(r"^\s+([A-Z]\w*)\s*$", text, re.M))
        names.update(re.findall(r"\b([A-Z]\w*)\b", ' '.join(re.findall(r"enum \w+[^{]*\{([^}]*)\}", text))))
    for path in files('crates/*/specs/*.antt') + files('crates/*/proofs/**/*.antt'):
        text = read(path)
        names.update(m.group(1) for line in text.split('\n') for m in [DEFINITION.match(line)] if m)
        names.update(re.findall(r"^\s+(?:pub )?(" + NAME + r")\s*:", text, re.M))
    return names


def paths():
    """Every path of the repository, and its ends."""
    found = set()
    for top, folders, names in os.walk(ROOT):
        folders[:] = [f for f in folders if f not in ('.git', 'out')]
        for name in names + folders:
            parts = os.path.relpath(os.path.join(top, name), ROOT).split(os.sep)
            for start in range(len(parts)):
                found.add('/'.join(parts[start:]))
                found.add('/'.join(parts[start:]) + '/')
    return found


def known_words():
    words = set(read(os.path.join(ROOT, '.ci', 'known_words')).split())
    for line in read(os.path.join(ROOT, 'crates.txt')).split('\n'):
        words.update(re.findall(r"[a-z_0-9]+", line.split('#')[0]))
    for path in files('examples/*.oss'):
        words.update(re.findall(NAME, read(path)))
    return words


def unknown_names(names):
    known = names | known_words()
    all_paths = paths()
    for path in [os.path.join(ROOT, 'README.md')] + files('docs/*.md'):
        text = re.sub(r"^```.*?^```", lambda m: '\n' * m.group(0).count('\n'), read(path), flags=re.M | re.S)
        for number, line in enumerate(text.split('\n'), 1):
            if line.startswith('    '):
                continue
            for quoted in re.findall(r"`([^`]+)`", line):
                if quoted in all_paths or quoted.strip('./') in all_paths:
                    continue
                words = re.findall(NAME, quoted)
                bad = [w for w in words if len(w) > 1 and w not in known and w not in all_paths
                       and not set(w.split('-')) <= known]
                if bad:
                    yield f"{os.path.relpath(path, ROOT)}:{number}: `{quoted}` names nothing: {', '.join(bad)}"


def serves(path):
    """Whether the header of a file says that it serves proofs or tests alone."""
    header = re.match(r'(--.*\n)*', read(path)).group(0).replace('\n-- ', ' ')
    return re.search(r'\bserves (proofs|tests) only', header, re.I)


def uncited(defined):
    """Definitions that stand alone: no other definition, no contract and no test has their name."""
    cited = {}
    for path in files('crates/*/specs/*.antt'):
        owner = None
        for line in without_comments(read(path), '--').split('\n'):
            if line.startswith('use ') or line.startswith('pub mod'):
                continue
            begin = DEFINITION.match(line) if line and not line[0].isspace() else None
            if begin:
                owner = begin.group(1)
            for word in re.findall(NAME, line):
                if word != owner:
                    cited.setdefault(word, set()).add(path)
    public = [path for lib in files('crates/*/proofs/Lib.antt') for name in re.findall(r'^pub mod (\w+)', read(lib), re.M)
              for path in [os.path.join(os.path.dirname(lib), name + '.antt')]]
    for path in files('crates/*/src/*.rt') + public:
        text = '\n'.join(l for l in without_comments(read(path), '//').split('\n') if not re.match(r'\s*(ghost )?use ', l))
        for word in set(re.findall(NAME, text)):
            cited.setdefault(word, set()).add(path)
    awaited = set(read(os.path.join(ROOT, '.ci', 'awaited')).split())
    for name, where in sorted(defined.items()):
        if name not in cited and name not in awaited and not all(serves(path) for path in where):
            yield f"{os.path.relpath(sorted(where)[0], ROOT)}: {name} is cited by no definition, contract or test"


def twice(defined):
    for name, where in sorted(defined.items()):
        if len(where) > 1:
            yield f"{name} is defined in {' and '.join(os.path.relpath(p, ROOT) for p in sorted(where))}"


IMPORT = re.compile(r"use Rattle\.(\w+)\.specs\.(\w+)(?:\.\{([^}]*)\})?(?:\s+as\s+(\w+))?")


def imports(text, own):
    """What the names of a file stand for: name -> (crate, file, name), and module aliases -> (crate, file)."""
    names, modules = {}, {}
    for crate, file, listed, alias in IMPORT.findall(text):
        if listed:
            for item in listed.split(','):
                name, _, other = item.strip().partition(' as ')
                names[(other or name).strip()] = (crate, file, name.strip())
        elif alias:
            modules[alias] = (crate, file)
    return names, modules


def parsed_specs():
    """Each definition (crate, file, name) with the definitions that it cites."""
    cites = {}
    for path in files('crates/*/specs/*.antt'):
        crate, file = path.split(os.sep)[-3], os.path.basename(path)[:-5]
        text = read(path)
        names, modules = imports(text, path)
        owner = None
        for line in without_comments(text, '--').split('\n'):
            if line.startswith('use ') or line.startswith('pub mod'):
                continue
            begin = DEFINITION.match(line) if line and not line[0].isspace() else None
            if begin:
                owner = (crate, file, begin.group(1))
                if LEADS.match(line):
                    cites.setdefault(owner, set())
            if owner not in cites:
                continue
            for module, word in re.findall(r"(?:(\w+)\.)?(" + NAME + ")", line):
                if module in modules:
                    cites[owner].add((*modules[module], word))
                elif word in names and not module:
                    cites[owner].add(names[word])
                elif not module:
                    cites[owner].add((crate, file, word))
    return cites


def rests_on():
    """The definitions on which the clauses of `run` rest, in the order of crates and files."""
    cites = parsed_specs()
    text = read(os.path.join(ROOT, 'crates', 'ocra_tool', 'src', 'top.rt'))
    begin = text.index('pub fn run<')
    clauses = text[begin:text.index('\n{', begin)]
    names, _ = imports(text.replace('ghost use', 'use'), None)
    todo = [names[word] for word in re.findall(NAME, clauses) if word in names]
    found = set()
    while todo:
        one = todo.pop()
        if one in cites and one not in found:
            found.add(one)
            todo += cites[one]
    return found


def index_lines():
    crates = [line.split(':')[0].split()[0] for line in read(os.path.join(ROOT, 'crates.txt')).split('\n')
              if ':' in line.split('#')[0]]
    by_file = {}
    for crate, file, name in rests_on():
        by_file.setdefault((crates.index(crate), crate, file), []).append(name)
    return [f"| `{crate}/specs/{file}.antt` | " + ', '.join(f"`{name}`" for name in sorted(names)) + " |"
            for (_, crate, file), names in sorted(by_file.items())]


def index_faults(write):
    path = os.path.join(ROOT, 'docs', 'DEFINITIONS.md')
    text = read(path)
    begin, end = text.find(BEGIN), text.find(END)
    if begin < 0 or end < 0:
        return ['docs/DEFINITIONS.md has no index']
    wanted = '\n'.join([BEGIN, '', '| File | Definitions |', '|---|---|', *index_lines(), '', ''])
    if write:
        with open(path, 'w', encoding='utf-8') as file:
            file.write(text[:begin] + wanted + text[end:])
    elif text[begin:end] != wanted:
        return ['docs/DEFINITIONS.md: the index is not that of the definitions (.ci/check_docs.py --write)']
    return []


def main():
    defined = definitions()
    faults = index_faults('--write' in sys.argv)
    faults += list(unknown_names(code_names())) + list(uncited(defined)) + list(twice(defined))
    for fault in faults:
        print(fault)
    print(f"docs: {len(defined)} definitions, {len(faults)} faults")
    return 1 if faults else 0


if __name__ == '__main__':
    sys.exit(main())
