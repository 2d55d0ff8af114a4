"""Compares the pages of this repository with its crates, and checks their form. It is no part of the gate.

    python3 docs/check_pages.py [--only WORD]

A page docs/crates/NAME.md has to name, in backticks or in a code block, each public call of the crate NAME: each
function that its lib.rt makes public, and each public method; and each edit of its must-fail/, whose old text stands
once in the file that it names. "Stands on" has the crates of crates.txt; a source file in backticks is one of the
crate, and a name before "(FILE; .." stands in that file of its specs/. Tests and benchmarks have a heading each in
tests.md and benches.md; the page of nr_laws is LAWS.md. Each name in backticks on any page has to be there: a word of
the code (on a crate's page of that crate, of those that it stands on or that stand on it), a file, a crate, a script.
Lines have at most 160 characters, prose 120, table cells 40 words; links lead to a file; the words of CONTRIBUTING's
house list stand in no prose, at the beginning of a sentence neither. WIRE.md has a row for each reason and each other
word of a Terminate. A page that sends its reader to measured.csv has a row there, or says that there is none.
Exit status: 0, or 1 with a line for each difference."""
import argparse
import glob
import gzip
import json
import os
import re
import sys

ROOT = os.path.dirname(os.path.dirname(os.path.abspath(__file__)))
LINE_MAX, PROSE_MAX, CELL_MAX = 160, 120, 40
HOUSE = (
    (r'\bwhere\b', 'where: write if, when or that'),
    (r'\bbehind\b', 'behind: write after'),
    (r'\bwhole\b(?!\.antt)', 'whole: write complete'),
    (r'\btold\b', 'told: write delivered or reported'),
    (r'\bwholly\b', 'wholly: write completely'),
    (r'\bso many\b', 'so many: write n or at most n'),
    (r'\bas it stands\b', 'as it stands: write the same as or equal to'),
    (r'\bwants? (?:of )?memory\b', 'want of memory: write out of memory'),
    (r'\bfor want of\b', 'for want of: write since there is none'),
)
# words in backticks that are no names of the project: of the kit and of std, and placeholders
OTHER = {'c6c6f000000', 'TITLE', 'WORDS', 'AT', 'Display', 'malloc', 'realloc', 'incremental', 'newer', 'csv', 'md', 'Lts', 'oantt', 'NAME', 'NAME_inner', 'MOD', 'FN', 'fattr3'}
PLACEHOLDER = re.compile(r'^P_\w+$')
# the pages of crates that stand at the top of docs/
OWN_PAGES = {'nr_laws': 'docs/LAWS.md'}
# what is a command, or text that is printed
WORD = re.compile(r"[A-Za-z_][A-Za-z0-9_']*")
SHELL = re.compile(r'^(rt|python3|find|git|cd|printf|grep) |^\.|^--|[{}=<>|"$]|\bC X\b')


def read(path: str) -> str:
    with open(path, encoding='utf-8') as h:
        return h.read()


def crate_names() -> list[str]:
    lines = read(os.path.join(ROOT, 'crates.txt')).splitlines()
    return [x.split(':')[0].split()[0] for x in lines if ':' in x and not x.startswith('#')]


def below(crate: str) -> set[str]:
    """The crates of this project that a crate stands on."""
    for line in read(os.path.join(ROOT, 'crates.txt')).splitlines():
        if re.match(r'%s( staticlib)?:' % crate, line):
            return set(line.split(':', 1)[1].split()) & set(crate_names())
    return set()


def sources(crate: str, kinds: tuple[str, ...] = ('src', 'specs', 'proofs')) -> list[str]:
    """The files of a crate."""
    out: list[str] = []
    for kind in kinds:
        out += glob.glob(os.path.join(ROOT, 'crates', crate, kind, '**', '*.*t*'), recursive=True)
    return sorted(x for x in out if x.endswith(('.rt', '.antt')))


def exported(crate: str) -> set[str]:
    """The names that lib.rt makes public."""
    lib = os.path.join(ROOT, 'crates', crate, 'src', 'lib.rt')
    if not os.path.exists(lib):
        return set()
    text = re.sub(r'//[^\n]*', '', read(lib))
    names: set[str] = set()
    for inner in re.findall(r'\bpub use ([^;]+);', text):
        names |= set(WORD.findall(inner.split('{', 1)[-1] if '{' in inner else inner.rsplit('::', 1)[-1]))
    return names | set(re.findall(r'\bpub (?:const )?fn (\w+)', text)) | set(re.findall(r'\bpub mod (\w+)', text))


def public_calls(crate: str) -> set[str]:
    """The functions and methods of a crate that others may call."""
    public, calls = exported(crate), set()
    for path in sources(crate, ('src',)):
        owner = ''
        for line in read(path).splitlines():
            head = re.match(r'impl(?:<[^{]*?>)?\s+(?:(?P<trait>[\w:]+)(?:<[^{]*>)?\s+for\s+)?(?P<type>\w+)', line)
            trait = re.match(r'pub trait (\w+)', line)
            if head:
                owner = '' if head.group('trait') else head.group('type')
            elif trait:
                owner = trait.group(1)
            elif line.startswith('}'):
                owner = ''
            top = re.match(r'pub (?:const )?fn (\w+)', line)
            inner = re.match(r'    pub (?:const )?fn (\w+)', line)
            if top and top.group(1) in public:
                calls.add(top.group(1))
            if inner and owner in public:
                calls.add(inner.group(1))
            if trait is None and owner and re.match(r'    fn (\w+)', line) and owner in public and is_trait(path, owner):
                calls.add(re.match(r'    fn (\w+)', line).group(1))  # type: ignore[union-attr]
    return calls


def is_trait(path: str, name: str) -> bool:
    return re.search(r'^pub trait %s\b' % name, read(path), re.M) is not None


def spans(text: str) -> list[tuple[int, str]]:
    """What stands in backticks, with its line."""
    out: list[tuple[int, str]] = []
    code = False
    for n, line in enumerate(text.splitlines(), 1):
        if line.startswith('```'):
            code = not code
        if not code and not line.startswith('    '):
            out += [(n, x) for x in re.findall(r'`([^`]+)`', line)]
    return out


def code_of(path: str) -> str:
    """The text of a source file without its comments."""
    return re.sub(r'//[^\n]*' if path.endswith('.rt') else r'(?m)(^|\s)--(\s[^\n]*|$)', '', read(path))


def words_of(crate: str) -> set[str]:
    """Each word of the code of a crate, and the names of its files and folders."""
    words = {crate}
    for path in sources(crate):
        words |= set(WORD.findall(code_of(path)))
        words |= set(path.replace(os.sep, '/').split('/')) | {os.path.splitext(os.path.basename(path))[0]}
    words |= {os.path.basename(x) for x in glob.glob(os.path.join(ROOT, 'crates', crate, '*'))}
    edits = glob.glob(os.path.join(ROOT, 'crates', crate, 'must-fail', '*.edit'))
    return words | {os.path.basename(x)[:-len('.edit')] for x in edits}


def words_beside(crates: list[str]) -> set[str]:
    """The names of crates, folders, scripts and recorded runs, and the words of scripts."""
    words = set(crates)
    for path in glob.glob(os.path.join(ROOT, 'conformance', 'runs', '*.json.gz')):
        words.add(os.path.basename(path).split('.')[0])
        with gzip.open(path, 'rt', encoding='utf-8') as h:
            for run in json.load(h):
                words |= {run['name'], *run['needs'], *run, *run['opened'][0]}
    for folder in ('bench', 'conformance', 'docs', 'drills', '.ci', '.'):
        for path in glob.glob(os.path.join(ROOT, folder, '**' if folder != '.' else '*'), recursive=folder != '.'):
            words |= {os.path.basename(path), os.path.splitext(os.path.basename(path))[0]}
            if path.endswith(('.py', '.sh', '.json', '.txt')):
                words |= set(WORD.findall(read(path)))
    return words


def vocabularies(crates: list[str]) -> dict[str, set[str]]:
    """The words that a page may have in backticks: of a crate's page those of the crate, of the crates on which it stands,
    and of those that stand on it; of any other page all, under the empty name."""
    beside, own = words_beside(crates), {c: words_of(c) for c in crates}
    under = {c: below(c) for c in crates}
    for c in crates:
        for d in list(under[c]):
            under[c] |= under.get(d, set())
    out = {'': beside.union(*own.values())}
    for c in crates:
        near = {c} | under[c] | {d for d in crates if c in under[d]}
        out[c] = beside.union(*(own[d] for d in near))
    return out


def check_names(page: str, text: str, words: set[str]) -> list[str]:
    out: list[str] = []
    known = words | OTHER
    for n, span in spans(text):
        if SHELL.search(span) or ' ' in span.strip() and not re.match(r'^[\w:]+ [\w:]+$', span):
            continue
        for word in WORD.findall(span):
            stem = word.strip("'_.")
            if len(stem) > 1 and word not in known and stem not in known and not PLACEHOLDER.match(word):
                out.append('%s:%d: no name `%s` in the code (in `%s`)' % (page, n, word, span))
    return out


def check_form(page: str, text: str) -> list[str]:
    out: list[str] = []
    code, house = False, False
    for n, line in enumerate(text.splitlines(), 1):
        if line.startswith('```'):
            code = not code
        if line.startswith('#'):
            house = 'House words' in line
        table, block = line.startswith('|'), code or line.startswith('    ')
        if len(line) > LINE_MAX:
            out.append('%s:%d: %d characters' % (page, n, len(line)))
        elif not table and not block and not line.startswith('#') and len(line) > PROSE_MAX and ' ' in line.strip('- '):
            out.append('%s:%d: prose of %d characters' % (page, n, len(line)))
        if table:
            for cell in line.strip('|').split('|'):
                if len(cell.split()) > CELL_MAX:
                    out.append('%s:%d: a cell of %d words' % (page, n, len(cell.split())))
        if not block and not house:
            prose = re.sub(r'`[^`]*`', '', line)
            out += ['%s:%d: %s' % (page, n, why) for pattern, why in HOUSE if re.search(pattern, prose, re.I)]
            for link in re.findall(r'\]\(([^)#]+)[^)]*\)', line):
                if '://' not in link and not os.path.exists(os.path.join(ROOT, os.path.dirname(page), link)):
                    out.append('%s:%d: no file %s' % (page, n, link))
    return out


def check_reasons(crates: list[str]) -> list[str]:
    """Each reason and each other word of a Terminate that the code or a definition has is a row of WIRE.md, and no other."""
    given: set[int] = set()
    for crate in crates:
        for path in sources(crate, ('src', 'specs')):
            given |= {int(n) for n in re.findall(r'\b(?:REASON_\w+|NO_BUFFER_WORD|NOT_READ|NO_PROGRESS)(?:: u32)? = (\d+)', read(path))}
            given |= {int(n) for n in re.findall(r'\bdenied_word \w+ = (\d+)', read(path))}
    table = read(os.path.join(ROOT, 'docs', 'WIRE.md')).split('| number | given for |', 1)[-1].split('\n\n', 1)[0]
    rows = {int(n) for n in re.findall(r'^\| (\d+) \|', table, re.M)}
    out = ['docs/WIRE.md: no row of the reason or word %d' % n for n in sorted(given - rows)]
    return out + ['docs/WIRE.md: the number %d is no reason or word' % n for n in sorted(rows - given)]


def check_measured(crates: list[str]) -> list[str]:
    """A page that names measured.csv has a row there, unless it says that there is none yet."""
    rows = {x.split(',')[4] for x in read(os.path.join(ROOT, 'docs', 'maintaining', 'measured.csv')).splitlines()[1:] if x.count(',') > 4}
    out: list[str] = []
    for crate in crates:
        page = 'docs/crates/%s.md' % crate
        text = read(os.path.join(ROOT, page)) if os.path.exists(os.path.join(ROOT, page)) else ''
        none = 'no row of it yet' in text or 'not been measured yet' in text
        if 'measured.csv' in text and not none and crate not in rows:
            out.append('%s: measured.csv has no row of it' % page)
        if none and crate in rows:
            out.append('%s: measured.csv has a row of it' % page)
    return out


def check_files(page: str, crate: str, text: str) -> list[str]:
    """The files and the edits of a crate that its page names."""
    files = {os.path.basename(x) for x in sources(crate)}
    out = ['%s:%d: no file `%s` in the crate' % (page, n, x) for n, x in spans(text)
           if re.search(r'^[\w/]+\.(rt|antt)$', x) and os.path.basename(x) not in files]
    edits = glob.glob(os.path.join(ROOT, 'crates', crate, 'must-fail', '*.edit'))
    out += ['%s: the edit `%s` is missing' % (page, x) for x in sorted(os.path.basename(e)[:-len('.edit')] for e in edits)
            if '`%s`' % x not in text]
    specs = {os.path.splitext(os.path.basename(x))[0]: read(x) for x in sources(crate, ('specs',))}
    for names, name in re.findall(r"((?:`[\w']+`(?:, | ))+)\(([A-Z]\w+)(?:\.antt)?;", re.sub(r'\s+', ' ', text)):
        if name not in specs:
            out.append('%s: no file %s of definitions' % (page, name))
            continue
        out += ['%s: no `%s` in %s' % (page, x, name) for x in re.findall(r'`([^`]+)`', names)
                if not re.search(r"\b%s(?![\w'])" % re.escape(x), specs[name])]
    return out


def check_edits(crate: str) -> list[str]:
    """The edits of a crate whose old text doesn't stand exactly once in their file."""
    out = []
    for path in sorted(glob.glob(os.path.join(ROOT, 'crates', crate, 'must-fail', '*.edit'))):
        text = ''
        for word, rest in re.findall(r'^(file|old): (.*)$', read(path), re.M):
            if word == 'file':
                text = read(os.path.join(ROOT, 'crates', crate, rest))
            elif text.count(rest) != 1:
                out.append('%s: its old text stands %d times' % (os.path.relpath(path, ROOT), text.count(rest)))
    return out


def check_crates(crates: list[str]) -> list[str]:
    out: list[str] = []
    shared = {'_tests': 'tests.md', '_bench': 'benches.md'}
    for crate in crates:
        kind = next((k for k in shared if crate.endswith(k)), None)
        page = OWN_PAGES.get(crate, 'docs/crates/%s' % (shared[kind] if kind else crate + '.md'))
        if not os.path.exists(os.path.join(ROOT, page)):
            out.append('%s: no page of the crate %s' % (page, crate))
            continue
        text = read(os.path.join(ROOT, page))
        if kind:
            if not re.search(r'^## .*\b%s\b' % crate, text, re.M):
                out.append('%s: no heading of %s' % (page, crate))
            continue
        named = set(WORD.findall(' '.join(x for _, x in spans(text))))
        named |= set(WORD.findall('\n'.join(x for x in text.splitlines() if x.startswith('    '))))
        out += ['%s: the public call `%s` is missing' % (page, c) for c in sorted(public_calls(crate) - named)]
        stands = re.search(r'^Stands on ([^.]*)\.', text, re.M)
        if stands is None or set(WORD.findall(stands.group(1))) & set(crates) != below(crate):
            out.append('%s: "Stands on" has other crates than crates.txt: %s' % (page, ' '.join(sorted(below(crate)))))
        out += check_files(page, crate, text) + check_edits(crate)
    pages = {os.path.basename(p)[:-3] for p in glob.glob(os.path.join(ROOT, 'docs', 'crates', '*.md'))}
    out += ['docs/crates/%s.md: no such crate' % p for p in sorted(pages - set(crates) - {'tests', 'benches'})]
    return out


def main(argv: list[str]) -> int:
    p = argparse.ArgumentParser(description='Compares the pages of this repository with its crates, and checks their form.')
    p.add_argument('--only', default='', help='differences whose line has this word')
    a = p.parse_args(argv)
    crates = crate_names()
    words = vocabularies(crates)
    pages = ['README.md', 'CONTRIBUTING.md', 'conformance/README.md', 'drills/README.md']
    pages += [os.path.relpath(x, ROOT) for x in sorted(glob.glob(os.path.join(ROOT, 'docs', '**', '*.md'), recursive=True))]
    wrong = check_crates(crates) + check_reasons(crates) + check_measured(crates)
    for page in pages:
        text = read(os.path.join(ROOT, page))
        name = os.path.splitext(os.path.basename(page))[0] if page.startswith('docs/crates/') else ''
        wrong += check_names(page, text, words.get(name, words[''])) + check_form(page, text)
    wrong = [w for w in wrong if a.only in w]
    print('\n'.join(wrong + ['%d pages, %d differences' % (len(pages), len(wrong))]))
    return 1 if wrong else 0


if __name__ == '__main__':
    sys.exit(main(sys.argv[1:]))
