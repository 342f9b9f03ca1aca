#!/usr/bin/env python3
"""Holds the documents to what is there.

    python3 tests/tender.py [LOG]       LOG is what a run of `rt ci` printed, as the gate gives it

- Each line `fn CRATE::FUNCTION: proved` that docs/TENDER.md and docs/CLAIMS.md cite is of a function that stands in that crate with a
  promise, an `ensures`. In LOG every crate is proved, or kept, which says that an earlier run proved the same files over the same
  libraries; and where the run proved the crate itself, the cited line stands in what it printed of the crate.
- Each word of a crate's last line in LOG, `logic=proved ..`, is one that docs/CLAIMS.md explains.
- docs/EDITS.md names each edit that must fail, no other, and their number; and each edit can be made: its text stands in its file once.
- README.md has each crate of crates.txt in its map, and no other.
- Each path and each link that a document cites exists; of crates/NAME/out, which rt makes, the program or the static library does.
  docs/CHANGES.md tells of earlier states and is left out.

Each of these is tried first on a citation that is wrong, and has to notice it.
"""
import re
import sys
from pathlib import Path

ROOT = Path(__file__).resolve().parent.parent
FOLDERS = 'crates|docs|tests|include|examples|bench|plans|tools'
STAND_INS = {'NAME', 'LABEL', 'FUNCTION'}
FREE = ('functions', 'target', 'tests')


def text(name):
    return (ROOT / name).read_text(encoding='utf-8')


def documents():
    pages = [ROOT / 'README.md', ROOT / 'CONTRIBUTING.md', *sorted((ROOT / 'docs').glob('*.md'))]
    return [page for page in pages if page.name != 'CHANGES.md']


def sections(log):
    """What a run of `rt ci` printed of each crate that it proved itself: the lines from `== CRATE` to `rt: CRATE proved`."""
    found = {}
    for crate, lines in re.findall(r'^== (\w+)\n(.*?)^rt: \1 (?:proved|NOT PROVED)$', log, re.M | re.S):
        found[crate] = lines.splitlines()
    return found


def crates():
    return re.findall(r'^(\w+)(?: staticlib)?:', text('crates.txt'), re.M)


def unproved(log, names):
    """Crates that a run of `rt ci` neither proved nor found proved by an earlier one."""
    for crate in names:
        if not re.search(rf'^rt: {crate} (?:proved$|is kept: an earlier run on this machine proved the same files)', log, re.M):
            yield f'{crate} is neither proved nor kept in the log of rt ci'


def cited_lines(page):
    """The lines that a page cites, each with its crate and function.  Names are in small letters."""
    return sorted(set(re.findall(r'(fn ([a-z0-9_]+)::([a-z0-9_]+): proved)', page)))


def promises(crate, function):
    """Whether the function stands in the crate's source with an `ensures`."""
    source = '\n'.join(file.read_text(encoding='utf-8') for file in sorted((ROOT / 'crates' / crate / 'src').glob('*.rt')))
    found = re.search(rf'^ *(?:pub )?(?:extern "C" )?fn {function}[(<](.*?)^ *\{{\}}?$', source, re.M | re.S)
    return bool(found) and bool(re.search(r'^ +ensures', found.group(1), re.M))


def missing_lines(page, proved):
    """Of the cited lines those that no check of today's source prints, or that a run of `rt ci` did not print of a crate it proved."""
    for line, crate, function in cited_lines(page):
        if not promises(crate, function):
            yield f'`{line}` is cited, and crates/{crate}/src has no such function with a promise'
        elif crate in proved and line not in proved[crate]:
            yield f'`{line}` is cited, and the run of rt ci did not print it'


def unknown_words(crate, lines, claims, readme):
    """Of the words of a crate's last line those that are not explained."""
    last = [line for line in lines if line.startswith('logic=proved ')]
    if not last:
        yield f'{crate} has no line `logic=proved ..` in the log of rt ci'
    for word in ' '.join(last[:1]).split()[1:]:
        name, _, value = word.partition('=')
        known = name in FREE or (value in readme if name == 'sum' else f'`{word}`' in claims)
        if not known:
            yield f'{crate} is proved with `{word}`, which docs/CLAIMS.md does not explain'


def unfit_edits(name, edit):
    """Why an edit of the crate cannot be made: each of its texts has to stand in its file once."""
    path, old, texts = '', '', {}
    for line in edit.splitlines():
        word, _, rest = line.partition(':')
        if word == 'file':
            path = rest.strip()
        elif word == 'old':
            old = rest[1:]
        elif word == 'new':
            file = ROOT / 'crates' / name / path
            there = texts.get(path) or (file.read_text(encoding='utf-8') if file.is_file() else '')
            if there.count(old) != 1:
                yield f'its text `{old}` is in {path} {there.count(old)} times'
            texts[path] = there.replace(old, rest[1:])


def wrong_edits(page):
    """Edits that are not named, names without an edit, and a wrong number."""
    there = {f'{file.parts[-3]}/{file.stem}' for file in ROOT.glob('crates/*/must-fail/*.edit')}
    named = set(re.findall(r'`(\w+/\w+)`', page))
    for edit in sorted(there - named):
        yield f'the edit {edit} is not named in docs/EDITS.md'
    for edit in sorted(named - there):
        yield f'docs/EDITS.md names {edit}, and there is no such edit'
    if f'There are {len(there)} edits.' not in page:
        yield f'docs/EDITS.md does not say that there are {len(there)} edits'
    for file in sorted(ROOT.glob('crates/*/must-fail/*.edit')):
        for why in unfit_edits(file.parts[-3], file.read_text(encoding='utf-8')):
            yield f'the edit {file.parts[-3]}/{file.stem} cannot be made: {why}'


def wrong_map(readme):
    """Crates that the map of README.md does not have, and others."""
    section = readme.split('\n## The crates')[1].split('\n## ')[0]
    cells = re.findall(r'^\| (`.*?) \|', section, re.M)
    named = {name for cell in cells for name in re.findall(r'`(\w+)`', cell)}
    for name in sorted(named ^ set(crates())):
        yield f'the crate {name} stands in one of crates.txt and the map of README.md and not in the other'


def lost_paths(page, folder):
    """Of the cited paths and links those that lead nowhere."""
    for path in sorted(set(re.findall(rf'(?<![\w/])(?:{FOLDERS})/[\w./*-]*\w', page))):
        if '..' in path or STAND_INS & set(path.replace('.', '/').split('/')):
            continue
        made = re.fullmatch(r'crates/(\w+)/out/(?:(\w+)|lib(\w+)\.a)', path)
        there = (ROOT / 'crates' / made[1] / 'src' / ('main.rt' if made[2] else 'lib.rt')).is_file() if made else any(ROOT.glob(path))
        if not there or made and made[1] != (made[2] or made[3]):
            yield f'{path} is cited and is not there'
    for link in sorted(set(re.findall(r'\]\(([^)\s#:]+)(?:#[^)]*)?\)', page))):
        if not (folder / link).exists():
            yield f'the link {link} leads nowhere'


def tries():
    """Each test on a wrong citation: it must notice it."""
    claims, readme, edits = text('docs/CLAIMS.md'), text('README.md'), text('docs/EDITS.md')
    log = '== judge\nfn judge::judge: proved\nrt: judge proved\nrt: rules is kept: an earlier run\n'
    bent = {
        'a function': missing_lines('`fn judge::unproved: proved`', {}),
        'a promise': missing_lines('`fn plancheck::main: proved`', {}),
        'a line': missing_lines('`fn judge::role: proved`', sections(log)),
        'a crate of the log': unproved(log, ['rules']),
        'a word': unknown_words('judge', ['logic=proved functions=1 cache=trusted'], claims, readme),
        'a sum': unknown_words('judge', ['logic=proved sum=1234567890abcdef'], claims, readme),
        'an edit': (said for said in wrong_edits(edits + '`judge/unproved`') if 'judge/unproved' in said),
        'a text': unfit_edits('judge', 'file: src/lib.rt\nold: unproved\nnew: proved\n'),
        'a crate': (said for said in wrong_map(readme.replace('| `judge` |', '| `unproved` |')) if 'unproved' in said),
        'a path': lost_paths('crates/unproved/src/lib.rt', ROOT),
        'a program': lost_paths('crates/judge/out/judge', ROOT),
        'a link': lost_paths('[a page](unproved.md)', ROOT),
    }
    return [f'this test does not notice {what} that is not there' for what, said in bent.items() if not list(said)]


def main():
    log = Path(sys.argv[1]).read_text(encoding='utf-8') if len(sys.argv) > 1 else None
    tender, claims, readme = text('docs/TENDER.md'), text('docs/CLAIMS.md'), text('README.md')
    proved = sections(log or '')
    wrong = tries()
    wrong += missing_lines(tender + claims, proved)
    if log is not None:
        wrong += unproved(log, crates())
    for crate, lines in proved.items():
        wrong += unknown_words(crate, lines, claims, readme)
    wrong += wrong_edits(text('docs/EDITS.md'))
    wrong += wrong_map(readme)
    for page in documents():
        wrong += (f'{page.name}: {said}' for said in lost_paths(page.read_text(encoding='utf-8'), page.parent))
    for said in wrong:
        print(f'tender.py: {said}')
    lines = len(cited_lines(tender + claims))
    seen = f'{len(proved)} of {len(crates())} crates in the log' if log is not None else f'{len(crates())} crates, without a log'
    print(f'documents: {lines} cited lines, {seen}, {len(documents())} pages, {len(wrong)} wrong')
    sys.exit(1 if wrong else 0)


if __name__ == '__main__':
    main()
