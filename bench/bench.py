#!/usr/bin/env python3
"""Times the built programs against xmllint on the same files, and prints ratios as a table.

usage: bench.py [--size MIB] [--turns N] [--keep FOLDER] [FILE KIND ..]

It makes nets of the given size (64 MiB) in the style of the usual tools: plain ones, one of many pages with references,
one that is drawn with names and graphics, symmetric ones with many declarations and of many philosophers; and files that
ask for much: many elements, texts, attributes, references and comments, a long value, name and comment. Each program
reads each file in turns, and the least of its user times counts. Times and peaks of memory are given as ratios to
`xmllint --huge --noout`, which makes a tree of the same file. Where xmllint refuses a file or takes over a minute for it,
the bare figure is shown. A command that refuses a file stops early: its figures then stand in brackets. A second table has
`modes` and `step` on the nets, for one transition and one mode of each, as ratios to `check`.

Programs: `crates/pn_count/out/pn_count` (the scanner and the tree alone), and `crates/pn_tool/out/pn_tool` with `check`,
`flatten`, `modes` and `step`. A run of the gate builds both; so does `rt run` in their folders. xmllint comes with libxml2 (`apt-get
install libxml2-utils`). This is no part of the gate.
"""
import argparse
import os
import random
import resource
import shutil
import subprocess
import sys
import tempfile
import time

TOP = os.path.join(os.path.dirname(os.path.abspath(__file__)), '..')
LIMIT = 67108864
HEAD = '<?xml version="1.0" encoding="UTF-8"?>\n<pnml xmlns="http://www.pnml.org/version-2009/grammar/pnml">\n'
GRAMMAR = 'http://www.pnml.org/version-2009/grammar/'
PTNET = GRAMMAR + 'ptnet'
SYMMETRIC = GRAMMAR + 'symmetricnet'


def plain_net(size, out, shuffled=False):
    """A place/transition net of one page, about `size` bytes: a third places, a sixth transitions, the rest arcs."""
    end = b'  </page>\n </net>\n</pnml>\n'
    out.write((HEAD + f' <net id="n" type="{PTNET}">\n  <page id="page">\n').encode())
    number = max(1, size // 312)
    places = list(range(number))
    transitions = list(range(number))
    if shuffled:
        random.Random(1).shuffle(places)
        random.Random(2).shuffle(transitions)
    for p in places:
        out.write(f'   <place id="p{p}">\n    <initialMarking>\n     <text>{p % 9 + 1}</text>\n    </initialMarking>\n   </place>\n'
                  .encode())
    for t in transitions:
        out.write(f'   <transition id="t{t}"/>\n'.encode())
    for k in range(number):
        out.write(f'   <arc id="i{k}" source="p{k}" target="t{k}"/>\n'.encode())
        out.write(f'   <arc id="o{k}" source="t{k}" target="p{(k * 7 + 1) % number}">\n'
                  f'    <inscription>\n     <text>2</text>\n    </inscription>\n   </arc>\n'.encode())
    out.write(end)


def paged_net(size, out):
    """A place/transition net of pages in pages: each has four places and transitions, and a reference to a place of the page
    before, so that references make chains; arcs lead to them and across pages."""
    out.write((HEAD + f' <net id="n" type="{PTNET}">\n  <page id="page">\n').encode())
    for k in range(max(1, size // 1010)):
        before = f'    <referencePlace id="r{k}" ref="{"r" if k > 1 and k % 64 else "p0_"}{k - 1}"/>\n' if k else ''
        places = ''.join(f'    <place id="p{i}_{k}"/>\n' for i in range(4))
        transitions = ''.join(f'    <transition id="t{i}_{k}"/>\n' for i in range(4))
        arcs = ''.join(f'    <arc id="i{i}_{k}" source="p{i}_{k}" target="t{i}_{k}"/>\n'
                       f'    <arc id="o{i}_{k}" source="t{i}_{k}" target="{f"r{k}" if k else "p0_0"}">'
                       f'<inscription><text>2</text></inscription></arc>\n' for i in range(4))
        out.write(f'   <page id="g{k}">\n{places}{transitions}{before}{arcs}   </page>\n'.encode())
    out.write(b'  </page>\n </net>\n</pnml>\n')


def drawn_net(size, out):
    """A place/transition net as an editor writes it: each object has a name and is drawn."""
    def drawn(x, y):
        return (f'    <graphics>\n     <position x="{x}" y="{y}"/>\n     <dimension x="25" y="25"/>\n'
                f'     <fill color="#ffffff"/>\n    </graphics>\n')

    def named(name):
        return f'    <name>\n     <text>{name}</text>\n     <graphics><offset x="0" y="-10"/></graphics>\n    </name>\n'

    out.write((HEAD + f' <net id="n" type="{PTNET}">\n  <page id="page">\n').encode())
    for k in range(max(1, size // 750)):
        x, y = k % 100 * 40, k // 100 * 40
        out.write((f'   <place id="p{k}">\n{named(f"place {k}")}{drawn(x, y)}'
                   f'    <initialMarking>\n     <text>{k % 9}</text>\n    </initialMarking>\n   </place>\n'
                   f'   <transition id="t{k}">\n{named(f"transition {k}")}{drawn(x + 20, y)}   </transition>\n'
                   f'   <arc id="i{k}" source="p{k}" target="t{k}">\n    <graphics><position x="{x}" y="{y}"/></graphics>\n   </arc>\n'
                   ).encode())
    out.write(b'  </page>\n </net>\n</pnml>\n')


def declared_net(size, out):
    """A symmetric net of many declarations: enumerations, products over them, and variables, which a place and a transition
    each use."""
    out.write((HEAD + f' <net id="n" type="{SYMMETRIC}">\n  <declaration>\n   <structure>\n    <declarations>\n').encode())
    number = max(1, size // 745)
    for k in range(number):
        constants = ''.join(f'<feconstant id="c{i}_{k}" name="{i}"/>' for i in range(3))
        out.write((f'     <namedsort id="e{k}" name="e{k}">\n      <cyclicenumeration>{constants}</cyclicenumeration>\n'
                   f'     </namedsort>\n     <namedsort id="q{k}">\n      <productsort><usersort declaration="e{k}"/>'
                   f'<usersort declaration="e{k * 7 // 9}"/></productsort>\n     </namedsort>\n'
                   f'     <variabledecl id="x{k}" name="x{k}"><usersort declaration="q{k}"/></variabledecl>\n').encode())
    out.write(b'    </declarations>\n   </structure>\n  </declaration>\n  <page id="page">\n')
    for k in range(number):
        out.write((f'   <place id="p{k}"><type><structure><usersort declaration="q{k}"/></structure></type></place>\n'
                   f'   <transition id="t{k}"/>\n   <arc id="a{k}" source="p{k}" target="t{k}"><hlinscription><structure>'
                   f'<variable refvariable="x{k}"/></structure></hlinscription></arc>\n').encode())
    out.write(b'  </page>\n </net>\n</pnml>\n')


def philosophers(size, out):
    """A symmetric net of philosophers, each with an enumeration constant of its own, at a round table; `all` takes 2^20 at most."""
    number = max(2, min(1048576, (size - 4096) // 57))
    user = '<usersort declaration="P"/>'

    def one(term):
        return (f'<numberof><subterm><numberconstant value="1"><positive/></numberconstant></subterm>'
                f'<subterm>{term}</subterm></numberof>')

    def place(name, marked):
        marking = f'<hlinitialMarking><structure><all>{user}</all></structure></hlinitialMarking>' if marked else ''
        return f'<place id="{name}"><type><structure>{user}</structure></type>{marking}</place>'

    def arc(name, source, target, term):
        return (f'<arc id="{name}" source="{source}" target="{target}"><hlinscription><structure>{term}</structure>'
                f'</hlinscription></arc>')

    x = '<variable refvariable="x"/>'
    both = f'<add><subterm>{one(x)}</subterm><subterm>{one(f"<successor><subterm>{x}</subterm></successor>")}</subterm></add>'
    out.write((HEAD + f'<net id="n" type="{SYMMETRIC}"><declaration><structure><declarations><namedsort id="P">'
               f'<cyclicenumeration>').encode())
    for k in range(number):
        out.write(f'<feconstant id="c{k:08}" name="philosopher {k:08}"/>\n'.encode())
    out.write((f'</cyclicenumeration></namedsort><variabledecl id="x">{user}</variabledecl></declarations></structure>'
               f'</declaration><page id="page">{place("think", True)}{place("eat", False)}'
               f'{place("fork", True)}<transition id="take"/><transition id="release"/>'
               f'{arc("a1", "think", "take", one(x))}{arc("a2", "fork", "take", both)}{arc("a3", "take", "eat", one(x))}'
               f'{arc("a4", "eat", "release", one(x))}{arc("a5", "release", "think", one(x))}'
               f'{arc("a6", "release", "fork", both)}</page></net></pnml>\n').encode())


def repeated(before, piece, times, behind):
    """A writer of `before`, `piece` as often as asked and the limit allows, and `behind`."""
    def write(size, out):
        room = min(size, LIMIT) - len(before) - len(behind)
        left = min(times, room // len(piece))
        out.write(before)
        while left > 0:
            part = min(left, 4096)
            out.write(piece * part)
            left -= part
        out.write(behind)
    return write


def attributes(size, out):
    """One tag with as many attributes as the size allows, four million at most."""
    out.write(b'<a')
    for k in range(min(4000000, (min(size, LIMIT) - 6) // 13)):
        out.write(f' a{k:07}=""'.encode())
    out.write(b'/>')


ALL = 1 << 62
FILES = {
    'plain': ('a plain net', plain_net),
    'shuffled': ('a plain net, ids in any order', lambda size, out: plain_net(size, out, True)),
    'paged': ('a plain net of many pages, with references', paged_net),
    'drawn': ('a plain net with names and graphics', drawn_net),
    'declared': ('a symmetric net of many declarations', declared_net),
    'philosophers': ('a symmetric net of many philosophers', philosophers),
    'elements': ('2^24 elements `<b/>` in one', repeated(b'<a>', b'<b/>', 1 << 24, b'</a>')),
    'turns': ('2^23 texts and elements in turns', repeated(b'<a>', b'x<b/>', 1 << 23, b'</a>')),
    'attributes': ('one tag with 4 million attributes', attributes),
    'value': ('one long value', repeated(b'<a b="', b'v', ALL, b'"/>')),
    'name': ('one long name', repeated(b'<', b'n', ALL, b'/>')),
    'comment': ('one long comment', repeated(b'<a><!--', b'c', ALL, b'--></a>')),
    'references': ('13 million references', repeated(b'<a>', b'&amp;', 13000000, b'</a>')),
    'comments': ('9 million empty comments', repeated(b'<a>', b'<!---->', 9000000, b'</a>')),
}


# of each net that `modes` and `step` are timed on: a transition, and a mode of it
MODES = {
    'plain': ('t0', 't0[]'),
    'shuffled': ('t0', 't0[]'),
    'drawn': ('t1', 't1[]'),
    'philosophers': ('take', 'take[x=c00000000]'),
}

MINUTE = 60


def measured(words, path):
    """One run over a file, of a minute at most: its status, user seconds, and peak of memory in MB."""
    def bound():
        resource.setrlimit(resource.RLIMIT_CPU, (MINUTE, MINUTE))

    with open(path, 'rb') as source, open(os.devnull, 'wb') as nowhere:
        child = subprocess.Popen(words, stdin=source, stdout=nowhere, stderr=nowhere, preexec_fn=bound)
        _, status, used = os.wait4(child.pid, 0)
        child.returncode = os.waitstatus_to_exitcode(status)
        return child.returncode, used.ru_utime, used.ru_maxrss / 1024


def row(path, programs, turns):
    """For each program its status, least user time and least peak over all turns, or None where it is not there."""
    least = {}
    for _ in range(turns):
        for name, words in programs:
            if name in least and least[name][0] != 0:
                continue
            status, seconds, peak = measured([w.replace('FILE', path) for w in words], path)
            was = least.get(name, (status, seconds, peak))
            least[name] = (status, min(was[1], seconds), min(was[2], peak))
    return least


def ratio(name, least, part, base='xmllint'):
    """A figure of a program as a ratio to that of another, where that took the file."""
    got, by = least[name], least[base]
    if by[0] != 0 or by[part] == 0:
        figure = f'{got[part]:.2f} s' if part == 1 else f'{got[part]:.0f} MB'
    else:
        figure = f'{got[part] / by[part]:.2f}'
    return figure if got[0] == 0 else f'({figure})'


def main():
    asked = argparse.ArgumentParser(description=__doc__, formatter_class=argparse.RawDescriptionHelpFormatter)
    asked.add_argument('--size', type=int, default=64, help='MiB of a file, 64 at most')
    asked.add_argument('--turns', type=int, default=5)
    asked.add_argument('--keep', help='a folder for the files, which are kept')
    asked.add_argument('kinds', nargs='*', help=' '.join(FILES))
    asked = asked.parse_args()
    unknown = [kind for kind in asked.kinds if kind not in FILES]
    if unknown:
        sys.exit(f'no such file: {" ".join(unknown)}; there are {" ".join(FILES)}')
    programs = [('xmllint', ['xmllint', '--huge', '--noout', 'FILE'])]
    for name, program, words in (('count', 'pn_count', []), ('check', 'pn_tool', ['check']), ('flatten', 'pn_tool', ['flatten'])):
        path = os.path.join(TOP, 'crates', program, 'out', program)
        if not os.path.exists(path):
            sys.exit(f'{program} is not built: run `rt run` in crates/{program}')
        programs.append((name, [path] + words))
    if shutil.which('xmllint') is None:
        sys.exit('xmllint is missing: apt-get install libxml2-utils')
    folder = asked.keep or tempfile.mkdtemp(prefix='bench')
    os.makedirs(folder, exist_ok=True)
    print(f'{time.strftime("%Y-%m-%d")}, {os.cpu_count()} processors, files of {asked.size} MiB at most, '
          f'least of {asked.turns} turns')
    print()
    fired = []
    print('| file | xmllint | scanner and tree: time | memory | `check`: time | memory | `flatten`: time | memory |')
    print('|---|---|---|---|---|---|---|---|')
    for kind in asked.kinds or FILES:
        what, write = FILES[kind]
        path = os.path.join(folder, f'{kind}-{asked.size}.xml')
        if not os.path.exists(path):
            with open(path, 'wb', 1 << 20) as out:
                write(asked.size << 20, out)
        least = row(path, programs, asked.turns)
        by = least['xmllint']
        figure = f'{by[1]:.2f} s, {by[2]:.0f} MB' if by[0] == 0 else 'over a minute' if by[1] >= MINUTE - 1 else 'refused'
        cells = [ratio(name, least, part) for name in ('count', 'check', 'flatten') for part in (1, 2)]
        print(f'| {what} | {figure} | {" | ".join(cells)} |', flush=True)
        if kind in MODES:
            tool = programs[2][1][0]
            transition, mode = MODES[kind]
            least = row(path, [('check', [tool, 'check']), ('modes', [tool, 'modes', transition]), ('step', [tool, 'step', mode])], asked.turns)
            cells = [ratio(name, least, part, 'check') for name in ('modes', 'step') for part in (1, 2)]
            fired.append(f'| {what} | {least["check"][1]:.2f} s, {least["check"][2]:.0f} MB | {" | ".join(cells)} |')
        if not asked.keep:
            os.remove(path)
    if not asked.keep:
        os.rmdir(folder)
    if fired:
        print()
        print('| file | `check` | `modes`: time | memory | `step`: time | memory |')
        print('|---|---|---|---|---|---|')
        print('\n'.join(fired))


if __name__ == '__main__':
    main()
