#!/usr/bin/env python3
"""needless.py CRATE_DIR [--apply]: which answers the check finds alone. Moves every goal's answer out, checks (with --margin), puts back those that stay open."""
import re, subprocess, sys, os
crate = os.path.abspath(sys.argv[1]); apply = '--apply' in sys.argv
def files():
    for d, _, fs in os.walk(os.path.join(crate, 'proofs')):
        for f in fs:
            if f == 'Answers.antt': yield os.path.join(d, f)
orig = {f: open(f).read() for f in files()}
def blocks(t):
    """list of (name or None, text) by declaration"""
    out = []; cur = []; name = None
    lines = t.split('\n')
    i = 0
    chunks = re.split(r'\n(?=\n)', t)
    # a chunk is separated by a blank line
    res = []
    for ch in re.split(r'\n\n+', t.strip('\n')):
        m = re.search(r'^pub (\S+) : goal\.(\S+)\s*$', ch, re.M)
        n = m.group(1) if m and m.group(1) == m.group(2) else None
        res.append((n, ch))
    return res
kept = {f: None for f in orig}
def write(f, keep):
    bs = blocks(orig[f])
    sel = [(n, ch) for n, ch in bs if n is None or n in keep]
    # comments directly ahead of a goal belong to its chunk
    while True:
        txt = '\n\n'.join(ch for _, ch in sel)
        drop = []
        for k, (n, ch) in enumerate(sel):
            if n is None:
                m = re.search(r'^(?:pub |abbrev |unfoldable )*([^\s:]+) : ', ch, re.M)
                if m and not ch.startswith('use '):
                    rest = '\n\n'.join(c for j, (_, c) in enumerate(sel) if j != k)
                    if m.group(1) not in rest: drop.append(k)
        if not drop: break
        sel = [x for j, x in enumerate(sel) if j not in drop]
    if not any(n for n, _ in sel):
        if os.path.exists(f): os.remove(f)
        return 0
    os.makedirs(os.path.dirname(f), exist_ok=True)
    open(f, 'w').write('\n\n'.join(ch for _, ch in sel) + '\n')
    return sum(1 for n, _ in sel if n)
def check(*a):
    r = subprocess.run(['rt', 'check', *a], cwd=crate, capture_output=True, text=True)
    return r.stdout + r.stderr
for f in orig: write(f, set())
keep = {f: set() for f in orig}
total = sum(1 for f in orig for n, _ in blocks(orig[f]) if n)
for rnd in range(6):
    out = check('--margin')
    new = 0
    for m in re.finditer(r'expected answers in (\S+?); (.*)', out):
        f = os.path.normpath(os.path.join(crate, m.group(1)))
        names = re.findall(r'`([^`]+)`', m.group(2))
        if f not in orig: print('no answers before:', f, names); continue
        had = {n for n, _ in blocks(orig[f]) if n}
        for g in names:
            for h in had:
                if (g == h or g.startswith(h + '-clause-') or h.startswith(g + '-clause-')) and h not in keep[f]:
                    keep[f].add(h); new += 1
    for f in orig: write(f, keep[f])
    last = [l for l in out.split('\n') if l.startswith('logic=')][-1:]
    print('round', rnd, last, 'new', new)
    if last == ['logic=proved'] or (new == 0): break
ok = 'logic=proved' in ' '.join([l for l in check().split('\n') if l.startswith('logic=')][-1:])
print('kept', sum(len(v) for v in keep.values()), 'of', total, 'proved' if ok else 'NOT PROVED')
if not ok or not apply:
    for f in orig:
        os.makedirs(os.path.dirname(f), exist_ok=True); open(f, 'w').write(orig[f])
    if not ok: print('put back')
for f in orig:
    had = {n for n, _ in blocks(orig[f]) if n}
    if had - keep[f]: print(os.path.relpath(f, crate), 'needless:', sorted(had - keep[f]))
