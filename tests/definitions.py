#!/usr/bin/env python3
"""Holds the definitions of crate rules to the sample answers: each sample becomes a statement that the definitions compute to its answer,
for check, order and expand, in a copy of the crate outside the repository. Left out, with a line, where the samples are not there."""
import os, re, shutil, subprocess, sys, tempfile

home = os.path.dirname(os.path.dirname(os.path.abspath(__file__)))
samples = os.path.join(os.environ.get('PESUKOYMI_VECTORS', os.path.join(home, '..', 'shared', 'vectors')), 'sample.txt')
if not os.path.exists(samples):
    print('definitions: left out, no sample answers beside the repository')
    sys.exit()

ANSWERS = {0: 'Done {a} {b}', 1: 'Errors {a} {b}', 8: 'Rejected', 9: 'Machine', 10: 'Entries', 11: 'Room {a} {b}'}
FAULTS = {2: 'TooLong', 3: 'Cut', 4: 'BadTag', 5: 'BadItem', 6: 'BadName', 7: 'TooMany'}


def listed(data):
    return ' ∷ '.join(map(str, data)) + ' ∷ []' if data else '[]'


def row(service, n, words):
    number, a, b = map(int, words[:3])
    answer = ANSWERS.get(number, 'Refused {k} {a}').format(a=a, b=b, k=FAULTS.get(number))
    writes = bytes.fromhex(words[3]) if len(words) > 3 else b''
    return f'record {{ service = {service}; image = img{n}; answer = {answer}; writes = {listed(writes)} }}'


cases = []
for block in open(samples).read().strip().split('\n\n'):
    words = {line.split(' ')[0]: line.split(' ')[1:] for line in block.split('\n')}
    cases.append((bytes.fromhex((words['image'] + [''])[0]), words))

work = tempfile.mkdtemp(prefix='definitions-')
shutil.copytree(os.path.join(home, 'crates', 'rules'), os.path.join(work, 'crates', 'rules'), ignore=shutil.ignore_patterns('must-fail', 'out'))
open(os.path.join(work, 'crates.txt'), 'w').write('rules:\n')
proofs = os.path.join(work, 'crates', 'rules', 'proofs')
page = open(os.path.join(proofs, 'Specimens.antt')).read()
opens = re.search(r'^unfolding .*$', page, re.M).group(0)
head = page[:page.index('-- ---- fields of an image')]
head = re.sub(r'(declared\.Answer\.TheVariants\.)\{.*\}', r'\1{Done, Errors, Refused, Rejected, Machine, Entries, Room}', head)
head = head.replace('check_read, check, laid_run', 'check_read, check, order_read, order, laid_run')
head += 'use Rattle.rules.specs.declared.Fault.TheVariants.{' + ', '.join(FAULTS.values()) + '}\nuse Rattle.rules.specs.Order as gates\n\n'
record = page[page.index('pub record Specimen'):page.index('abbrev pub checks')]
tables = page[page.index('-- a buffer of just the length'):page.index('pub specimens')]
text = head + record + tables
for n, (image, words) in enumerate(cases):
    rows = ' ∷ '.join(row(s, n, words[s]) for s in ('check', 'order', 'expand'))
    text += f'abbrev pub img{n} : List ℕ\nimg{n} = {listed(image)}\n\nabbrev pub t{n} : List Specimen\nt{n} = {rows} ∷ []\n\n'
    text += f'pub s{n} : given t{n} ≡ wanted t{n}\n{opens} order_read order gates.order gates.order_from gates.ready gates.has gates.order_of\ns{n} = refl\n\n'
open(os.path.join(proofs, 'Samples.antt'), 'w').write(text)
open(os.path.join(proofs, 'Lib.antt'), 'a').write('pub mod Samples\n')
run = subprocess.run(['rt', 'check'], cwd=os.path.join(work, 'crates', 'rules'), capture_output=True, text=True)
shutil.rmtree(work)
if run.returncode:
    print((run.stdout + run.stderr)[-4000:])
    sys.exit('definitions: a sample answer is not what the definitions compute')
print(f'definitions: {len(cases)} sample images, all three services, as the definitions compute them')
