#!/usr/bin/env python3
"""rows.py PROGRAM [JOBS]: runs each case of pp_answer_cases by the built program and prints those whose line differs
from the stored one: number, words, stored, new. Run it at the top. Writes the new lines to rows.new."""
import subprocess, sys, os, tempfile, concurrent.futures
D='crates/pp_answer_cases'
prog=sys.argv[1]; jobs=int(sys.argv[2]) if len(sys.argv)>2 else 2
cases=open(f'{D}/stdin',encoding='utf-8').read().split('\n')[:-1]
stored=open(f'{D}/stdout',encoding='utf-8').read().split('\n')[:-1]
assert len(cases)==len(stored)
def unescape(s):
    return s.encode().replace(b'\\n',b'\n').replace(b'\\r',b'\r').replace(b'\\t',b'\t').replace(b'\\x',b'\xff')
def one(i):
    case=cases[i]; old=stored[i]
    if old.startswith(('no case','no words')): return i,None
    words,bar,src=case.partition('|')
    with tempfile.TemporaryDirectory() as room:
        files=[]
        if bar:
            for k,part in enumerate(src.split('\\s')):
                f=f'{room}/s{k}.scala'; open(f,'wb').write(unescape(part)); files.append(f)
        try:
            p=subprocess.run([prog,*words.split(),*files],capture_output=True,timeout=300)
        except subprocess.TimeoutExpired:
            return i,'TIMEOUT'
        text=(p.stdout if p.returncode<=2 else p.stderr).decode('utf-8','replace')
        return i,f'{p.returncode} '+text.replace('\n','\\n')
new=list(stored); changed=[]
with concurrent.futures.ThreadPoolExecutor(jobs) as ex:
    for i,line in ex.map(one,range(len(cases))):
        if line is not None and line!=stored[i]:
            changed.append(i); new[i]=line
for i in changed:
    print(f'{i+1}\n  words {cases[i][:60]!r}\n  old {stored[i][:300]}\n  new {new[i][:300]}')
print(len(changed),'differ')
open('rows.new','w').write('\n'.join(new)+'\n')
