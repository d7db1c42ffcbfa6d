#!/usr/bin/env python3
# from_source.py CRATE [FLAG..]: checks a crate of this checkout, or of ROOT, with the crates below it given as sources, so that these need not be proved.
import sys,os,re,subprocess
root=os.path.abspath(os.environ.get('ROOT','.'))
def crates():
    d={}
    for l in open(root+'/crates.txt'):
        l=l.split('#')[0].strip()
        if not l: continue
        n,deps=l.split(':'); n=n.split()[0]; d[n]=deps.split()
    return d
C=crates()
def below(n,acc=None):
    acc=[] if acc is None else acc
    for x in C[n]:
        if x in C and x not in acc:
            below(x,acc); acc.append(x) if x not in acc else None
    return acc
n=sys.argv[1]
K=os.path.dirname(subprocess.run(['rt','doc'],capture_output=True,text=True).stdout.strip())
src=lambda x: f"{root}/crates/{x}/src/"+('main.rt' if os.path.exists(f"{root}/crates/{x}/src/main.rt") else 'lib.rt')
ext=[]
libs=set(['std','core'])
for x in [n]+below(n):
    for y in C[x]:
        if y not in C: libs.add(y)
cmd=[K+'/bin/rattle','check','--crate-name',n,src(n),'-L',f'dependency={K}/rlibs']
for l in sorted(libs): cmd+=['--extern',f'{l}={K}/rlibs/{l}.rlib']
for x in below(n):
    cmd+=['--lib',f"{x}:"+','.join(sorted(set(['core','std']+C[x])))+'='+src(x)]
cmd+=['--antt-project',K+'/rattle/logic/antt-project.json','--logic-built',K+'/logic_built','--links',n+'=']+sys.argv[2:]
os.chdir(f"{root}/crates/{n}")
sys.exit(subprocess.call(cmd))
