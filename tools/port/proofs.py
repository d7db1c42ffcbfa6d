#!/usr/bin/env python3
"""Turns proofs/F/Proof.antt of a crate, in the older form, into Invariants.antt and Answers.antt.

usage: NAMES=FILE python3 tools/port/proofs.py CRATE [F..]     at the top of a checkout

FILE is JSON: the objects of the files names.json that `rt check --generated FOLDER --old-names` writes for the crates, in one. What it could not turn it
tells after a '|'. The proof of a cycle of functions is left.
"""
import re,json,sys,os,glob
root=os.path.abspath(os.environ.get('ROOT','.'))
crate=sys.argv[1]; only=sys.argv[2:]
A=json.load(open(os.environ['NAMES']))
ID=r"[^\s(){}\[\];,.:→λ\"`]+"
norm=lambda s:s.replace('_','-')
def blocks(text):
    """top-level blocks: (comment lines, text)"""
    out=[];cur=[]
    for l in text.split('\n'):
        if l and not l[0].isspace() and l[0] not in ')]}':
            if l.startswith('--') or not cur or True:
                out.append(l)
            cur=[l]
        else:
            if out: out[-1]+='\n'+l
            else: out.append(l)
    return out
def conv(path):
    rel=os.path.relpath(os.path.dirname(path),f'{root}/crates/{crate}/proofs')
    key=f"Rattle-{crate}-proofs."+rel.replace('/','.')+".Lts"
    if key not in A: return 'no names '+key
    N=A[key]
    text=open(path).read()
    bl=blocks(text)
    head=[];uses=[];decls=[];pend=[]
    # group
    i=0
    while i<len(bl):
        b=bl[i].rstrip()
        if b.startswith('--'):
            pend.append(b); i+=1; continue
        if b.startswith('use ') or b.startswith('pub use '):
            if pend and not uses and not decls: head=pend; pend=[]
            if not re.search(r"\.(Tie as tie|Statement\.\{statement\})\s*$",b): uses.append(b)
            i+=1; continue
        m=re.match(r"(?:abbrev |unfoldable )?(?:pub )?("+ID+r")\s",b+' ')
        name=m.group(1)
        if name in('record','data') or b.startswith('pub record') or b.startswith('pub data'):
            decls.append([name,[b],pend]); pend=[]; i+=1; continue
        g=[b]; i+=1
        while i<len(bl):
            q=bl[i].rstrip()
            if q.startswith('unfolding ') or re.match(re.escape(name)+r"(\s|$)",q): g.append(q); i+=1
            else: break
        decls.append([name,g,pend]); pend=[]
    if not any('tie.close' in ' '.join(d[1]) for d in decls): return 'no close'
    decls=[d for d in decls if 'tie.close' not in ' '.join(d[1]) and 'statement M' not in d[1][0]]
    # needs maps
    needs={}
    for o,n in N['needs']: needs.setdefault(norm(o),n)
    places={}; rawmap={}
    for p in N['places']:
        o,n=p[2]
        if o and norm(o) not in places:
            places[norm(o)]=n
        for q in p[4]: rawmap.setdefault((n,q[0]),q[1])
    arms={}
    for a in N['arms']:
        if not a: continue
        for f in a[2]:
            arms.setdefault((norm(f[1]),)+tuple(f[2]),(a[0],f[0]))
    argmap={}
    for o,n in N['args']:
        o=o.strip().replace(' ',''); n=n.strip().replace(' ','')
        argmap[o.split('.')[-1]]=n.split('.')[-1]
    PATH=re.compile(r"(?<![\w.'-])("+ID+r")((?:\."+ID+r")+)")
    def path_sub(t,alias):
        def f(m):
            v=m.group(1)
            if v not in alias: return m.group(0)
            fs=[x for x in m.group(2).split('.')[1:]]
            fs=[x for x in fs if x!='before']
            if not fs: return 'c'
            if fs[0].startswith('Is') and norm(fs[0]) not in places:
                q=fs[0][2].lower()+fs[0][3:]
                if norm(q) in places: fs[0]=q
            if alias[v]: fs=alias[v]+fs
            # arms
            for k in (3,2,1):
                kk=(norm(fs[0]),)+tuple(fs[1:1+k])
                if len(kk)==k+1 and kk in arms and fs[0] not in('args','ranges','requires'):
                    a=arms[kk]; return '.'.join(['c',a[0],a[1]]+fs[1+k:])
            if norm(fs[0]) in places:
                new=places[norm(fs[0])]
                rest=fs[1:]
                if rest and (new,rest[0]) in rawmap: rest=[rawmap[(new,rest[0])]]+rest[1:]
                return '.'.join(['c',new]+rest)
            if fs[0] in('args','ranges') and len(fs)>1:
                fs[1]=argmap.get(fs[1],fs[1])
            return '.'.join(['c']+fs)
        return PATH.sub(f,t)
    def body_conv(t):
        alias={'c':[]}
        # find alias lets: let a = PATH in   (pure before-chains from an alias)
        prev=None
        while prev!=t:
            prev=t
            for m in list(re.finditer(r"let ("+ID+r") = ("+ID+r")((?:\.before)*) in\s*",t)):
                if m.group(2) in alias:
                    alias[m.group(1)]=alias[m.group(2)]
                    t=t.replace(m.group(0),'',1); break
        return path_sub(t,alias)
    ans=[];inv=[];helpers=[];log=[]
    loops=N['loops']
    for name,g,pend in decls:
        sig=g[0]
        m=re.search(r":\s*tie\.(\S+)",sig)
        if not m:
            helpers.append('\n'.join(pend+g)); 
            if re.search(r'\btie\.|Lts',' '.join(g)): log.append('helper uses tie: '+name)
            continue
        t=m.group(1)
        if t.startswith('Need-'):
            old=norm(t[5:])
            cand=[old,re.sub(r"^(overflow|nonzero)-","",old), re.sub(r"-smaller$","-less",old), norm(name)]
            new=None
            for cnd in cand:
                if cnd in needs: new=needs[cnd]; break
            if new is None:
                log.append('no goal for '+t); new='TODO-'+t[5:]
            unf=[q for q in g[1:] if q.startswith('unfolding ')]
            eqs=[q for q in g[1:] if not q.startswith('unfolding ')]
            if len(eqs)==1:
                mm=re.match(re.escape(name)+r"((?:\s+(?!=)"+ID+r")*)\s+=\s*(.*)$",eqs[0],re.S)
                if not mm: log.append('odd eq '+name); continue
                args=mm.group(1).split(); body=mm.group(2)
                if body.strip() in('search rules','(search rules)') and not unf: continue
                if args and args[0]!='c':
                    log.append('args '+name+' '+' '.join(args))
                body=body_conv(body)
                sep=' ' if not mm.group(0)[len(name):].split('=',1)[1].startswith('\n') else '\n    '
                keep=[a for a in args if a not in('κs','κ')]
                ans.append('\n'.join(pend+[f"pub {new} : goal.{new}"]+unf+[f"{new} {' '.join(keep)} ="+(' ' if sep==' ' else '\n    ')+body.lstrip()]))
            else:
                log.append('several eqs '+name)
                ans.append('\n'.join(pend+[f"pub {new} : goal.{new}"]+unf+[body_conv(q.replace(name,new,1)) for q in eqs]))
        elif re.match(r"(invariant|decreases)",t):
            kind=re.match(r"(invariant|decreases)",t).group(1)
            lo=t[len(kind)+1:]
            idx=None
            for k,l in enumerate(loops):
                if norm(l[0][0])==norm(lo): idx=k
            if idx is None: log.append('no loop for '+t); continue
            new=kind+'-'+loops[idx][0][1]
            eq=[q for q in g[1:] if not q.startswith('unfolding ')][0]
            unf=[q for q in g[1:] if q.startswith('unfolding ')]
            mm=re.match(re.escape(name)+r"((?:\s+[^\s=]+)*)\s+=\s*(.*)$",eq,re.S)
            args=mm.group(1).split(); body=mm.group(2)
            vs=loops[idx][1]; ch=N['changed'][idx]
            exp=[('l.initial.'+v if x else 'l.'+v) for v,x in zip(vs,ch)]+[('l.'+v) for v,x in zip(vs,ch) if x]
            if len(exp)!=len(args):
                log.append(f'loop vars differ {t}: {args} / {exp}')
            sub={a:e for a,e in zip(args,exp) if a!='_'}
            body=re.sub(r"(?<![^\s(){}\[\];,:→λ\"`])("+ID+r")",lambda q: sub.get(q.group(1),q.group(1)),body)
            inv.append('\n'.join(pend+[f"abbrev pub {new} : goal.{new}"]+unf+[f"{new} l = {body}"]))
        else: log.append('other '+t)
    d=os.path.dirname(path)
    mod=f"Rattle.{crate}.proofs."+rel.replace('/','.')
    def used(names_text,us):
        out=[]
        for u in us:
            m=re.match(r"(use [^{]*)\{(.*)\}\s*$",u,re.S)
            if m:
                items=[x.strip() for x in m.group(2).split(',')]
                keep=[]
                for it in items:
                    nm=it.split(' as ')[-1].strip()
                    core=nm.replace('◌','') if '◌' in nm and len(nm)>1 else nm
                    if '◌' in nm:
                        parts=[x for x in nm.split('◌') if x]
                        if all(p in names_text for p in parts): keep.append(it)
                    elif re.search(r"(?<![^\s(){}\[\];,.:→λ\"`])"+re.escape(nm)+r"(?![^\s(){}\[\];,.:→λ\"`])",names_text): keep.append(it)
                if keep: out.append(m.group(1)+'{'+', '.join(keep)+'}')
            else:
                nm=u.split(' as ')[-1].split('.')[-1].strip()
                if re.search(r"(?<![\w'-])"+re.escape(nm)+r"\.",names_text): out.append(u)
        return out
    hd='\n'.join(head)
    htxt='\n\n'.join(helpers)
    made=[]
    if inv:
        body='\n\n'.join(inv)
        # helpers used by invariants
        hs=[h for h in helpers if re.search(r"(?<![\w'-])"+re.escape(re.match(r"(?:abbrev |unfoldable )?(?:pub )?("+ID+")",[x for x in h.split('\n') if not x.startswith('--')][0]).group(1))+r"(?![\w'-])",body)]
        full='\n\n'.join(hs+inv)
        open(d+'/Invariants.antt','w').write((hd+'\n' if hd else '')+'\n'.join(used(full,uses)+[f'use {mod}.Given as goal'])+'\n\n'+full+'\n'); made.append('I')
        for h in hs:
            log.append('helper in invariants')
    if ans or helpers:
        if ans:
            full='\n\n'.join(([htxt] if htxt else [])+ans)
            open(d+'/Answers.antt','w').write((hd+'\n' if hd else '')+'\n'.join(used(full,uses)+[f'use {mod}.Goals as goal'])+'\n\n'+full+'\n'); made.append('A')
    os.remove(path)
    return ' '.join(made)+(' | '+'; '.join(log) if log else '')
for p in sorted(glob.glob(f'{root}/crates/{crate}/proofs/**/Proof.antt',recursive=True)):
    rel=os.path.relpath(os.path.dirname(p),f'{root}/crates/{crate}/proofs')
    if only and rel not in only: continue
    if '/+' in '/'+rel: print(rel,'cycle: left'); continue
    r=conv(p)
    print(rel,r)
