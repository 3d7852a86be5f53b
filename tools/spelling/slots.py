#!/usr/bin/env python3
"""Turns the structs of one field EntrySlot, VariableSlot, ToldSlot and TruthSlot into what they hold: after answers.py.

usage: python3 slots.py FOLDER
"""
import re,sys,pathlib
root=pathlib.Path(sys.argv[1])
INNER={'EntrySlot':('Entry','entry','table'),'VariableSlot':('Number','number','values'),'ToldSlot':('Told','told','step'),'TruthSlot':('Truth','truth','values')}
FIELDS={v[1]:k for k,v in INNER.items()}
HOME={'EntrySlot':'table','VariableSlot':'table','ToldSlot':'step','TruthSlot':'step'}
def find_close(t,i):
    d=0
    while i<len(t):
        if t[i] in '{([': d+=1
        elif t[i] in '})]':
            d-=1
            if d==0: return i
        i+=1
    return -1
def simple(x): return re.fullmatch(r"[\w.'₁₂\-]+",x) is not None
def records(t):
    i=0
    while True:
        m=re.compile(r'record \{ (entry|number|told|truth) = ').search(t,i)
        if not m: return t
        j=find_close(t,m.start()+7)
        body=t[m.end():j].strip()
        d=0; multi=False
        for c in body:
            if c in '([{': d+=1
            elif c in ')]}': d-=1
            elif c==';' and d==0: multi=True
        if multi or body.startswith('λ'): i=m.end(); continue
        s,e=m.start(),j+1
        inparens = t[s-1:s]=='(' and t[e:e+1]==')'
        if simple(body) and inparens: s-=1; e+=1; new=body
        elif inparens: new=body
        else: new=body if simple(body) else '('+body+')' if t[s-1:s] not in '(' else body
        t=t[:s]+new+t[e:]
        i=s
def antt(p):
    t=o=p.read_text()
    t=records(t)
    # lambdas over a slot
    for S,(T,f,mod) in INNER.items():
        def lam(m):
            v=m.group(1); i=m.start(); j=find_close(t2,i)
            return None
        # (λ (v : S). body)
        k=0
        while True:
            m=re.compile(r"\(λ \((\w+) : "+S+r"\)\. ").search(t,k)
            if not m: break
            j=find_close(t,m.start()); v=m.group(1)
            body=t[m.end():j].replace(f'{v}.{f}',v)
            new=f'(λ ({v} : {T}). {body})'
            if body==v and t[:m.start()].endswith('ap '):
                # ap (λ x. x) e  is  e
                t=t[:m.start()-3]+t[j+1:].lstrip(' ') if t[j+1:j+2]==' ' else t[:m.start()]+new+t[j+1:]
                k=m.start()-3 if t[m.start()-3:] else m.start()
                k=max(k,0)
            else:
                t=t[:m.start()]+new+t[j+1:]; k=m.start()+len(new)
        # let word : S → ℕ = λ s. g s.f
        t=re.sub(r'(: '+S+r' → [\w ]+ = λ (\w+)\. [^\n]*?)\b\2\.'+f,r'\1\2',t)
        # (get_or xs k d).f
        k=0
        while True:
            m=re.compile(r'\((get_or|get_d) ').search(t,k)
            if not m: break
            j=find_close(t,m.start())
            if t[j+1:].startswith('.'+f) and not re.match(r'\w',t[j+2+len(f):j+3+len(f)] or ' '):
                inner=t[m.start()+1:j]
                t=t[:m.start()]+'('+inner+')'+t[j+2+len(f):]
            k=m.end()
        # imports
        t=re.sub(r'^use Rattle\.'+HOME[S]+r'\.specs\.declared\.'+S+r'\.\{'+S+r'\}\n',(f'use Rattle.{ {"Entry":"table","Number":"values","Told":"step","Truth":"values","Outcome":"values"}[T]}.specs.declared.{T}.{{{T}}}\n'),t,flags=re.M)
        t=re.sub(r'(?<![\w.])'+S+r'(?![\w.])',T,t)
    # untyped lambdas
    t=re.sub(r'\(λ (\w+)\. ([^()]*?)\b\1\.(entry|number|truth|outcome)\b',r'(λ \1. \2\1',t)
    t=re.sub(r'\(λ (slot)\. ([^\n]*?)\b\1\.(entry|number|truth|outcome)\b',r'(λ \1. \2\1',t)
    t=re.sub(r"\(λ \((\w+) : (?:Entry|Number|Told|Truth|Outcome)\)\. ([\w.']+) \1\)",r'\2',t)
    t=re.sub(r'\(map \(λ (\w+)\. \1\) (\w+)\)',r'\2',t)
    t=re.sub(r'= \((get_\w+|length\S*) ([^,\n]*)\)$',lambda m: '= '+m.group(1)+' '+m.group(2) if (m.group(2).count('(')==m.group(2).count(')') and find_close('('+m.group(2)+')',0)==len(m.group(2))+1) else m.group(0),t,flags=re.M)
    if t!=o:
        seen=set(); out=[]
        for l in t.split('\n'):
            if l.startswith('use ') :
                if l in seen: continue
                seen.add(l)
            out.append(l)
        t='\n'.join(out)
        p.write_text(t)
def rt(p):
    t=o=p.read_text()
    for S,(T,f,mod) in INNER.items():
        t=re.sub(r'(?:// [^\n]*\n)*#\[derive\([^\]]*\)\]\npub struct '+S+r' \{\n    pub '+f+r': '+T+r',\n\}\n\n?','',t)
        t=re.sub(r'-> '+S+r' \{','-> '+T+' {',t)
        # S { f: X } and S { f }
        k=0
        while True:
            m=re.compile(r'(?<!struct )\b'+S+r' \{').search(t,k)
            if not m: break
            j=find_close(t,m.end()-1); body=t[m.end():j].strip().rstrip(',')
            if body==f: new=f
            elif body.startswith(f+':'): new=body[len(f)+1:].strip()
            else: k=m.end(); continue
            t=t[:m.start()]+new+t[j+1:]; k=m.start()
        t=re.sub(r'(?<!struct )\b'+S+r'\b(?! \{)',T,t)
    t=re.sub(r'(\w+\[[^\[\]]*\])\.(entry|number|told|truth)\b',r'\1',t)
    if t!=o and p.suffix=='.rt':
        lists={}
        for m in re.finditer(r'^use (table|step|values|crate)::(?:\{([^}]*)\}|(\w+));\n',t,re.M):
            names=[x.strip() for x in (m.group(2) or m.group(3)).split(',')]
            lists.setdefault(m.group(1),[]).extend(names)
        here=str(p).split('/crates/')[1].split('/')[0]
        for c in ('table','step','crate'):
            for n in ('Number','Truth','Outcome'):
                if n in lists.get(c,[]) and not (c=='crate' and here=='values'):
                    lists[c]=[x for x in lists[c] if x!=n]; lists.setdefault('values',[]).append(n)
        body=re.sub(r'^(ghost )?use .*$','',t,flags=re.M)
        first=True
        def line(m):
            c=m.group(1); names=sorted(set(lists.pop(c,[])),key=lambda x:(x[0].islower(),x))
            names=[n for n in names if re.search(r'\b'+n+r'\b',body)]
            if not names: return ''
            return f'use {c}::'+(names[0] if len(names)==1 else '{'+', '.join(names)+'}')+';\n'
        t=re.sub(r'^use (table|step|values|crate)::(?:\{([^}]*)\}|(\w+));\n',line,t,flags=re.M)
        for c,names in lists.items():
            names=sorted(set(n for n in names if re.search(r'\b'+n+r'\b',body)))
            if names:
                add=f'use {c}::'+(names[0] if len(names)==1 else '{'+', '.join(names)+'}')+';\n'
                m=list(re.finditer(r'^use .*\n',t,re.M))
                k=m[-1].end() if m else t.index('\n\n')+2
                t=t[:k]+add+t[k:]
    if t!=o: p.write_text(t)
for p in sorted(root.glob('crates/*/**/*')):
    if '/out/' in str(p) or not p.is_file(): continue
    if p.suffix=='.antt': antt(p)
    elif p.suffix=='.rt': rt(p)
    elif p.suffix=='.edit': rt(p)
