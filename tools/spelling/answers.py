#!/usr/bin/env python3
"""Turns Answer into Result<(), Refusal>, Field into Option<u64>, Entered and Found into Results: in code, clauses, definitions, proofs and edits.

usage: python3 answers.py FOLDER      a checkout of the first line of docs/DESIGN-PASS.md; then slots.py, and `rt fmt` in each crate
"""
import re, sys, pathlib
root = pathlib.Path(sys.argv[1])
OPEN='([{'; CLOSE=')]}'
AFTER_OK = ('', ')', ';', '}', '→', ',', '×', '|', ']', '∷', '∙', '=', '↦', '≡', 'in')
BEFORE_OK = ('≡', '=', '(', ',', '↦', '→', '{', ';')
def wrap(text, pat, rep_plain):
    """replace tokens pat (regex) by rep_plain, in parens unless alone"""
    out=[]; i=0
    for m in re.finditer(pat, text):
        out.append(text[i:m.start()])
        before=text[:m.start()].rstrip(' ')
        after=text[m.end():]
        nxt=re.match(r'\s*(\S+)?', after).group(1) or ''
        if after.startswith('\n') or after=='' : nxt=''
        b = before[-1:] if before else ''
        alone = (b in BEFORE_OK or before.endswith('\n')) and (nxt=='' or nxt[0] in ')];},|' or nxt in AFTER_OK)
        # as the left side of a clause a pattern needs parens: before is a name, so not alone
        out.append(rep_plain if alone else '('+rep_plain+')')
        i=m.end()
    out.append(text[i:])
    return ''.join(out)
def add_import(text, module, names, hint_modules):
    """add names to an existing `use module.{..}` line, or a new line after the first use line"""
    names=[n for n in names]
    for mod in hint_modules:
        m=re.search(r'^(\s*(?:ghost )?use '+re.escape(mod)+r'\.\{)([^}]*)(\};?)', text, re.M)
        if m:
            have=[x.strip() for x in m.group(2).split(',')]
            new=have+[n for n in names if n not in have]
            return text[:m.start()]+m.group(1)+', '.join(new)+m.group(3)+text[m.end():]
    return None
def antt(p):
    t=p.read_text(); o=t
    common = 'Rattle.std.proofs.Common' if '/proofs/' in str(p) else 'Rattle.std.specs.Prelude'
    need=set()
    had_answer = re.search(r'declared\.Answer', t)
    unq = re.search(r'^use Rattle\.refusals\.specs\.declared\.Answer\.TheVariants\.\{[^}]*\}\n', t, re.M)
    if unq:
        t=t.replace(unq.group(0),'')
        t=re.sub(r'(?<![\w.])Accepted\b','Answer.Accepted',t)
        t=re.sub(r'(?<![\w.])Refused\b','Answer.Refused',t)
    if re.search(r'\bAnswer\.Accepted\b',t):
        need|={'Ok','tt'}
        t=wrap(t, r'(?<![\w.])Answer\.Accepted\b','Ok tt')
    if re.search(r'\b(Answer|Entered|Found)\.Refused\b',t):
        need.add('Err')
        t=re.sub(r'(?<![\w.])(Answer|Entered|Found)\.Refused\b','Err',t)
    if re.search(r'\bField\.There\b',t):
        need.add('Some'); t=re.sub(r'(?<![\w.])Field\.There\b','Some',t)
    if re.search(r'\bField\.Missing\b',t):
        need.add('None'); t=re.sub(r'(?<![\w.])Field\.Missing\b','None',t)
    if re.search(r'\bFound\.At\b',t):
        need.add('Ok'); t=re.sub(r'(?<![\w.])Found\.At\b','Ok',t)
    if 'Entered.Entry' in t:
        need.add('Ok')
        def ent(m): return 'Ok (%s, %s)'%(m.group(1),m.group(2))
        t=re.sub(r'(?<![\w.])Entered\.Entry (\([^()]*\)|[\w.\-\']+) (\([^()]*\)|[\w.\-\']+)',ent,t)
    # types
    body_uses_answer = re.search(r'(?<![\w.])Answer(?![\w.])', re.sub(r'^use .*$','',t,flags=re.M))
    if had_answer:
        t=re.sub(r'^use Rattle\.refusals\.specs\.declared\.Answer\.\{Answer\}\n', 'use Rattle.refusals.specs.Answers.{Answer}\n' if body_uses_answer else '', t, flags=re.M)
    if re.search(r'declared\.Field\.\{Field\}',t):
        t=re.sub(r'^use Rattle\.bits\.specs\.declared\.Field\.\{Field\}\n','',t,flags=re.M)
        head=[l for l in t.split('\n')]
        def fld(m):
            return '(Option ℕ)'
        lines=[]
        for l in head:
            if l.startswith('use '): lines.append(l); continue
            if re.search(r'(?<![\w.])Field(?![\w.])',l):
                need|={'Option','ℕ'}
                l=re.sub(r'(: )Field(\))',r'\1Option ℕ\2',l)
                l=re.sub(r'→ Field → ','→ Option ℕ → ',l)
                l=re.sub(r'→ Field$','→ Option ℕ',l)
                l=re.sub(r'(?<![\w.])Field(?![\w.])','(Option ℕ)',l)
            lines.append(l)
        t='\n'.join(lines)
    t=re.sub(r'\bin-Accepted\b','in-Ok',t); t=re.sub(r'\bin-Refused\b','in-Err',t)
    t=re.sub(r'\bin-There\b','in-Some',t); t=re.sub(r'\bin-Missing\b','in-None',t)
    if t!=o:
        if need:
            order=['Ok','Err','Some','None','Option','tt','ℕ']
            names=[n for n in order if n in need and n!='tt']
            r=add_import(t, common, names, [common]+(['Rattle.std.specs.Prelude'] if common!='Rattle.std.specs.Prelude' else []))
            if r is None:
                lines=t.split('\n'); k=next((i for i,l in enumerate(lines) if l.startswith('use ')),1)
                lines.insert(k,'use %s.{%s}'%(common,', '.join(names))); r='\n'.join(lines)
            t=r
        p.write_text(t)
def rt(p):
    t=p.read_text(); o=t
    lines=t.split('\n'); new=[]
    need=set()
    for l in lines:
        s=l.strip()
        if s.startswith('//'): new.append(l); continue
        if s.startswith('ghost use'):
            if 'declared.Answer' in s: continue
            if 'declared.Field' in s: continue
            new.append(l); continue
        if re.match(r'(requires|ensures)\b',s) or (s.startswith('(λ') ):
            if 'Answer.Accepted' in l: need|={'Ok','tt'}; l=wrap(l,r'(?<![\w.])Answer\.Accepted\b','Ok tt')
            if re.search(r'Answer\.Refused',l): need.add('Err'); l=re.sub(r'Answer\.Refused\b','Err',l)
            new.append(l); continue
        l=l.replace('Answer::Accepted','Ok(())').replace('Answer::Refused','Err')
        l=l.replace('Entered::Refused','Err').replace('Found::Refused','Err').replace('Found::At(','Ok(')
        l=l.replace('Field::There','Some').replace('Field::Missing','None')
        l=re.sub(r'Entered::Entry\(e, next\)','Ok((e, next))',l)
        if not s.startswith('use ') and not s.startswith('pub use'):
            l=re.sub(r'(-> |: )Answer\b',r'\1Result<(), Refusal>',l)
            l=re.sub(r'(-> |: )Field\b',r'\1Option<u64>',l)
            l=re.sub(r'(-> )Entered\b',r'\1Result<(Entry, usize), Refusal>',l)
            l=re.sub(r'(-> )Found\b',r'\1Result<Span, Refusal>',l)
        new.append(l)
    t='\n'.join(new)
    body='\n'.join(l for l in new if not l.strip().startswith(('use ','pub use','ghost use','//')))
    uses_ref = re.search(r'\bRefusal\b(?!\.)',re.sub(r'(requires|ensures)[^\n]*','',body))
    t=re.sub(r'^use refusals::\{Answer, Refusal\};$', 'use refusals::Refusal;', t, flags=re.M)
    t=re.sub(r'^use refusals::Answer;\n', 'use refusals::Refusal;\n' if uses_ref else '', t, flags=re.M)
    t=re.sub(r'^use bits::Field;\n','',t,flags=re.M)
    t=re.sub(r'^use crate::Field;\n','',t,flags=re.M)
    t=re.sub(r'^use entries::Entered;\n','',t,flags=re.M)
    if t!=o:
        if need:
            names=[n for n in ['Ok','Err','tt'] if n in need]
            r=add_import(t,'Rattle.std.specs.Prelude',names,['Rattle.std.specs.Prelude'])
            if r is None:
                ls=t.split('\n'); k=next(i for i,l in enumerate(ls) if l.startswith('ghost use'))
                ls.insert(k,'ghost use Rattle.std.specs.Prelude.{%s};'%', '.join(names)); r='\n'.join(ls)
            t=r
        p.write_text(t)
def edit(p):
    t=p.read_text(); o=t
    spec = '.antt' in t.split('file:')[1].split('\n')[0] if 'file:' in t else False
    if spec:
        t=wrap(t, r'(?<![\w.])Answer\.Accepted\b','Ok tt')
        t=re.sub(r'(?<![\w.])(Answer|Entered|Found)\.Refused\b','Err',t)
        t=re.sub(r'(?<![\w.])Field\.There\b','Some',t); t=re.sub(r'(?<![\w.])Field\.Missing\b','None',t)
    else:
        t=t.replace('Answer::Accepted','Ok(())').replace('Answer::Refused','Err').replace('Entered::Refused','Err').replace('Found::Refused','Err').replace('Found::At(','Ok(').replace('Field::There','Some').replace('Field::Missing','None')
        t=re.sub(r'(-> |: )Answer\b',r'\1Result<(), Refusal>',t)
    if t!=o: p.write_text(t)
for p in sorted(root.glob('crates/*/**/*')):
    if '/out/' in str(p) or not p.is_file(): continue
    if p.suffix=='.antt': antt(p)
    elif p.suffix=='.rt': rt(p)
    elif p.suffix=='.edit': edit(p)

# the names of arms in proofs, and patterns
for p in root.glob('crates/*/*/**/*.antt'):
    if not ('/specs/' in str(p) or '/proofs/' in str(p)): continue
    t=p.read_text(); out=[]
    for l in t.split('\n'):
        if '/proofs/' in str(p):
            l=re.sub(r'\bIn-There\b','In-Some',l); l=re.sub(r'\bIn-Accepted\b','In-Ok',l); l=re.sub(r'\bIn-Refused\b','In-Err',l)
        m=re.match(r"^(\s*[\w\-'₁₂]+(?: (?:\([^()=:]*\)|[\w\-'.₁₂]+))* =)( |$)",l)
        if m and '(Ok tt)' in m.group(1): l=m.group(1).replace('(Ok tt)','(Ok _)')+l[m.end(1):]
        out.append(re.sub(r'(elim \[|\|) Ok tt ↦',r'\1 Ok _ ↦',l))
    if '\n'.join(out)!=t: p.write_text('\n'.join(out))
