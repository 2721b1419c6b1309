#!/usr/bin/env python3
"""Proof.antt (walk over tie) -> Invariants.antt and Answers.antt.  usage: convert.py NAMES_DIR CRATE..  at the top"""
import json,os,re,sys
NAME=r"[^\s(){}\[\],;.@\"`:|=\\/#…]+"
def norm(s): return s.replace('_','-').replace('overflow-','').replace("'","")
def nstep(s): return re.sub(r'-?(\d+)$',r'\1',re.sub('-lem$','',norm(s).lower()))
log=[]
CL={}
def clauses_of():
    import glob
    FN=re.compile(r'^( *)(?:pub(?:\([^)]*\))? )?(?:extern "C" )?fn (\w+)(?:<[^>]*>)?\(',re.M)
    for p in glob.glob('crates/*/src/*.rt'):
        t=open(p).read(); crate=p.split('/')[1]
        modn=os.path.basename(p)[:-3]
        ims=[(m.start(),m.group(1)) for m in re.finditer(r'^impl (\w+)',t,re.M)]
        for m in FN.finditer(t):
            i=m.end(); d=1
            while d:
                c=t[i]; d+= c=='('; d-= c==')'; i+=1
            body=re.compile(r'^%s\{'%m.group(1),re.M).search(t,i)
            if not body: continue
            head=t[i:body.start()]
            req=re.findall(r'^\s*requires\*? ?(\w*) ?\{',head,re.M); ens=re.findall(r'^\s*ensures\*? ?(\w*) ?\{',head,re.M)
            path=[crate]+([] if modn in('lib','main') else [modn])
            if m.group(1) and ims:
                im=[n for a,n in ims if a<m.start()]
                if im: path.append(im[-1])
            CL['::'.join(path+[m.group(2)])]=(req,ens)
            CL.setdefault('*'+m.group(2),[]).append((req,ens))
def proj(rest,names):
    """['0'] or ['1','0',..] over a nested pair of the clauses -> name + rest"""
    n=len(names)
    if n<2: return rest
    k=0;i=0
    while i<len(rest):
        if rest[i]=='0': 
            return [names[k]]+rest[i+1:]
        if rest[i]=='1':
            k+=1;i+=1
            if k==n-1: return [names[k]]+rest[i:]
            continue
        return None
    return None
def entuple(body,names,ctx):
    """last expression a nested tuple -> record"""
    b=body.rstrip()
    if not b.endswith(')'): say('tuple?',ctx); return body
    d=0
    for k in range(len(b)-1,-1,-1):
        if b[k] in ')]}': d+=1
        if b[k] in '([{': d-=1
        if d==0: break
    pre=b[:k]
    if pre.strip() and not re.search(r'(\bin|=)\s*$',pre): say('tuple?',ctx); return body
    parts=[];cur=b[k:]
    for j in range(len(names)-1):
        cur=cur.strip()
        if not (cur.startswith('(') and cur.endswith(')')): say('tuple?',ctx); return body
        inner=cur[1:-1].rstrip().rstrip(',')
        d=0;pos=None
        for q,ch in enumerate(inner):
            if ch in '([{': d+=1
            if ch in ')]}': d-=1
            if ch==',' and d==0: pos=q;break
        if pos is None: say('tuple?',ctx); return body
        parts.append(inner[:pos].strip()); cur=inner[pos+1:]
    parts.append(cur.strip())
    return pre+'record { '+'; '.join('%s = %s'%(n,p) for n,p in zip(names,parts))+' }'
def say(*a): log.append(' '.join(map(str,a)))

def split_decls(text):
    """header comment lines, use lines, list of (sigline.., body) declarations as text blocks"""
    lines=text.split('\n')
    blocks=[];cur=[]
    head=[];uses=[]
    for l in lines:
        if l.startswith('--') and not cur and not uses and not blocks: head.append(l); continue
        if re.match(r'^(ghost |pub )?use ',l): uses.append(l); continue
        if l.strip()=='' :
            if cur: cur.append('')
            continue
        if cur and cur[-1]=='' and not l.startswith((' ','\t')):
            while cur and cur[-1]=='': cur.pop()
            blocks.append(cur); cur=[]
        if l.startswith('--') and cur: blocks.append(cur); cur=[]
        if not l.startswith((' ','\t')) and not l.startswith('--') and cur and re.match(r'^(abbrev |pub |unfoldable )*'+NAME+r' : ',l):
            blocks.append(cur); cur=[]
        cur.append(l)
    while cur and cur[-1]=='': cur.pop()
    if cur: blocks.append(cur)
    # join comment blocks to the following
    out=[];pend=[]
    for b in blocks:
        if all(x.startswith('--') for x in b): pend+=b; continue
        out.append(pend+b); pend=[]
    if pend: out.append(pend)
    return head,uses,out

class Fn:
    def __init__(self,info):
        self.needs=[]
        for i,(o,n) in enumerate(info['needs']):
            place=info['asked_at'][i][0] if i<len(info['asked_at']) else None
            self.needs.append((o,n,place))
        self.byold={}
        for o,n,p in self.needs: self.byold.setdefault(norm(o),(n,p))
        for o,n,p in self.needs: self.byold.setdefault(norm(n),(n,p))
        self.parent={};self.step={};self.newplace={}
        for (o,par,st,callee,_),nw in zip(info['places'],info['places_by_name']):
            self.parent[o]=par; self.step[o]=st; self.newplace[o]=nw
        self.bynormplace={}
        for o in self.parent: self.bynormplace.setdefault(nstep(o),o)
        self.loops=info['loops']; self.changed=info['changed']
        self.asked=info['asked']
        self.pre=(info.get('pre') or {}).get('fields') or []
        self.callee={}
        for (o,par,st,callee,_) in info['places']:
            if callee: self.callee[st[1]]=callee

def path_tokens(text):
    """yields (start,end,[parts]) of dotted paths"""
    for m in re.finditer(r"(?<![^\s(){}\[\],;←=:|λ])("+NAME+r")((?:\."+NAME+r")+)?",text):
        yield m

def turn_body(fn,text,env,log_ctx):
    """env: var -> place (old) or None when unknown but context"""
    # handle lets of pure aliases, in order
    out='';pos=0
    # iterative: find 'let V = PATH in' / 'let V : tie.X = PATH in'
    def conv_path(parts,env):
        v=parts[0]
        if v not in env: return None
        place=env[v]; i=1
        while i<len(parts) and parts[i]=='before':
            place=fn.parent.get(place) if place else None
            i+=1
        return place,parts[i:]
    def stepped(st,rest):
        cal=fn.callee.get(st[1])
        if cal and len(rest)>2 and rest[1]=='ensures':
            r=CL.get(cal)
            if r is None:
                r=CL.get('*'+cal.split('::')[-1]); r=r[0] if r and len(r)==1 else None
            if r and len(r[1])>1:
                pr=proj(rest[2:],r[1])
                if pr is not None: return '.'.join(['c',st[1],'ensures']+pr)
        return '.'.join(['c',st[1]]+rest[1:])
    def rep(text,env):
        def f(m):
            parts=m.group(0).split('.')
            r=conv_path(parts,env)
            if r is None: return m.group(0)
            place,rest=r
            if not rest: return 'c'
            s=rest[0]
            if s=='pre': s='requires'; rest=['requires']+rest[1:]
            if s=='requires' and fn.pre:
                pr=proj(rest[1:],fn.pre)
                if pr is not None and len(rest)>1: return '.'.join(['c','requires']+pr)
            if s in('args','requires','ranges','lifetimes','well_formed','well-formed','fits','type_inv','goods'): return '.'.join(['c',{'fits':'ranges','well-formed':'well_formed'}.get(s,s)]+rest[1:])
            # step of place, or of an ancestor (opened)
            q=place
            while q is not None:
                st=fn.step.get(q)
                if st and st[0] and (nstep(st[0])==nstep(s)): return stepped(st,rest)
                q=fn.parent.get(q)
            # any
            for q,st in fn.step.items():
                if st[0] and nstep(st[0])==nstep(s): return stepped(st,rest)
            say('step?',log_ctx,m.group(0),place)
            return '.'.join(['c']+rest)
        return re.sub(NAME+r"(?:\."+NAME+r")*",f,text)
    for A,Q in fn.classA.items():
        env=dict(env); env['ctx_'+A]=Q
    prev=None
    while prev!=text:
        prev=text
        for A,Q in fn.classA.items():
            text=re.sub(r"\("+re.escape(A)+r" ("+NAME+r"(?:\.before)*)\)",'ctx_'+A,text)
            text=re.sub(r"(?<![^\s(){}\[\],;.←])"+re.escape(A)+r" ("+NAME+r"(?:\.before)*)(?=[\s)])",'ctx_'+A,text)
    LET=re.compile(r"\blet ("+NAME+r")(?: : tie\."+NAME+r")? = ("+NAME+r"(?:\.before)*) in(?=[\s])[ ]?")
    while True:
        m=LET.search(text,pos)
        if not m:
            out+=rep(text[pos:],env); break
        parts=m.group(2).split('.')
        if parts[0] in env and all(x=='before' for x in parts[1:]):
            out+=rep(text[pos:m.start()],env)
            place,_=conv_path(parts,env)
            env=dict(env); env[m.group(1)]=place
            pos=m.end()
            # drop line remainder whitespace
            if out.endswith(' ') and text[pos:pos+1]=='\n':
                # whole line was the let
                out=out.rstrip(' '); 
                if out.endswith('\n'): pos+=1
        else:
            out+=rep(text[pos:m.end()],env); pos=m.end()
    # clean: blank lines
    out=re.sub(r'\n[ \t]*(?=\n)','',out)
    out=out.replace('.type-inv','.type_inv')
    return out

def shadow_sub(text,mp):
    """replace names by mp outside the scope of binders of the same name; crude scoping by parentheses"""
    toks=re.findall(r"\s+|[(){}\[\],;]|"+NAME+r"(?:\."+NAME+r")*|.",text)
    out=[];stack=[set()]
    i=0
    def binders(j):
        # after 'λ': collect names until '.' terminator
        names=[];k=j
        depth=0;buf=[]
        while k<len(toks):
            t=toks[k]
            if t in '({': depth+=1
            elif t in ')}': depth-=1
            if depth==0 and t=='.' : break
            if depth==0 and t.endswith('.') and len(t)>1: names.append(t[:-1]); break
            buf.append(t); k+=1
        s=''.join(buf)
        names+=re.findall(NAME,re.sub(r':[^()]*','',s))
        return names
    while i<len(toks):
        t=toks[i]
        if t in '({[' and len(t)==1:
            stack.append(set(stack[-1]))
            # pi binder?  ( names : T ) →
            d=1;k=i+1
            while k<len(toks) and d:
                if toks[k] in ('(','{','['): d+=1
                if toks[k] in (')','}',']'): d-=1
                k+=1
            inner=''.join(toks[i+1:k-1])
            after=''.join(toks[k:k+4]).lstrip()
            m=re.match(r"^((?:"+NAME+r"\s+)+):\s",inner)
            if m and (after.startswith('→') or after.startswith('×') or after.startswith('(') or after.startswith('.')):
                for n in m.group(1).split(): stack[-2].add(n)
            out.append(t)
        elif t in ')}]' and len(t)==1:
            if len(stack)>1: stack.pop()
            out.append(t)
        elif t=='λ':
            for n in binders(i+1): stack[-1].add(n)
            out.append(t)
        else:
            h=t.split('.')[0]
            if h in mp and h not in stack[-1] and re.match(NAME,t):
                t=mp[h]+t[len(h):]
            out.append(t)
        i+=1
    return ''.join(out)

def convert(crate,rel,info,dest):
    path=os.path.join('crates',crate,'proofs',rel,'Proof.antt')
    text=open(path,encoding='utf-8').read()
    fn=Fn(info)
    ctx=crate+'/'+rel
    head,uses,blocks=split_decls(text)
    spec=None;inv=[];ans=[];helpers=[]
    mod='Rattle.%s.proofs.%s'%(crate,rel.replace('/','.'))
    used_ans=set()
    tievar='tie'
    # order of spec args
    full='\n'.join('\n'.join(b) for b in blocks)
    loopi=0
    loopmap={}
    for (o,n),vs in fn.loops: loopmap[norm(o)]=(n,vs)
    fn.classA={}; B={}; Border=[]
    for b in blocks:
        b2=[l for l in b if not l.startswith('--')]
        if not b2: continue
        m=re.match(r"^((?:abbrev |pub |unfoldable )*)("+NAME+r") : (.*)$",b2[0])
        if m:
            am=re.match(r"^(?:\("+NAME+r" : )?tie\.("+NAME+r")(?: "+NAME+r")*\)? → tie\.("+NAME+r")(?: "+NAME+r")*$",m.group(3))
            if am and not am.group(1).startswith(('Need','invariant','decreases')):
                q=fn.bynormplace.get(nstep(am.group(2)))
                fn.classA[m.group(2)]=q
                if q is None: say('classA?',ctx,m.group(2),am.group(2))
    for b in blocks:
        comments=[l for l in b if l.startswith('--')]
        b2=[l for l in b if not l.startswith('--')]
        if not b2: helpers.append('\n'.join(b)); continue
        s='\n'.join(b2)
        m=re.match(r"^((?:abbrev |pub |unfoldable )*)("+NAME+r") : (.*)$",b2[0])
        if not m: say('block?',ctx,b2[0][:80]); helpers.append('\n'.join(b)); continue
        name,ty=m.group(2),m.group(3)
        if 'tie.close' in s and 'statement' in b2[0]:
            spec=s; continue
        mm=re.match(r"^tie\.(invariant|decreases)-("+NAME+r")$",ty.strip())
        if mm:
            lo=loopmap.get(norm(mm.group(2)))
            if not lo: say('loop?',ctx,ty); continue
            newloop,vs=lo
            idx=[k for k,((o,n),v) in enumerate(fn.loops) if n==newloop][0]
            ch=fn.changed[idx] if idx<len(fn.changed) else []
            body='\n'.join(b2[1:])
            dm=re.match(r"^"+re.escape(name)+r"((?:\s+[^\s=]+)*)\s+=\s*",body)
            if not dm: say('invargs?',ctx,body[:80]); continue
            args=dm.group(1).split()
            rest=body[dm.end():]
            chn=[v for v,c in zip(vs,ch) if c]
            if len(args)!=len(vs)+len(chn): say('invcount',ctx,args,vs,ch)
            mp={}
            for a,v,c in zip(args,vs,ch):
                if a!='_': mp[a]=('l.initial.'+v) if c else 'l.'+v
            for a,v in zip(args[len(vs):],chn):
                if a!='_': mp[a]='l.'+v
            rest=shadow_sub(rest,mp)
            unf=[l for l in b2[1:] if l.startswith('unfolding ')]
            new='%s-%s'%(mm.group(1),newloop)
            inv.append('\n'.join(comments+['abbrev pub %s : goal.%s'%(new,new),'%s l =%s%s'%(new,'' if rest.startswith('\n') else ' ',rest)]))
            continue
        mm=re.match(r"^tie\.Need-("+NAME+r")(.*)$",ty.strip())
        if mm:
            r=fn.byold.get(norm(mm.group(1)))
            if not r:
                # try by spec position later
                say('need?',ctx,mm.group(1)); 
                helpers.append('-- UNPLACED\n'+s); continue
            new,place=r
            body=b2[1:]
            unf=[]
            while body and body[0].startswith('unfolding'): unf.append(body[0]); body=body[1:]
            bt='\n'.join(body)
            dm=re.match(r"^"+re.escape(name)+r"((?:\s+[^\s=]+)*)\s+=",bt)
            if not dm: say('clauses?',ctx,name); helpers.append('-- UNPLACED\n'+s); continue
            args=dm.group(1).split()
            cv=args[0] if args else None
            if cv is None: say('noarg',ctx,name); bt2=bt[dm.end():]
            else: bt2=turn_body(fn,bt[dm.end():],{cv:place},ctx+':'+name)
            extra=[e for e in args[1:] if e!='κs' or re.search(r'κs',bt2)]
            if extra: say('extra args',ctx,name,extra)
            if re.fullmatch(r"\s*search rules\s*",bt2): continue
            ak=[v for k,v in fn.asked.items() if norm(k)==norm(mm.group(1))]
            if ak and len(ak[0])>1: bt2=entuple(bt2,ak[0],ctx+':'+new)
            body='%s c%s =%s'%(new,''.join(' '+e for e in extra),bt2)
            ans.append((new,'\n'.join(comments+['pub %s : goal.%s'%(new,new)]+unf+[body]),name))
            continue
        if name in fn.classA: continue
        # helper: may take tie places
        hs=s
        # class B: first argument a place
        sig0=s; eqm=re.search(r"^(?:unfolding .*\n)?"+re.escape(name)+r"(?:\s+[^\n=]*?)?\s=(?=\s)",s[len(b2[0]):].lstrip('\n') and s,re.M)
        dm=None
        for mm2 in re.finditer(r"^"+re.escape(name)+r"((?:\s+"+NAME+r")*)\s+=(?=\s)",s,re.M): dm=mm2; break
        if dm and 'tie.' in s:
            sigtext=s[:dm.start()]
            unf=re.findall(r"^unfolding (.*)$",sigtext,re.M)
            sigtext=re.sub(r"^unfolding .*\n?","",sigtext,flags=re.M).rstrip()
            typ=sigtext.split(' : ',1)[1]
            fm=re.match(r"^\(("+NAME+r") : tie\.("+NAME+r")(?: "+NAME+r")*\)\s*→\s*(.*)$",typ,re.S)
            fm2=re.match(r"^tie\.("+NAME+r")(?: "+NAME+r")*\s*→\s*(.*)$",typ,re.S)
            args=dm.group(1).split()
            if (fm or fm2) and args:
                if fm: bv,pl,T=fm.group(1),fm.group(2),fm.group(3)
                else: bv,pl,T=args[0],fm2.group(1),fm2.group(2)
                place=fn.bynormplace.get(nstep(pl))
                if place is None: say('place?',ctx,name,pl)
                T2=turn_body(fn,T,{bv:place},ctx+':'+name)
                bt=turn_body(fn,s[dm.end():],{args[0]:place},ctx+':'+name)
                if 'tie.' not in T2:
                    lam=''
                    if args[1:]:
                        # types of the further arguments from T
                        lam='λ '+' '.join(args[1:])+'. '
                        tys=re.findall(r"\(("+NAME+r"(?: "+NAME+r")*) : ((?:[^()]|\((?:[^()]|\([^()]*\))*\))*)\)\s*→",T2)
                        fl=[(v,t) for g,t in tys for v in g.split()]
                        if len(fl)>=len(args)-1: lam='λ '+' '.join('(%s : %s)'%(a,t) for a,(v,t) in zip(args[1:],fl))+'. '
                        else: say('lam?',ctx,name,T2[:80])
                    B[name]=(T2.strip(),lam+re.sub(r"\s*\n\s*",' ',bt.strip()),unf,comments); Border.append(name)
                    continue
        say('helperC',ctx,name,ty[:80]) if 'tie.' in s else None
        pm=re.findall(r"\((("+NAME+r")(?: "+NAME+r")*) : tie\.("+NAME+r")([^)]*)\)",hs)
        am=re.match(r"^tie\.("+NAME+r") → ",ty)
        body=b2[1:]
        if 'tie.' in hs:
            env={}
            for g in pm:
                pl=fn.bynormplace.get(nstep(g[2]))
                for v in g[0].split(): env[v]=pl
            if am:
                pl=fn.bynormplace.get(nstep(am.group(1)))
                dm=re.match(r"^"+re.escape(name)+r"\s+("+NAME+r")",'\n'.join(x for x in body if not x.startswith('unfolding')))
                if dm: env[dm.group(1)]=pl
            if len(set(env))>1: say('helper ctx',ctx,name,env)
            hs2=turn_body(fn,hs,env,ctx+':'+name)
            def tyrep(m):
                pl=fn.bynormplace.get(nstep(m.group(1)))
                return 'tie.'+(fn.newplace[pl] if pl else m.group(1))
            hs2=re.sub(r"tie\.("+NAME+")",tyrep,hs2)
            say('helper',ctx,name,ty[:80])
            hs=hs2
        helpers.append('\n'.join(comments+[hs]))
    if B or fn.classA:
        def uses_of(txt): return [n for n in Border if re.search(r"(?<![^\s(){}\[\],;.←])"+re.escape(n)+r"(?![^\s(){}\[\],;.])",txt)]
        def strip(txt):
            for n in list(B)+list(fn.classA):
                rp=n if n in B else 'c'
                txt=re.sub(r"\("+re.escape(n)+r" c\)",rp,txt)
                txt=re.sub(r"(?<![^\s(){}\[\],;.←])"+re.escape(n)+r" c(?![^\s(){}\[\],;])",rp,txt)
            return txt
        newans=[]
        for n0,t0,nm in ans:
            need=set();todo=uses_of(t0)
            while todo:
                x=todo.pop()
                if x in need: continue
                need.add(x); todo+=uses_of(B[x][0]+' '+B[x][1])
            t1=strip(t0)
            if need:
                unf=[u for x in Border if x in need for u in B[x][2]]
                lets=''.join('\n    let %s : %s = %s in'%(x,strip(B[x][0]),strip(B[x][1])) for x in Border if x in need)
                mh=re.search(r"^("+re.escape(n0)+r" c[^=\n]*=)",t1,re.M)
                if not mh: say('anshead?',ctx,n0)
                else:
                    rest=t1[mh.end():]
                    if not rest.startswith('\n'): rest='\n    '+rest.lstrip()
                    t1=t1[:mh.end()]+lets+rest
                    if unf:
                        um=re.search(r"^unfolding (.*)$",t1,re.M)
                        words=' '.join(unf).split()
                        if um: words=um.group(1).split()+[w for w in words if w not in um.group(1).split()]; t1=t1[:um.start()]+'unfolding '+' '.join(dict.fromkeys(words))+t1[um.end():]
                        else: t1=t1.replace('\n','\nunfolding '+' '.join(dict.fromkeys(words))+'\n',1) if not t1.startswith('--') else re.sub(r"^(pub .*)$",lambda m: m.group(1)+'\nunfolding '+' '.join(dict.fromkeys(words)),t1,count=1,flags=re.M)
            newans.append((n0,t1,nm))
        ans=newans
    def tidy(t):
        def f(m):
            st=m.group(1)
            for q,x in fn.step.items():
                if x[1]==st: return m.group(0)
            for q,x in fn.step.items():
                if x[0] and nstep(x[0])==nstep(st): return 'c.'+x[1]
            return m.group(0)
        t=re.sub(r"(?<![^\s(){}\[\],;←])c\.("+NAME+")",f,t)
        return re.sub(r"\(c\)",'c',t)
    pars=info.get('params',{})
    def deep(t):
        al={'c.'+k:k for k in fn.callee}
        for m in re.finditer(r"\blet ("+NAME+r") = c\.("+NAME+r") in",t): al[m.group(1)]=m.group(2)
        def f(m):
            st=al.get(m.group(1)); cal=fn.callee.get(st) if st else None
            if not cal: return m.group(0)
            field=m.group(2); idx=m.group(3).strip('.').split('.')
            if field=='ensures':
                r=CL.get(cal)
                if r is None:
                    r=CL.get('*'+cal.split('::')[-1]); r=r[0] if r and len(r)==1 else None
                if r and len(r[1])>1:
                    pr=proj(idx,r[1])
                    if pr is not None: return '.'.join([m.group(1),field]+pr)
                return m.group(0)
            ps=pars.get(cal)
            if not ps: return m.group(0)
            if idx[-1]=='0': k=len(idx)-1; rest=''
            else: k=len(idx)
            if set(idx[:-1])-{'1'} or k>=len(ps): return m.group(0)
            fld={'last':'new','kept':'auto'}.get(field,field)
            return m.group(1)+'.'+fld+'.'+ps[k]
        t=re.sub(r"(?<![^\s(){}\[\],;←])("+NAME+r"(?:\."+NAME+r")?)\.(new|last|auto|kept|ensures)((?:\.[01])+)(?!\w)",f,t)
        def g(m): return '(ap not '+m.group(0)+')'
        t=re.sub(r"(?<![^\s(){}\[\],;←])c\.if-not-"+NAME+r"\.(?:true|false)",g,t)
        return t
    ans=[(a,deep(tidy(b)),n) for a,b,n in ans]
    # spec args by position: inline answers
    if spec:
        sm=re.search(r"tie\.spec(.*)\)\s*$",spec,re.S)
        if sm:
            a=sm.group(1)
            names=set(re.findall(NAME,re.sub(r"\(search[^()]*\)",'',a)))
            known={n for _,_,n in ans}|{'search','rules'}
            inl=re.findall(r"\((?!search rules\))[^()]*(?:\([^()]*\)[^()]*)*\)",a)
            # split args at top level
            args=[];dep=0;curt=''
            for ch in a.rstrip():
                if ch in '([{': dep+=1
                if ch in ')]}': dep-=1
                if dep<0: break
                if ch.isspace() and dep==0:
                    if curt: args.append(curt); curt=''
                else: curt+=ch
            if curt: args.append(curt)
            off=2*len(fn.loops)
            done={n for n,_,_ in ans}
            if len(args)==off+len(fn.needs):
                for g,(o,n,place) in zip(args[off:],fn.needs):
                    im=re.match(r"^\(λ ("+NAME+r")( κs)?\.\s+(.*)\)$",g,re.S)
                    if not im or n in done: continue
                    b=im.group(3)
                    if b.strip() in ('tt','omega arith','search rules','refl'): continue
                    bt2=turn_body(fn,' '+b,{im.group(1):place},ctx+':'+n)
                    ans.append((n,'pub %s : goal.%s\n%s c =%s'%(n,n,n,bt2),n))
            else:
                inl=[g for g in args if re.match(r"^\(λ",g) and not re.match(r"^\(λ \S+( κs)?\.\s+(tt|omega arith|refl)\)$",g)]
                # align by order of the named answers
                if inl: say('inline',ctx,len(args),off,len(fn.needs),inl[:4])
    d=os.path.join('crates',crate,'proofs',rel)
    uses=[u for u in uses if not re.search(r'\.(Statement|Tie)\b',u)]
    def filt(us,body):
        out=[]
        for u in us:
            m=re.match(r"^(use [^{]*)\{(.*)\}$",u)
            if m:
                keep=[]
                for n in m.group(2).split(','):
                    n=n.strip(); w=n.split(' as ')[-1].strip()
                    core=w.replace('◌','')
                    if '◌' in w:
                        ps=[x for x in w.split('◌') if x]
                        if all(x in body for x in ps): keep.append(n)
                    elif re.search(r"(?<![^\s(){}\[\],;.←])"+re.escape(w)+r"(?![^\s(){}\[\],;.])",body): keep.append(n)
                if keep: out.append(m.group(1)+'{'+', '.join(keep)+'}')
            else:
                m=re.match(r"^use (\S+)(?: as (\S+))?$",u)
                al=(m.group(2) or m.group(1).split('.')[-1]) if m else ''
                if re.search(r"\b"+re.escape(al)+r"\b",body): out.append(u)
        return out
    wrote=[]
    invbody='\n\n'.join(inv)
    hs=[h for h in helpers]
    ansbody='\n\n'.join([*hs,*[t for _,t,_ in ans]])
    # helpers needed by invariants
    invh=[]
    if inv:
        for h in hs:
            m=re.match(r"^(?:--.*\n)*(?:abbrev |pub |unfoldable )*("+NAME+") : ",h)
            if m and re.search(r"(?<![^\s(){}\[\],;.])"+re.escape(m.group(1))+r"(?![^\s(){}\[\],;.])",invbody): invh.append((m.group(1),h))
        if invh: say('inv helper',ctx,[n for n,_ in invh])
        ib='\n\n'.join([re.sub(r'^(abbrev )?(?!pub)',r'\1pub ',h,count=1,flags=re.M) if not h.startswith('abbrev pub') else h for _,h in invh]+[invbody])
        t='\n'.join(head+filt(uses,ib)+['use %s.Given as goal'%mod,'',ib,''])
        open(os.path.join(d,'Invariants.antt'),'w',encoding='utf-8').write(t); wrote.append('I')
    hs2=[h for h in hs if h not in [x for _,x in invh]]
    ansbody='\n\n'.join([*hs2,*[t for _,t,_ in ans]])
    if ans or any(not h.startswith('--') for h in hs2):
        us=filt(uses,ansbody)
        if invh: us.append('use %s.Invariants.{%s}'%(mod,', '.join(n for n,_ in invh)))
        us.append('use %s.Goals as goal'%mod)
        if 'tie.' in ansbody: us.append('use %s.Tie as tie'%mod)
        t='\n'.join(head+us+['',ansbody,''])
        open(os.path.join(d,'Answers.antt'),'w',encoding='utf-8').write(t); wrote.append('A')
    os.remove(path)
    if not wrote:
        pass

names,crates=sys.argv[1],sys.argv[2:]
clauses_of()
for c in crates:
    info=json.load(open(os.path.join(names,'crates',c,'names.json')))
    root=os.path.join('crates',c,'proofs')
    n=0
    for d,_,fs in os.walk(root):
        if 'Proof.antt' in fs:
            rel=os.path.relpath(d,root)
            key='Rattle-%s-proofs.%s.Lts'%(c,rel.replace('/','.'))
            if key not in info: say('no names',c,rel); continue
            convert(c,rel,info[key],None); n+=1
    say('crate',c,n)
print('\n'.join(log))
