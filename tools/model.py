"""A plain model of the shelf, written from docs/ and independent of the code.

It files, interleaves and reads as the specification says, and gives the lines that the program should print
for a stream of calls: `run(stream)`. It is for making samples and their expected output, and is not proved.
"""
W={}
for w,fs in {1:"c C",2:"s S e",4:"i I f tdD tts ttm tiM",8:"l L g tdm ttu ttn tDs tDm tDu tDn tiD"}.items():
    for f in fs.split(): W[f.encode()]=w
def kind(f):
    if f in W: return ('prim',W[f])
    if f[:4] in (b'tss:',b'tsm:',b'tsu:',b'tsn:'): return ('prim',8)
    if f==b'b': return ('bool',)
    if f in (b'u',b'z',b'U',b'Z'): return ('str',)
    if f in (b'vu',b'vz'): return ('view',)
    if f in (b'+l',b'+L'): return ('list',)
    if f==b'+m': return ('map',)
    if f==b'+s': return ('struct',)
    if f==b'+r': return ('run',)
    if f[:3]==b'+w:':
        d=f[3:]
        if d and all(48<=c<=57 for c in d) and (len(d)==1 or d[0]!=48) and int(d)<=2147483647: return ('fixed',int(d))
    return None
def ow(f): return 8 if f in (b'U',b'Z',b'+L') else 4
class Deny(Exception):
    def __init__(s,n,d): s.n=n; s.d=d
class Node: pass
def be(b): return int.from_bytes(b,'big')
def le(b): return int.from_bytes(b,'little')
def bits(n,b): return [ (b[i//8]>>(i%8)&1)==1 if i//8<len(b) else False for i in range(n)]
class Shelf:
    def __init__(s,lengths=None):
        s.cols=[];s.bufs=[];s.marks=[0]*12;s.len=[0]+(lengths or [2048]*11)
    def fits(s,marks,needs,p): t=marks[p]+needs[p]; return t<=s.len[p] and t<=1048576
    def full(s,marks,needs):
        for p in range(1,12):
            if not s.fits(marks,needs,p): raise Deny(13,p)
    # ---- file
    def file(s,P):
        st={'at':0,'n':0}; bufs=list(s.bufs); before=len(s.bufs); checks=[]
        def item(n):
            a=st['at']
            if a+n>len(P): raise Deny(1,a)
            st['at']=a+n; return P[a:a+n]
        def buf():
            a=st['at']; n=4+be(P[a:a+4]); return item(n)[4:]
        def node(level,role):
            st['n']+=1; num=st['n']-1
            h=item(8); f=item(h[0]%128); masked=h[0]>=128; label=be(h[1:3]); cc=h[3]; rows=be(h[4:8])
            K=kind(f)
            if K is None: raise Deny(2,num)
            want={'list':1,'map':1,'fixed':1,'run':2,'struct':cc}.get(K[0],0)
            ok=cc==want and not(K[0]=='run' and masked) and rows<=1048576 and num<256 and level<=8
            if role and role[0]=='ends': ok=ok and f in(b's',b'i',b'l') and not masked
            if role and role[0]=='map': ok=ok and f==b'+s' and cc==2
            if not ok: raise Deny(3,num)
            N=Node(); N.f=f;N.K=K;N.label=label;N.rows=rows;N.num=num
            N.rawmask=buf() if masked else None
            body=buf() if K[0] in('prim','bool','str','view','list','map') else b''
            text=buf() if K[0]=='str' else b''
            named=[];N.buffers=[]
            if K[0]=='view':
                for _ in range(be(item(2))):
                    a=st['at']; l=be(P[a:a+4])
                    if l>=2**31: item(4); N.buffers.append(l-2**31); named.append(l-2**31)
                    else: d=item(4+l)[4:]; N.buffers.append(len(bufs)); bufs.append(d)
            shelved=list(bufs)
            N.mask=None if N.rawmask is None else bits(rows,N.rawmask)
            N.values=[];N.bits=[];N.offsets=[];N.text=text;N.views=[]
            size=0
            if K[0]=='prim': size=K[1]*rows; N.values=[le(body[K[1]*i:K[1]*i+K[1]]) for i in range(rows)]
            if K[0]=='bool': size=(rows+7)//8; N.bits=bits(rows,body)
            if K[0] in('str','list','map'): w=ow(f); size=w*(rows+1); N.offsets=[le(body[w*i:w*i+w]) for i in range(rows+1)] if len(body)==size else []
            if K[0]=='view': size=16*rows; N.views=[body[16*i:16*i+16] for i in range(rows)]
            roles={'list':[None],'fixed':[None],'map':[('map',)],'run':[('ends',rows),None],'struct':[None]*cc}.get(K[0],[])
            slot=len(checks); checks.append(None)
            N.kids=[node(level+1,r) for r in roles]
            def check():
                for b in named:
                    if b>=before: raise Deny(12,b)
                ok=(N.rawmask is None or len(N.rawmask)==(rows+7)//8) and len(body)==size
                if ok and role and role[0]=='ends':
                    low=0
                    for e in N.values: ok=ok and low<e; low=e
                    ok=ok and low==role[1] and role[1]<=2**(8*K[1]-1)-1
                if ok and role and role[0]=='map': ok=N.mask is None or all(N.mask)
                if ok and N.offsets:
                    bound=len(text) if K[0]=='str' else N.kids[0].rows
                    ok=all(a<=b for a,b in zip(N.offsets,N.offsets[1:])) and N.offsets[-1]<=bound and N.offsets[-1]<2**(8*ow(f)-1)
                if ok and K[0]=='view':
                    for v in N.views:
                        l=le(v[:4])
                        if l>12:
                            pos,off=le(v[8:12]),le(v[12:16])
                            b=shelved[N.buffers[pos]] if pos<len(N.buffers) else None
                            ok=ok and b is not None and off+l<=len(b) and b[off:off+4]==v[4:8]
                if ok and K[0]=='struct': ok=all(k.rows==rows for k in N.kids)
                if ok and K[0]=='run': ok=N.kids[0].rows==N.kids[1].rows
                if ok and K[0]=='fixed': ok=N.kids[0].rows==rows*K[1]
                if not ok: raise Deny(4,num)
            checks[slot]=check
            return N
        c=node(1,None)
        if st['at']!=len(P): raise Deny(1,st['at'])
        for k in checks: k()
        needs=[0]*12; needs[1]=1
        def walk(n):
            for p,v in enumerate(node_needs(n)): needs[p]+=v
            needs[3]+=len(n.f)
            for k in n.kids: walk(k)
        walk(c)
        new=bufs[before:]; needs[3]+=sum(map(len,new)); needs[10]+=len(new)
        s.full(s.marks,needs)
        s.marks=[a+b for a,b in zip(s.marks,needs)]; s.bufs=bufs; s.cols.append(c); return len(s.cols)-1
    # ---- interleave
    def alike(s,a,b,):
        if a.f!=b.f or len(a.kids)!=len(b.kids): return False
        return all((a.K[0]=='run' or x.label==y.label) and s.alike(x,y) for x,y in zip(a.kids,b.kids))
    def interleave(s,js,ps):
        if not js: raise Deny(5,0)
        if len(js)>64: raise Deny(5,len(js))
        if len(ps)>1048576: raise Deny(5,len(ps))
        for j in js:
            if j>=len(s.cols): raise Deny(11,j)
        S=[s.cols[j] for j in js]
        for i,c in enumerate(S):
            if not s.alike(S[0],c): raise Deny(6,i)
        for k,(a,r) in enumerate(ps):
            if a>=len(S) or r>=S[a].rows: raise Deny(7,k)
        one=[0]*12; one[1]=1
        if not s.fits(s.marks,one,1): raise Deny(13,1)
        marks=list(s.marks); marks[1]+=1
        c=s.make(False,S,ps,marks,0)
        s.marks=marks; s.cols.append(c); return len(s.cols)-1
    def make(s,inlist,S,ps,marks,slip,ends=None):
        n=S[0]; N=Node(); N.f=n.f;N.K=n.K;N.label=n.label;N.rows=len(ps);N.values=[];N.bits=[];N.offsets=[];N.text=b'';N.views=[];N.buffers=[];N.mask=None;N.kids=[]
        K=n.K; valid=lambda p:S[p[0]].mask is None or S[p[0]].mask[p[1]]
        if ends is not None:
            N.rows=len(ends); N.values=ends
        else:
            need=any(not valid(p) for p in ps) if inlist and K[0]=='prim' else any(x.mask is not None and not all(x.mask) for x in S)
            if ps and need: N.mask=[valid(p) for p in ps]
            if K[0]=='prim': N.values=[S[a].values[r] for a,r in ps]
            if K[0]=='bool': N.bits=[S[a].bits[r] for a,r in ps]
        def rng(a,r):
            if K[0]=='fixed': return (r*K[1],K[1])
            return (S[a].offsets[r],S[a].offsets[r+1]-S[a].offsets[r])
        over=None
        if ends is None and K[0] in('str','list','map'):
            t=0;N.offsets=[0]
            for p in ps: t+=rng(*p)[1]; N.offsets.append(t)
            if ow(N.f)==4:
                for t in N.offsets:
                    if t>2147483647: raise Deny(8,t)
        if K[0]=='str':
            for a,r in ps: o,l=rng(a,r); N.text+=S[a].text[o:o+l]
        if K[0]=='view':
            for a,r in ps:
                v=S[a].views[r]
                if le(v[:4])>12:
                    b=S[a].buffers[le(v[8:12])]
                    if b not in N.buffers: N.buffers.append(b)
                    v=v[:8]+N.buffers.index(b).to_bytes(4,'little')+v[12:]
                N.views.append(v)
        slipneed=0; qs=[]
        if K[0]=='run':
            if len(ps)>2**(8*n.kids[0].K[1]-1)-1: raise Deny(9,len(ps))
            es=[]
            for a,r in ps: es.append((a,next(i for i,e in enumerate(S[a].kids[0].values) if e>r)))
            ends_=[k+1 for k in range(len(es)) if k+1==len(es) or es[k]!=es[k+1]]
            qs=[es[e-1] for e in ends_]; slipneed=len(qs)
        if K[0] in('list','map','fixed'):
            for a,r in ps: o,l=rng(a,r); qs+= [(a,i) for i in range(o,o+l)]
            if n.kids[0].K[0]!='prim': slipneed=len(qs)
        if K[0]=='struct': qs=ps
        needs=node_needs(N); needs[11]=slip+slipneed
        s.full(marks,needs)
        needs[11]=0
        for p in range(12): marks[p]+=needs[p]
        s.top=max(getattr(s,'top',0),slip+slipneed)
        for i in range(len(n.kids)):
            if K[0]=='run' and i==0: N.kids.append(s.make(False,[x.kids[0] for x in S],[],marks,slip+slipneed,ends_))
            else: N.kids.append(s.make(K[0] in('list','fixed'),[x.kids[i] for x in S],qs,marks,slip+slipneed))
        return N
    def read(s,j,r,room=4096):
        if j>=len(s.cols): raise Deny(11,j)
        if r>=s.cols[j].rows: raise Deny(7,r)
        t=s.says(s.cols[j],r)
        if len(t)>room: raise Deny(10,room)
        return t
    def says(s,n,i):
        if n.mask is not None and not n.mask[i]: return '-'
        K=n.K
        if K[0]=='prim': return n.values[i].to_bytes(K[1],'big').hex()
        if K[0]=='bool': return 'ft'[n.bits[i]]
        if K[0]=='str': return '"'+n.text[n.offsets[i]:n.offsets[i+1]].hex()+'"'
        if K[0]=='view':
            v=n.views[i]; l=le(v[:4])
            if l<=12: return '"'+v[4:4+l].hex()+'"'
            b=s.bufs[n.buffers[le(v[8:12])]]; o=le(v[12:16]); return '"'+b[o:o+l].hex()+'"'
        if K[0] in('list','map'): return '['+','.join(s.says(n.kids[0],x) for x in range(n.offsets[i],n.offsets[i+1]))+']'
        if K[0]=='fixed': return '['+','.join(s.says(n.kids[0],i*K[1]+x) for x in range(K[1]))+']'
        if K[0]=='struct': return '{'+','.join(s.says(k,i) for k in n.kids)+'}'
        if K[0]=='run': return s.says(n.kids[1],next(x for x,e in enumerate(n.kids[0].values) if e>i))
def node_needs(n):
    d=[0]*12; d[2]=1
    d[3]=(0 if n.mask is None else (len(n.mask)+7)//8)+(len(n.bits)+7)//8+len(n.text)
    if n.K[0]=='prim': d[{1:3,2:4,4:5,8:6}[n.K[1]]]+=len(n.values)
    d[7]=len(n.offsets);d[8]=len(n.views);d[9]=len(n.buffers); return d
def dump(n,ind=0):
    print(' '*ind,n.f.decode('latin1'),'label',n.label,'rows',n.rows,'mask',None if n.mask is None else ''.join('01'[b] for b in n.mask),
      'values',n.values,'bits',n.bits,'offs',n.offsets,'text',n.text.hex(),'views',[v.hex(' ') for v in n.views],'buffers',n.buffers)
    for k in n.kids: dump(k,ind+2)
def X(s): return bytes.fromhex(s)
def run(data,s=None,room=4096):
    s=s or Shelf(); out=[]; i=0
    def halt(): out.append('halt'); return out
    while i<len(data):
        L=data[i:i+1]
        try:
            if L==b'F':
                if len(data)<i+5: return halt()
                n=be(data[i+1:i+5])
                if 5+n>65536 or i+5+n>len(data): return halt()
                P=data[i+5:i+5+n]; i+=5+n; out.append('filed %d'%s.file(P))
            elif L==b'I':
                if len(data)<i+7: return halt()
                a=be(data[i+1:i+3]);b=be(data[i+3:i+7]);n=7+4*a+6*b
                if n>65536 or i+n>len(data): return halt()
                js=[be(data[i+7+4*k:i+11+4*k]) for k in range(a)];o=i+7+4*a
                ps=[(be(data[o+6*k:o+6*k+2]),be(data[o+6*k+2:o+6*k+6])) for k in range(b)]
                i+=n; out.append('made %d'%s.interleave(js,ps))
            elif L==b'R':
                if len(data)<i+9: return halt()
                j,r=be(data[i+1:i+5]),be(data[i+5:i+9]);i+=9; out.append('row '+s.read(j,r,room))
            else: return halt()
        except Deny as d: out.append('no %d %d'%(d.n,d.d))
    return out
def F(p): return b'F'+len(p).to_bytes(4,'big')+p
def I(js,ps): return b'I'+len(js).to_bytes(2,'big')+len(ps).to_bytes(4,'big')+b''.join(j.to_bytes(4,'big') for j in js)+b''.join(a.to_bytes(2,'big')+r.to_bytes(4,'big') for a,r in ps)
def R(j,r): return b'R'+j.to_bytes(4,'big')+r.to_bytes(4,'big')
