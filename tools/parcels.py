"""Parcels for samples, built node by node."""
def buf(b): return len(b).to_bytes(4,'big')+b
def node(f,rows,bufs=(),kids=(),label=0,mask=None,tail=b'',count=None):
    f=f.encode() if isinstance(f,str) else f
    h=bytes([len(f)|(128 if mask is not None else 0)])+label.to_bytes(2,'big')+bytes([len(kids) if count is None else count])+rows.to_bytes(4,'big')
    return h+f+(buf(mask) if mask is not None else b'')+b''.join(buf(b) for b in bufs)+tail+b''.join(kids)
def le_(w,*vs): return b''.join((v%(256**w)).to_bytes(w,'little') for v in vs)
prim=lambda f,w,*vs,**k: node(f,len(vs),[le_(w,*vs)],**k)
def strs(f,w,offs,text,**k): return node(f,len(offs)-1,[le_(w,*offs),text],**k)
def lst(f,w,offs,kid,**k): return node(f,len(offs)-1,[le_(w,*offs)],[kid],**k)
def views(f,vs,data,**k):
    t=len(data).to_bytes(2,'big')+b''.join((buf(d) if isinstance(d,bytes) else (2**31+d).to_bytes(4,'big')) for d in data)
    return node(f,len(vs),[b''.join(vs)],tail=t,**k)
short=lambda t,pad=b'':(len(t).to_bytes(4,'little')+t+pad).ljust(16,b'\0')[:16]
long_=lambda n,pre,pos,off: le_(4,n)+pre+le_(4,pos,off)
two=prim('C',1,7,9)
