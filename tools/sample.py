"""Writes a stream of file and read calls of every kind, good and bad, and the lines that it should give.

    python3 tools/sample.py STREAM LINES
"""
import sys
from collections import Counter

from model import F, R, Shelf, X, run
from parcels import le_, long_, lst, node, prim, short, strs, two, views

calls=[]
def f(p): calls.append(F(p))
def r(j,k): calls.append(R(j,k))
# the worked example
f(X('01 00 00 00 00 00 00 02 43 00 00 00 02 07 09')); r(0,0); r(0,1); r(0,2); r(9,0)
# every primitive spelling, one row each
W1={1:['c','C'],2:['s','S','e'],4:['i','I','f','tdD','tts','ttm','tiM'],8:['l','L','g','tdm','ttu','ttn','tDs','tDm','tDu','tDn','tiD','tss:','tsm:UTC','tsu:Europe/Paris','tsn:+01:00']}
n=1
for w,fs in W1.items():
    for s in fs: f(prim(s,w,0x0102030405060708%(256**w))); r(n,0); n+=1
def ok(p,*rows):
    global n
    f(p)
    for k in rows: r(n,k)
    n+=1
ok(node('s',3,[le_(2,1,5,65534)],mask=b'\x05'),0,1,2)
ok(node('b',9,[b'\x01\x01'],mask=b'\xfd\x01'),0,1,7,8)
ok(node('b',3,[b'\xfa']),0,1,2)
ok(strs('z',4,[0,2,2,3],b'abc'),0,1,2)
ok(strs('u',4,[1,3],b'xyzw'),0)
ok(strs('U',8,[2,2,5],b'\xff\x00abcd',mask=b'\xfe'),0,1)
ok(strs('Z',8,[0],b''),0)
ok(views('vz',[long_(13,b'abcd',0,0),short(b'hi'),short(b'123456789012'),short(b'ab',b'junk')],[b'abcdefghijklm']),0,1,2,3)
ok(views('vu',[long_(14,b'bcde',1,1),long_(13,b'abcd',0,0)],[0,b'abcdefghijklmno'],mask=b'\x01'),0,1)
ok(views('vz',[],[]),0)
ok(lst('+l',4,[0,2,2],two),0,1)
ok(lst('+L',8,[1,2],two,mask=b'\x00'),0)
ok(lst('+l',4,[0,1,3],lst('+l',4,[0,2,2,2],node('C',2,[b'\x01\x00'],mask=b'\x01'))),0,1)
ok(lst('+m',4,[0,2],node('+s',2,kids=[prim('C',1,1,2),strs('z',4,[0,2,2],b'hi')])),0)
ok(node('+s',2,kids=[two,node('b',2,[b'\x02'],label=2)],mask=b'\x01'),0,1)
ok(node('+s',2),0,1,2)
ok(node('+w:2',2,kids=[prim('C',1,1,2,3,4)]),0,1)
ok(node('+w:0',3,kids=[node('C',0,[b''])]),2)
ok(node('+w:2147483647',0,kids=[node('z',0,[le_(4,0),b''])]))
for s,w in (('s',2),('i',4),('l',8)): ok(node('+r',3,kids=[prim(s,w,2,3),node('C',2,[b'\x07\x09'],mask=b'\x02')]),0,1,2)
ok(node('+r',0,kids=[node('s',0,[b'']),node('C',0,[b''])]))
deep=node('+s',0)
for _ in range(7): deep=node('+s',0,kids=[deep])
ok(deep); f(node('+s',0,kids=[deep]))
# refused: items that end early, bytes left, unknown formats
f(b''); f(b'\x01\x00'); f(X('01 00 00 00 00 00 00 02')); f(X('00 00 00 00 00 00 00 00')); f(node('C',2,[b'\x07\x09'])[:-1]); f(two+b'\0'); f(lst('+l',4,[0],b'')); f(node('vz',0,[b''])+b'\0')
for s in ('x','n','tss','+w:','+w:01','+w:1a','+w:2147483648','w:4','d:9,2','+vl','+vL','tin','+ud:0','cC'): f(node(s,0,[b'']))
# child counts, kinds for their parent, masks, limits
f(node('C',2,count=1)); f(node('+l',0,[le_(4,0)],count=0)); f(node('+r',1,count=1)); f(node('+r',1,kids=[prim('s',2,1),prim('C',1,1)],mask=b'\x01'))
f(node('+r',1,kids=[node('s',1,[le_(2,1)],mask=b'\x01'),prim('C',1,1)])); f(node('+r',1,kids=[prim('C',1,1),prim('C',1,1)])); f(lst('+m',4,[0],two)); f(lst('+m',4,[0],node('+s',0,kids=[node('C',0,[b''])])))
f(X('02 00 00 00 00 10 00 01 2b 73')); ok(X('02 00 00 00 00 10 00 00 2b 73'),1048575)
f(node('+s',0,kids=[deep,two,node('x',0)])); f(node('+s',0,kids=[node('+s',0,count=255)]))
# unsound
f(prim('C',1,7)[:0]+node('C',2,[b'\x07'])); f(node('C',2,[b'\1\2'],mask=b'')); f(node('C',2,[b'\1\2'],mask=b'\1\1')); f(node('b',9,[b'\1'])); f(node('z',1,[le_(4,0),b'a'])); f(strs('z',4,[0,2],b'a')); f(strs('z',4,[1,0],b'ab'))
f(strs('z',4,[0x80000000,0x80000000],b'')); f(strs('Z',8,[2**63,2**63],b'')); f(lst('+l',4,[0,3],two)); f(node('z',2,[le_(4,0,2,1),b'ab'],mask=b'\0'))
f(views('vz',[long_(13,b'abcd',1,0)],[0])); f(views('vz',[long_(13,b'abcd',0,1)],[0])); f(views('vz',[long_(13,b'abce',0,0)],[0])); f(views('vz',[long_(13,b'abcd',0,0)],[7])); f(views('vz',[long_(13,b'abcd',0,0)],[b'abcdefghijklm',2]))
f(node('+s',2,kids=[prim('C',1,7)])); f(node('+w:2',2,kids=[prim('C',1,1,2,3)])); f(node('+r',3,kids=[prim('s',2,2,3),prim('C',1,7)])); f(node('+r',3,kids=[prim('s',2,2,2),two])); f(node('+r',3,kids=[prim('s',2,2,4),two])); f(node('+r',3,kids=[prim('s',2,0,3),two])); f(node('+r',3,kids=[node('s',0,[b'']),node('C',0,[b''])])); f(node('+r',0,kids=[prim('s',2,1),prim('C',1,7)]))
f(lst('+m',4,[0,2],node('+s',2,kids=[two,two],mask=b'\1')))
f(node('+s',3,kids=[views('vz',[short(b'')]*2,[9])]))
f(prim('C',1,*([0]*2048)))
r(0,1); r(n,0)
stream = b''.join(calls)
lines = run(stream, Shelf())
with open(sys.argv[1], 'wb') as out:
    out.write(stream)
with open(sys.argv[2], 'w') as out:
    out.write('\n'.join(lines) + '\n')
print(len(calls), 'calls,', len(stream), 'bytes:', dict(Counter(line.split()[0] for line in lines)))
