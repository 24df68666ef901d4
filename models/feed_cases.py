"""An independent reading of lines and feeds: it writes the tables of crates/feed_cases and the example recordings
of crates/audit, each with what is to be printed of them. It shares nothing with the programs."""
import os
import re

HERE = os.path.dirname(os.path.abspath(__file__))
W=[8,4,5,5,5,7]; LIM=[9999999,999,9999,9999,9999,999999]
NAMES=['time','kind','machine','crew','run','reading']
def text_item(b):
    if len(b)<35: return ('f',21,0)
    if b[34]!=10: return ('f',22,0)
    vals=[];p=0
    for i,w in enumerate(W):
        f=b[p:p+w];p+=w
        if f==b' '*w:
            if i<2: return ('f',23,i+1)
            vals.append(0);continue
        m=re.fullmatch(rb' +(0|[1-9][0-9]*)',f)
        if not m: return ('f',23,i+1)
        vals.append(int(m.group(1)))
    return ('s',vals)
def packed_item(w):
    if len(w)<4: return ('f',25,0)
    v=[w[0],w[1]>>16,w[1]&65535,w[2]>>16,w[2]&65535,w[3]]
    for i in range(6):
        if v[i]>LIM[i]: return ('f',24,i+1)
    return ('s',v)
def feed(inp,w,read,st,first):
    out=[]
    for k in range(0,len(inp),w):
        r=read(inp[k:k+w]); n=first+k//w
        out.append(('s',r[1]) if r[0]=='s' else ('f',r[1],st,n,r[2]))
    return out
def show(it):
    return 'sound '+' '.join(map(str,it[1])) if it[0]=='s' else 'fault '+' '.join(map(str,it[1:]))
def merge(a,b):
    a=list(a);b=list(b);o=[]
    while a and b:
        if a[0][0]=='f': o.append(a.pop(0))
        elif b[0][0]=='f': o.append(b.pop(0))
        elif a[0][1][0]<=b[0][1][0]: o.append(a.pop(0))
        else: o.append(b.pop(0))
    return o+a+b
def refusal(most,st,first,n):
    if not 1<=st<=9999: return 'refused 44 station'
    if not 1<=first<=9990000: return 'refused 44 first item'
    if n>most: return 'refused 44 input length'
def line(*v,lf=b'\n'):
    return b''.join((b'' if x is None else str(x).encode() if not isinstance(x,bytes) else x).rjust(w) for x,w in zip(v,W))+lf
items=[line(100,10,7,3,21,None),line(340,5,7,3,21,250),line(0,0,0,0,0,0),line(*LIM),
 line(1,2,None,None,None,None),line(1,2,3,None,None,None),line(1,2,None,4,None,None),line(1,2,None,None,5,None),line(1,2,None,None,None,6),
 line(None,2,3,4,5,6),line(1,None,3,4,5,6),line(None,None,None,None,None,None),
 line(10000000,1,1,1,1,1),line(1,1000,1,1,1,1),line(1,1,10000,1,1,1),line(1,1,1,10000,1,1),line(1,1,1,1,10000,1),line(1,1,1,1,1,1000000),
 line(b'01',1,1,1,1,1),line(1,b'00',1,1,1,1),line(1,1,b'007',1,1,1),line(1,1,1,b'02',1,1),line(1,1,1,1,b'0001',1),line(1,1,1,1,1,b'00'),
 line(b'1 ',1,1,1,1,1),line(1,b'1 ',1,1,1,1),line(1,1,b'1 2',1,1,1),line(1,1,1,b'-1',1,1),line(1,1,1,1,b'+1',1),line(1,1,1,1,1,b'1.0'),
 line(b'1:',1,1,1,1,1),line(1,b'/1',1,1,1,1),line(1,1,b'\x00',1,1,1),line(1,1,1,b'\t1',1,1),line(1,1,1,1,b'x',1),line(1,1,1,1,1,b'\xff'),
 line(b'x',b'x',1,1,1,1),line(1,1,1,b'x',b'x',b'x'),
 line(1,1,1,1,1,1,lf=b' '),line(b'x',1,1,1,1,1,lf=b'\r'),line(1,1,1,1,1,1,lf=b'0'),
 line(9999999,999,9999,9999,9999,999999),line(5,6,7,8,9,10)]
# a short item that ends in a line feed
text=b''.join(items)+line(1,2,3,4,5,6)[:33]+b'\n'
assert len(text)==35*len(items)+34
def words(v): return [v[0],v[1]<<16|v[2],v[3]<<16|v[4],v[5]]
pk=[[100,10,7,3,21,0],LIM,[0]*6,[10000000,1,1,1,1,1],[1,1000,1,1,1,1],[1,1,10000,1,1,1],[1,1,1,10000,1,1],[1,1,1,1,10000,1],[1,1,1,1,1,1000000],
 [10000000,1000,10000,1,1,1],[1,1,1,1,65535,4294967295],[4294967295,65535,65535,65535,65535,4294967295],[1,65535,0,0,65535,1],[1,0,65535,65535,0,1],[7,8,9,10,11,12]]
ws=[]
for i,v in enumerate(pk): ws+=words(v)
ws+= [5,6,7]
jt=line(5,1,1,1,1,1)+line(9,1,1,1,1,1)+line(b'x',1,1,1,1,1)+line(3,1,1,1,1,1)+line(9,2,1,1,1,1)
jw=words([5,2,2,2,2,2])+words([7,2,2,2,2,2])+words([9,3,0,0,0,0])+[1,2]
out=[]
def tcase(inp,st,first):
    out.append(f'text feed: {len(inp)} bytes, station {st}, first {first}')
    out.extend(show(x) for x in feed(inp,35,text_item,st,first)); out.append('end, drop answers false')
def pcase(inp,st,first):
    out.append(f'packed feed: {len(inp)} words, station {st}, first {first}')
    out.extend(show(x) for x in feed(inp,4,packed_item,st,first)); out.append('end, drop answers false')
def topen(n,st,first):
    out.append(f'open text: {n} bytes, station {st}, first {first}')
    r=refusal(65536,st,first,n)
    if r: out.append(r);return
    l=feed(b' '*n,35,text_item,st,first); out.append(f'{len(l)} items')
    if l: out.append(show(l[-1]))
def popen(n,st,first):
    out.append(f'open packed: {n} words, station {st}, first {first}')
    r=refusal(16384,st,first,n)
    if r: out.append(r);return
    l=feed([10000000]*n,4,packed_item,st,first); out.append(f'{len(l)} items')
    if l: out.append(show(l[-1]))
tcase(text,7,41); pcase(ws,8,51)
for n in [0,1,34,35,36,69,70]: tcase(text[:n],1,1)
for n in range(9): pcase(ws[:n],9999,9990000)
for st in [0,1,9999,10000]: topen(35,st,1); popen(4,st,1)
for f in [0,1,9990000,9990001]: topen(70,1,f); popen(8,1,f)
for n in [65535,65536,65537]: topen(n,1,9990000)
for n in [16383,16384,16385]: popen(n,1,9990000)
topen(65537,0,0); topen(65537,1,0)
out.append('joined feed of joined feeds')
a=feed(jt,35,text_item,1,1);b=feed(jw,4,packed_item,2,1);c=feed(jw,4,packed_item,3,1);d=feed(jt,35,text_item,4,1)
out.extend(show(x) for x in merge(merge(a,b),merge(c,d))); out.append('end, drop answers false')
def report(l):
    s=[x for x in l if x[0]=='s']; f=[x for x in l if x[0]=='f']
    WORDS={21:'short text item',22:'no line feed at the end',23:'malformed field',24:'field over its limit',25:'fewer than four words'}
    o=[f'sound lines: {len(s)}','first time: '+(str(s[0][1][0]) if s else 'none'),'last time: '+(str(s[-1][1][0]) if s else 'none'),f'faults: {len(f)}']
    for x in f: o.append(f'{x[1]} {WORDS[x[1]]}: station {x[2]}, item {x[3]}, '+(f'field {x[4]} {NAMES[x[4]-1]}' if x[4] else 'no field'))
    return '\n'.join(o)+'\n'
D = os.path.join(HERE, '..', 'crates', 'feed_cases', '')
open(D+'data/text.dat','wb').write(text); open(D+'data/words.txt','w').write('\n'.join(' '.join(map(str,ws[i:i+4])) for i in range(0,len(ws),4))+'\n')
open(D+'data/joined.dat','wb').write(jt); open(D+'data/joined.txt','w').write('\n'.join(' '.join(map(str,jw[i:i+4])) for i in range(0,len(jw),4))+'\n')
open(D+'stdout','w').write('\n'.join(out)+'\n')
print(len(items),len(out))
# example recordings for the program
north=[(100,10,7,3,21,None),(131,5,7,3,21,180),(200,11,7,3,22,None),(260,5,9,4,23,210),(340,5,7,3,21,250),(352,12,7,3,21,None)]
south=[(90,10,2,6,31,None),(131,5,2,6,31,175),(180,11,2,6,31,None),(290,5,2,6,32,240)]
nb=b''.join(line(*v) for v in north[:3])+line(215,b'011',7,3,21,None)+b''.join(line(*v) for v in north[3:])
sb=b''.join(line(*v) for v in south)+line(300,5,2,6,32,245)[:20]
A = os.path.join(HERE, '..', 'crates', 'audit', '')
open(A+'data/north.log','wb').write(nb); open(A+'data/south.log','wb').write(sb)
open(A+'args','w').write('recording\nnorth.log\nsouth.log\n')
open(A+'stdout','w').write(report(merge(feed(nb,35,text_item,1,1),feed(sb,35,text_item,2,1))))
R = os.path.join(HERE, '..', 'crates', 'report_cases', '')
open(R+'data/joined.dat','wb').write(jt); open(R+'data/joined.txt','w').write('\n'.join(' '.join(map(str,jw[i:i+4])) for i in range(0,len(jw),4))+'\n')
open(R+'stdout','w').write('report on a joined feed\n'+report(merge(a,b)))
