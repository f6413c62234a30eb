# a model of the join of two snapshots, over words
NARGS={2:1,3:2,4:2,5:1,6:1,7:1,8:2,9:7,10:5,11:2,13:4}
def parse(W):
    rs=[];i=0
    while i<len(W):
        k,p=W[i]>>28,W[i]&0xfffffff
        n=(p+2)//3 if k==1 else NARGS[k]
        rs.append((k,p,W[i+1:i+1+n])); i+=1+n
    return rs
def count(rs,k): return sum(1 for r in rs if r[0]==k)
def maps(A,B):
    an=[(p,tuple(a)) for k,p,a in A if k==1]; bn=[(p,tuple(a)) for k,p,a in B if k==1]
    nm=[];new=0
    for x in bn:
        if x in an: nm.append(an.index(x))
        else: nm.append(len(an)+new); new+=1
    ad=[(k,p,a) for k,p,a in A if k==8]; bd=[(k,p,a) for k,p,a in B if k==8]
    ab={a[0]:i for i,(k,p,a) in enumerate(ad) if p==3}
    dm=[];new=0;keep=[]
    for k,p,a in bd:
        if p==3 and nm[a[0]] in ab: dm.append(ab[nm[a[0]]]); keep.append(False)
        else: dm.append(len(ad)+new); new+=1; keep.append(True)
    return nm,dm,keep
def join(V,W):
    A,B=parse(V),parse(W)
    c0,k0,m0=count(A,2),count(A,4),count(A,5)
    nm,dm,keep=maps(A,B)
    an=[(p,tuple(a)) for k,p,a in A if k==1]
    plus=lambda w: w+m0 if w else 0
    out=[]
    di=0
    moved=[]
    for k,p,a in B:
        a=list(a)
        if k==1:
            if (p,tuple(a)) in an: continue
        elif k==3: p+=c0;a[0]+=c0
        elif k==4: p+=c0;a[0]=plus(a[0])
        elif k==5: p+=k0;a[0]=plus(a[0])
        elif k==6: p+=m0;a[0]+=m0
        elif k==7: p+=k0;a[0]+=m0
        elif k==8:
            di+=1
            if not keep[di-1]: continue
            if p==2: a=[dm[a[0]],nm[a[1]]]
            elif p==3: a=[nm[a[0]],a[1]]
            else: a=[a[0]+m0,a[1]]
        elif k==9:
            p+=m0; a[1]=nm[a[1]]; a[2]=dm[a[2]]
            if a[3]==1: a[4]+=c0
            elif a[3]>1: a[4]+=m0
        elif k==10: p+=c0; a[1]=dm[a[1]]; a[2]=nm[a[2]]; a[3]+=m0
        elif k==11: p+=c0; a[0]=nm[a[0]]; a[1]+=m0
        elif k==13: p=dm[p]; a[0]=nm[a[0]]; a[1]=dm[a[1]]
        moved.append((k,p,a))
    for g in ([1],[2],[3],[4,5],[6],[7],[8],[9],[10],[11],[13]):
        for src in (A,moved):
            for k,p,a in src:
                if k in g: out+= [k<<28|p]+list(a)
    return out
def name(t):
    b=t.encode(); ws=[]
    for i in range(0,len(b),3):
        c=b[i:i+3]; ws.append(sum(x<<(8*j) for j,x in enumerate(c)))
    return [1<<28|len(b)]+ws
def h(k,p): return k<<28|p
def show(W): return ' ∷ '.join((hex(w) if w>=1<<28 else str(w)) for w in W)+' ∷ []'
if __name__=='__main__':
    worked=[0x10000001,0x61,0x10000001,0x66,0x20000000,2021,0x40000000,0,0,0x50000000,0,0x50000000,1,0x60000000,1,0x80000001,1,0,0x80000004,1,0,0x90000000,0,0,0,0,0,1,0,0x90000001,1,1,1,0,0,1,0]
    print(show(join(worked,worked)))
    few=name("x")+name("u8")+name("m")+[h(2,0),2021,h(4,0),0,0,h(5,0),0,h(5,0),1,h(8,4),0,0,h(8,3),1,0,h(9,0),0,1,1,0,0,1,0]
    every=(name("m")+name("u8")+name("E")+name("V")+name("str")+[h(2,0),2021,h(2,1),2018,h(3,0),1,1,
      h(4,0),0,0,h(5,0),0,h(5,0),1,h(4,1),0,1,h(5,1),0,h(4,0),2,0,h(5,2),0,h(6,0),1,h(7,0),2,
      h(8,3),1,0,h(8,1),1,0,h(8,4),1,0,h(8,2),2,3,h(8,3),4,0,h(8,5),0,0,
      h(9,0),0,0,1,0,0,1,0, h(9,1),0,2,2,1,0,1,0, h(9,0),2,3,5,2,0,2,0, h(9,3),0,1,0,3,3,0,3,
      h(10,1),0,2,2,2,0, h(11,0),0,2, h(13,2),3,3,0,1])
    print("few",show(few)); print("every",show(every))
    print("FE",show(join(few,every))); print("EF",show(join(every,few))); print("EE",show(join(every,every)))
    print(maps(parse(few),parse(every)))
