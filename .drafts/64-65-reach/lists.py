import gdb,struct
gdb.execute('set pagination off')
out=open('lists.txt','w')

def u(m,o): return struct.unpack_from('<I',m,o)[0]
def nums(inf,p,n,sz=4):
    if n==0: return []
    b=bytes(inf.read_memory(p,n*sz)); return [struct.unpack_from('<I',b,i*sz)[0] for i in range(n)]
def q(m,o): return struct.unpack_from('<Q',m,o)[0]
def step(inf,m):
    t=m[0]
    if t==0: return f"Open({m[4]}?{u(m,4)})"
    if t==1: return f"Int({struct.unpack_from('<i',m,4)[0]})"
    if t==2: return f"Bool({m[1]})"
    if t==3: return f"Not {u(m,4)}"
    if t==4: return f"Both {u(m,4)} {u(m,8)}"
    if t==5: return f"Choose {u(m,4)} {u(m,8)} {u(m,12)}"
    if t==6: return f"Unary op{m[1]} {u(m,4)}"
    if t==7: return f"Binary op{m[1]} {u(m,4)} {u(m,8)}"
    if t==8:
        return f"Construct c{u(m,4)} {nums(inf,q(m,8),q(m,16))}"
    if t==9: return f"IsCtor c{u(m,4)}/{u(m,8)} {u(m,12)}"
    if t==10: return f"CtorField c{u(m,4)}.{u(m,8)} of {u(m,12)}"
    if t==11: return f"Field .{u(m,4)} of {u(m,8)}"
    if t==12: return f"IsAlike {u(m,4)} {u(m,8)}"
    if t==13: return f"GoesDown {u(m,4)} {u(m,8)}"
    if t in (14,15):
        return f"{'Has' if t==14 else 'Ans'} f{u(m,8)} wait{u(m,12)} reach{u(m,16)} {nums(inf,q(m,56),q(m,64))}"
    return f"? {m.hex()}"
class B(gdb.Breakpoint):
    prev=0; k=0; cases=0
    def stop(self):
        f=gdb.selected_frame()
        d=int(f.read_register('r9'))&0xffffffff
        if d!=60:
            B.cases+=1
            return False
        ln=int(f.read_register('rdx')); p=int(f.read_register('rsi'))&(2**64-1)
        inf=gdb.selected_inferior()
        mem=bytes(inf.read_memory(p,80*ln))
        print(f"  cases {B.cases}\nlist {B.k} steps {ln}",file=out); B.k+=1; B.cases=0
        a=B.prev if ln>B.prev else 0
        for i in range(a,ln):
            print(i,step(inf,mem[80*i:80*i+80]),file=out)
        B.prev=ln
        return False
class L(gdb.Breakpoint):
    def stop(self):
        print("== never_fails",file=out); B.prev=0; B.k=0; return False
B("'pp_closure::refuting::by_cases'")
L("'pp_query::demanding::never_fails'")
gdb.execute('run')
print(f"  cases {B.cases}",file=out)
out.close()
