# oc.py DRIVER [TABLE-or-name words]: instruction counts of ours, beside the Rust's (kept in /tmp/bt/rust.counts)
import subprocess,sys,re,os,json
D=sys.argv[1]; words=sys.argv[2:] or ["80 by 24"]
E={**os.environ,"GLIBC_TUNABLES":"glibc.cpu.x86_rep_stosb_threshold=1000000000:glibc.cpu.x86_rep_movsb_threshold=1000000000"}
K='/tmp/bt/rust.json'
rust=json.load(open(K)) if os.path.exists(K) else {}
def run(t,n,side,k):
    r=subprocess.run(["valgrind","--tool=callgrind","--callgrind-out-file=/dev/null",D,"turns",t,n,side,str(k)],capture_output=True,text=True,env=E)
    if r.returncode: print(r.stderr[-500:]); sys.exit(1)
    return int(re.search(r"Collected : (\d+)",r.stderr).group(1))
for l in subprocess.run([D,"list"],capture_output=True,text=True,env=E).stdout.splitlines():
    t,n,name=l.split("\t")
    if not any(w in t+" "+name for w in words): continue
    v=(run(t,n,"ours",3)-run(t,n,"ours",1))//2
    key=t+"|"+name
    if key not in rust:
        rust[key]=(run(t,n,"rust",3)-run(t,n,"rust",1))//2
        json.dump(rust,open(K,'w'))
    print(f"{t:<11}{name:<26}{v:>12,}{rust[key]:>12,} {rust[key]/v:6.2f}",flush=True)
