#!/bin/bash
# build.sh TREE OUTDIR : libcapi.a of TREE without proofs
set -e
tree=$1; out=$2; w=$(mktemp -d /tmp/rec/w.XXXX)
mkdir -p $w/prog/src $w/tc/bin $out
ln -s /opt/rattle/on/x86_64/toolchain/lib/ $w/tc/lib
for b in ld.lld llvm-ar; do ln -s /opt/rattle/on/x86_64/toolchain/bin/clang $w/tc/bin/$b; done
cat > $w/tc/bin/clang <<XX
#!/bin/bash
case "\$*" in *-O3*) cp module.bc $w/module.bc;; esac
exec /opt/rattle/on/x86_64/toolchain/bin/clang "\$@"
XX
chmod +x $w/tc/bin/clang
python3 - $tree $w <<'PY'
import re,sys
s=open(sys.argv[1]+'/crates/capi/src/lib.rt').read()
s=re.sub(r'^ghost use.*\n','',s,flags=re.M)
s=re.sub(r'^\s*(requires|ensures) \{.*\}\n','',s,flags=re.M)
s+='fn main() { }\n'
open(sys.argv[2]+'/prog/src/main.rt','w').write(s)
PY
L=""; for d in counting answer slots place nearest walk face manifold grid bundle shading flat cell cases booking direct split mesh layers places; do L="$L --lib $d=$tree/crates/$d/src/lib.rt"; done
/opt/rattle/on/x86_64/bin/rattle-cases --toolchain $w/tc $w/prog/src/main.rt --crate-name prog --lib std=/opt/rattle/libs/std/src/lib.rt $L > $w/log 2>&1 || { cat $w/log; }
cd $w
CL=/opt/rattle/on/x86_64/toolchain/bin/clang
$CL -x ir module.bc -S -emit-llvm -Xclang -disable-llvm-passes -o m.ll
python3 /tmp/rec/wrap.py m.ll
$CL --target=x86_64-unknown-linux-gnu -march=x86-64 -ffunction-sections -fdata-sections -mllvm -trap-unreachable -mllvm -no-trap-after-noreturn --no-default-config -no-canonical-prefixes -fintegrated-cc1 -fno-crash-diagnostics -Werror -c -x ir m.ll -o module.o -fPIC -O3 -Xclang -fmerge-functions -mllvm -mergefunc-use-aliases
rm -f $out/libcapi.a; ar rcs $out/libcapi.a module.o
rm -rf $w
