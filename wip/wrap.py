import re,sys
s=open(sys.argv[1]).read()
out=[]
for m in re.finditer(r'^define internal noundef i64 @"prog::(citternblaze_\w+)"\(([^)]*)\) #0 \{',s,flags=re.M):
    name=m.group(1); params=[p.strip().split()[0] for p in m.group(2).split(',')]
    ps=[];pre=[];args=[]
    for i,t in enumerate(params):
        if t=='ptr':
            ps+= [f'ptr %p{i}',f'i64 %n{i}']
            pre+=[f'  %s{i} = alloca [16 x i8], align 8',f'  store ptr %p{i}, ptr %s{i}, align 8',f'  %q{i} = getelementptr i8, ptr %s{i}, i64 8',f'  store i64 %n{i}, ptr %q{i}, align 8']
            args.append(f'ptr noundef %s{i}')
        else:
            ps.append(f'{t} %p{i}'); args.append(f'{t} noundef %p{i}')
    out.append(f'define i64 @{name}({", ".join(ps)}) #0 {{\n'+'\n'.join(pre)+f'\n  %r = call i64 @"prog::{name}"({", ".join(args)})\n  ret i64 %r\n}}\n')
i=s.index('\nattributes #0')
s=s[:i]+'\n'+'\n'.join(out)+s[i:]
s=re.sub(r'^(define .*)@main\(',r'\1@unused_main(',s,flags=re.M)
open(sys.argv[1],'w').write(s)
print(len(out),'wrapped')
