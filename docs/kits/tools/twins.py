"""Lists the functions of src/ whose bodies are alike but for names and numbers, and counts them: python3 tools/twins.py FOLDER"""
import re,sys,glob,collections
root=sys.argv[1]
KEEP=set('if else match for while loop in let mut return Some None Ok Err true false self fn as ref move break continue'.split())
d=collections.defaultdict(list)
for f in sorted(glob.glob(root+'/crates/*/src/**/*.rt',recursive=True)):
    if f.endswith('tests.rt'): continue
    s=open(f).read()
    for m in re.finditer(r'(?m)^( *)(pub(\(crate\))? )?fn (\w+)',s):
        ind=m.group(1)
        e=s.find('\n'+ind+'}\n',m.start())
        if e<0: continue
        text=s[m.start():e]
        b=text.rfind('\n'+ind+'{')
        body=text[b+1:] if b>=0 else text[text.find('{'):]
        body=re.sub(r'//.*','',body)
        toks=re.findall(r'[A-Za-z_]\w*|\d+|"[^"]*"|\S',body)
        norm=' '.join(t if (t in KEEP or not re.match(r'\w|"',t)) else 'x' for t in toks)
        if len(toks)>=14: d[norm].append((f.split('crates/')[1],m.group(4)))
n=0
for k,v in d.items():
    if len(v)>1:
        n+=len(v); print(len(v),v)
print(n)
