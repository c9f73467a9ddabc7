#!/bin/sh
# Lists the places in src/ that the design pass looks at, point by point. Run at the top of the repository.
# A line is a candidate; docs/DESIGN-PASS.md says which candidates are places, and what became of them.
cd "$(dirname "$0")/.." || exit 1
src() { grep -rnE "$@" crates/*/src --include='*.rt' | grep -vE ':[0-9]+:\s*//' ; }
point() { echo "== $1"; }
point "1a variants that hold nothing, beside variants that hold something"
python3 - <<'PY'
import re,glob
for f in sorted(glob.glob('crates/*/src/*.rt')):
    t=open(f,encoding='utf8').read()
    for m in re.finditer(r'\benum (\w+)[^{]*\{(.*?)\n\}',t,re.S):
        vs=[v for v in re.split(r'\n    (?=[A-Z])',m.group(2)) if v.strip() and not v.strip().startswith('//')]
        bare=[v for v in vs if re.match(r'\s*\w+,?\s*(//.*)?$',v.strip(),re.S)]
        if bare and len(bare)<len(vs) or len(vs)<=3 and bare:
            print(f"{f}: enum {m.group(1)}: {len(vs)} variants, {len(bare)} bare")
PY
point "1b flags beside values"; src '(\(bool, |: bool,$|let mut \w+ = (true|false);)'
point "1c numbers for kinds, types and missing blocks"; src '(fn \w*number\w*\(|system_type: u8|=> 0,$|\b(next|previous|head|tail|free|place|first|second|x|y|p|q): u32|-> u8|== 0|> 0)' | grep -vE 'ghost|ensures|requires'
point "2 functions with one body but for names, constants and types"
python3 - <<'PY'
import re,glob,collections
d=collections.defaultdict(list)
for f in sorted(glob.glob('crates/*/src/*.rt')):
    t=open(f,encoding='utf8').read()
    t=re.sub(r'//[^\n]*','',t)
    for m in re.finditer(r'(?m)^( *)(?:pub(?:\(crate\))? )?fn (\w+).*?^\1\}',t,re.S):
        b=m.group(0); b=re.sub(r'(?m)^\s*(requires|ensures)\b.*$','',b)
        k=b[b.find('{'):] if '\n' in b else b
        if len(re.findall(r'\w+',k))<3: continue
        k=re.sub(r'b?"[^"]*"|b\'[^\']*\'|\b\d[\w]*\b|\b[A-Z][A-Z_0-9]+\b','#',k)
        k=re.sub(r'\b[a-z_][a-z_0-9]*\b|\b[A-Z]\w*\b','n',k); k=re.sub(r'\s+','',k)
        d[k].append(f"{f[7:-3]}:{m.group(2)}")
for k,v in sorted(d.items(),key=lambda e:e[1]):
    if len(v)>1: print(len(v),' '.join(v))
PY
point "3 loops"; src '\b(for|while|loop)\b.*\{$' | grep -vE 'impl|ghost'
point "4 equality, conversion and printing by hand"; src 'fn (same\w*|is_(dot|none)|kind_number|\w+_number|number|place|from_\w+|new|text|letters|command_of|command_in|read_\w+|held_name|type_named|steps)\b'
point "5a clauses on Sound, roomy, 600, Proper, counts"; for w in 'Sound ' 'roomy' '600 ≤' 'Proper ' 'M.Make.kindof M.Make.systemtype' 'parts.count|count ≡ length|few '; do printf '%s: ' "$w"; src "(requires|ensures).*($w)" | wc -l; done
point "5b a buffer and a place in it, as parameters"; src 'out: &mut \[u8\], at: usize' | wc -l
point "6 lengths beside buffers, tables searched by hand"; src '(_len: |name: \[u8|len: u8|COMMANDS|KINDS)'
point "7 switches on a step, tables of functions"; src '(unreachable|: fn\(|dyn )'
