// What the page does: it draws the sources and the ways of the findings that come into sight, and filters. The
// report's data stands in the element `d`. The page has this without comments, and it is kept short for that.
'use strict';
const $=s=>document.querySelector(s),$$=s=>[...document.querySelectorAll(s)],on=(e,t,f,c)=>e.addEventListener(t,f,c),D=JSON.parse($('#d').textContent);
const A=$$('.f'),esc=s=>s.replace(/[&<>"]/g,c=>'&#'+c.charCodeAt(0)+';'),md=s=>esc(s).replace(/`([^`]+)`/g,'<code>$1</code>');
const KW=new Set('break case chan const continue default defer else fallthrough for func go goto if import interface map package range return select struct switch type var'.split(' '));
const TK=/(\/\/[^\n]*|\/\*[^]*?(?:\*\/|$))|("(?:\\.|[^"\\\n])*"|`[^`]*(?:`|$)|'(?:\\.|[^'\\\n])+')|([A-Za-z_]\w*)(\s*\()?|(\b\d[\w.]*)/g;
// Source text to lines of HTML. marks: line -> [[from,to,class]..]
function paint(text,first,name,marks){
  const cls=new Array(text.length);let m;TK.lastIndex=0;
  const put=(a,b,c)=>{for(;a<b;a++)cls[a]=(cls[a]?cls[a]+' ':'')+c};
  while((m=TK.exec(text))){const a=m.index;
    if(m[1])put(a,a+m[1].length,'m');else if(m[2])put(a,a+m[2].length,'t');else if(m[5])put(a,a+m[5].length,'d');
    else{const w=m[3],e=a+w.length;TK.lastIndex=e;if(KW.has(w))put(a,e,'k');else if(m[4])put(a,e,'h');if(w===name&&text[a-1]!=='.'&&!/^:[^=]/.test(text.slice(e,e+2)))put(a,e,'v')}}
  let p=0;return text.split('\n').map((l,k)=>{
    for(const[a,b,c]of marks[first+k]||[])put(p+a,p+Math.min(b,l.length),c);
    let h='',i=0;while(i<l.length){let j=i+1;const c=cls[p+i];while(j<l.length&&cls[p+j]===c)j++;const s=esc(l.slice(i,j));h+=c?`<span class="${c}">${s}</span>`:s;i=j}
    p+=l.length+1;return h})}
const lines=(f,a,b)=>{for(const p of D.files[f].s){const s=p[0],l=p[1].map?p[1]:p[1]=p[1].split('\n');if(a>=s&&a<s+l.length)return l.slice(a-s,b-s+1)}return[]};
const has=(R,l)=>R.some(([a,b])=>a<=l&&l<=b);
const IN={true:1,on:1,case:1},X=r=>r%2?8+r*13:8.5+r*13;
// One row of the margin: runs go down (thick on the way, dotted past it), a jump back goes up between two of them.
function gut(f,l,l2,fold){
  let s='',b='';const R=f.runs,W='stroke="var(--way)" fill="none" ',P=W+'stroke-width="2"',
    ln=(x,y,z,on)=>s+=`<path d="M${x} ${y}V${z}" ${W}${on?'stroke-width="3"':'stroke-dasharray="2.5 3"'}/>`,
    ext=(c,x)=>b+=`<i class="${c}" style="left:${x}px"></i>`;
  R.forEach((q,r)=>{const x=X(2*r),y=X(2*r+1),z=X(2*r+2),lo=q[0][0],hi=q[q.length-1][1],on=has(q,l),h=R[r+1]&&R[r+1][0][0];
    if(l2>=lo&&l<=hi){if(l>lo)ln(x,0,11,on);if(l2<hi){ln(x,11,22,on);ext(on?'':'p',on?x-1.5:x-.5)}}
    if(!h)return;
    if(l===hi)s+=`<path d="M${x} 8Q${x} 14 ${x+6} 14Q${y} 14 ${y} 6V0" ${P}/>`;
    if(l>h&&l2<hi){s+=`<path d="M${y} 0V22" ${P}/>`;ext('q',y-1)}
    if(l===h){s+=`<path d="M${y} 22V14Q${y} 8 ${y+6} 8Q${z} 8 ${z} 16V22M${y-3.5} 19l3.5-5 3.5 5" ${P}/>`;ext('q',y-1)}});
  if(!fold){for(const t of f.steps)if(t[0]===l){const x=X(2*t[5]),k=t[3];
      s+=k==='obtained'||k==='made'?`<circle cx="${x}" cy="11" r="5.5" fill="var(--way)"/>`:k==='work'?`<circle cx="${x}" cy="11" r="4.5" fill="var(--card)" stroke="var(--way)" stroke-width="2.5"/>`:
      `<path d="M${IN[k]?x-4+' 5.5l8 5.5-8 5.5z':x-5.5+' 7l5.5 8 5.5-8z'}" fill="var(--way)" stroke="var(--card)"/>`}
    if(l===f.h[0]){const x=X(R.length?2*(R.length-1):0);s+=`<circle cx="${x}" cy="11" r="7.5" fill="var(--card)"/><path d="M${x-4.5} 6.5l9 9m0-9l-9 9" stroke="var(--no)" stroke-width="2.8" stroke-linecap="round"/>`}}
  return`<span class="g" aria-hidden="true"><svg width="4" height="22">${s}</svg>${b}</span>`}
function draw(i){
  const f=D.f[i],el=A[i].querySelector('.src'),marks={},notes={};
  const add=(o,k,v)=>(o[k]=o[k]||[]).push(v);
  f.steps.forEach((t,n)=>{add(marks,t[0],[t[1],t[2],'u']);add(notes,t[0],`<span class="nt"><s>${n+1}</s>${md(t[4])}</span>`)});
  add(marks,f.h[0],[f.h[1],f.h[2],'ux']);
  if(f.here)add(notes,f.h[0],`<span class="nt x">${f.steps.length?`<s>${f.steps.length+1}</s>`:''}${md(f.here)}</span>`);
  for(const t of f.notes)if(t[6]){add(marks,t[0],[t[1],t[2],'u']);add(notes,t[0],`<span class="nt">${md(t[3])}</span>`)}else add(notes,f.h[0],`<span class="nt x">${md(t[3])}${t[4]!=null?` <a href="#${A[t[4]].id}">${esc(t[5])}</a>`:t[5]?' '+esc(t[5]):''}</span>`);
  const L=lines(f.i,f.a,f.b),H=paint(L.join('\n'),f.a,f.n,marks),way=f.runs.length;
  let o='';const V=f.all?[[f.a,f.b]]:f.v;
  for(let l=f.a;l<=f.b;){
    if(has(V,l)){
      const in_=!way||l===f.h[0]||f.runs.some(q=>has(q,l)),lo=way&&f.runs[0][0][0],off=way&&!in_&&!notes[l]&&l!==f.a&&!has(f.lit,l),x=l===f.h[0];
      o+=`<div class="r${off?' off':''}${x?' x':l===lo&&notes[l]?' s':''}"><b>${l}</b>${gut(f,l,l,0)}<span class="c"><pre style="--k:${/^\t*/.exec(L[l-f.a]||'')[0].length}">${(H[l-f.a]||' ').replace(/^\t+/,'<i>$&</i>')}</pre>${notes[l]?`<span class="ns" style="flex-basis:${Math.min(70,notes[l].join('').replace(/<[^>]*>/g,'').length*.86+4*notes[l].length)}ch">${notes[l].join(' ')}</span>`:''}</span></div>`;l++
    }else{let e=l;while(e<f.b&&!has(V,e+1))e++;
      o+=`<button class="fold" data-a="${l}" data-b="${e}"><span class="r"><b>⋮</b>${gut(f,l,e,1)}<span class="c">Show ${e-l+1} line${e>l?'s':''}${(z=>z[0]?' with step'+(z[1]?'s ':' ')+(z[2]&&z.at(-1)-z[0]<z.length?z[0]+'–'+z.at(-1):z.join(', ')):'')(f.steps.map((t,n)=>t[0]>=l&&t[0]<=e?n+1:0).filter(Boolean))}</span></span></button>`;l=e+1}}
  const d=D.codes[f.c];
  if(!f.done&&f.g.length>1)A[i].firstElementChild.insertAdjacentHTML('beforeend',`<p class="sib">One of ${f.g.length} returns that lose what <code>${esc(f.n)}</code> gets in line ${f.steps[0][0]}: `+f.g.map(j=>j===i?`<b>${f.h[0]}</b>`:`<a href="#${A[j].id}">${D.f[j].h[0]}</a>`).join(' ')+'</p>');
  if(!f.done)el.insertAdjacentHTML('afterend',`<div class="do">${f.c}: ${md(d[0])}. <b>What to do:</b> ${md(d[1])}.${d[2]&&d[3]?`<details data-c="${f.c}"><summary>${f.c} by an example</summary></details>`:''}</div>`);
  el.style.setProperty('--t',Math.max(1,2*way-1));el.innerHTML=L.length?o:'<div class="do">The source was not at hand.<ol>'+f.steps.map(t=>`<li>line ${t[0]}: ${md(t[4])}`).join('')+'</ol></div>';el.classList.add('in');f.done=1}
const io=new IntersectionObserver(E=>{for(const e of E)if(e.isIntersecting){const i=+e.target.dataset.i;if(!D.f[i].done)draw(i);io.unobserve(e.target)}},{rootMargin:'900px 0px'});
A.forEach(a=>io.observe(a));
on(document,'click',e=>{
  const b=e.target.closest('.fold');if(b){const a=b.closest('.f'),f=D.f[a.dataset.i];f.v.push([+b.dataset.a,+b.dataset.b]);draw(+a.dataset.i);a.focus({preventScroll:true});return}
  const l=e.target.closest('a[href^="#"]');if(l){const a=document.getElementById(l.hash.slice(1)),i=A.indexOf(a);if(i>=0){e.preventDefault();if(a.hidden)clear();go(i)}}
  const c=e.target.closest('.codes button');if(c){c.setAttribute('aria-pressed',c.getAttribute('aria-pressed')!=='true');filter()}});
on(document,'toggle',e=>{const x=e.target;if(x.open&&x.dataset.c&&!x.children[1]){const c=D.codes[x.dataset.c];x.insertAdjacentHTML('beforeend',`<div class="ex"><div><p class="no">Wrong</p><pre>${paint(c[2],1,'',{}).join('\n')}</pre></div><div><p class="yes">Right</p><pre>${paint(c[3],1,'',{}).join('\n')}</pre></div></div>`)}},true);
// Filters
let txt;const q=$('#q'),ps=$('#p'),mk=()=>D.f.map((f,i)=>(A[i].closest('.pkg').dataset.p+' '+A[i].firstElementChild.textContent+' '+[f.h,...f.steps].map(t=>(t[4]||'')+lines(f.i,t[0],t[0])).join(' ')).toLowerCase());
let vis=A.map((_,i)=>i),cur=-1;
function filter(){
  const cs=new Set($$('.codes [aria-pressed=true]').map(b=>b.dataset.c)),w=q.value.toLowerCase().split(/\s+/).filter(Boolean),p=ps.value;
  if(w[0])txt??=mk();vis=[];A.forEach((a,i)=>{const ok=(!cs.size||cs.has(D.f[i].c))&&(!p||a.parentNode.dataset.p===p)&&w.every(x=>txt[i].includes(x));if(a.hidden===ok)a.hidden=!ok;if(ok)vis.push(i)});
  const n={};vis.forEach(i=>{const p=A[i].parentNode.dataset.p;n[p]=(n[p]||0)+1});
  $$('.pkg[data-p]').forEach(s=>s.hidden=!n[s.dataset.p]);
  $$('nav li[data-p]').forEach(s=>{const k=n[s.dataset.p];s.hidden=!k;if(k)s.querySelector('b').textContent=k});
  $('output').textContent=vis.length===A.length?A.length+' findings':vis.length+' of '+A.length+' findings';
  $('#nil').hidden=vis.length>0||!A.length;const any=cs.size||w.length||p;$('#clr').hidden=!any;$$('#yes').forEach(s=>s.hidden=!!any);
  const h=new URLSearchParams;if(cs.size)h.set('code',[...cs]);if(p)h.set('pkg',p);if(w.length)h.set('q',q.value);
  try{history.replaceState(null,'','#'+h)}catch{}}
function clear(){q.value='';ps.value='';$$('.codes [aria-pressed=true]').forEach(b=>b.setAttribute('aria-pressed',false));filter()}
function go(i){if(i==null)return;A[cur]?.classList.remove('cur');cur=i;const a=A[i],v=vis.indexOf(i);for(const j of[vis[v-1],i,vis[v+1]])if(D.f[j]&&!D.f[j].done)draw(j);a.classList.add('cur');a.focus({preventScroll:true});let k=12;const to=()=>{if(cur===i&&k--){if(Math.abs(a.getBoundingClientRect().top-parseFloat(getComputedStyle(a).scrollMarginTop))>1)a.scrollIntoView();requestAnimationFrame(to)}};to();
  $$('nav [aria-current]').forEach(x=>x.removeAttribute('aria-current'));const n=$(`nav a[href="#${a.parentNode.id}"]`);if(n){n.setAttribute('aria-current','true');n.scrollIntoView({block:'nearest'})}
  try{history.replaceState(null,'','#'+a.id)}catch{}}
function near(){const y=70;let k=vis.findIndex(i=>A[i].getBoundingClientRect().bottom>y+10);return k<0?vis.length-1:k}
let tm;on(q,'input',()=>{clearTimeout(tm);tm=setTimeout(filter,D.f.length>500?120:30)});on(ps,'change',filter);
on($('#clr'),'click',clear);on($('#hp'),'click',()=>$('dialog').showModal());
on($('dialog'),'click',e=>{if(e.target===e.currentTarget)e.target.close()});
on(document,'keydown',e=>{
  if(e.ctrlKey||e.metaKey||e.altKey||$('dialog').open)return;
  const inp=/INPUT|SELECT/.test(e.target.tagName);
  if(e.key==='Escape'){if(e.target===q&&!q.value||!inp)clear();else if(e.target===q){q.value='';filter()}if(inp)e.target.blur();return}
  if(e.key==='Enter'&&e.target===q){clearTimeout(tm);filter();q.blur();go(vis[0]);return}
  if(inp)return;
  const k=vis.indexOf(cur),pk=i=>A[i].parentNode;
  if(e.key==='j')go(k<0?vis[near()]:vis[Math.min(k+1,vis.length-1)]);
  else if(e.key==='k')go(k<0?vis[near()]:vis[Math.max(k-1,0)]);
  else if(e.key===']'||e.key==='['){const at=vis[k<0?near():k];let t;if(e.key===']')t=vis.find(i=>i>at&&pk(i)!==pk(at));else{const pv=vis.filter(i=>i<at&&pk(i)!==pk(at)).pop();if(pv!=null)t=vis.find(i=>pk(i)===pk(pv))}go(t)}
  else if(e.key==='o'&&cur>=0){D.f[cur].all=!D.f[cur].all;draw(cur)}
  else if(e.key==='y'&&cur>=0)navigator.clipboard?.writeText(A[cur].querySelector('.loc code').title);
  else if(e.key==='/')q.focus(),q.select();else if(e.key==='?')$('dialog').showModal();else return;
  e.preventDefault()});
// A link brings back what was shown: one finding, or filters.
{const h=location.hash.slice(1),i=A.findIndex(a=>a.id===h);if(i>=0)go(i);else if(/^(code|pkg|q)=/.test(h)){const u=new URLSearchParams(h);q.value=u.get('q')||'';ps.value=u.get('pkg')||'';const c=(u.get('code')||'').split(',');$$('.codes button').forEach(b=>b.setAttribute('aria-pressed',c.includes(b.dataset.c)));filter()}}
