"""The page's style: two quiet colours, light and dark, one column on a phone.
No meaning hangs on a colour alone: every mark has a sign or a word too."""

STYLE = '''
:root {
  --ground: #f7f6f3; --card: #ffffff; --line: #dedad2; --rail: #bdb6a9; --ink: #22252a;
  --quiet: #6b675f; --first: #8f3d12; --first-ground: #fbeadf;
  --second: #0d5a68; --second-ground: #dff1f4; --warn: #7a5200;
  --warn-ground: #fdf3d9;
  --mono: ui-monospace, "DejaVu Sans Mono", Menlo, Consolas, monospace;
}
@media (prefers-color-scheme: dark) {
  :root {
    --ground: #15171a; --card: #1d2024; --line: #353a41; --rail: #5b6169; --ink: #e6e4df;
    --quiet: #9a968c; --first: #f3ab83; --first-ground: #3b2418;
    --second: #7fd0de; --second-ground: #143339; --warn: #f0cc7a;
    --warn-ground: #372c12;
  }
}
* { box-sizing: border-box; }
html { scroll-behavior: smooth; }
@media (prefers-reduced-motion: reduce) { html { scroll-behavior: auto; } }
body {
  margin: 0 auto; padding: 1.5rem 1rem 3rem; max-width: 76rem;
  background: var(--ground); color: var(--ink);
  font: 1rem/1.5 system-ui, "DejaVu Sans", sans-serif;
}
h1 { font-size: 1.5rem; margin: 0; }
h2 { font-size: 1.1rem; margin: 0 0 .75rem; }
h3 { font-size: 1rem; margin: 0 0 .5rem; }
h4 {
  font-size: .75rem; font-weight: 600; margin: 1rem 0 .25rem;
  color: var(--quiet); text-transform: uppercase; letter-spacing: .06em;
}
header p { margin: .25rem 0 .75rem; color: var(--quiet); }
footer { color: var(--quiet); font-size: .875rem; max-width: 46rem; }
code, pre, .tree, td { font-family: var(--mono); font-size: .9rem; }
pre { overflow-x: auto; }
a { color: inherit; }
a:focus-visible, summary:focus-visible {
  outline: 2px solid var(--second); outline-offset: 2px;
}
.legend {
  list-style: none; display: flex; flex-wrap: wrap; gap: .25rem 1.25rem;
  margin: 0 0 1rem; padding: 0; font-size: .875rem; color: var(--quiet);
}
.pair {
  background: var(--card); border: 1px solid var(--line);
  border-radius: 10px; padding: 1rem 1.25rem; margin: 0 0 1.25rem;
}
.verdict p { margin: 0 0 .5rem; }
.warning {
  background: var(--warn-ground); color: var(--warn); padding: .5rem .75rem;
  border-left: 4px solid currentColor; border-radius: 4px;
}
.findings { margin: .5rem 0 0; padding-left: 1.5rem; }
.findings li { margin: .3rem 0; overflow-wrap: anywhere; }
.legend .moved { color: var(--ink); }
.findings .badge { font-size: .9rem; }
.became, .note { color: var(--quiet); font-size: .875rem; }
.note code { color: var(--ink); font-size: .825rem; }
.badge, mark {
  font-family: var(--mono); font-size: .85em; padding: .05em .35em;
  border-radius: 4px; text-decoration: none;
}
.badge.first, mark.first {
  color: var(--first); background: var(--first-ground);
  box-shadow: inset 0 -2px 0 var(--first);
}
.badge.second, mark.second {
  color: var(--second); background: var(--second-ground);
  box-shadow: inset 0 -2px 0 var(--second);
}
mark { font-size: 1em; padding: .1em .2em; }
mark a { text-decoration: none; }
mark .number { font-size: .7em; margin-left: .15em; }
.sides {
  display: grid; grid-template-columns: minmax(0, 1fr) minmax(0, 1fr);
  gap: 1.5rem; margin-top: 1rem; border-top: 1px solid var(--line);
  padding-top: 1rem;
}
.side.second { border-left: 1px solid var(--line); padding-left: 1.5rem; }
.text, .grouped { margin: 0; overflow-wrap: anywhere; line-height: 1.7; }
.text code { font-size: 1rem; }
.unread {
  color: var(--warn); background: var(--warn-ground); border-radius: 4px;
  border-bottom: 2px dashed currentColor; padding: .1em .25em;
}
.unread .label {
  font: 600 .7rem system-ui, "DejaVu Sans", sans-serif; margin-right: .4em;
}
.tree { list-style: none; margin: 0; padding: 0; overflow-x: auto; }
.tree li {
  display: flex; align-items: baseline; gap: .4rem; white-space: pre;
  line-height: 1.45; width: max-content; min-width: 100%;
  padding: 0 .25rem; border-radius: 4px;
}
.tree .lead { color: var(--rail); margin-right: -.4rem; }
.tree .columns { margin-left: auto; padding-left: 1rem; }
.tree .columns, .tree .step {
  color: var(--quiet); font-size: .75rem; min-width: 3.2em; text-align: right;
}
.tree-head {
  display: flex; justify-content: flex-end; gap: .9rem; margin: -1.4rem 0 .25rem;
  padding: 0 .25rem; color: var(--quiet); font-size: .75rem;
}
.tree .node { font-size: .85em; letter-spacing: .01em; }
.same, li.same b { color: var(--quiet); font-weight: 400; }
.same .lead { opacity: .7; }
.first .differs { color: var(--first); background: var(--first-ground); }
.second .differs { color: var(--second); background: var(--second-ground); }
.badge:target { outline: 2px solid currentColor; outline-offset: 1px; }
.error { font-style: normal; text-decoration: underline wavy; }
tr:target { outline: 2px solid var(--second); }
details { margin-top: 1rem; border-top: 1px solid var(--line); }
summary { cursor: pointer; padding: .75rem 0 .25rem; color: var(--quiet); }
table { border-collapse: collapse; width: 100%; }
th, td { text-align: left; padding: .2rem .5rem .2rem 0; }
td.first { color: var(--first); }
td.second { color: var(--second); }
tbody th { font-weight: 400; color: var(--quiet); width: 4rem; }
.hidden {
  position: absolute; width: 1px; height: 1px; overflow: hidden;
  clip-path: inset(50%); white-space: nowrap;
}
@media (max-width: 46rem) {
  body { padding: 1rem .6rem 2rem; }
  .pair { padding: .9rem .8rem; }
  .tree { font-size: .8rem; }
  .tree .columns, .tree .step { font-size: .7rem; }
  .tree .columns { padding-left: .5rem; }
  .sides { grid-template-columns: minmax(0, 1fr); }
  .side.second {
    border-left: 0; padding-left: 0; border-top: 1px solid var(--line);
    padding-top: 1rem;
  }
}
@media print { body { background: none; } .pair { break-inside: avoid; } }
'''
