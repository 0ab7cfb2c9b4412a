"""The style of the page. The colours are Okabe and Ito's, which the colour-blind can tell apart. None is
the only sign of what it means: there is a letter, a number, a pattern or a form beside it."""

LIGHT = """
--paper:#fff;--ink:#1c2126;--dim:#5d6772;--faint:#e4e8ec;--chip:#f1f3f5;
--write:#dce1e6;--read:#fff;--edge:#8b949e;
--one:#0072b2;--one-face:#d3e8f5;--two:#d55e00;--two-face:#fdebdd;--two-stripe:#f8d2b4;
--stale:#cc79a7;--stale-face:#f8e6f0;--good:#009e73;--good-ink:#00704f;--on:#fff;
--three-face:#d5efe6;--four:#8a6d00;--four-face:#faf3cd
"""

DARK = """
--paper:#15181b;--ink:#e3e6e9;--dim:#9aa4ae;--faint:#2b3137;--chip:#23282d;
--write:#3b434b;--read:#1b1f23;--edge:#7b858f;
--one:#56b4e9;--one-face:#12374e;--two:#e69f00;--two-face:#33250a;--two-stripe:#57400f;
--stale:#cc79a7;--stale-face:#402535;--good:#1fb98d;--good-ink:#4fd3ac;--on:#101214;
--three-face:#0f3b30;--four:#f0e442;--four-face:#3d390f
"""

MONOSPACE = 'ui-monospace,"SF Mono",Menlo,Consolas,"DejaVu Sans Mono",monospace'

WORDS = """
*{box-sizing:border-box}
body{margin:0 auto;padding:28px 32px 48px;max-width:1200px;background:var(--paper);color:var(--ink);
  font:15px/1.5 system-ui,-apple-system,"Segoe UI",Roboto,"Helvetica Neue",Arial,sans-serif}
h1{font-size:24px;line-height:1.25;margin:0 0 2px;font-weight:650}
h2{font-size:18px;line-height:1.4;margin:30px 0 2px;font-weight:600;overflow-wrap:anywhere}
h3{font-size:14px;margin:22px 0 6px;font-weight:600;color:var(--dim)}
p{margin:0 0 4px;overflow-wrap:anywhere}
.facts,.note,.sub{color:var(--dim)}
.facts b{color:var(--ink);font-weight:600}
.note{font-size:13px;margin-top:12px;line-height:1.8}
.verdict svg{width:24px;height:24px;vertical-align:-4px;margin-right:8px;
  stroke:var(--on);fill:none;stroke-width:2.4}
.verdict.no circle{fill:var(--two);stroke:none}
.verdict.unknown circle{fill:var(--dim);stroke:none}
.verdict.yes circle{fill:var(--good);stroke:none}
.name{font-family:MONOSPACE;font-size:.92em;font-weight:500;background:var(--chip);border-radius:4px;
  padding:1px 5px;white-space:pre-wrap;overflow-wrap:anywhere;unicode-bidi:isolate}
.escape{color:var(--two);font-size:.86em}
ol.reasons{list-style:none;margin:8px 0 4px;padding:0}
ol.reasons li{position:relative;padding:1px 0 1px 28px}
ol.reasons svg{position:absolute;left:0;top:3px;width:20px;height:20px}
figure{margin:12px 0 0;overflow-x:auto}
figure>svg{display:block;max-width:100%;height:auto}
figcaption{font-size:13px;color:var(--dim);margin-top:4px}
.legend{display:flex;flex-wrap:wrap;gap:4px 18px;margin:10px 0 0;padding:0;list-style:none;
  font-size:13px;color:var(--dim)}
.legend li{display:flex;align-items:center;gap:7px}
.legend svg{display:block}
table.runs{border-collapse:collapse;margin-top:18px}
.runs th,.runs td{text-align:left;vertical-align:top;padding:7px 18px 7px 0;
  border-bottom:1px solid var(--faint)}
.runs th{color:var(--dim);font-weight:600}
.runs td{overflow-wrap:anywhere}
.runs .when,.runs .yes,.runs .no{white-space:nowrap;overflow-wrap:normal}
.runs td:nth-child(3){min-width:15em}
.runs .when{color:var(--dim)}
.runs .yes{color:var(--good-ink)}
.runs .no{color:var(--two);font-weight:600}
.runs a{color:inherit}
code{font-family:MONOSPACE;font-size:.92em}
table.moments{border-collapse:collapse;margin-top:12px;font-size:13px}
.moments th,.moments td{text-align:left;vertical-align:top;padding:4px 18px 4px 0;
  border-bottom:1px solid var(--faint)}
.moments th{color:var(--dim);font-weight:600}
.moments td:first-child{text-align:right;color:var(--dim)}
.moments .no{color:var(--two);font-weight:600}
"""

PICTURES = """
svg text{font:11.5px MONOSPACE;fill:var(--ink)}
text.gutter{text-anchor:end;fill:var(--dim)}
text.detail{font-size:10px}
text.line,text.left-out{text-anchor:middle;fill:var(--dim);font-size:10px}
text.line.strong{fill:var(--ink);font-weight:700}
text.left-out{font-style:italic}
tspan.process{font-size:10px;fill:var(--dim)}
tspan.place{font-size:10px;fill:var(--good-ink);font-weight:700}
.rule,.axis{fill:none;stroke:var(--faint)}
.axis{stroke:var(--edge)}
.bar .edge{stroke:var(--edge);stroke-width:1.2}
.write .edge,.write .face{fill:var(--write)}
.read .edge,.read .face{fill:var(--read)}
.first .edge,.first .face{fill:var(--one-face)}
.first .edge{stroke:var(--one)}
.second .edge,.second .face{fill:url(#stripes)}
.second .edge{stroke:var(--two)}
.stale .edge,.stale .face{fill:var(--stale-face)}
.stale .edge{stroke:var(--stale)}
.bar .face+.edge{fill:none}
.strong .edge{stroke-width:2.4}
.strong .label{font-weight:700}
.failed .edge{fill:none;stroke-dasharray:4 3}
.failed .label{fill:var(--dim)}
.cross{stroke:var(--ink);stroke-width:1.8;fill:none}
.bolt{fill:var(--ink);stroke:var(--paper);stroke-width:1}
.alarm{fill:var(--stale)}
.alarm-mark{stroke:#101214;stroke-width:2;fill:none}
.stale-ring{fill:var(--paper);stroke:var(--stale);stroke-width:1.6}
.stale-mark{stroke:var(--ink);stroke-width:1.6;fill:none}
.fine{fill:var(--good)}
.fine-mark{stroke:var(--on);stroke-width:2;fill:none}
.parallel{stroke:var(--ink);stroke-width:2;fill:none}
.zone.first rect{fill:var(--one)}
.zone.second rect{fill:url(#stripes);stroke:var(--two)}
.zone path{fill:none;stroke-width:2}
.zone.first path{stroke:var(--one)}
.zone.second path{stroke:var(--two)}
.arrow{fill:none;stroke-width:1.8}
.arrow.first{stroke:var(--one)}
.arrow.second{stroke:var(--two);stroke-dasharray:6 3}
.head.first,.badge.first circle{fill:var(--one)}
.head.second,.badge.second circle{fill:var(--two)}
.badge text{text-anchor:middle;fill:var(--on);font-weight:700}
.gap path{fill:var(--paper)}
.gap .tear{fill:none;stroke:var(--edge)}
.through{stroke:var(--edge);stroke-width:2;stroke-dasharray:1.5 4}
.through.first{stroke:var(--one)}
.through.second{stroke:var(--two)}
.point{fill:var(--good);stroke:var(--paper);stroke-width:1}
.thread{fill:none;stroke:var(--good);stroke-width:1.2;opacity:.6}
.extent.first{fill:var(--one)}
.extent.second{fill:var(--two)}
.here rect{fill:none;stroke:var(--ink);stroke-width:1.2}
.stripe-ground{fill:var(--two-face)}
.stripe{fill:var(--two-stripe)}
.defs{position:absolute;width:0;height:0}
"""

LEVELS = """
.told{margin-top:6px}
.told .more{color:var(--dim);padding-left:22px}
.wide{overflow-x:auto}
.registers th[scope=row]{color:var(--ink);font-weight:400;min-width:8em}
.moments.registers td:first-child{text-align:left;color:inherit}
.registers .yes{color:var(--good-ink)}
.registers .number{text-align:right;white-space:nowrap}
.level rect{fill:var(--read);stroke:var(--edge);stroke-width:1.2}
.level.kept rect{stroke:var(--good);stroke-width:1.8}
.level.lacking rect{stroke-dasharray:5 3}
.level-name{font-size:13px;font-weight:700}
.level-word{font-size:11px;font-weight:400}
svg text.level-meaning{font-size:10.5px}
svg text.level-note{font-size:10.5px;fill:var(--dim)}
.broken-disc{fill:var(--two)}
.broken-mark{fill:none;stroke:var(--on);stroke-width:2}
.implies{fill:none;stroke:var(--edge);stroke-width:1.2}
.implies-head{fill:var(--edge)}
.old rect{fill:var(--stale)}
.reads{fill:var(--edge)}
.third .edge,.third .face{fill:var(--three-face)}
.third .edge,.arrow.third{stroke:var(--good)}
.fourth .edge,.fourth .face{fill:var(--four-face)}
.fourth .edge,.arrow.fourth{stroke:var(--four)}
.arrow.third{stroke-dasharray:2 3}
.arrow.fourth{stroke-dasharray:9 3 2 3}
.arrow.step{stroke:var(--ink)}
.head.third,.badge.third circle{fill:var(--good)}
.head.fourth,.badge.fourth circle{fill:var(--four)}
.head.step,.badge.step circle{fill:var(--ink)}
.badge.step text{fill:var(--paper)}
"""

WALK = """
:root{scroll-padding-bottom:240px}
.walking .walk{position:sticky;bottom:0}
.walk{margin:24px -12px -40px;padding:8px 12px 10px;background:var(--paper);
  border-top:1px solid var(--edge);font-size:13px}
.walk .tools,.walk .group{display:flex;flex-wrap:wrap;align-items:center;gap:6px 8px}
.walk .tools{justify-content:space-between;column-gap:24px}
.walk [hidden]{display:none}
.walk label{display:flex;align-items:center;gap:8px;color:var(--dim)}
.walk input,.walk button{font:inherit;color:var(--ink)}
.walk button,.walk input[type=search]{padding:2px 8px;border:1px solid var(--edge);border-radius:4px;
  background:var(--chip)}
.walk input[type=search]{width:14em;background:var(--paper)}
.walk input[type=range]{width:18em;max-width:60vw;accent-color:var(--good)}
.walk button{cursor:pointer}
.walk button:disabled{color:var(--dim);background:none;border-color:var(--faint);cursor:default}
.walk output,.walk .which{color:var(--dim)}
.walk .order{margin-bottom:8px}
.walk .order output{color:var(--ink);flex:1 1 20em}
.walk :focus-visible,svg [role=button]:focus-visible{outline:2px solid var(--one);outline-offset:2px}
.told-of{position:relative;max-height:40vh;overflow-y:auto;margin-bottom:8px;padding:0 64px 8px 0;
  border-bottom:1px solid var(--faint)}
.told-of p{margin:0}
.told-of>button{position:absolute;top:0;right:0}
.told-of dl{display:flex;flex-wrap:wrap;gap:2px 24px;margin:4px 0 0}
.told-of dl div{display:flex;gap:8px}
.told-of dt{color:var(--dim);white-space:nowrap}
.told-of dd{margin:0;overflow-wrap:anywhere;unicode-bidi:isolate}
.told-of dd button{border:0;padding:0;margin-right:12px;background:none;text-decoration:underline;
  text-align:left}
.chosen-name{font-weight:600}
.walking figure.current{box-shadow:-4px 0 0 -1px var(--edge)}
svg [role=button]{cursor:pointer}
svg.stretched{cursor:grab;touch-action:pan-y}
.meanwhile{fill:var(--ink);opacity:.09}
.found .edge{stroke:var(--ink);stroke-width:3;stroke-dasharray:6 2}
.chosen .edge,.now .edge{stroke:var(--ink);stroke-width:3;stroke-dasharray:none}
.searching [data-line]:not(.found),.waits{opacity:.25}
.stepping .thread,.searching .thread{opacity:.15}
"""

CLUSTERS = ("first", "second", "third", "fourth")  # the classes of the values that a picture has a colour for

PRINT = """
@page{size:landscape;margin:12mm}
body{padding:0;max-width:none;print-color-adjust:exact;-webkit-print-color-adjust:exact}
figure{break-inside:avoid;overflow:visible}
h2,h3,ol.reasons,.legend{break-after:avoid}
.walk{display:none}
.walking figure.current{box-shadow:none}
"""

NARROW = "body{padding:20px 16px} figure>svg{max-width:none}"

STYLE = f"""
:root{{color-scheme:light dark;{LIGHT}}}
@media screen and (prefers-color-scheme:dark){{:root{{{DARK}}}}}
{WORDS}{PICTURES}{LEVELS}{WALK}
@media screen{{figure>svg.long{{max-width:none}}}}
@media screen and (max-width:760px){{{NARROW}}}
@media print{{{PRINT}}}
""".replace("MONOSPACE", MONOSPACE)
