"""The page that report.html is, with names between @ where its parts go."""

from .palette import NEAR, SITE

ON_MAP, IN_TEXT = "<!-- other sites on the map -->", "<!-- other sites -->"  # where `compare` puts them
SWATCHES = "\n".join(f"#switches .near-{percent} i {{ background: {colour} }}" for percent, colour in NEAR.items())

FRAME = """<!DOCTYPE html>
<html lang="en">
<head>
<meta charset="utf-8">
<meta name="viewport" content="width=device-width, initial-scale=1">
<meta http-equiv="Content-Security-Policy"
 content="default-src 'none'; style-src 'unsafe-inline'; script-src 'unsafe-inline'; img-src data:">
<link rel="icon" href="data:,">
<title>@headline@</title>
<style>
body { max-width: 62em; margin: 1em auto; padding: 0 1em; font: 1em/1.4 sans-serif; color: #111; background: #fff }
h1 { font-size: 1.3em } h2 { font-size: 1.05em; margin-top: 1.6em }
svg { width: 100%; height: auto; max-height: 95vh; border: 1px solid #888; background: #f4f4f4; font: 18px sans-serif }
pre { overflow-x: auto } code { overflow-wrap: anywhere }
table { border-collapse: collapse } td, th { padding: .15em .8em .15em 0; text-align: left; vertical-align: top }
#switches { columns: 19em; padding: 0; margin: .8em 0 } #switches label { display: block; break-inside: avoid }
#switches i { display: inline-block; width: 1.2em; height: .8em; margin-right: .4em; border: 1px solid #777 }
#told { min-height: 1.4em; margin: .4em 0; font-weight: bold }
[hidden] { display: none }
#towns > * { fill: #fff; fill-opacity: .85; stroke: #000; stroke-width: .7 }
#towns > :hover, #towns > .at, #others > :hover { stroke-width: 3; fill-opacity: 1 }
#towns:focus { outline: none } #towns:focus > * { stroke: #000 }
#map:has(#towns:focus), input:focus-visible { outline: 3px solid #e69f00 }
#cost-lines text { font-size: 13px; fill: #000; stroke: #fff; stroke-width: 3; paint-order: stroke }
#cost-lines > path { fill: none; stroke: #333; stroke-width: 1; stroke-dasharray: 6 4; pointer-events: stroke }
#site polygon { fill: @site@; stroke: #000 } #others path { stroke: #000; stroke-width: 1.5; fill: @site@ }
@swatches@
#switches .forbidden i { background: repeating-linear-gradient(135deg, #fff 0 3px, #555 3px 4px) }
#switches .squares i { background: linear-gradient(90deg, #2b2b2b, #f6f6f6) }
#switches .cost-lines i { border-width: 0 0 1px; border-style: dashed; height: .3em; vertical-align: middle }
#switches .towns i { border-radius: 50%; width: .8em; background: #fff }
@media print { #switches label:has(input:not(:checked)), #switches input, #hint, #told { display: none }
 body { max-width: none; margin: 0; font-size: 10pt } svg { max-height: 16cm; break-inside: avoid }
 * { print-color-adjust: exact } }
</style>
</head>
<body>
<h1>@headline@</h1>
<p id="told" aria-live="polite"></p>
<svg width="0" height="0" style="position: absolute; border: 0" aria-hidden="true"><defs>
<pattern id="hatch" width="8" height="8" patternUnits="userSpaceOnUse" patternTransform="rotate(45)">
<rect width="8" height="8" fill="#fff"/><path d="M0 0V8" stroke="#666" stroke-width="1.6"/></pattern></defs></svg>
@map@
<div id="switches" role="group" aria-label="layers of the map">@switches@</div>
<p id="hint">The star is the site. Point at a town, or go to the map by the tabulator and on by the arrow keys, for its
name, weight and distance.</p>
@other@
<h2>What is promised</h2>
<ul>@promise@</ul>
<p>The layers are taken as they were read, in the plane of the region. <code>siting audit</code> tests the site, its
cost and the bound again, from the layers and by what is trusted alone; it doesn't look at the near sets.</p>
<h2>Report</h2>
<pre>@text@</pre>
<h2>Certificate</h2>
<p>The answers of all tiles, one after another, have the SHA-256 digest <code id="digest">@digest@</code>;
<code>bsss check</code> tests each of them.</p>
<details><summary>Each answer's digest</summary><table>@digests@</table></details>
<script>
"use strict";
const told = document.getElementById("told"), towns = document.getElementById("towns");
const marks = towns ? [...towns.children] : [];
let at = -1;
function tell(number) {
  if (at >= 0) marks[at].classList.remove("at");
  at = number;
  if (at >= 0) marks[at].classList.add("at");
  told.textContent = at < 0 ? "" : marks[at].textContent;
}
if (towns) {
  towns.setAttribute("tabindex", "0");
  towns.setAttribute("role", "group");
  towns.setAttribute("aria-label", "towns, heavy ones first: arrow keys go through them");
  towns.addEventListener("pointerover", event => tell(marks.indexOf(event.target.closest("#towns > *"))));
  towns.addEventListener("focus", () => tell(Math.max(at, 0)));
  towns.addEventListener("keydown", event => {
    const last = marks.length - 1;
    const next = { ArrowRight: at + 1, ArrowDown: at + 1, ArrowLeft: at - 1, ArrowUp: at - 1, Home: 0, End: last };
    if (!(event.key in next)) return;
    event.preventDefault();
    tell(Math.min(last, Math.max(0, next[event.key])));
  });
}
for (const box of document.querySelectorAll("[data-layer]")) {
  const show = () => document.getElementById(box.dataset.layer).toggleAttribute("hidden", !box.checked);
  box.addEventListener("change", show);
  show();
}
</script>
</body>
</html>
""".replace(
    "@swatches@", SWATCHES
).replace(
    "@site@", SITE
)
