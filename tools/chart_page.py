"""A chart as a page for a browser, with zoom, a legend, and a message as a whole on a click.

It prints nothing and has no exit status. The page needs no other file.
"""
from chart_picture import REFUSAL, colour

PAGE = """<!doctype html>
<html lang="en"><head><meta charset="utf-8"><title>rtspgate: a recording</title>
<style>
body { margin: 0; font: 13px 'DejaVu Sans', Verdana, sans-serif; display: flex; flex-direction: column; height: 100vh }
header { padding: 8px 12px; background: #eaf1f8; border-bottom: 1px solid #33475b }
header button { font: inherit; min-width: 2em }
#legend { max-height: 5em; overflow: auto; margin-top: 6px } #legend span { margin-right: 14px; white-space: nowrap }
i { display: inline-block; width: 12px; height: 12px; margin-right: 4px; vertical-align: -2px }
main { flex: 1; display: flex; min-height: 0 } #chart { flex: 1; overflow: auto } .part { cursor: pointer }
#said { width: 34em; overflow: auto; margin: 0; padding: 10px; border-left: 1px solid #33475b; background: #fafafa;
white-space: pre-wrap; overflow-wrap: anywhere }
</style></head><body>
<header><button id="out">-</button> <button id="in">+</button> <button id="one">1:1</button>
<button id="fit">fit</button> or Ctrl and the wheel. A click shows a message as a whole. The number at the left is that
of the entry.
<div id="legend">%s</div></header>
<main><div id="chart">%s</div><pre id="said">Nothing was clicked yet.</pre></main>
<script>
"use strict";
const box = document.getElementById("chart"), picture = box.querySelector("svg");
const width = picture.viewBox.baseVal.width, height = picture.viewBox.baseVal.height;
let zoom = 1;
function set(wanted) {
  const before = zoom, x = box.scrollLeft + box.clientWidth / 2, y = box.scrollTop + box.clientHeight / 2;
  zoom = Math.min(8, Math.max(0.02, wanted));
  picture.setAttribute("width", width * zoom);
  picture.setAttribute("height", height * zoom);
  box.scrollLeft = x * zoom / before - box.clientWidth / 2;
  box.scrollTop = y * zoom / before - box.clientHeight / 2;
}
document.getElementById("in").onclick = () => set(zoom * 1.25);
document.getElementById("out").onclick = () => set(zoom / 1.25);
document.getElementById("one").onclick = () => set(1);
document.getElementById("fit").onclick = () => set(box.clientWidth / width);
box.addEventListener("wheel", event => {
  if (!event.ctrlKey) return;
  event.preventDefault();
  set(zoom * (event.deltaY < 0 ? 1.1 : 1 / 1.1));
}, { passive: false });
box.addEventListener("click", event => {
  const part = event.target.closest(".part");
  if (part) document.getElementById("said").textContent = part.querySelector("title").textContent;
});
</script></body></html>
"""


def mark(shade, text):
    """A colour of the legend and what it means."""
    return '<span><i style="background:%s"></i>%s</span>' % (shade, text)


def page(picture):
    """The page of a picture."""
    legend = [mark(colour(owner), "player %d" % owner) for owner in sorted(picture.spans)]
    legend += [mark(REFUSAL, "a refusal: 4xx or 5xx"), mark(colour(None), "of nobody, or of all"),
               mark(colour(None, 0.82), "a bar: frames, shared out by their bytes")]
    return PAGE % ("\n".join(legend), picture.svg())
