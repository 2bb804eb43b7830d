"use strict";
// Without this script all steps stand below each other.
const steps = [...document.querySelectorAll("section")];
const lines = [...document.querySelectorAll("#script button")];
const [back, forward, where] = ["back", "forward", "where"].map((id) => document.getElementById(id));
let at = 0;

function go(to) {
  at = Math.max(0, Math.min(steps.length - 1, to));
  steps.forEach((step, n) => { step.hidden = n !== at; });
  lines.forEach((line, n) => {
    if (n === at) line.setAttribute("aria-current", "step");
    else line.removeAttribute("aria-current");
  });
  if (lines[at]) lines[at].scrollIntoView({ block: "nearest" });
  where.textContent = `Step ${at + 1} of ${steps.length}`;
  back.disabled = at === 0;
  forward.disabled = at === steps.length - 1;
  history.replaceState(null, "", `#${at + 1}`);
}

back.addEventListener("click", () => go(at - 1));
forward.addEventListener("click", () => go(at + 1));
lines.forEach((line, n) => line.addEventListener("click", () => go(n)));
document.addEventListener("keydown", (event) => {
  const to = { ArrowLeft: at - 1, ArrowRight: at + 1, Home: 0, End: steps.length - 1 }[event.key];
  if (to === undefined) return;
  event.preventDefault();
  go(to);
});
go((parseInt(location.hash.slice(1), 10) || 1) - 1);
