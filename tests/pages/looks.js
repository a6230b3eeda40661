// What a browser shows of a page and html5lib can't know. It answers a list of faults.
"use strict";
const faults = [];
const LEAST_CONTRAST = 7;
const LEAST_TARGET = 24;
const isShown = element => element.checkVisibility() && element.getBoundingClientRect().right > 0;
const named = element => element.tagName.toLowerCase() + (element.className ? "." + element.className : "") + " " +
  JSON.stringify(element.textContent.trim().slice(0, 30));

function numbersOf(colour) {
  const found = colour.match(/[\d.]+/g).map(Number);
  return [found[0], found[1], found[2], found.length > 3 ? found[3] : 1];
}

function lightOf(colour) {
  const [red, green, blue] = colour.map(part => {
    part /= 255;
    return part <= 0.04045 ? part / 12.92 : ((part + 0.055) / 1.055) ** 2.4;
  });
  return 0.2126 * red + 0.7152 * green + 0.0722 * blue;
}

function groundOf(element) {
  for (let at = element; at; at = at.parentElement) {
    const ground = numbersOf(getComputedStyle(at).backgroundColor);
    if (ground[3] === 1) return ground;
  }
  return [255, 255, 255, 1];
}

function contrastOf(colour, ground) {
  const lights = [lightOf(colour), lightOf(ground)].sort((one, other) => other - one);
  return (lights[0] + 0.05) / (lights[1] + 0.05);
}

const seen = new Set();
function lookAtText(element, pseudo) {
  const style = getComputedStyle(element, pseudo);
  const colour = numbersOf(style.color), ground = groundOf(element);
  const key = colour + "/" + ground;
  if (seen.has(key)) return;
  seen.add(key);
  const contrast = contrastOf(colour.slice(0, 3), ground.slice(0, 3));
  if (contrast < LEAST_CONTRAST) faults.push(`contrast ${contrast.toFixed(2)} of ${named(element)}${pseudo || ""}`);
}

for (const element of document.body.querySelectorAll("*")) {
  if (!isShown(element)) continue;
  const hasText = [...element.childNodes].some(node => node.nodeType === Node.TEXT_NODE && node.data.trim());
  if (hasText || element.matches("input, select")) lookAtText(element);
  if (element.matches("td[data-label]") && getComputedStyle(element, "::before").content !== "none") {
    lookAtText(element, "::before");
  }
}
for (const element of document.querySelectorAll("a, button, input, select, summary")) {
  const box = element.getClientRects()[0];
  if (isShown(element) && box && !element.matches(".skip") && box.height < LEAST_TARGET - 0.5) {
    faults.push(`a target ${box.height.toFixed(1)} pixels high: ${named(element)}`);
  }
}
if (document.documentElement.scrollWidth > innerWidth) {
  const wide = [...document.body.querySelectorAll("*")].filter(element => isShown(element) &&
    element.getBoundingClientRect().right > innerWidth + 1).slice(-1)[0];
  faults.push(`the page is ${document.documentElement.scrollWidth} pixels wide${wide ? ": " + named(wide) : ""}`);
}
for (const day of document.querySelectorAll("time")) {
  if (isShown(day) && day.getClientRects().length > 1) faults.push(`a date breaks: ${named(day)}`);
}
if (innerWidth < 500) {
  for (const cell of document.querySelectorAll("table[role=table] td:not(:first-child)")) {
    if (!isShown(cell)) continue;
    const label = getComputedStyle(cell, "::before").content.replace(/^"|: "$/g, "");
    const head = cell.closest("table").tHead.rows[0].cells[cell.cellIndex].textContent;
    if (label !== head) faults.push(`a cell of the column ${head} is labelled ${label}`);
  }
}
return faults.slice(0, 20);
