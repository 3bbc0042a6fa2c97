// Faults of a page: fields and buttons without a name, texts with less contrast than WCAG 2.1 AA asks for (4.5 to 1, or
// 3 to 1 for large ones), levels of headings that are left out.
const faults = [];
const channel = (value) => (value /= 255) <= 0.03928 ? value / 12.92 : ((value + 0.055) / 1.055) ** 2.4;
const light = ([red, green, blue]) => 0.2126 * channel(red) + 0.7152 * channel(green) + 0.0722 * channel(blue);
const parts = (color) => (color.match(/[\d.]+/g) || [0, 0, 0, 0]).map(Number);
const isSeen = (element) => element.checkVisibility() && element.getClientRects().length > 0;

function background(element) {
  for (let at = element; at; at = at.parentElement) {
    const color = parts(getComputedStyle(at).backgroundColor);
    if (color.length < 4 || color[3] === 1) return color;
  }
  return [255, 255, 255];
}

for (const element of document.querySelectorAll("body *")) {
  const text = [...element.childNodes].filter((node) => node.nodeType === 3).map((node) => node.data.trim()).join("");
  if (!text || !isSeen(element) || element.closest("[aria-hidden=true]") || element.closest(".skip")) continue;
  const style = getComputedStyle(element);
  const [high, low] = [light(parts(style.color)), light(background(element))].sort((one, other) => other - one);
  const isLarge = parseFloat(style.fontSize) >= 24 || (parseFloat(style.fontSize) >= 18.66 && style.fontWeight >= 700);
  if ((high + 0.05) / (low + 0.05) < (isLarge ? 3 : 4.5)) faults.push(`contrast of "${text.slice(0, 30)}"`);
}
for (const field of document.querySelectorAll("input, select, textarea"))
  if (!field.labels || !field.labels.length) faults.push(`no label: ${field.name}`);
for (const element of document.querySelectorAll("button, a, summary"))
  if (!element.textContent.trim()) faults.push(`no name: ${element.outerHTML.slice(0, 60)}`);
for (const frame of document.querySelectorAll("iframe"))
  if (!frame.title) faults.push("a frame without a title");
let level = 0;
for (const heading of document.querySelectorAll("h1, h2, h3")) {
  const next = Number(heading.tagName[1]);
  if (next > level + 1) faults.push(`heading ${next} after ${level}`);
  level = next;
}
return faults;
