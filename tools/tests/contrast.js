// Gives how many texts the page shows, and which of them WCAG 2 AA calls too faint: 4.5 to 1, and 3 to 1 for large letters.
(() => {
  const numbers = (text) => text.match(/[\d.]+/g).map(Number);
  const clear = (text) => text === "transparent" || text === "none" || text.startsWith("url") || text.startsWith("context") || (numbers(text).length === 4 && numbers(text)[3] === 0);
  const light = (rgb) => { const [r, g, b] = rgb.map((one) => one / 255).map((one) => (one <= 0.04045 ? one / 12.92 : ((one + 0.055) / 1.055) ** 2.4)); return 0.2126 * r + 0.7152 * g + 0.0722 * b; };
  const between = (one, other) => { const [a, b] = [light(one), light(other)].sort((x, y) => y - x); return (a + 0.05) / (b + 0.05); };
  function behind(element, x, y) {
    for (let at = element; at; at = at.parentElement) {
      if (at.ownerSVGElement || at.tagName === "svg") {
        const svg = at.ownerSVGElement || at;
        const under = Array.from(svg.querySelectorAll("rect, path")).filter((one) => { const box = one.getBoundingClientRect(); return !clear(getComputedStyle(one).fill) && one.closest("defs") === null && box.left <= x && x <= box.right && box.top <= y && y <= box.bottom && (one.compareDocumentPosition(element) & Node.DOCUMENT_POSITION_FOLLOWING); });
        if (under.length) { return numbers(getComputedStyle(under[under.length - 1]).fill).slice(0, 3); }
        if (svg !== at) { at = svg; }
      }
      const colour = getComputedStyle(at).backgroundColor;
      if (!clear(colour)) { return numbers(colour).slice(0, 3); }
    }
    return null;
  }
  const low = [];
  let count = 0;
  const walk = document.createTreeWalker(document.body, NodeFilter.SHOW_TEXT);
  while (walk.nextNode()) {
    const node = walk.currentNode, element = node.parentElement;
    if (!node.textContent.trim() || ["SCRIPT", "STYLE", "title"].includes(element.tagName)) { continue; }
    const range = document.createRange(); range.selectNodeContents(node);
    const box = range.getBoundingClientRect();
    if (!box.width || !box.height) { continue; }
    const style = getComputedStyle(element), ink = numbers(element.ownerSVGElement ? style.fill : style.color).slice(0, 3), ground = behind(element, box.left + box.width / 2, box.top + box.height / 2);
    count += 1;
    const ratio = ground ? between(ink, ground) : 0, size = parseFloat(style.fontSize), large = size >= 24 || (size >= 18.66 && Number(style.fontWeight) >= 700);
    if (ratio < (large ? 3 : 4.5)) { low.push([node.textContent.trim().slice(0, 40), element.tagName, element.className.baseVal ?? element.className, ink.join(), String(ground), ratio.toFixed(2)].join(" | ")); }
  }
  return { count, low };
})()
