"use strict";
// A page opens when what is seen is laid out. The rest waits, and is laid out part by part while the browser has nothing else to do: a screen reader is given all of it then.
const layLater = (function () {
  const AT_ONCE = 6;  // each step has the browser go over the whole page
  const waiting = [], idle = window.requestIdleCallback || ((call) => setTimeout(call, 50));
  function next() {
    for (const part of waiting.splice(0, AT_ONCE)) { part.removeAttribute("data-late"); }
    if (waiting.length) { idle(next); }
  }
  addEventListener("load", () => {
    waiting.push(...document.querySelectorAll("[data-late]"));
    if (waiting.length) { idle(next); }
  });
  return function (part) {
    part.setAttribute("data-late", "");
    if (document.readyState === "complete" && waiting.push(part) === 1) { idle(next); }
  };
})();
