"use strict";
// Pages of many classes: the parts of a class are packed (packed.py), and are made when the reader opens the class.
(function () {
  const main = document.querySelector("main.many");
  if (!main) { return; }
  const closed = new Map();  // each class that was not opened yet, with its number in its chapter
  const read = new Map();  // what a chapter has packed, from when it is first asked for
  for (const chapter of main.querySelectorAll("section.chapter")) {
    chapter.querySelectorAll("section.class").forEach((section, number) => closed.set(section, { chapter, number }));
  }
  function packedOf({ chapter, number }) {
    if (!read.has(chapter)) { read.set(chapter, JSON.parse(chapter.querySelector(":scope > script.packed").textContent)); }
    const data = read.get(chapter);
    return { pieces: data.pieces, text: data.texts[number] };
  }

  const buttonOf = (section) => section.querySelector("h3 button");
  const isOpen = (section) => buttonOf(section).getAttribute("aria-expanded") === "true";
  const pieceOf = (letter) => { const code = letter.codePointAt(0); return (code < 0xd800 ? code : code - 0x800) - 0x3f; };

  // Opens or closes a class. One of many that are opened at once is laid out later.
  function set(section, open, later) {
    if (open && closed.has(section)) {
      const packed = packedOf(closed.get(section));
      const body = document.createElement("div");
      body.className = "body";
      body.innerHTML = Array.from(packed.text, (letter) => packed.pieces[pieceOf(letter)]).join("");
      section.append(body);
      if (later) { layLater(body); }
      closed.delete(section);
    }
    const made = section.querySelector(":scope > .body");
    if (made) { made.hidden = !open; }
    buttonOf(section).setAttribute("aria-expanded", open);
  }

  // The class in which an anchor stands, made or not.
  function owner(id) {
    const found = document.getElementById(id), mark = ' id="' + id + '"', has = new Map();
    if (found) { return found.closest("section.class"); }
    for (const [section, place] of closed) {
      const packed = packedOf(place);
      if (!has.has(packed.pieces)) { has.set(packed.pieces, new Set(packed.pieces.map((piece, number) => (piece.includes(mark) ? number : -1)).filter((number) => number >= 0))); }
      const wanted = has.get(packed.pieces);
      if (wanted.size && Array.from(packed.text).some((letter) => wanted.has(pieceOf(letter)))) { return section; }
    }
    return null;
  }

  // Opens the class of an address in this page; whether it was closed.
  function reveal(address) {
    const section = address.length > 1 && owner(address.slice(1));
    const opens = Boolean(section) && !isOpen(section);
    if (opens) { set(section, true); }
    return opens;
  }

  // An address that is typed or gone back to: the browser looks for its anchor once more, which was not there before.
  function follow() {
    if (reveal(location.hash)) { location.replace(location.hash); }
  }

  main.addEventListener("click", (event) => {
    const link = event.target.closest('a[href^="#"]'), button = event.target.closest("section.class > h3 button"), all = event.target.closest("button[data-all]");
    if (link) { reveal(link.hash); }
    if (button) { set(button.closest("section.class"), button.getAttribute("aria-expanded") !== "true"); }
    if (all) { for (const section of all.closest("section.chapter").querySelectorAll("section.class")) { set(section, true, true); } }
  });
  addEventListener("hashchange", follow);

  // On paper each class is open; what was closed before is closed again.
  let shut = [];
  addEventListener("beforeprint", () => {
    shut = Array.from(main.querySelectorAll("section.class")).filter((one) => !isOpen(one));
    for (const section of shut) { set(section, true); }
  });
  addEventListener("afterprint", () => {
    for (const section of shut) { set(section, false); }
  });
  follow();
})();
