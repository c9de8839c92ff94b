"use strict";
(() => {
  const events = [...document.querySelectorAll(".event")];
  const list = document.getElementById("events");
  const bars = document.querySelector(".bars");
  const life = document.querySelector(".life");
  const cursor = document.querySelector(".cursor");
  const width = Number(cursor.getAttribute("width"));
  let chosen = -1;

  // The rows after an event: those that the events up to it changed, each as it was last.
  function rowsAfter(at) {
    const kinds = { t: new Map(), l: new Map(), r: new Map() };
    for (const event of events.slice(0, at + 1)) {
      for (const row of event.querySelectorAll("tr[data-k]")) {
        const rows = kinds[row.dataset.k[0]];
        if (row.classList.contains("gone")) rows.delete(row.dataset.k);
        else rows.set(row.dataset.k, row);
      }
    }
    kinds.l = new Map([...kinds.l].sort(([a], [b]) => a.slice(1) - b.slice(1)));
    return kinds;
  }

  function showTable(at) {
    for (const [kind, rows] of Object.entries(rowsAfter(at))) {
      const table = document.querySelector(`#table [data-kind=${kind}]`);
      table.querySelector("tbody").replaceChildren(...[...rows.values()].map((row) => {
        const copy = row.cloneNode(true);
        copy.classList.toggle("fresh", events[at].contains(row));
        return copy;
      }));
      table.querySelector("caption span").textContent = rows.size;
    }
    document.getElementById("at").textContent = at + 1;
    document.getElementById("chosen").textContent = `event ${at + 1} of ${events.length}`;
    document.querySelector(".unsaved").hidden = !("unsaved" in events[at].dataset);
  }

  // Brings a place of a scrolled box into its sight, and moves nothing else.
  function bringIn(box, side, start, size, margin) {
    const [from, room] = side === "y" ? [box.scrollTop, box.clientHeight] : [box.scrollLeft, box.clientWidth];
    if (start >= from + margin && start + size <= from + room) return;
    const to = start - room / 3;
    if (side === "y") box.scrollTop = to;
    else box.scrollLeft = to;
  }

  function choose(at) {
    if (at === chosen || at < 0 || at >= events.length) return;
    if (chosen >= 0) {
      events[chosen].classList.remove("chosen");
      events[chosen].removeAttribute("aria-current");
    }
    chosen = at;
    events[at].classList.add("chosen");
    events[at].setAttribute("aria-current", "true");
    showTable(at);
    cursor.setAttribute("x", at * width);
    bringIn(list, "y", events[at].offsetTop - list.offsetTop, events[at].offsetHeight, 0);
    bringIn(life, "x", at * width, width, document.querySelector(".labels").clientWidth);
  }

  // Chosen by hand: the page's address tells it, to be kept or handed on.
  function pick(at) {
    choose(at);
    history.replaceState(null, "", `#${events[chosen].id}`);
  }

  const fromHash = () => {
    const at = events.findIndex((event) => `#${event.id}` === location.hash);
    if (at >= 0) choose(at);
  };

  const pickAcross = (click) => {
    click.preventDefault();
    pick(Math.floor((click.clientX - bars.getBoundingClientRect().left) / width));
  };

  list.addEventListener("click", ({ target }) => {
    const event = target.closest(".event");
    if (event) pick(events.indexOf(event));
  });
  list.addEventListener("keydown", (press) => {
    const to = { ArrowDown: chosen + 1, ArrowUp: chosen - 1, Home: 0, End: events.length - 1 }[press.key];
    if (to === undefined) return;
    press.preventDefault();
    pick(to);
    events[chosen].querySelector("summary").focus({ preventScroll: true });
  });
  list.addEventListener("focusin", ({ target }) => pick(events.indexOf(target.closest(".event"))));
  bars.addEventListener("click", pickAcross);
  document.querySelector(".axis").addEventListener("click", pickAcross);
  document.getElementById("before").addEventListener("click", () => pick(chosen - 1));
  document.getElementById("after").addEventListener("click", () => pick(chosen + 1));
  window.addEventListener("hashchange", fromHash);
  // The browser has brought an event of the address into sight; beside a picture the list does that alone.
  window.addEventListener("load", () => {
    const beside = matchMedia("(min-width: 1000px)").matches && location.hash === `#e${chosen + 1}`;
    if (beside) requestAnimationFrame(() => window.scrollTo(0, 0));
  });
  for (const part of document.querySelectorAll(".walk")) part.hidden = false;
  fromHash();
  if (chosen < 0) choose(0);
})();
