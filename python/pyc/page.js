// What the page of `show` does: it joins places with their units, and goes by keys.
(function () {
  "use strict";
  var places = new Map(), edges = new Map(), lit = [], pinned = null;
  var all = Array.prototype.slice.call(document.querySelectorAll("[data-place]"));
  all.forEach(function (it) { add(places, it.dataset.place, it); });
  document.querySelectorAll(".edge[data-from]").forEach(function (it) {
    add(edges, it.dataset.from, it);
    add(edges, it.dataset.to, it);
  });

  function add(map, key, value) {
    if (!map.has(key)) map.set(key, []);
    map.get(key).push(value);
  }
  function mark(it, word) {
    it.classList.add(word);
    lit.push([it, word]);
  }
  function release() {
    lit.forEach(function (it) { it[0].classList.remove(it[1]); });
    lit = [];
  }
  // Joins what has the place of an element, and lights the lines that begin or end at it.
  function join(it) {
    release();
    (places.get(it.dataset.place) || []).forEach(function (other) {
      mark(other, "on");
      var line = other.closest(".lines li");
      if (line) mark(line, "near");
    });
    light(it.closest("[id]"));
  }
  function light(it) {
    if (!it) return;
    (edges.get(it.id) || []).forEach(function (edge) {
      mark(edge, "lit");
      [edge.dataset.from, edge.dataset.to].forEach(function (id) {
        var end = document.getElementById(id);
        if (end && end !== it && end.classList.contains("v")) mark(end, "on");
      });
    });
  }
  function again() {
    if (pinned) join(pinned); else release();
  }
  function pane(it) { return it.closest(".pane"); }
  // The first element of the place that stands in another pane.
  function otherSide(it) {
    return places.get(it.dataset.place).filter(function (other) { return pane(other) !== pane(it); })[0];
  }
  function reveal(it) {
    var calm = window.matchMedia("(prefers-reduced-motion: reduce)").matches;
    it.scrollIntoView({ block: "center", inline: "nearest", behavior: calm ? "auto" : "smooth" });
  }
  function pin(it) {
    pinned = it;
    join(it);
    var other = otherSide(it);
    if (other) reveal(other);
  }

  // One stop of the tabulator in each pane; arrows go on from there.
  var stops = new Map();
  function stop(it) {
    var at = pane(it);
    if (stops.has(at)) stops.get(at).tabIndex = -1;
    it.tabIndex = 0;
    stops.set(at, it);
  }
  all.forEach(function (it) { if (!stops.has(pane(it))) stop(it); });
  document.querySelectorAll(".u a, .ways a").forEach(function (it) { it.tabIndex = -1; });

  function step(it, by) {
    var here = all.filter(function (other) { return pane(other) === pane(it); });
    var next = here[here.indexOf(it) + by];
    if (next) next.focus();
  }

  document.addEventListener("mouseover", function (event) {
    var it = event.target.closest("[data-place]");
    if (it) return join(it);
    var row = event.target.closest(".v");
    if (row) { release(); light(row); mark(row, "on"); return; }
    again();
  });
  document.addEventListener("focusin", function (event) {
    var it = event.target.closest("[data-place]");
    if (it && it === event.target) { stop(it); join(it); }
  });
  document.addEventListener("focusout", again);
  document.addEventListener("click", function (event) {
    if (event.target.closest("a")) return;
    var it = event.target.closest("[data-place]");
    if (it) pin(it); else { pinned = null; release(); }
  });
  document.addEventListener("keydown", function (event) {
    var it = event.target.closest && event.target.closest("[data-place]");
    if (event.key === "Escape") { pinned = null; release(); return; }
    if (!it || it !== event.target || event.altKey || event.ctrlKey || event.metaKey) return;
    if (event.key === "ArrowDown") step(it, 1);
    else if (event.key === "ArrowUp") step(it, -1);
    else if (event.key === "Enter") {
      var other = otherSide(it);
      pinned = it;
      if (other) { other.focus({ preventScroll: true }); reveal(other); }
    } else if (event.key === "ArrowRight") {
      var goal = it.querySelector("a");
      var end = goal && document.querySelector(goal.getAttribute("href"));
      if (!end) return;
      if (end.tabIndex === -1 && end.matches("[data-place]")) end.focus({ preventScroll: true });
      reveal(end);
    } else return;
    event.preventDefault();
  });
})();
