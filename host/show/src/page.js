// Buttons and arrow keys, for who wants one step at a time. Without this all steps stand below one another.
(function () {
  var steps = Array.from(document.querySelectorAll(".step")), tools = document.querySelector(".tools"), now = 0;
  if (!steps.length) return;
  tools.hidden = false;
  function go(to) {
    now = Math.max(0, Math.min(steps.length - 1, to));
    document.body.classList.add("single");
    steps.forEach(function (step, i) { step.classList.toggle("now", i === now); });
    tools.querySelector("output").textContent = now + 1 + " of " + steps.length;
  }
  function all() {
    document.body.classList.remove("single");
    tools.querySelector("output").textContent = "all " + steps.length;
    steps[now].scrollIntoView();
  }
  function single() { return document.body.classList.contains("single"); }
  function move(by) { go(single() ? now + by : now); }
  tools.querySelector(".back").onclick = function () { move(-1); };
  tools.querySelector(".on").onclick = function () { move(1); };
  tools.querySelector(".all").onclick = all;
  window.addEventListener("hashchange", function () {
    var to = steps.findIndex(function (step) { return "#" + step.id === location.hash; });
    if (single() && to >= 0) go(to);
  });
  document.addEventListener("keydown", function (event) {
    if (event.altKey || event.ctrlKey || event.metaKey) return;
    if (event.key === "ArrowRight") move(1);
    if (event.key === "ArrowLeft") move(-1);
    if (event.key === "Escape") all();
  });
})();
