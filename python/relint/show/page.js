"use strict";
(() => {
  const status = document.getElementById("status");
  const selected = (text) => {
    const area = document.createElement("textarea");
    area.value = text;
    document.body.append(area);
    area.select();
    const done = document.execCommand("copy");
    area.remove();
    return done;
  };
  const copied = async (button) => {
    const text = document.getElementById(button.dataset.copies).textContent;
    let done = false;
    try {
      await navigator.clipboard.writeText(text);
      done = true;
    } catch (refused) {
      done = selected(text);
    }
    const before = button.textContent;
    button.textContent = done ? "Copied" : "Select the text and copy it";
    status.textContent = button.textContent;
    setTimeout(() => { button.textContent = before; }, 2000);
  };
  for (const button of document.querySelectorAll("button[data-copies]")) {
    button.hidden = false;
    button.addEventListener("click", () => copied(button));
  }
  const filter = document.getElementById("filter");
  if (filter) {
    const rows = [...document.querySelectorAll("#others tbody tr")];
    filter.hidden = false;
    filter.addEventListener("input", () => {
      const wanted = filter.value.toLowerCase();
      for (const it of rows) { it.hidden = !it.textContent.toLowerCase().includes(wanted); }
    });
  }
  addEventListener("beforeprint", () => document.querySelectorAll("details").forEach((it) => { it.open = true; }));
})();
