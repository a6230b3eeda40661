"use strict";
// What the pages do by script alone: the search for a name, and search, filters and sorting over a table. Without it all
// forms stay hidden, the tables stay as they are, and the lists of all names lead to each source.

const MOST_FOUND = 20;

// All names with their sources, of the two files of the index (names.py says how they are written).
function unpack(sources, packages) {
  const grown = (before, text) => before.slice(0, parseInt(text[0], 36)) + text.slice(1);
  const inner = packages.split("\n");
  const found = [];
  let source = "";
  sources.split("\n").forEach((text, place) => {
    source = grown(source, text);
    found.push([source, source]);
    let name = source;
    for (const part of inner[place].split(" ")) {
      if (part) found.push([name = grown(name, part), source]);
    }
  });
  return found;
}

function fetchScript(address) {
  return new Promise((done, failed) => {
    const script = document.createElement("script");
    script.src = address;
    script.onload = done;
    script.onerror = failed;
    document.head.append(script);
  });
}

// The names that have a text: the name itself comes first, then those that begin with it, then all others.
function namesWith(text, names) {
  const rank = name => name === text ? 0 : name.startsWith(text) ? 1 : 2;
  return names.filter(([name]) => name.includes(text)).sort(([one], [other]) =>
    rank(one) - rank(other) || one.length - other.length || (one < other ? -1 : 1));
}

function makeGo(form) {
  const field = form.querySelector("input");
  const list = form.querySelector(".found");
  const output = form.querySelector("output");
  let index = null;

  function fetchIndex() {
    index ??= Promise.all(["names.js", "packages.js"].map(name => fetchScript(form.dataset.up + name)))
      .then(() => unpack(window.officeNames, window.officePackages));
    return index;
  }

  const pageOf = source => form.dataset.up + "source/" + encodeURIComponent(source) + ".html";

  function item([name, source]) {
    const link = document.createElement("a");
    link.href = pageOf(source);
    link.textContent = name;
    const entry = document.createElement("li");
    entry.append(link, name === source ? "" : ` of ${source}`);
    return entry;
  }

  async function show() {
    const text = field.value.trim().toLowerCase();
    let found = [];
    try {
      if (text) found = namesWith(text, await fetchIndex());
    } catch {
      output.value = "The names couldn't be fetched.";
      return found;
    }
    if (text !== field.value.trim().toLowerCase()) return found;
    output.value = !text ? "" : found.length === 1 ? "1 name has it." : `${found.length || "No"} names have it.`;
    list.replaceChildren(...found.slice(0, MOST_FOUND).map(item));
    return found;
  }

  form.hidden = false;
  field.addEventListener("focus", () => fetchIndex().catch(() => {}), {once: true});
  field.addEventListener("input", show);
  form.addEventListener("submit", async event => {
    event.preventDefault();
    const found = await show();
    const isOne = found.length && (found.length === 1 || found[0][0] === field.value.trim().toLowerCase());
    if (isOne) location.href = pageOf(found[0][1]);
  });
}

// The address keeps what is asked for behind `#`, as `#reason=age&words=lib`, so that a view can be passed on.
function makeSearch(form, table) {
  const rows = [...table.tBodies[0].rows];
  const texts = rows.map(row => row.textContent.toLowerCase());
  const kinds = rows.map(row => " " + (row.dataset.is || "") + " ");
  const fields = [...form.querySelectorAll("input, select")];
  const output = form.querySelector("output");

  function show() {
    const words = form.querySelector("#words").value.toLowerCase().split(/\s+/);
    const kept = fields.filter(field => field.tagName === "SELECT" && field.value).map(field => ` ${field.value} `);
    let count = 0;
    rows.forEach((row, place) => {
      row.hidden = !(words.every(word => texts[place].includes(word)) && kept.every(kind => kinds[place].includes(kind)));
      count += !row.hidden;
    });
    output.value = `${count} of ${rows.length} sources`;
  }

  function read() {
    const asked = new URLSearchParams(location.hash.slice(1).replaceAll("+", "%2B"));
    for (const field of fields) if (asked.has(field.id)) field.value = asked.get(field.id);
    show();
  }

  function ask() {
    const asked = fields.filter(field => field.value).map(field => `${field.id}=${encodeURIComponent(field.value)}`);
    history.replaceState(null, "", "#" + asked.join("&"));
    show();
  }

  form.hidden = false;
  form.addEventListener("input", ask);
  form.addEventListener("submit", event => event.preventDefault());
  addEventListener("hashchange", () => {
    read();
    form.scrollIntoView();
  });
  read();
}

// A button in the head of each column that has an order; pressed again, it turns the order round.
function makeSorting(table) {
  const heads = [...table.tHead.rows[0].cells];
  heads.forEach((head, place) => {
    if (!head.dataset.sort) return;
    const button = document.createElement("button");
    button.type = "button";
    button.append(...head.childNodes);
    head.append(button);
    button.addEventListener("click", () => {
      const falls = head.getAttribute("aria-sort") === "ascending";
      for (const other of heads) other.removeAttribute("aria-sort");
      head.setAttribute("aria-sort", falls ? "descending" : "ascending");
      const isNumber = head.dataset.sort === "number";
      const keyed = [...table.tBodies[0].rows].map(row => {
        const cell = row.cells[place];
        return [isNumber ? Number(cell.dataset.by) : cell.textContent, row];
      });
      keyed.sort(([left], [right]) => (left < right ? -1 : left > right ? 1 : 0) * (falls ? -1 : 1));
      table.tBodies[0].append(...keyed.map(([, row]) => row));
    });
  });
}

// A count whose link leads to a table shows those rows of it alone that are counted.
for (const link of document.querySelectorAll("a[data-view]")) link.href = "#" + link.dataset.view;
for (const form of document.querySelectorAll("form.find")) makeSearch(form, document.querySelector("form.find ~ table"));
for (const table of document.querySelectorAll("table")) makeSorting(table);
for (const form of document.querySelectorAll("form.go")) makeGo(form);
