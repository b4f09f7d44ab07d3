// The search: the names that fit best stand below the field, and Enter opens the first.
const field = document.getElementById("search");
const list = document.getElementById("found");
const ORDER = ["struct", "enum", "trait", "macro", "module", "function", "method", "alias", "const", "variant", "type", "word", "ghost member", "of another library"];

// How well a name fits what was typed: the lower the better, or nothing.
function fit([name, kind, full], typed) {
  const low = typed.toLowerCase(), last = low.split("::").pop(), here = name.toLowerCase();
  if (!typed || !here.includes(last) && !full.toLowerCase().includes(low)) return;
  const near = here === last ? 0 : here.startsWith(last) ? 1 : 2;
  const elsewhere = full.toLowerCase().includes(low) ? 0 : 0.5;
  return near + elsewhere + (ORDER.indexOf(kind) + 1) / 40 + name.length / 4000;
}

// An element with what is in it.
function made(tag, ...inner) {
  const element = document.createElement(tag);
  element.append(...inner);
  return element;
}

field.addEventListener("input", () => {
  const typed = field.value.trim();
  const found = NAMES.map(entry => [fit(entry, typed), entry])
    .filter(([how]) => how !== undefined).sort((left, right) => left[0] - right[0]).slice(0, 40);
  list.replaceChildren(...found.map(([, [, kind, full, url, line]]) => {
    const link = made("a", made("code", full), made("i", kind), made("span", line));
    link.href = TOP + encodeURI(url);
    return made("li", link);
  }));
  list.hidden = !typed;
});
field.form.addEventListener("submit", event => {
  event.preventDefault();
  list.querySelector("a")?.click();
});
list.addEventListener("click", () => list.hidden = true);
document.addEventListener("keydown", event => {
  if (event.key === "Escape") list.hidden = true;
  if (event.key === "/" && event.target !== field) {
    event.preventDefault();
    field.select();
  }
});
if (matchMedia("(max-width: 800px)").matches) document.getElementById("side").open = false;
