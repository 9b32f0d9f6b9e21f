// The page of the desk. It shows what the server sends, always as text, and gives what the signaller confirmed.
const at = (id) => document.getElementById(id);

function element(name, text, ...inside) {
  const made = Object.assign(document.createElement(name), { textContent: text });
  made.append(...inside);
  return made;
}

/** Draws a part anew if what it shows has changed: a click on a button must not be lost, nor the focus. */
function draw(part, shown, make) {
  if (part.shown === JSON.stringify(shown)) return;
  part.shown = JSON.stringify(shown);
  const focused = part.contains(document.activeElement) ? document.activeElement.textContent : null;
  part.replaceChildren(...shown.flatMap(make));
  [...part.querySelectorAll("button")].find((button) => button.textContent === focused)?.focus();
}

const alarm = ({ text, to_do }) => element("li", "", element("strong", `ALARM: ${text}`), element("p", to_do));
const section = ({ text, below }) => [element("h2", text), element("ul", "", ...below.map(entry))];

/** A stop, a restriction, a train, or what it was told. A stop and a restriction have a button that ends them. */
function entry({ text, below }) {
  const isOpen = /not a(cknowledged|nswered)|NOT told|NOT TOLD/.test(text);
  const line = element("li", isOpen ? `OPEN: ${text}` : text, element("ul", "", ...below.map(entry)));
  const [, kind, number] = text.match(/^(Stop|Restriction) (\d+):/) ?? [];
  if (number) {
    const [what, words] = kind === "Stop" ? ["release", "Release stop"] : ["lift", "Lift restriction"];
    line.lastChild.before(element("button", `${words} ${number} …`));
    line.querySelector("button").addEventListener("click", () => give({ do: what, number }));
  }
  return line;
}

/** An input in words, and below them its bytes and the answer. */
function input([head, ...lines]) {
  const words = lines.filter((line) => !line.startsWith("= ")).map((line) => line.trim());
  const bytes = [head.replace(/^\d+: /, ""), ...lines.filter((line) => line.startsWith("= "))];
  return element("li", "", element("strong", `Input ${head.split(":")[0]}`), element("p", words.join("\n")),
    ...bytes.map((line) => element("code", line)));
}

async function show({ starts, trouble, fault, alarms, sections, last, lines }) {
  const again = starts > 1 ? ` Restarts of the program: ${starts - 1}, the last since ${trouble}.` : "";
  draw(at("status"), [fault || `Connected to the desk.${again}`], (words) => words);
  document.body.className = fault ? "trouble" : "";
  at("no-alarms").hidden = alarms.length > 0;
  draw(at("alarms"), alarms, alarm);
  [...at("sections").children].forEach((part, index) => draw(part, sections.slice(index, index + 1), section));
  draw(at("last"), last, input);
  for (const select of document.querySelectorAll("select[name=line]"))
    draw(select, lines, ({ name, number }) => new Option(name, number));
  const text = await (await fetch("/picture.svg")).text();
  const picture = new DOMParser().parseFromString(text, "image/svg+xml").documentElement;
  at("picture").replaceChildren(...(picture.localName === "svg" ? [document.importNode(picture, true)] : []));
}

const headers = () => ({ "Content-Type": "application/json", "X-Token": location.hash.slice(1) });
const post = (fields) => fetch("/command", { method: "POST", headers: headers(), body: JSON.stringify(fields) })
  .then((answer) => answer.json())
  .catch(() => ({ error: "The desk did not answer. Look at the last inputs before you give this again." }));

/** Has an input read back, asks, and gives it once it is confirmed. */
async function give(fields) {
  let answer = await post(fields);
  if (answer.read_back) {
    at("words").textContent = answer.read_back;
    at("confirm").returnValue = "no";
    at("confirm").showModal();
    await new Promise((closed) => at("confirm").addEventListener("close", closed, { once: true }));
    const isConfirmed = at("confirm").returnValue === "yes";
    answer = isConfirmed ? await post({ ...fields, confirmed: answer.read_back }) : { words: "Nothing was given." };
  }
  at("answer").textContent = answer.error ?? answer.words;
  at("answer").className = answer.error || answer.refused ? "refused" : "";
}

for (const form of document.querySelectorAll("form[data-do]"))
  form.addEventListener("submit", (event) => {
    event.preventDefault();
    give({ do: form.dataset.do, ...Object.fromEntries(new FormData(form)) });
  });
const events = new EventSource("/events");
events.addEventListener("message", ({ data }) => show(JSON.parse(data)));
events.addEventListener("error", () => {
  document.body.className = "stale";
  draw(at("status"), ["No connection to the desk: what this page shows is old."], (words) => words);
});
