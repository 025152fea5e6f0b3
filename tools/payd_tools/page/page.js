"use strict";

// How often the node is asked for what is new, in milliseconds, while the page is seen.
const PAUSE = 2000;
// What is shown is stale once no answer has come for so long, in milliseconds.
const LATE = 3 * PAUSE;

const token = new URLSearchParams(location.search).get("token");
const at = (id) => document.getElementById(id);

let state = null;
let known = "";
let answered = null;
// What is being agreed to by a second click, and whether a form is under way.
let agreed = "";
let isAsking = false;
// What is said of the payment that is followed, beside how far it is.
let again = "";
// What the amount in the form would come to, and how many times that was asked.
let hint = null;
let hints = 0;

// ---- asking

async function ask(path, form) {
  const headers = { "X-Token": token };
  const given = form === undefined ? { headers } : { method: "POST", headers, body: JSON.stringify(form) };
  const answer = await fetch(path, given);
  if (!answer.headers.get("Content-Type").startsWith("application/json")) {
    throw new Error((await answer.text()).trim());
  }
  return { status: answer.status, ...(await answer.json()) };
}

async function look() {
  try {
    const said = await ask(`state?known=${known}`);
    if (state !== null && said.version < state.version) {
      return; // It was asked for before the one that is shown.
    }
    if (String(said.version) !== known) {
      const before = state;
      state = said;
      known = String(said.version);
      show(before);
    }
    if (state.fault === null) {
      answered = new Date();
      if (isStale()) {
        show(state);
      }
    }
  } catch (why) {
    // The next answer is shown whatever it is.
    known = "";
    tellStale(why instanceof TypeError ? "payd desk-page doesn’t answer: is it still running?" : why.message);
  }
}

function lookAtClock() {
  if (!document.hidden && answered !== null && Date.now() - answered > LATE && !isStale()) {
    tellStale("the node doesn’t answer.");
  }
}

async function keepLooking() {
  for (;;) {
    if (!document.hidden) {
      await look();
    }
    await new Promise((resume) => setTimeout(resume, PAUSE));
  }
}

// ---- showing

const nameOf = (account) => state.names[account] || `account ${account}`;

// Digits in groups of three before the point.
function grouped(digits) {
  const [whole, ...part] = String(digits).split(".");
  return [whole.replace(/\B(?=(\d{3})+$)/g, "\u202f"), ...part].join(".");
}

// An amount, which the server gives in the digits of the group's unit.
const amountOf = (digits) => `${grouped(digits)}${state.unit === "" ? "" : `\u00a0${state.unit}`}`;

// (a line may end between its groups)
const inLines = (digits) => amountOf(digits).replaceAll("\u202f", "\u2009");

function put(id, text) {
  if (at(id).textContent !== text) {
    at(id).textContent = text;
  }
}

const isStale = () => document.body.classList.contains("stale");

function tellNode(text) {
  put("node", text);
  document.body.classList.remove("stale");
}

// Says that what is shown is old, since when, and why.
function tellStale(why) {
  const when = answered === null ? "" : `As of ${answered.toTimeString().slice(0, 5)}: `;
  put("node", `${when}${why} This page asks again.`);
  document.body.classList.add("stale");
  if (when !== "") {
    document.title = `${when}${document.title.replace(/^As of .*?: /, "")}`;
  }
}

// A cell with what is said of a payment below its text.
function cellWithNote(text, it) {
  const made = cell(text);
  if (it.to !== null && it.note !== null) {
    const said = document.createElement("span");
    said.textContent = it.note;
    said.className = "said";
    made.append(said);
  }
  return made;
}

function cell(text, kind) {
  const made = document.createElement("td");
  made.textContent = text;
  made.setAttribute("role", "cell");
  if (kind) {
    made.className = kind;
  }
  return made;
}

function fill(id, rows) {
  at(id).tBodies[0].replaceChildren(...rows);
  at(id).hidden = rows.length === 0;
}

function row(cells, kind) {
  const made = document.createElement("tr");
  made.append(...cells);
  made.setAttribute("role", "row");
  made.className = kind ?? "";
  return made;
}

function show(before) {
  if (state.front !== null) {
    showAccount(before);
  }
  if (state.fault !== null) {
    tellStale(`the node doesn’t answer: ${state.fault}.`);
  } else if (state.still !== null) {
    tellNode(`The node answers, but ${state.still}.`);
  } else {
    tellNode("The node answers.");
  }
}

function showAccount(before) {
  const own = state.account;
  put("owner", state.names[own] ? `${state.names[own]}, account ${own}` : `Account ${own}`);
  const group = state.genesis === "" ? "" : ` · group ${state.genesis}`;
  put("desk", `Member ${own} of ${state.front.length}${group} · ${state.desk}`);
  document.title = `${amountOf(state.balance)} · ${nameOf(own)} · payd`;
  put("balance", inLines(state.balance));
  showFree();
  showPayees();
  showFollowed();
  showWaiting();
  showEntries(before);
  showGroup();
  showHint();
}

function showFree() {
  const waits = state.waiting.length > 0;
  if (!waits) {
    put("free", "All of it is free.");
  } else if (state.free === null) {
    put("free", "What of it is free isn’t known: too much waits.");
  } else if (state.needed !== null) {
    put("free", `What waits needs ${amountOf(state.needed)} more.`);
  } else {
    put("free", `${amountOf(state.free)} of it are free once all that waits has settled.`);
  }
}

function showPayees() {
  const made = state.front.map((_, account) => account).filter((it) => it !== state.account);
  if (at("to").options.length === made.length + 1) {
    return;
  }
  const option = (text, value) => new Option(text, value);
  at("to").replaceChildren(option("Choose …", ""), ...made.map((it) => option(nameOf(it), it)));
  at("to").value = sessionStorage.getItem("to") ?? "";
}

// The payment that was asked for last, until it is settled.
const STEPS = ["asked", "waiting", "settled"];

function showFollowed() {
  const it = state.followed;
  const step = it === null ? -1 : STEPS.indexOf(it.state);
  at("steps").hidden = step < 0;
  [...at("steps").children].forEach((made, place) => {
    made.className = place <= step ? "done" : "";
    made.toggleAttribute("aria-current", place === step);
  });
  if (step >= 0) {
    const what = `${amountOf(it.amount)} to ${nameOf(it.to)}, seq ${it.seq} of account ${state.account}`;
    put("followed", `${step === 2 ? `Settled: ${what}.` : `Asked: ${what}. ${whyWaits(it)}`}${again}`);
  }
}

function whyWaits(it) {
  const first = state.waiting[0];
  if (it.state === "asked" || first === undefined) {
    return "It is under way to the others.";
  }
  if (first.seq !== it.seq) {
    return `It waits behind seq ${first.seq}.`;
  }
  return state.short !== null ? `It waits for ${amountOf(state.short)} more on this account.` : "It is covered.";
}

// what an entry that pays nothing says, if it is a note
const saidBy = (it, nothing) => (it.note === null ? nothing : `note: ${it.note}`);

function showWaiting() {
  fill("waiting", state.waiting.map((it) => row([
    cellWithNote(it.to === null ? saidBy(it, "nobody: it is void") : nameOf(it.to), it),
    cell(it.seq, "quiet"),
    cell(it.amount === null ? "–" : amountOf(it.amount), "number"),
  ])));
  at("waiting-cut").hidden = !state.waiting_cut;
  const behind = state.waiting.length > 1 ? " The others wait behind it." : "";
  if (state.waiting.length === 0) {
    put("why-waits", "Nothing waits.");
  } else if (state.never) {
    put("why-waits", `The first never settles: the whole group owns ${amountOf(state.total)}.${behind}`);
  } else if (state.short !== null) {
    put("why-waits", `The first waits for ${amountOf(state.short)} more on this account.${behind}`);
  } else {
    put("why-waits", `The first is covered, and is under way to the others.${behind}`);
  }
  at("why-waits").classList.toggle("grave-text", state.short !== null);
}

function whoOf(it, came) {
  if (it.to === null) {
    return `${it.account === state.account ? "" : `${nameOf(it.account)}: `}${saidBy(it, "to nobody: void")}`;
  }
  return came ? `from ${nameOf(it.account)}` : `to ${nameOf(it.to)}`;
}

const keyOf = (it) => `${it.account} ${it.entry}`;

function showEntries(before) {
  const old = before && before.front !== null ? new Set(before.entries.map(keyOf)) : null;
  const isNew = (it) => old !== null && !old.has(keyOf(it));
  fill("entries", state.entries.map((it) => {
    const came = it.to === state.account;
    return row([
      cellWithNote(whoOf(it, came), it),
      cell(`account ${it.account}, seq ${it.seq}`, "quiet"),
      cell(it.seen === null ? "earlier" : timeOf(it.seen), "quiet"),
      cell(it.amount === null ? "–" : `${came ? "+" : "\u2212"}${amountOf(it.amount)}`, came ? "number came" : "number"),
    ], isNew(it) ? "new" : "");
  }));
  at("none").hidden = state.entries.length > 0;
  at("entries-cut").hidden = !state.entries_cut;
  at("unordered").hidden = state.entries.filter((it) => it.seen === null).length < 2;
}

function timeOf(text) {
  const day = new Date().toISOString().slice(0, 10);
  const [date, time] = [new Date(text).toISOString().slice(0, 10), text.slice(11, 19)];
  return date === day ? time : `${text.slice(0, 10)} ${time}`;
}

function showGroup() {
  fill("accounts", state.front.map((settled, account) => row([
    cell(account, "quiet"),
    cell(state.names[account] || "–"),
    cell(state.balances === null ? "–" : inLines(state.balances[account]), "number"),
    cell(grouped(settled), "number"),
  ], account === state.account ? "own" : "")));
  put("total", state.total === null ? "" : `The whole group owns ${amountOf(state.total)}.`);
}

// ---- paying

// The form's ids stay until it has paid, also when the page is loaded again: however often it is sent, it pays once, and
// says its note once.
function drawn(name) {
  let id = sessionStorage.getItem(name);
  if (id === null) {
    // (a note has less room behind a longer one)
    id = String(crypto.getRandomValues(new BigUint64Array(1))[0] >> 2n);
    sessionStorage.setItem(name, id);
  }
  return id;
}

function renew() {
  sessionStorage.clear();
  at("pay").reset();
  at("renew").hidden = true;
  closeSecond();
  showHint();
}

// The amount as it stands in the form, without the blanks between its digits.
const amountGiven = () => at("amount").value.replace(/\s/g, "");

// Asks what the amount in the form would come to, and says it.
async function showHint() {
  const own = ++hints;
  const amount = amountGiven();
  let said = null;
  if (amount !== "" && state !== null && state.front !== null) {
    try {
      said = await ask(`hint?amount=${encodeURIComponent(amount)}`);
    } catch {
      said = null; // (that nobody answers stands above)
    }
  }
  if (own === hints) {
    hint = said;
    const [text, isGrave] = said === null ? ["", false] : textOf(said);
    put("hint", text);
    at("hint").classList.toggle("grave-text", isGrave);
    at("amount").setAttribute("aria-invalid", String(said !== null && said.why !== undefined));
    showAsk();
  }
}

function textOf(said) {
  if (said.why !== undefined) {
    return [`${said.why}.`, true];
  }
  if (said.needs === "beyond") {
    return [NEVER(), true];
  }
  if (said.needs === "uncovered") {
    return ["Not covered by what is free: it would wait.", true];
  }
  return [`Covered: ${amountOf(said.left)} stay free.`, false];
}

const NEVER = () => `It can never settle: the whole group owns ${amountOf(state.total)}.`;

// The button is there while a form can be sent that may settle.
function showAsk() {
  at("ask").hidden = !at("second").hidden || !at("renew").hidden || (hint !== null && hint.needs === "beyond");
}

const ONCE_MORE = "Pay once more when the node answers: this form pays once, however often it is sent.";

// What is asked before a payment: the question, what it says, and the button's text.
const QUESTIONS = {
  covered: (what, said) => [`Pay ${what}?`, `It leaves ${amountOf(said.left)} free.`, "Pay"],
  uncovered: (what, said) => [
    `Pay ${what} all the same?`,
    (said.short === undefined ? "So much waits that what is free isn’t known. " :
      `It is ${amountOf(said.short)} more than what is free. `) +
      "Until so much comes in it waits, and until then this account can pay nobody: each later payment waits behind " +
      "it. It can’t be taken back.",
    "Pay all the same",
  ],
};

function openSecond(said) {
  agreed = said.needs;
  const asked = QUESTIONS[agreed](`${amountOf(said.amount)} to ${nameOf(at("to").value)}`, said);
  ["second-head", "why", "agree"].forEach((id, place) => put(id, asked[place]));
  at("second").classList.toggle("grave", agreed !== "covered");
  at("agree").classList.toggle("grave", agreed !== "covered");
  at("second").hidden = false;
  showAsk();
  at("second-head").focus();
}

function closeSecond() {
  agreed = "";
  at("second").hidden = true;
  showAsk();
}

function tell(text, isGrave) {
  put("outcome", text);
  at("outcome").classList.toggle("grave-text", isGrave);
}

async function pay(form) {
  if (isAsking) {
    return;
  }
  isAsking = true;
  tell("Asking …", false);
  [at("ask"), at("agree")].forEach((it) => { it.disabled = true; });
  try {
    take(form, await ask("pay", form));
  } catch (why) {
    closeSecond();
    tell(`Whether it was asked for isn’t known. ${ONCE_MORE}`, true);
  }
  [at("ask"), at("agree")].forEach((it) => { it.disabled = false; });
  isAsking = false;
  await look();
}

function take(form, said) {
  if (said.needs !== undefined && said.needs !== "beyond") {
    tell("", false);
    openSecond(said);
    return;
  }
  closeSecond();
  if (said.seq !== undefined) {
    renew();
    tell("", false);
    again = said.again ? " It had been asked for before, and is paid once." : "";
    again += said.unsaid === undefined ? "" : ` What it is for isn’t said: ${said.unsaid}`;
    showFollowed();
    at("to").focus();
  } else if (said.refused !== undefined) {
    tell(`Refused: ${said.why}`, true);
    at("renew").hidden = false;
    showAsk();
  } else if (said.needs !== undefined) {
    tell(`${NEVER()} Nothing was asked for.`, true);
  } else {
    tell(said.status === 503 ? `Whether it was asked for isn’t known: ${said.why}. ${ONCE_MORE}` : said.why, true);
  }
}

function formGiven() {
  const note = at("for").value.trim();
  return { id: drawn("order"), note_id: drawn("note-id"), to: at("to").value, amount: amountGiven(), note, agreed };
}

at("pay").addEventListener("submit", (event) => {
  event.preventDefault();
  if (at("to").value === "") {
    tell("Choose to whom.", true);
    at("to").focus();
  } else if (amountGiven() === "") {
    tell("Give an amount.", true);
    at("amount").focus();
  } else {
    pay(formGiven());
  }
});
at("agree").addEventListener("click", () => pay(formGiven()));
at("leave").addEventListener("click", () => {
  closeSecond();
  tell("Nothing was asked for.", false);
  at("amount").focus();
});
at("second").addEventListener("keydown", (event) => {
  if (event.key === "Escape") {
    at("leave").click();
  }
});
at("renew").addEventListener("click", () => {
  renew();
  tell("", false);
  at("to").focus();
});
for (const id of ["to", "amount", "for"]) {
  at(id).addEventListener("input", () => {
    sessionStorage.setItem(id, at(id).value);
    if (!at("second").hidden) {
      closeSecond();
    }
    showHint();
  });
}
["amount", "for"].forEach((id) => { at(id).value = sessionStorage.getItem(id) ?? ""; });
document.addEventListener("visibilitychange", () => document.hidden || look());
setInterval(lookAtClock, PAUSE);
keepLooking();
