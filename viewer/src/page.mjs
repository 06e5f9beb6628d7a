/** The page: what is shown of a session, and what its address says. */

import { Card } from "./card.mjs";
import { element, LETTER, tag } from "./dom.mjs";
import { Failure } from "./failure.mjs";
import { isError, isStop, matcher, nextMark } from "./find.mjs";
import { sessionOf } from "./known.mjs";
import { StepList } from "./list.mjs";
import { nearestFirst } from "./notices.mjs";
import { StatePanel } from "./panel.mjs";
import { Overview } from "./overview.mjs";
import { Picture } from "./picture.mjs";
import { Plan, RIGHT_ROOM } from "./plan.mjs";
import { pair, readFile } from "./read.mjs";
import { colourOf } from "./signs.mjs";

const WIDEST = 160;
const NARROWEST = 0.01;
const FIRST_WIDTH = [26, 110];
const MANY_LANES = 12; // more are shown only if they have something in the window
const MOST_FAULTS = 50;
const MOST_NOTICES = 40;
/** The parts of the window that the picture has at most if the list is shown. */
const MOST_OF_WINDOW = 0.62;
const ADDRESS_DELAY = 300; // milliseconds

/** @typedef {import("./lanes.mjs").Mark} Mark */

/** The replies whose steps can be left out. */
const HIDDEN = ["held", "error", "nothing"];

/** Whether the colours are dark, by choice or by the system. */
function isDark() {
  const { theme } = document.documentElement.dataset;
  return theme ? theme === "dark" : matchMedia("(prefers-color-scheme: dark)").matches;
}

const many = (number, word, words) => `${number} ${number === 1 ? word : words}`;
const between = (least, value, most) => Math.min(most, Math.max(least, value));

export class Page {
  constructor() {
    const drawsAll = this.address().get("draw") === "all";
    const onMark = (mark) => this.go(mark);
    this.picture = new Picture({ drawsAll, onUser: (user) => this.choose("user", user), onMark,
      onFold: (lane) => this.fold(lane), onMoved: () => this.overview.moved() });
    this.overview = new Overview(this.picture);
    this.list = new StepList({ onMark });
    this.card = new Card(this.picture);
    this.panel = new StatePanel({ onProcess: (user, pid, index) => this.goToProcess(user, pid, index) });
    this.failure = new Failure({ onStep: (index) => this.goToEntry(index) });
    this.files = { replies: null, scenario: null };
    /** @type {import("./session.mjs").Session | null} */
    this.session = null;
    this.step = 0; // the width of a step, 0 if none is chosen yet
    this.fits = false; // whether the whole session fits the window
    this.query = "";
    /** @type {Set<import("./lanes.mjs").Lane>} the lanes without those below them */
    this.folded = new Set();
  }

  // ---- files

  /** Takes texts, each with its name, in place of the older ones of the same form. */
  take(texts) {
    const read = texts.map(readFile);
    const faults = read.flatMap((file) => file.faults);
    const replies = read.findLast((file) => file.replies);
    const scenario = read.findLast((file) => file.steps);
    const { files } = this;
    if (replies) Object.assign(files, { replies, scenario: scenario ?? null });
    else if (scenario) files.scenario = scenario;
    if (files.replies) this.open(faults);
    else if (scenario) faults.push(`${scenario.name} is a scenario; open the lines of tracehost --json too`);
    this.showFaults(faults);
  }

  open(faults) {
    const { replies, scenario } = this.files;
    const entries = pair(replies.replies, scenario, faults);
    this.session = sessionOf(entries, scenario?.killsTracees ?? true);
    this.panel.element.hidden = this.session.histories.size === 0;
    Object.assign(this, { step: 0, fits: false, folded: new Set(), chosen: null });
    this.picture.current = null;
    this.list.current = null;
    this.showNotices();
    document.body.classList.add("open");
    this.show();
    this.goToAddress();
    if (this.failure.at !== null) this.card.close(); // it would hide what led to the failure
  }

  /** Buttons that go to what an author of a debugger may want to look at. Without a failure they are by their steps. */
  showNotices() {
    const { entries, notices } = this.session;
    const { at } = this.failure;
    const ordered = nearestFirst(notices, at ?? entries.length, at === null ? undefined : entries[at]?.reply.user);
    if (at === null) ordered.sort((one, other) => one.at - other.at);
    const shown = ordered.slice(0, MOST_NOTICES).map(({ at: place, kind, text, count }) => {
      const times = count > 1 ? ` (${count} times)` : "";
      const title = kind === "open" ? "still open at the end" : "may be wrong";
      const button = tag("button", { type: "button", className: kind, title, textContent: `${place + 1}: ${text}${times}` });
      button.addEventListener("click", () => this.goToEntry(place));
      return button;
    });
    const more = ordered.length - shown.length;
    const rest = more > 0 ? [`and ${more} more`] : [];
    element("notices").replaceChildren(tag("strong", { textContent: "Look at" }), ...shown, ...rest);
    element("notices").hidden = notices.length === 0;
  }

  showFaults(faults) {
    const shown = faults.slice(0, MOST_FAULTS).map((fault) => tag("li", { textContent: fault }));
    if (faults.length > MOST_FAULTS) shown.push(tag("li", { textContent: `and ${faults.length - MOST_FAULTS} more` }));
    element("faults").replaceChildren(...shown);
    document.body.dataset.faults = faults.length;
  }

  // ---- the address

  address() {
    return new URLSearchParams(location.hash.slice(1));
  }

  /** The only user that is shown, or null. */
  get user() {
    const user = Number(this.address().get("user"));
    return this.session?.users.has(user) ? user : null;
  }

  /** The replies whose steps are left out. */
  get hidden() {
    return new Set((this.address().get("hide") ?? "").split(",").filter((word) => HIDDEN.includes(word)));
  }

  /** The indices of the only entries that are shown: those whose words the address has; null for all. */
  get only() {
    const words = this.address().get("only") ?? "";
    if (!words.trim()) return null;
    if (this.chosen?.words !== words) {
      const isChosen = matcher(words);
      const marks = this.session.marks.filter((mark) => mark.primary && isChosen(mark));
      this.chosen = { words, indices: new Set(marks.map(({ at }) => at)) };
    }
    return this.chosen.indices;
  }

  /** What the address and the buttons leave out. */
  get view() {
    const allLwps = this.address().get("lwps") === "all";
    return { user: this.user, hidden: this.hidden, only: this.only, allLwps, folded: this.folded };
  }

  /** Puts a choice into the address, and so shows it; the current step stays the same one. */
  choose(name, value) {
    const wanted = this.address();
    if (value === null || value === "") wanted.delete(name);
    else wanted.set(name, value);
    wanted.delete("step");
    location.hash = wanted.toString().replaceAll("%2C", ",");
  }

  /** Goes to the step that the address names, else to that of the failure. */
  goToAddress() {
    const number = this.address().get("step");
    if (number !== null) this.goToStep(number);
    else if (this.failure.at !== null) this.goToEntry(this.failure.at);
  }

  /** The address gets the current step once no other one has been chosen for a moment. */
  remember(mark) {
    clearTimeout(this.remembering);
    this.remembering = setTimeout(() => {
      const wanted = this.address();
      wanted.set("step", this.picture.plan.numberOf[mark.entry.index]);
      history.replaceState(null, "", `#${wanted.toString().replaceAll("%2C", ",")}`);
    }, ADDRESS_DELAY);
  }

  // ---- what is shown

  show() {
    const { picture, session, view } = this;
    if (this.step === 0) {
      picture.hidesOthers = session.lanes.length > MANY_LANES;
      const width = this.address().get("width");
      this.fits = width === "fit";
      this.step = Number(width) || between(FIRST_WIDTH[0], this.fitting(), FIRST_WIDTH[1]);
    }
    if (this.fits) this.step = this.fitting();
    this.step = between(NARROWEST, this.step, Math.max(WIDEST, this.step));
    const plan = new Plan(session, { ...view, step: this.step, room: picture.room, letter: LETTER });
    picture.failedAt = this.list.failedAt = this.failure.at;
    this.divide(plan);
    picture.show(plan);
    this.overview.show();
    this.find(this.query);
    this.showUsers(view.user);
    this.showChoices(view);
    this.showCounts();
    this.showState();
    this.card.again(plan);
  }

  /** Shows what the chosen user, or that of the current step, sees after that step; without one, after the last. */
  showState() {
    if (!this.session || this.panel.element.hidden) return;
    const entry = this.picture.current?.entry ?? this.picture.plan.all.at(-1);
    const user = this.user ?? entry?.reply.user;
    this.panel.show(this.session.histories.get(user), entry?.index ?? 0);
  }

  /** Divides the window between the picture and the list. */
  divide(plan) {
    const { scroller } = this.picture;
    const room = element("run").clientHeight;
    const wanted = plan.height + 60;
    const isListed = this.list.element.offsetParent !== null; // it isn't either if the panel has its room
    scroller.style.flex = isListed ? `0 0 ${Math.min(wanted, room * MOST_OF_WINDOW)}px` : "1";
  }

  /** The width of a step with which the whole session fits the window. */
  fitting() {
    const { user, hidden, only } = this.view;
    const isShown = ({ reply, index }) => (user === null || reply.user === user) && !hidden.has(reply.reply)
      && (!only || only.has(index));
    const columns = this.session.entries.filter(isShown).length;
    return (this.picture.room - RIGHT_ROOM) / Math.max(1, columns);
  }

  fit() {
    if (!this.session) return;
    this.fits = true;
    this.show();
  }

  /** Another width of a step; what is at the place stays there. */
  zoom(width, place = this.picture.room / 2) {
    if (!this.session) return;
    const { scroller } = this.picture;
    const column = (scroller.scrollLeft + place) / this.step;
    this.fits = false;
    this.step = between(Math.min(this.fitting(), WIDEST), width, Math.max(this.fitting(), WIDEST));
    this.show();
    scroller.scrollLeft = column * this.step - place;
    this.picture.refresh();
  }

  toggleOthers() {
    this.picture.hidesOthers = !this.picture.hidesOthers;
    if (this.session) this.show();
  }

  fold(lane) {
    if (!this.folded.delete(lane)) this.folded.add(lane);
    this.show();
  }

  /** A lane for each LWP, or only for those of processes that have more than one. */
  toggleLwps() {
    this.choose("lwps", this.view.allLwps ? null : "all");
  }

  /** Leaves out all steps that the search hasn't found, or shows them again. */
  toggleOnly() {
    this.choose("only", this.only ? null : this.query.trim());
  }

  /** Light colours, or dark ones. */
  toggleTheme() {
    const { dataset } = document.documentElement;
    dataset.theme = isDark() ? "light" : "dark";
    this.choose("theme", dataset.theme);
  }

  toggleList() {
    this.list.element.hidden = !this.list.element.hidden;
    if (!this.session) return;
    this.show();
    this.list.select(this.list.current);
  }

  toggleState() {
    this.panel.element.hidden = !this.panel.element.hidden;
    if (this.session) this.show();
  }

  /** Shows the steps with these replies, or leaves them out. */
  toggleHidden(reply) {
    const { hidden } = this;
    if (!hidden.delete(reply)) hidden.add(reply);
    this.choose("hide", [...hidden].join(","));
  }

  // ---- going to steps

  /** Makes a mark the current one, in the picture and in the list, and keeps its card. */
  go(mark) {
    this.picture.go(mark);
    this.list.select(mark);
    this.card.keep(mark);
    this.overview.moved();
    this.showState();
    this.remember(mark);
  }

  /** Goes to the last step up to an entry that was the process's own, or an LWP's of it, or changed its row. */
  goToProcess(user, pid, index) {
    const { plan } = this.picture;
    const isOf = (mark) => mark.lane.number === pid && mark.lane.kind === "process" || mark.lane.owner?.number === pid;
    const mark = plan.steps.findLast((one) => one.at <= index && isOf(one));
    const steps = /** @type {any} */ (this.session.histories.get(user)?.steps ?? []);
    const changed = steps
      .findLast(({ index: at, reply }) => at <= index && (reply.rows.processes ?? []).some((row) => row.pid === pid));
    if (changed && changed.index > (mark?.at ?? -1)) this.goToEntry(changed.index);
    else if (mark) this.go(mark);
  }

  /** Goes to the step of an entry, counted over all users' steps from 0. */
  goToEntry(index) {
    const mark = this.picture.plan?.steps.find(({ entry }) => entry.index === index);
    if (mark) this.go(mark);
    else this.say(`step ${index + 1} is left out`);
  }

  goToStep(text) {
    const { plan } = this.picture;
    const number = Number(text);
    const mark = plan.stepOf(number);
    if (mark) return this.go(mark);
    const entry = plan.all[number - 1];
    return this.say(entry ? `step ${number} is left out: ${entry.reply.reply}` : `there is no step ${text}`);
  }

  /** The index of the current entry, else of the first or last one in the window. */
  place(way) {
    const { picture } = this;
    if (picture.current) return picture.current.at;
    return way > 0 ? -1 : picture.plan.entries.length && picture.plan.entries.at(-1).index + 1;
  }

  /** Goes to the next stop or error. */
  goToNext(name, way) {
    const mark = nextMark(this.picture.plan.steps, this.place(way), way, { stop: isStop, error: isError }[name]);
    if (mark) this.go(mark);
    this.say(mark ? "" : `no ${way > 0 ? "later" : "earlier"} ${name}`);
  }

  /** Finds the steps with these words. */
  find(query) {
    this.query = query;
    const { plan } = this.picture;
    const isSearched = query.trim() !== "";
    this.found = isSearched ? plan.steps.filter(matcher(query)) : [];
    this.list.found = new Set(this.found);
    this.list.show(plan, isSearched ? this.found : plan.steps);
    this.showFound();
  }

  /** Goes to the next step that was found, after the last one to the first one. */
  goToFound(way) {
    const { found } = this;
    const mark = nextMark(found, this.place(way), way, () => true) ?? found.at(way > 0 ? 0 : -1);
    if (mark) this.go(mark);
    this.showFound();
  }

  showFound() {
    const place = this.found.findIndex(({ entry }) => entry === this.picture.current?.entry) + 1;
    const count = this.found.length;
    const isOnly = this.only !== null;
    element("only").hidden = count === 0 && !isOnly;
    element("only").setAttribute("aria-pressed", String(isOnly));
    element("only").textContent = isOnly ? `Only “${this.address().get("only")}”` : "Only these";
    element("found").textContent = !this.query.trim() ? "" : !count ? "not found" : place ? `${place} of ${count}`
      : many(count, "step", "steps");
  }

  say(text) {
    element("said").textContent = text;
  }

  // ---- the header

  showUsers(alone) {
    const choice = (user, words) => {
      const button = tag("button", { type: "button", textContent: words });
      button.setAttribute("aria-pressed", user === alone);
      if (user !== null) {
        button.style.setProperty("--user", colourOf(user));
        button.prepend(tag("span", { className: "dot" }));
      }
      button.addEventListener("click", () => this.choose("user", user));
      return button;
    };
    const users = this.session.userNumbers().map((user) => choice(user, String(user)));
    element("users").replaceChildren(...(users.length > 1 ? [choice(null, "all users"), ...users] : users));
  }

  showChoices({ hidden, allLwps }) {
    const counts = { held: 0, error: 0, nothing: 0 };
    for (const { reply } of this.picture.plan.all) if (counts[reply.reply] !== undefined) counts[reply.reply]++;
    for (const [id, reply] of [["held", "held"], ["errors", "error"], ["nothing", "nothing"]]) {
      element(id).textContent = `${id} ${counts[reply]}`;
      element(id).setAttribute("aria-pressed", !hidden.has(reply));
    }
    element("others").setAttribute("aria-pressed", this.picture.hidesOthers);
    element("lwps").setAttribute("aria-pressed", String(allLwps));
    element("theme").textContent = isDark() ? "Light" : "Dark";
    element("fit").setAttribute("aria-pressed", this.fits);
    element("listed").setAttribute("aria-pressed", !this.list.element.hidden);
    element("stated").setAttribute("aria-pressed", !this.panel.element.hidden);
  }

  showCounts() {
    const { plan } = this.picture;
    const isShown = ({ user }) => plan.user === null || plan.user === user;
    const count = (kind) => this.session.lanes.filter((lane) => lane.kind === kind && isShown(lane)).length;
    const isAsked = plan.all.some(({ asked }) => asked);
    const counts = { steps: plan.columns, processes: count("process"), lwps: count("lwp") };
    element("about").textContent = [many(counts.steps, "step", "steps"), many(counts.processes, "process", "processes"),
      many(counts.lwps, "LWP", "LWPs"), ...(isAsked ? [] : ["no scenario: who asked isn't known"])].join(" · ");
    Object.assign(document.body.dataset, counts);
  }
}
