// The page of a run: a line is moved over its steps, and beside it stands what a stop there leaves.
"use strict";

const DATA = document.getElementById("data").textContent.trim();
const RUNS = DATA.startsWith("[") ? JSON.parse(DATA) : [toldBy(DATA)];
const asked = new URLSearchParams(location.hash.slice(1));
const chosen = Math.min(RUNS.length - 1, Math.max(0, Number(asked.get("run")) || 0));
const run = new Run(RUNS[chosen]);
const steps = run.told.steps;
const processes = steps.reduce((most, step) => Math.max(most, step.process + 1), 1);

const ORDER_WORDS = {
    log: "as xvfs: log, header, homes, clear",
    homes: "homes before header",
    header: "header before log",
    none: "no log: homes at once",
};
const HOLDING_WORDS = {
    no: "writes in order",
    synced: "holds writes back, synced after each part",
    never: "holds writes back, never synced",
};
const PART_WORDS = { log: "log", header: "HEADER", home: "home", clear: "clear" };
const PART_LETTERS = { log: "L", header: "H", home: "h", clear: "c" };
const KINDS = ["free", "directory", "file", "device"];

let order = ORDER_WORDS[asked.get("order")] ? asked.get("order") : "log";
const ownHolding = run.told.holds ? "synced" : "no";
let holding = HOLDING_WORDS[asked.get("disk")] ? asked.get("disk") : ownHolding;
let at = asked.has("step") ? Number(asked.get("step")) - 1 : 0;
let lost = new Set();
let survey = [];
// How wide a step and a letter m are drawn.
let width = 0;
let em = 0;

// The stops that the program tried, and where it stops the run behind each step.
const tried = new Map((run.told.tried || []).map((stop) => [stop.name, stop]));
const names = run.stopNames();

const element = (id) => document.getElementById(id);
const escaped = (text) => String(text).replace(/[&<>"]/g, (sign) => ({ "&": "&amp;", "<": "&lt;", ">": "&gt;", '"': "&quot;" })[sign]);
const printable = (bytes) => Array.from(bytes, (byte) => (byte > 31 && byte < 127 ? String.fromCharCode(byte) : "·")).join("");
const counted = (count, word) => `${count} ${word}${count === 1 ? "" : "s"}`;

// The letter of a block, and what it is.
function roleOf(block) {
    if (block === 0) return "b";
    if (block === 1) return "s";
    if (block < INODES) return "l";
    if (block < run.bitmap) return "i";
    return block === run.bitmap ? "m" : null;
}

function nameOf(block) {
    return { b: "boot", s: "superblock", l: "log", i: "inodes", m: "bitmap" }[roleOf(block)] || "data";
}

// ---- the steps, a lane a process, and below them what a stop comes to

function kindOf(step) {
    if (run.plan[step]) return run.plan[step].write.part;
    const deed = steps[step].deed;
    if (/sleep|idle/.test(deed)) return "waits";
    if (/^(log|header|home|clear)/.test(deed)) return "nothing";
    return /^(begin|end)/.test(deed) ? "begins" : "moves";
}

function wordOf(step) {
    if (run.plan[step]) return PART_WORDS[run.plan[step].write.part];
    return kindOf(step) === "nothing" ? "–" : steps[step].deed.replace(/ by .*/, "");
}

function drawStep(step, lane) {
    const kind = kindOf(step);
    const left = step * width;
    const top = 0.7 * em + steps[step].process * lane;
    const isLine = kind === "waits" || kind === "nothing";
    const fill = isLine ? "none" : `var(--${kind})`;
    const light = /header|home/.test(kind) ? " light" : /log|clear/.test(kind) ? " dark" : "";
    let drawn = `<rect x="${left + 0.5}" y="${top}" width="${Math.max(width - 1, 1)}" height="${lane - 0.6 * em}" fill="${fill}"`
        + ` stroke="var(--quiet)" stroke-width="${width > 6 || (isLine && width > 2) ? 0.6 : 0}"${isLine ? ' stroke-dasharray="3 2"' : ""}>`
        + `<title>step ${step + 1}, process ${steps[step].process}: ${escaped(wordOf(step))}</title></rect>`;
    const text = width > 3 * em ? escaped(wordOf(step)) : width > em ? PART_LETTERS[kind] : "";
    if (text) drawn += `<text class="middle${light}" x="${left + width / 2}" y="${top + 0.92 * em}">${text}</text>`;
    return drawn;
}

// Whether the program tried the stops of the run as it is arranged now.
const isTried = () => tried.size > 0 && order === "log" && holding === ownHolding;

// What the program found at a stop behind a step, in words.
function triedWords(step) {
    const name = names[step + 1];
    const stop = tried.get(name);
    const where = name === "end" ? "the whole run" : name.startsWith("sync") ? `a stop at ${name}` : `a stop before ${name}`;
    if (!stop) return `${where}: not tried`;
    return stop.why ? `${where}: ${stop.why}` : `${where}: ${counted(stop.images, "image")} passed`;
}

// What a stop behind a step comes to: "good" or "bad", as the program found it where it tried it, else as the page does;
// "quiet" where an earlier one ended its tries.
function verdictOf(step) {
    if (!isTried()) return survey[step].wrong ? "bad" : "good";
    const stop = tried.get(names[step + 1]);
    return !stop ? "quiet" : stop.why ? "bad" : "good";
}

// One stretch of the band: the stops that come to the same, or, where the program tried them, one of these. A broken one
// is dark, so that who sees no red sees it, too, and is never too narrow to be seen.
function drawStretch(from, to, top) {
    const verdict = verdictOf(from);
    const left = from * width;
    const wide = (to - from) * width;
    const { kept } = survey[from];
    const isBad = verdict === "bad";
    const said = wide > 13 * em ? `✓ a stop here keeps ${counted(kept, "group")}` : wide > 6 * em ? `✓ keeps ${kept}` : wide > 3 * em ? `✓ ${kept}` : wide > em ? "✓" : "";
    const text = { good: kept === undefined ? "✓" : said, bad: wide > 5 * em ? "✗ broken" : wide > em ? "✗" : "", quiet: wide > em ? "?" : "" }[verdict];
    const title = isTried() ? `<title>${escaped(triedWords(from))}</title>` : "";
    const fill = { good: "good-back", bad: "bad", quiet: "meta" }[verdict];
    return `<g>${title}<rect x="${left}" y="${top}" width="${isBad ? Math.max(wide, 2) : wide}" height="${1.5 * em}" fill="var(--${fill})"`
        + ` stroke="var(--${verdict})" stroke-width="${wide > 4 ? 1 : 0}"/>`
        + `<text class="middle${isBad ? " broken" : ""}" x="${left + wide / 2}" y="${top + 1.05 * em}">${text}</text></g>`;
}

function isAlike(one, other) {
    if (isTried()) return names[one + 1] === names[other + 1];
    return !survey[one].wrong === !survey[other].wrong && survey[one].kept === survey[other].kept;
}

function drawBand(top) {
    let sound = "";
    let broken = "";
    let from = 0;
    for (let step = 1; step <= survey.length; step++) {
        if (step < survey.length && isAlike(from, step)) continue;
        if (verdictOf(from) === "bad") broken += drawStretch(from, step, top);
        else sound += drawStretch(from, step, top);
        from = step;
    }
    return sound + broken;
}

function draw() {
    em = parseFloat(getComputedStyle(document.body).fontSize);
    const lane = 1.8 * em;
    const beside = 5.2 * em;
    // All steps are seen at once; few on a narrow screen are moved along.
    width = Math.max((element("steps").clientWidth - beside) / Math.max(steps.length, 1), steps.length > 42 ? 0 : 1.5 * em);
    const band = 0.9 * em + processes * lane;
    const wide = width * steps.length;
    let drawn = `<svg width="${wide + beside}" height="${band + 3.1 * em}" role="img" aria-label="${counted(steps.length, "step")}, from`
        + ` left to right, a lane a process; below, what recovery makes of a stop behind each step">`;
    for (let process = 0; process < processes; process++) {
        drawn += `<text x="${wide + 0.3 * em}" y="${1.6 * em + process * lane}">process ${process}</text>`;
    }
    // The writes over the others, so that they are seen where a step is narrow.
    for (const isWrite of [false, true]) {
        for (let step = 0; step < steps.length; step++) if (isWrite === (run.plan[step] !== null)) drawn += drawStep(step, lane);
    }
    drawn += drawBand(band) + `<path id="line" d="M0 0V${band + 1.8 * em}" stroke="var(--text)" stroke-width="2.5"/>`
        + `<text id="line-text" class="middle" y="${band + 2.7 * em}"></text></svg>`;
    element("steps").innerHTML = drawn;
    element("steps").firstChild.onclick = (event) => {
        const left = event.currentTarget.getBoundingClientRect().left;
        go(Math.floor((event.clientX - left) / width));
    };
}

function showLine() {
    const left = (at + 1) * width;
    const line = element("line");
    line.setAttribute("d", line.getAttribute("d").replace(/^M[\d.]+/, "M" + left));
    const text = element("line-text");
    text.setAttribute("x", Math.min(Math.max(left, 3 * em), width * steps.length - 3 * em));
    text.textContent = at < 0 ? "stop at once" : "stop here";
    const drawn = element("steps");
    if (width * steps.length > drawn.clientWidth) drawn.scrollLeft = left - drawn.clientWidth / 2;
}

// ---- what stands beside it

function sayStep(made) {
    if (at < 0) return "Nothing was done yet.";
    const who = `Step ${at + 1}: process ${steps[at].process}`;
    if (!made) return `${who}: ${escaped(steps[at].deed)}. Nothing is written.`;
    const what = {
        log: "a changed block, into the log",
        header: `the header: this one write commits group ${made.commit.group}`,
        home: "a block, to its home",
        clear: "the empty header",
    }[made.write.part];
    return `${who} writes block ${made.write.block}: ${what}.`;
}

function showHeld(written) {
    const held = run.heldAmong(written, at);
    for (const index of [...lost]) if (!held.some(({ write }) => write.index === index)) lost.delete(index);
    const box = element("held");
    box.innerHTML = "";
    if (!held.length) return;
    const chips = held.map(({ write }) => `<label class="chip"><input type="checkbox" value="${write.index}"`
        + `${lost.has(write.index) ? "" : " checked"}> ${write.part} → block ${write.block}</label>`);
    const { wrong, tried: choices } = survey[Math.max(at, 0)];
    box.innerHTML = `<b>May be lost</b> (untick those that didn't get through): ${chips.join("")} `
        + (wrong ? '<button id="find">show a choice that breaks it</button>' : `<span class="good">✓ all ${choices} choices recover</span>`);
    for (const input of box.querySelectorAll("input")) {
        input.onchange = () => {
            if (input.checked) lost.delete(Number(input.value));
            else lost.add(Number(input.value));
            show();
        };
    }
    if (wrong) element("find").onclick = () => loseWorst();
}

function loseWorst() {
    lost = new Set(survey[at].lost);
    show();
}

// An operation of the script in words.
function operationWords(line) {
    const [, verb, file, offset, value, byte] = line.split(" ");
    if (verb === "create") return `create a ${KINDS[Number(file)] || file}`;
    if (verb === "write") {
        const text = value === "-" ? "" : printable(bytesOf(value));
        return `write file ${file} at ${offset}: “${text.length > 14 ? text.slice(0, 14) + "…" : text}”`;
    }
    if (verb === "fill") return `write file ${file} at ${offset}: ${value} times “${printable(bytesOf(byte))}”`;
    return `${verb} file ${file}`;
}

// The answers of the run: of which process, which of its operations, its group, and behind which step.
const answers = run.told.turns.filter((turn) => turn.came === "answered").map((turn) => {
    const [place, group] = turn.more.split(" ").map(Number);
    return { process: turn.process, place, group, step: turn.to - 1 };
});

// The operations, each with its process and its answer.
function readOperations() {
    const found = new Map(answers.map((answer) => [`${answer.process} ${answer.place}`, answer]));
    const counts = new Map();
    return run.told.script.map((line) => {
        const process = Number(line.split(" ")[0]);
        counts.set(process, (counts.get(process) || 0) + 1);
        return { line, process, answer: found.get(`${process} ${counts.get(process)}`) };
    });
}
const operations = readOperations();

function underWay() {
    const found = [];
    for (let process = 0; process < processes; process++) {
        const begun = steps.slice(0, at + 1).filter((step) => step.process === process && step.deed === "begin").length;
        const answered = answers.filter((answer) => answer.process === process && answer.step <= at).length;
        const line = run.told.script.filter((text) => Number(text.split(" ")[0]) === process)[answered];
        if (line && begun > answered) found.push(`process ${process}: ${escaped(operationWords(line))}`);
    }
    return found;
}

// The blocks that memory has newer than the disk, at their homes.
function newerBlocks(written) {
    const ended = run.commits.filter((commit) => commit.steps[commit.steps.length - 1] <= at);
    const from = ended.length ? Math.max(...ended.map((commit) => commit.steps[commit.steps.length - 1])) + 1 : 0;
    const next = run.commits.find((commit) => commit.steps[commit.steps.length - 1] > at && commit.steps[0] >= from);
    if (!next) return [];
    const used = new Set();
    for (let step = from; step <= at; step++) {
        const found = /^use (\d+)/.exec(steps[step].deed);
        if (found) used.add(Number(found[1]));
    }
    const homeAlready = new Set(written.filter(({ write, commit }) => commit === next && write.part === "home").map(({ write }) => write.block));
    return next.home.map((write) => write.block).filter((block) => used.has(block) && !homeAlready.has(block)).sort((a, b) => a - b);
}

function showMemory(newer) {
    const chips = newer.map((block) => `<span class="chip">${block} ${nameOf(block)}</span>`).join("");
    element("memory").innerHTML = `<p>Under way: ${underWay().map((line) => "<br>" + line).join("") || "nothing"}</p>`
        + `<p>Changed blocks that the disk hasn't at home yet: ${chips ? "<br>" + chips : "none"}</p>`;
}

function showBlocks(image, made, newer) {
    const owners = run.ownersIn(image);
    element("blocks").style.setProperty("--across", run.size > 1024 ? 64 : run.size > 256 ? 32 : 16);
    element("blocks").innerHTML = image.map((_, block) => {
        const owner = owners.get(block);
        const letter = roleOf(block) || (owner ? (owner.isAddresses ? "a" : String(owner.number % 10)) : ".");
        const of = roleOf(block) === "l" ? "of-log" : owner ? "of-file" : letter === "." ? "of-none" : "";
        const just = made && made.write.block === block ? " just" : "";
        const name = owner ? `data of file ${owner.number}` : letter === "." ? "free" : nameOf(block);
        return `<b class="${of}${just}${newer.includes(block) ? " newer" : ""}" title="block ${block}: ${name}">${letter}</b>`;
    }).join("");
}

function showLog(image) {
    const count = number32(image[LOG], 0);
    const homes = run.homesIn(image) || [];
    const rows = homes.map((home, place) => {
        const block = LOG + 1 + place;
        const isSame = image[block].every((byte, at) => byte === image[home][at]);
        return `<tr><td>${block}</td><td>→ ${home} ${nameOf(home)}</td><td>${isSame ? "same" : "<b>differs</b>"}</td></tr>`;
    });
    element("log").innerHTML = `<p>Header, block ${LOG}: <b>n ${count}</b>${count ? "" : ", so recovery does nothing"}</p>`
        + (count ? `<table><tr><th>log block</th><th>home</th><th></th></tr>${rows.join("")}</table>`
            + '<p class="quiet">Recovery copies each home and empties the header.</p>'
            : '<p class="quiet">What stands in the blocks behind it is read by nobody.</p>');
}

function showRecovered({ wrong, kept, after }) {
    const verdict = wrong ? `<div class="verdict is-bad"><span class="bad">✗ ${escaped(wrong)}</span></div>`
        : `<div class="verdict is-good"><span class="good">✓ sound</span>, with exactly the first ${counted(kept, "group")}</div>`;
    const files = after ? run.filesIn(after) : [];
    const listed = files.slice(0, 8).map(({ number, kind, bytes }) => `<tr><td>${number}</td><td>${KINDS[kind] || kind}</td>`
        + `<td>${bytes.length}</td><td class="bytes">${escaped(printable(bytes.slice(0, 18)))}${bytes.length > 18 ? "…" : ""}</td></tr>`);
    const table = listed.length ? `<table><tr><th>file</th><th>type</th><th>bytes</th><th>content</th></tr>${listed.join("")}</table>` : "<p>No file.</p>";
    const next = operations.findIndex(({ answer }) => !answer || answer.step > at);
    const first = Math.max(0, Math.min((next < 0 ? operations.length : next) - 4, operations.length - 7));
    const rows = operations.slice(first, first + 7).map(({ line, process, answer }) => {
        const group = answer ? answer.group : 0;
        const state = wrong ? "?" : group && group <= kept ? '<span class="good">✓ kept</span>' : group ? '<span class="quiet">lost</span>' : "";
        const told = !answer ? "" : answer.step <= at ? "yes" : '<span class="quiet">not yet</span>';
        return `<tr><td>${state}</td><td>${process}</td><td class="${operations.length > 6 ? "long" : "words"}">${escaped(operationWords(line))}</td><td>${group || ""}</td><td>${told}</td></tr>`;
    });
    element("recovered").innerHTML = verdict + table
        + `<table><tr><th></th><th>process</th><th>operation</th><th>group</th><th>answered</th></tr>${rows.join("")}</table>`;
}

// ---- what a write changed

function inodeChanges(number, old, now) {
    const found = [];
    const kinds = [old, now].map((inode) => KINDS[number16(inode, 0)] || number16(inode, 0));
    if (kinds[0] !== kinds[1]) found.push(`type ${kinds[0]} → ${kinds[1]}`);
    if (number16(old, 6) !== number16(now, 6)) found.push(`links ${number16(old, 6)} → ${number16(now, 6)}`);
    if (number32(old, 8) !== number32(now, 8)) found.push(`size ${number32(old, 8)} → ${number32(now, 8)}`);
    for (let place = 0; place < 13; place++) {
        const [before, after] = [old, now].map((inode) => number32(inode, 12 + 4 * place));
        if (before !== after) found.push(`address ${place}: ${before} → ${after}`);
    }
    return found.length ? [`inode ${number}: ${found.join(", ")}`] : [];
}

function bitChanges(old, now) {
    const set = [];
    const cleared = [];
    for (let bit = 0; bit < run.size; bit++) {
        const [was, is] = [old, now].map((block) => (block[bit >> 3] >> (bit % 8)) & 1);
        if (is && !was) set.push(bit);
        if (was && !is) cleared.push(bit);
    }
    return [...(set.length ? [`bits set: ${set.join(", ")}`] : []), ...(cleared.length ? [`bits cleared: ${cleared.join(", ")}`] : [])];
}

// What differs between two contents of a block, in words.
function changeWords(block, old, now) {
    if (block === LOG) return [`header: n ${number32(old, 0)} → ${number32(now, 0)}`];
    if (block === run.bitmap) return bitChanges(old, now);
    if (block < INODES || block > run.bitmap) return [];
    const found = [];
    for (let place = 0; place < 16; place++) {
        const [before, after] = [old, now].map((bytes) => bytes.subarray(64 * place, 64 * place + 64));
        found.push(...inodeChanges((block - INODES) * 16 + place, before, after));
    }
    return found;
}

function changedRows(old, now) {
    const rows = [];
    for (let row = 0; row < BLOCK && rows.length < 6; row += 16) {
        const bytes = Array.from(now.subarray(row, row + 16));
        if (!bytes.some((byte, place) => byte !== old[row + place])) continue;
        const hex = bytes.map((byte, place) => {
            const text = byte.toString(16).padStart(2, "0");
            return byte === old[row + place] ? text : `<u>${text}</u>`;
        });
        rows.push(`${row.toString(16).padStart(3, "0")}  ${hex.join(" ")}  ${escaped(printable(bytes))}\n`);
    }
    return rows.join("") || "no byte differs from what was there\n";
}

function showChange(written, made) {
    if (!made) {
        element("changed").textContent = "This step writes nothing";
        element("bytes").innerHTML = '<p class="quiet">The disk is as after the write before.</p>';
        return;
    }
    const { write } = made;
    const before = run.imageWith(written.slice(0, -1));
    const words = changeWords(write.block, before[write.block], write.bytes);
    let home = "";
    if (write.part === "log") {
        const block = Number(/of (\d+)/.exec(write.what)[1]);
        home = `, a log block for the home ${block}`;
        words.push(...changeWords(block, before[block], write.bytes).map((text) => `${text} (against the home)`));
    }
    element("changed").textContent = `What this write changed in block ${write.block}${home}`;
    element("bytes").innerHTML = (words.length ? `<ul>${words.map((text) => `<li>${escaped(text)}</li>`).join("")}</ul>` : "")
        + `<div class="bytes">${changedRows(before[write.block], write.bytes)}</div>`;
}

// ---- the page

function show() {
    at = Math.min(steps.length - 1, Math.max(-1, at));
    const written = run.writtenBy(at);
    const made = at >= 0 ? run.plan[at] : null;
    const newer = newerBlocks(written);
    showHeld(written);
    const found = run.judge(written, at, lost);
    element("at").value = at + 1;
    element("place").textContent = `step ${at + 1} of ${steps.length}, ${counted(written.length, "write")} made`;
    element("said").textContent = sayStep(made);
    element("tried").textContent = isTried() ? `Tried by the program: ${triedWords(at)}.` : "";
    showLine();
    showMemory(newer);
    showBlocks(found.image, made, newer);
    showLog(found.image);
    showRecovered(found);
    showChange(written, made);
}

function refresh() {
    run.choose(order, holding);
    survey = run.survey();
    draw();
    show();
}

function go(to) {
    at = to;
    lost.clear();
    show();
}

// To the next write, or to the one before.
function goToWrite(isOn) {
    const places = [-1, ...steps.map((_, step) => step).filter((step) => run.plan[step])];
    const found = isOn ? places.find((step) => step > at) : places.filter((step) => step < at).pop();
    go(found === undefined ? (isOn ? steps.length - 1 : -1) : found);
}

function addChoices(box, words, now, choose) {
    for (const [key, text] of Object.entries(words)) {
        const label = document.createElement("label");
        label.innerHTML = `<input type="radio" name="${box}" value="${key}"${now === key ? " checked" : ""}> ${escaped(text)}`;
        label.firstChild.onchange = () => {
            choose(key);
            lost.clear();
            refresh();
        };
        element(box).append(label);
    }
}

function addQuestion(asking) {
    const details = document.createElement("details");
    details.innerHTML = `<summary>${escaped(asking.question)}</summary><p class="quiet">${escaped(asking.answer)} <button>show</button></p>`;
    details.querySelector("button").onclick = () => {
        order = asking.order || "log";
        holding = asking.holding || "no";
        for (const [box, value] of [["orders", order], ["holdings", holding]]) {
            for (const input of element(box).querySelectorAll("input")) input.checked = input.value === value;
        }
        at = asking.step - 1;
        lost.clear();
        refresh();
        if (asking.loses && survey[at].wrong) loseWorst();
    };
    element("questions").append(details);
}

function addRuns() {
    RUNS.forEach(({ title }, index) => {
        const option = document.createElement("option");
        option.value = index;
        option.textContent = `${index + 1}. ${title}`;
        option.selected = index === chosen;
        element("runs").append(option);
    });
    element("runs").hidden = RUNS.length < 2;
    element("runs").onchange = () => {
        location.hash = "run=" + element("runs").value;
        location.reload();
    };
}

let timer = 0;
function play() {
    if (timer) {
        clearInterval(timer);
        timer = 0;
        element("play").textContent = "▶ play";
        return;
    }
    if (at >= steps.length - 1) at = -1;
    element("play").textContent = "❚❚ pause";
    timer = setInterval(() => (at >= steps.length - 1 ? play() : go(at + 1)), matchMedia("(prefers-reduced-motion: reduce)").matches ? 1500 : 600);
}

function onKey(event) {
    const isAtChoice = event.target.matches("input[type=radio], input[type=checkbox], select");
    const moves = {
        ArrowRight: () => go(at + 1), ArrowLeft: () => go(at - 1), Home: () => go(-1), End: () => go(steps.length - 1),
        PageDown: () => goToWrite(true), PageUp: () => goToWrite(false),
    };
    if (isAtChoice || !moves[event.key] || (event.target.id === "at" && /Arrow|Home|End/.test(event.key))) return;
    moves[event.key]();
    event.preventDefault();
}

// What the program found at its stops, and whether the page's own recovery finds the same.
function triedFoot(differing) {
    const images = run.told.tried.reduce((sum, stop) => sum + stop.images, 0);
    const failed = run.told.tried.find((stop) => stop.why);
    const found = `The program tried ${counted(run.told.tried.length, "stop")}: ${counted(images, "image")} passed${failed ? `, and then one didn't: ${failed.why}` : ""}.`;
    return `${found} The page's own recovery ${differing ? `finds something else at ${differing} of them!` : "finds the same at each."}`;
}

// What the page says of its own recovery.
function footWords(differing) {
    const stops = run.writes.length + 1;
    if (differing) return `The page's recovery differs from the program's at ${counted(differing, "stop")} of ${stops}!`;
    const files = run.told.version ? "that xvfs recover, ls and cat tell" : "by number, type and length, that the program's recovery gives";
    return `At all ${stops} stops the recovered image is sound by the page's own check, too, with the files${run.told.version ? "" : ","} ${files}.`;
}

addRuns();
addChoices("orders", ORDER_WORDS, order, (key) => (order = key));
addChoices("holdings", HOLDING_WORDS, holding, (key) => (holding = key));
(run.told.questions || []).forEach(addQuestion);
element("title").textContent = tried.size ? "A run at each of its stops" : run.told.title;
element("about").textContent = `${counted(run.writes.length, "write")}, ${counted(steps.length, "step")}, ${run.size} blocks. Move the line: ← → a step, Page Up, Page Down a write.`;
element("at").max = steps.length;
element("at").oninput = () => go(Number(element("at").value) - 1);
element("back").onclick = () => goToWrite(false);
element("on").onclick = () => goToWrite(true);
element("play").onclick = play;
addEventListener("keydown", onKey);
addEventListener("resize", () => {
    draw();
    show();
});
refresh();
const differing = differingStops(run.told);
const differingFound = tried.size ? differingTried(run.told) : 0;
element("foot").textContent = (run.told.version ? `${run.told.version}. Schedule: ${run.told.schedule}. ` : "")
    + (tried.size ? `${triedFoot(differingFound)} ` : "") + footWords(differing);
document.body.dataset.differing = differing + differingFound;
