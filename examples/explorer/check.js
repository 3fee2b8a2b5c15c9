// Holds the page's own disk (disk.js) against the program: at each stop of each run, in the program's order and in
// three wrong ones, what the page says of an image is what `xvfs check`, `recover`, `ls` and `cat` tell of it.
//
//     check.js XVFS DATA.json FOLDER
"use strict";

const fs = require("fs");
const path = require("path");
const { spawnSync } = require("child_process");
const { Run, ORDERS } = require("./disk.js");

const [xvfs, data, folder] = process.argv.slice(2);
const file = path.join(folder, "a.img");
let bad = 0;

function told(...words) {
    const ran = spawnSync(xvfs, words, { cwd: folder });
    return { status: ran.status, out: ran.stdout, text: ran.stdout.toString().trim(), refused: ran.stderr.toString().trim() };
}

function fail(text) {
    bad++;
    if (bad < 5) console.log(`explorer: ${text}`);
}

// The files of the image, as the program recovers them.
function filesOf() {
    const listed = told("ls", "a.img").text.split("\n").filter((line) => line);
    return listed.map((line) => {
        const [number, , kind] = line.split(" ");
        return { number: Number(number), kind: Number(kind), bytes: Array.from(told("cat", "a.img", number).out) };
    });
}

// Whether the program says of an image what the page says.
function compare(run, image, where) {
    fs.writeFileSync(file, Buffer.concat(image.map((block) => Buffer.from(block))));
    const after = run.recovered(image);
    const fault = after === null ? "BadLog" : run.faultIn(after);
    const checked = told("check", "a.img");
    const refused = checked.refused.replace(/^xvfs: check \d+ /, "");
    if ((checked.status === 0) !== (fault === "") || refused !== fault) {
        fail(`${where}: the page has "${fault}", and check "${refused}"`);
        return;
    }
    if (fault !== "") return;
    if (JSON.stringify(filesOf()) !== JSON.stringify(run.filesIn(after))) fail(`${where}: the files are others`);
    told("recover", "a.img");
    if (Buffer.compare(fs.readFileSync(file), Buffer.concat(after.map((block) => Buffer.from(block))))) {
        fail(`${where}: recovery leaves another image`);
    }
}

// Each image that a stop leaves, once for each order in which it comes about.
function compareAll(told) {
    const run = new Run(told);
    let count = 0;
    for (const order of Object.keys(ORDERS)) {
        run.choose(order, "no");
        let written = -1;
        told.steps.forEach((_, step) => {
            const made = run.writtenBy(step);
            if (made.length === written) return;
            written = made.length;
            compare(run, run.imageWith(made), `${told.title}, order ${order}, step ${step + 1}`);
            count++;
        });
    }
    return count;
}

// In the program's order no stop breaks, whatever a disk that is synced after each part loses; in each wrong one, and on
// a disk that is never synced, one does.
function judgeOrders(told) {
    const run = new Run(told);
    const breaks = (order, holding) => {
        run.choose(order, holding);
        return run.survey().some((stop) => stop.wrong);
    };
    if (breaks("log", "no") || breaks("log", "synced")) fail(`${told.title}: a stop breaks the program's own order`);
    if (run.commits.some((commit) => commit.log.length > 1)) {
        for (const order of ["homes", "header", "none"]) if (!breaks(order, "no")) fail(`${told.title}: no stop breaks the order ${order}`);
        if (!breaks("log", "never")) fail(`${told.title}: no stop breaks a disk that is never synced`);
    }
}

const runs = JSON.parse(fs.readFileSync(data, "utf8"));
const counts = runs.map((told) => {
    judgeOrders(told);
    return compareAll(told);
});
console.log(`explorer: ${runs.length} runs, ${counts.reduce((sum, count) => sum + count, 0)} images compared with the program, ${bad} not alike`);
process.exit(bad ? 1 : 0);
