// Reads the pages that the program made: at each stop the page's recovery gives the files that the program's gives, and
// no stop breaks the program's own order; where the program tried the stops, the page's recovery finds as many images
// that pass at each. In the last page one is told to have failed, which the page's recovery doesn't find.
//
//     pages.js PAGE.. FAILED
"use strict";

const fs = require("fs");
const { Run, toldBy, differingStops, differingTried } = require("./disk.js");

function toldIn(path) {
    const [, lines] = /id="data">\n([^]*?)<\/script>/.exec(fs.readFileSync(path, "utf8"));
    return toldBy(lines);
}

let bad = 0;
let stops = 0;
let tried = 0;
const failed = process.argv[process.argv.length - 1];
const pages = process.argv.slice(2, -1);
for (const path of pages) {
    const told = toldIn(path);
    const run = new Run(told);
    stops += run.writes.length + 1;
    tried += told.tried.length;
    const differing = differingStops(told) + differingTried(told);
    run.choose("log", told.holds ? "synced" : "no");
    const wrong = run.survey().filter((stop) => stop.wrong).length;
    if (differing || wrong || !run.writes.length) {
        bad++;
        console.log(`explorer: ${path}: ${differing} of ${run.writes.length + 1} stops differ from the program, ${wrong} steps break`);
    }
}
if (differingTried(toldIn(failed)) !== 1) {
    bad++;
    console.log(`explorer: ${failed}: a stop that failed isn't seen`);
}
console.log(`explorer: ${pages.length} pages, ${stops} stops compared with the program, ${tried} of them tried, ${bad} pages not alike`);
process.exit(bad ? 1 : 0);
