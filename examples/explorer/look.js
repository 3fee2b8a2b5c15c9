// What is seen on the page, for browse.py: these functions are put beside the page's own.
"use strict";

// What stands after recovery: whether it is bad, in which words, and each file's row.
function seenRecovered() {
    const verdict = document.querySelector("#recovered .verdict");
    const table = [...document.querySelectorAll("#recovered table")].find((each) => each.querySelector("th").textContent === "file");
    const rows = table ? [...table.querySelectorAll("tr")].slice(1) : [];
    return {
        bad: verdict.classList.contains("is-bad"), text: verdict.textContent,
        files: rows.map((row) => [...row.cells].map((cell) => cell.textContent)),
        place: document.getElementById("place").textContent,
    };
}

// The image that the stop leaves, as it is on the page's own disk, in base 64.
function seenImage() {
    const { image } = run.judge(run.writtenBy(at), at, lost);
    let bytes = "";
    for (const block of image) bytes += String.fromCharCode(...block);
    return btoa(bytes);
}

// The parts of a colour as the browser tells it, and how dense it is.
function partsOf(colour) {
    const numbers = colour.match(/[\d.]+(e-\d+)?/g).map(Number);
    const scale = colour.startsWith("color(") ? 1 : 255;
    return { parts: numbers.slice(0, 3).map((each) => each / scale), dense: numbers.length > 3 ? numbers[3] : 1 };
}

function lightOf(colour) {
    const [red, green, blue] = partsOf(colour).parts.map((each) => (each <= 0.04045 ? each / 12.92 : ((each + 0.055) / 1.055) ** 2.4));
    return 0.2126 * red + 0.7152 * green + 0.0722 * blue;
}

// The colour behind a text: of the box drawn before it, or of what it stands in.
function behind(element) {
    const box = element.previousElementSibling;
    if (box && box.tagName === "rect" && getComputedStyle(box).fill !== "none") return getComputedStyle(box).fill;
    for (let up = element; up; up = up.parentElement) {
        const colour = getComputedStyle(up).backgroundColor;
        if (partsOf(colour).dense === 1) return colour;
    }
    return "rgb(255, 255, 255)";
}

// The texts that are seen and have less contrast than that, and how many texts there are.
function faint(least) {
    const found = { count: 0, faint: [] };
    const walker = document.createTreeWalker(document.body, NodeFilter.SHOW_TEXT);
    while (walker.nextNode()) {
        const element = walker.currentNode.parentElement;
        if (!walker.currentNode.data.trim() || element.closest("script, option, title") || !element.getClientRects().length) continue;
        const colour = getComputedStyle(element)[element.tagName === "text" ? "fill" : "color"];
        const lights = [lightOf(colour), lightOf(behind(element))].sort((a, b) => b - a);
        const ratio = (lights[0] + 0.05) / (lights[1] + 0.05);
        found.count++;
        if (ratio < least) found.faint.push(`${walker.currentNode.data.trim()} (${ratio.toFixed(2)})`);
    }
    return found;
}

// How much of the page goes beyond the window, and how large its text is.
function measures() {
    const drawn = document.getElementById("steps");
    return {
        beyond: document.documentElement.scrollWidth - innerWidth, stepsBeyond: drawn.scrollWidth - drawn.clientWidth,
        verdict: document.querySelector("#recovered .verdict").getBoundingClientRect().bottom,
        font: parseFloat(getComputedStyle(document.body).fontSize),
    };
}
