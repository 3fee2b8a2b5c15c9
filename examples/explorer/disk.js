// The disk of a run, and what a stop leaves of it. Nothing here knows of a page: page.js draws, and check.js holds
// all of this against the program.
"use strict";

const BLOCK = 1024;
const LOG = 2; // the block of the log's header; its blocks follow, and then the inodes
const MOST_LOGGED = 30;
const INODES = 33;
const ADDRESSES = 12; // direct ones; a block with 256 more follows
const MOST_BYTES = 268 * BLOCK;

// In which order the parts of a commit are written.
const ORDERS = {
    log: ["log", "header", "home", "clear"],
    homes: ["log", "home", "header", "clear"],
    header: ["header", "log", "home", "clear"],
    none: ["home"],
};

const number16 = (bytes, at) => bytes[at] | (bytes[at + 1] << 8);
const number32 = (bytes, at) => (number16(bytes, at) | (number16(bytes, at + 2) << 16)) >>> 0;

function bytesOf(hex) {
    const bytes = new Uint8Array(hex.length / 2);
    for (let at = 0; at < bytes.length; at++) bytes[at] = parseInt(hex.substr(2 * at, 2), 16);
    return bytes;
}

function blockOf(hex) {
    const block = new Uint8Array(BLOCK);
    block.set(bytesOf(hex));
    return block;
}

const ZEROES = new Uint8Array(BLOCK);
const keyOf = (bytes) => String.fromCharCode(...bytes);

class Run {
    // `told` is what make.py or `toldBy` has of a run: the image at its opening, each step, and each write with the
    // bytes that it changed, or with all of its block.
    constructor(told) {
        this.told = told;
        this.size = told.size;
        this.bitmap = INODES + Math.floor(told.ninodes / 16) + 1;
        this.data = this.bitmap + 1;
        // Each content once, so that blocks are alike where they are the same.
        this.contents = new Map([[keyOf(ZEROES), ZEROES]]);
        this.numbers = new Map([[ZEROES, 0]]);
        this.opening = Array.from({ length: told.size }, (_, block) => (told.opening[block] ? this.only(blockOf(told.opening[block])) : ZEROES));
        // A run begins with a recovery.
        this.opening = this.recovered(this.opening) || this.opening;
        this.writes = this.readWrites();
        this.commits = this.readCommits();
        this.order = "log";
        this.holding = "no";
        this.arrange();
        this.after = this.filesAfterGroups();
    }

    // The one block with these bytes.
    only(bytes) {
        const key = keyOf(bytes);
        if (!this.contents.has(key)) {
            this.contents.set(key, bytes);
            this.numbers.set(bytes, this.numbers.size);
        }
        return this.contents.get(key);
    }

    // Each write with its part of a commit and all bytes of its block.
    readWrites() {
        const now = this.opening.slice();
        return this.told.writes.map((write, index) => {
            const bytes = write.changes ? now[write.block].slice() : blockOf(write.bytes);
            for (const [at, hex] of write.changes || []) bytes.set(bytesOf(hex), at);
            now[write.block] = this.only(bytes);
            return { ...write, index, bytes: now[write.block] };
        });
    }

    // The writes of each commit by their parts, and the steps that made them.
    readCommits() {
        const commits = [];
        let commit = null;
        for (const write of this.writes) {
            if (!commit || (write.part === "log" && commit.clear.length)) {
                commit = { log: [], header: [], home: [], clear: [], steps: [], group: 0 };
                commits.push(commit);
            }
            commit[write.part].push(write);
            commit.steps.push(write.step);
            if (write.group) commit.group = write.group;
        }
        return commits;
    }

    // Sets the order of a commit's writes, and whether the disk holds writes back: "no", "synced" after each
    // part, or "never" synced.
    choose(order, holding) {
        this.order = order;
        this.holding = holding;
        this.arrange();
    }

    // Which write each step makes in this order, if any.
    arrange() {
        this.plan = this.told.steps.map(() => null);
        this.synced = null;
        for (const commit of this.commits) {
            const ordered = ORDERS[this.order].flatMap((part) => commit[part]);
            commit.steps.forEach((step, place) => {
                if (place < ordered.length) this.plan[step] = { write: ordered[place], commit };
            });
        }
    }

    // What was written when the run stops behind that step; behind none of them it is -1.
    writtenBy(step) {
        return this.plan.slice(0, step + 1).filter((made) => made !== null);
    }

    // How many writes no stop behind a step loses, since the program synced the disk behind them; null where the
    // order is not the program's, or where it didn't.
    syncedBy(step) {
        if (!this.told.holds || this.order !== "log") return null;
        if (!this.synced) {
            let written = 0;
            let synced = 0;
            this.synced = this.plan.map((made, at) => {
                if (made) written++;
                if (this.told.steps[at].sync) synced = written;
                return synced;
            });
        }
        return this.synced[step] || 0;
    }

    // Those of the writes by a step that the disk may still hold: of a disk that is never synced the last eight.
    heldAmong(written, step) {
        if (this.holding === "no") return [];
        if (this.holding === "never") return written.slice(-8);
        const synced = this.syncedBy(step);
        if (synced !== null) return written.slice(synced);
        const last = written[written.length - 1];
        if (!last) return [];
        let from = written.length;
        while (from > 0 && written[from - 1].commit === last.commit && written[from - 1].write.part === last.write.part) from--;
        return written.slice(from);
    }

    // The image with these writes, but for lost ones.
    imageWith(written, lost) {
        const image = this.opening.slice();
        for (const { write } of written) if (!lost || !lost.has(write.index)) image[write.block] = write.bytes;
        return image;
    }

    // The homes that the log's header names, or null where it is unlawful.
    homesIn(image) {
        const count = number32(image[LOG], 0);
        if (count > MOST_LOGGED) return null;
        const homes = [];
        for (let place = 0; place < count; place++) {
            const home = number32(image[LOG], 4 + 4 * place);
            if (home < INODES || home >= this.size || homes.includes(home)) return null;
            homes.push(home);
        }
        return homes;
    }

    // What recovery makes of an image; null where it refuses it.
    recovered(image) {
        const homes = this.homesIn(image);
        if (!homes) return null;
        const after = image.slice();
        homes.forEach((home, place) => (after[home] = image[LOG + 1 + place]));
        after[LOG] = ZEROES;
        return after;
    }

    inode(image, number) {
        const at = (number % 16) * 64;
        return image[INODES + Math.floor(number / 16)].subarray(at, at + 64);
    }

    // An inode's addresses in the order of a check: the place of each among its file's blocks, -1 for the block
    // of addresses, and whether the file needs it.
    addressesOf(image, inode) {
        const length = number32(inode, 8);
        const found = [];
        for (let place = 0; place < ADDRESSES; place++) {
            found.push({ address: number32(inode, 12 + 4 * place), place, isNeeded: place * BLOCK < length });
        }
        const more = number32(inode, 60);
        found.push({ address: more, place: -1, isNeeded: length > ADDRESSES * BLOCK });
        if (more >= this.data && more < this.size) {
            for (let place = 0; place < 256; place++) {
                const address = number32(image[more], 4 * place);
                found.push({ address, place: ADDRESSES + place, isNeeded: (ADDRESSES + place) * BLOCK < length });
            }
        }
        return found;
    }

    isMarked(image, block) {
        return ((image[this.bitmap][block >> 3] >> (block % 8)) & 1) === 1;
    }

    // The first fault that a check of a recovered image finds, or "".
    faultIn(image) {
        const used = new Set();
        for (let number = 1; number < this.told.ninodes; number++) {
            const fault = this.inodeFault(image, number, used);
            if (fault) return fault;
        }
        for (let block = 0; block < this.size; block++) {
            if (block < this.data || used.has(block)) {
                if (!this.isMarked(image, block)) return `UsedButFree ${block}`;
            } else if (this.isMarked(image, block)) {
                return `LostBlock ${block}`;
            }
        }
        return "";
    }

    inodeFault(image, number, used) {
        const inode = this.inode(image, number);
        const kind = number16(inode, 0);
        if (kind === 0) return "";
        if (kind > 3) return `BadType ${number}`;
        if (number32(inode, 8) > MOST_BYTES) return `BadSize ${number}`;
        for (const { address, isNeeded } of this.addressesOf(image, inode)) {
            if (address === 0) {
                if (isNeeded) return `BadAddress ${number}`;
                continue;
            }
            if (address < this.data || address >= this.size) return `BadAddress ${number}`;
            if (used.has(address)) return `TwiceUsed ${address}`;
            if (!this.isMarked(image, address)) return `UsedButFree ${address}`;
            used.add(address);
        }
        return "";
    }

    // The files of an image: number, type and bytes.
    filesIn(image) {
        const files = [];
        for (let number = 1; number < this.told.ninodes; number++) {
            const inode = this.inode(image, number);
            const kind = number16(inode, 0);
            if (kind === 0) continue;
            const length = Math.min(number32(inode, 8), MOST_BYTES);
            const bytes = [];
            for (const { address, place, isNeeded } of this.addressesOf(image, inode)) {
                if (isNeeded && place >= 0 && address < this.size) {
                    bytes.push(...image[address].subarray(0, Math.min(BLOCK, length - place * BLOCK)));
                }
            }
            files.push({ number, kind, bytes });
        }
        return files;
    }

    // The files of an image as one text, so that they can be compared: of a whole block its number.
    textOf(image) {
        let text = "";
        for (let number = 1; number < this.told.ninodes; number++) {
            const inode = this.inode(image, number);
            const kind = number16(inode, 0);
            if (kind === 0) continue;
            const length = Math.min(number32(inode, 8), MOST_BYTES);
            text += `${number}:${kind}:${length}`;
            for (const { address, place, isNeeded } of this.addressesOf(image, inode)) {
                if (!isNeeded || place < 0 || address >= this.size) continue;
                const left = length - place * BLOCK;
                text += left < BLOCK ? `:${image[address].subarray(0, left).join()}` : `;${this.numbers.get(image[address])}`;
            }
            text += "\n";
        }
        return text;
    }

    // Whose block each is.
    ownersIn(image) {
        const owners = new Map();
        for (let number = 1; number < this.told.ninodes; number++) {
            const inode = this.inode(image, number);
            if (number16(inode, 0) === 0) continue;
            for (const { address, place } of this.addressesOf(image, inode)) {
                if (address >= this.data && address < this.size) owners.set(address, { number, isAddresses: place < 0 });
            }
        }
        return owners;
    }

    // The files after each number of groups, by the order that the program has.
    filesAfterGroups() {
        const written = [];
        const after = [this.textOf(this.recovered(this.imageWith(written)))];
        for (const made of this.plan) {
            if (!made) continue;
            written.push(made);
            if (made.write.part === "header") after.push(this.textOf(this.recovered(this.imageWith(written))));
        }
        return after;
    }

    // Whether that write makes its group one that a stop keeps.
    isCommit({ write, commit }) {
        if (this.order !== "none") return write.part === "header";
        return write.part === "home" && write === commit.home[commit.home.length - 1];
    }

    // What a stop behind a step with these writes comes to, where some of them are lost: the image, what recovery
    // makes of it, and either how many groups it keeps, or what is wrong.
    judge(written, step, lost) {
        const held = new Set(this.heldAmong(written, step).map(({ write }) => write.index));
        const least = written.filter((made) => this.isCommit(made) && !held.has(made.write.index)).length;
        let most = written.filter((made) => this.isCommit(made)).length;
        // Without a log a group is under way from its first home on.
        if (this.order === "none" && written.length && !this.isCommit(written[written.length - 1])) most++;
        const image = this.imageWith(written, lost);
        const after = this.recovered(image);
        if (!after) return { image, wrong: "the log's header is unlawful (BadLog)" };
        const fault = this.faultIn(after);
        if (fault) return { image, after, fault, wrong: `recovered, the image is not sound: ${fault}` };
        const text = this.textOf(after);
        for (let kept = least; kept <= most; kept++) {
            if (this.after[kept] === text) return { image, after, kept };
        }
        const groups = least === most ? `${least} group${least === 1 ? "" : "s"}` : `${least} to ${most} groups`;
        return { image, after, wrong: `recovered, the files are not those after ${groups}` };
    }

    // The first choice of lost writes that a stop there doesn't survive, if there is one, and how many were tried: each,
    // or, where more than six are held, each beginning of them that gets through, as the program tries them.
    worst(written, step) {
        const held = this.heldAmong(written, step);
        const isEach = held.length <= (this.holding === "never" ? 8 : 6);
        const choices = isEach ? 1 << held.length : held.length + 1;
        for (let choice = 0; choice < choices; choice++) {
            const isLost = (_, place) => (isEach ? (choice >> place) & 1 : place >= choice);
            const lost = new Set(held.filter(isLost).map(({ write }) => write.index));
            const { wrong } = this.judge(written, step, lost);
            if (wrong) return { lost, wrong, tried: choice + 1 };
        }
        return { tried: choices };
    }

    // What a stop behind each step comes to.
    survey() {
        let written = [];
        let found = null;
        return this.plan.map((made, step) => {
            if (made) written = written.concat([made]);
            if (made || this.told.steps[step].sync) found = null;
            found = found || { ...this.worst(written, step), kept: this.judge(written, step).kept };
            return found;
        });
    }

    // Where the program stops the run behind each step, first behind none: at the next call of the disk.
    stopNames() {
        const names = [];
        let next = "end";
        let number = this.writes.length;
        for (let step = this.told.steps.length - 1; step >= 0; step--) {
            names[step + 1] = next;
            if (this.plan[step]) next = `write ${number--}`;
            else if (this.told.steps[step].sync) next = `sync ${this.told.steps[step].sync}`;
        }
        names[0] = next;
        return names;
    }
}

// ---- a run as `xvfs replay --picture` writes it, a line an object

// What a step was to do, and why it waits.
function deedOf(step) {
    let deed = step.deed;
    if (deed === "get" || deed === "use") deed += ` ${step.block}`;
    if (step.came !== "moved" && step.came !== "answered") deed += ` ${step.came}${step.why ? ` ${step.why}` : ""}`;
    return step.by === undefined ? deed : `${deed} by ${step.by}`;
}

// A step's write.
function writeOf(step, index) {
    const words = { log: `log ${step.place} of ${step.home}`, header: `header n ${step.count} group ${step.group}` };
    return { block: step.block, part: step.part, what: words[step.part] || step.part, group: step.group, step: index, bytes: step.bytes || "" };
}

// What a turn came to; `from` is its first step.
function turnOf(turn, from, to) {
    const more = turn.event === "answered" ? `${turn.operation} ${turn.group} ${turn.reply}` : "";
    return { process: turn.process, came: turn.event === "answered" ? "answered" : turn.came, more, from, to };
}

// An operation, as the line of a script.
function lineOf({ process, operation, inode, type, offset, count, to, bytes }) {
    const words = { create: [type], write: [inode, offset, bytes || "-"], read: [inode, offset, count], links: [inode, to], resize: [inode, to] };
    return [process, operation, ...(words[operation] || [inode])].join(" ");
}

// A stop that the program tried: so many images passed, or one didn't, for this reason.
function triedOf({ stop, number, passed, bytes }) {
    const why = bytes ? String.fromCharCode(...bytesOf(bytes)).trim() : "";
    return { name: number === undefined ? stop : `${stop} ${number}`, images: passed || 0, why };
}

function toldBy(text) {
    const told = { title: "A run, stop by stop", script: [], opening: {}, steps: [], writes: [], turns: [], stops: [], tried: [] };
    let from = 0;
    for (const line of text.split("\n").filter((each) => each)) {
        const each = JSON.parse(line);
        if ("image" in each) Object.assign(told, { size: each.image, ninodes: each.inodes, holds: each.holds });
        else if ("operation" in each && !("event" in each)) told.script.push(lineOf(each));
        else if ("step" in each) {
            told.steps.push({ process: each.process, deed: deedOf(each), sync: each.sync });
            if ("write" in each) told.writes.push(writeOf(each, told.steps.length - 1));
        } else if ("event" in each) {
            if ("process" in each) told.turns.push(turnOf(each, from, told.steps.length));
            from = told.steps.length;
        } else if ("stop" in each) told.tried.push(triedOf(each));
        else if ("behind" in each) told.stops.push({ behind: each.behind, files: [] });
        else if ("file" in each) told.stops[told.stops.length - 1].files.push([each.file, each.type, each.size]);
        else if ("block" in each) told.opening[each.block] = each.bytes;
    }
    return told;
}

// What the program's recovery gives behind so many writes: its own files there, or those of the last stop before at
// which they changed.
function toldBehind(told, count) {
    return told.stops[0].behind === undefined ? told.stops[count] : told.stops.filter(({ behind }) => behind <= count).pop();
}

// A file as the program tells it: number, type, length, and the first bytes if it has them.
function toldFile({ number, kind, bytes }, { length }) {
    const hex = bytes.slice(0, 64).map((byte) => byte.toString(16).padStart(2, "0")).join("");
    return [number, kind, bytes.length, hex].slice(0, length);
}

// At how many stops the recovery here has other files than the program's, in its own order, or the image isn't sound by
// the check here, as each is by the program's.
function differingStops(told) {
    const own = new Run(told);
    const all = own.plan.filter((made) => made !== null);
    let differing = 0;
    for (let count = 0; count <= all.length; count++) {
        const written = all.slice(0, count);
        const after = own.recovered(own.imageWith(written));
        const { committed, files } = toldBehind(told, count);
        const found = after === null ? [] : own.filesIn(after).map((file) => toldFile(file, files[0] || []));
        const groups = written.filter((made) => made.write.part === "header").length;
        const isSound = after !== null && own.faultIn(after) === "";
        if (!isSound || JSON.stringify(found) !== JSON.stringify(files) || (committed !== undefined && groups !== committed)) differing++;
    }
    return differing;
}

// At how many of the stops that the program tried the recovery here comes to something else: to an image that passes
// or doesn't, or to another number of images.
function differingTried(told) {
    const own = new Run(told);
    own.choose("log", told.holds ? "synced" : "no");
    const names = own.stopNames();
    return told.tried.filter(({ name, images, why }) => {
        const step = names.lastIndexOf(name) - 1;
        if (step < -1) return true;
        const { wrong, tried } = own.worst(own.writtenBy(step), step);
        return !wrong !== !why || (!why && tried !== images);
    }).length;
}

if (typeof module !== "undefined") module.exports = { Run, ORDERS, toldBy, differingStops, differingTried, BLOCK, LOG, INODES, number16, number32 };
