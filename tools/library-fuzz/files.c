/* files.h: the own files, the shared ones, and what a stop may leave of them. */
#include "files.h"

#include <string.h>

#include "second.h"
#include "trial.h"

#define SHARED 4u
#define RECORD 2000u                             /* bytes of a shared file */
#define OWN_MOST 5000u                           /* before which a write of an own file begins */
#define SMALL (44u * XVFS_BLOCK_SIZE)            /* an image of one own file */
#define QUEUE 1024u                              /* operations of a process that are not known to be kept */
#define WRITES 16384u                            /* of shared files, in a run */
#define NEVER UINT64_MAX

enum target { OWN, OF_ALL, ANY };

struct handed {
    xvfs_op op;
    enum target target;
    size_t len;       /* bytes of a write, those that were written once it is answered */
    uint32_t number;  /* of a write: its record, or the byte that fills it */
    uint64_t group;   /* once it is answered */
    uint64_t floor;   /* of a read of a shared file: what it sees was answered no earlier */
    int has_begun;
};

struct process {
    uint8_t now[SMALL], kept[SMALL]; /* after what is answered, and after what is committed of it */
    struct handed queue[QUEUE], next;
    uint64_t folded, answered, handed;
    uint64_t missed; /* groups of a stop that hadn't what is under way */
    uint64_t shown;  /* groups of one that had it */
};

/* A write of a shared file. */
struct record {
    uint32_t pid;
    uint64_t begun, answered; /* moments, or NEVER */
    uint64_t group;
};

static struct process processes[FILES_PROCESSES];
static struct record records[WRITES];
static uint32_t record_count, first_record; /* the first of this session */
static uint32_t at_first[SHARED];           /* the record of each shared file at the session's opening */
static uint64_t floors[SHARED];             /* the last beginning of a write that is answered */
static uint64_t kept_floors[SHARED];        /* and of one that is committed, too */
static uint64_t moment, committed;

static uint32_t own_of(uint32_t pid) { return 1 + pid; }
static uint32_t shared_of(uint32_t file) { return 1 + FILES_PROCESSES + file; }
static struct handed *at(struct process *process, uint64_t n) { return &process->queue[n % QUEUE]; }

static int is_question(const xvfs_op *op) { return op->kind == XVFS_OP_READ || op->kind == XVFS_OP_STAT; }

static int is_of_record(const struct handed *it, uint32_t file) {
    return it->target == OF_ALL && it->op.kind == XVFS_OP_WRITE && it->op.inum == shared_of(file);
}

/* Small images differ in block 1 and from the inodes on. */
static void copy_small(uint8_t *to, const uint8_t *from) {
    size_t inodes = 33 * XVFS_BLOCK_SIZE;
    memcpy(to + XVFS_BLOCK_SIZE, from + XVFS_BLOCK_SIZE, XVFS_BLOCK_SIZE);
    memcpy(to + inodes, from + inodes, SMALL - inodes);
}

/* The bytes of a write. */
static void fill(const struct handed *it, uint8_t *bytes) {
    if (it->target != OF_ALL) {
        memset(bytes, (int)it->number, it->len);
        return;
    }
    for (size_t k = 0; k < it->len; k++) bytes[k] = (uint8_t)(it->number >> k % 4 * 8);
}

/* Starting. */

static void must_answer(uint8_t *image, xvfs_op op, const uint8_t *bytes, size_t len, uint32_t value) {
    static uint8_t into[XVFS_TRANSFER];
    xvfs_answer answer;
    second_call(image, &op, bytes, len, &answer, into);
    MUST(answer.reply <= XVFS_REPLY_STAT && answer.value == value);
}

static void forget(void) {
    for (uint32_t p = 0; p < FILES_PROCESSES; p++) {
        struct process *process = &processes[p];
        process->folded = process->answered = process->handed = process->missed = 0;
        process->shown = NEVER;
    }
    memset(floors, 0, sizeof floors);
    memset(kept_floors, 0, sizeof kept_floors);
    first_record = record_count;
    committed = 0;
}

void files_start(uint8_t *image) {
    static const uint8_t nothing[RECORD];
    xvfs_op create = {XVFS_OP_CREATE, 2, 0, 0};
    for (uint32_t p = 0; p < FILES_PROCESSES; p++) {
        must_answer(image, create, nothing, 0, own_of(p));
        MUST(second_mkfs(processes[p].now, SMALL, 2, 1) == XVFS_OK);
        must_answer(processes[p].now, create, nothing, 0, 1);
        copy_small(processes[p].kept, processes[p].now);
    }
    for (uint32_t f = 0; f < SHARED; f++) {
        xvfs_op write = {XVFS_OP_WRITE, shared_of(f), 0, 0};
        must_answer(image, create, nothing, 0, shared_of(f));
        must_answer(image, write, nothing, RECORD, RECORD);
        at_first[f] = 0;
    }
    record_count = 1; /* number 0 is what they have now */
    moment = 0;
    forget();
}

/* Operations. */

static void think_of_own(xvfs_op *op, struct handed *it) {
    static const xvfs_op_kind others[] = {XVFS_OP_READ, XVFS_OP_STAT, XVFS_OP_LINKS, XVFS_OP_RESIZE,
                                          XVFS_OP_TRUNC};
    it->target = OWN;
    op->kind = one_in(2) ? XVFS_OP_WRITE : others[below(sizeof others / sizeof *others)];
    if (op->kind == XVFS_OP_LINKS) op->len = below(65536);
    if (op->kind == XVFS_OP_RESIZE) op->len = below(OWN_MOST);
    if (op->kind == XVFS_OP_READ) {
        op->offset = below(OWN_MOST);
        op->len = one_in(10) ? XVFS_TRANSFER + below(500) : below(XVFS_TRANSFER + 1);
    }
    if (op->kind != XVFS_OP_WRITE) return;
    op->offset = one_in(3) ? 0 : below(OWN_MOST);
    it->len = one_in(10) ? XVFS_TRANSFER + below(500) : below(XVFS_TRANSFER + 1);
    it->number = 1 + below(255);
}

static void think_of_shared(xvfs_op *op, struct handed *it) {
    it->target = OF_ALL;
    op->inum = shared_of(below(SHARED));
    op->kind = one_in(2) ? XVFS_OP_READ : XVFS_OP_WRITE;
    op->len = RECORD;
    if (op->kind == XVFS_OP_READ) return;
    it->len = RECORD;
    it->number = record_count;
}

static void think_of_any(xvfs_op *op, struct handed *it) {
    it->target = ANY;
    op->kind = one_in(3) ? XVFS_OP_CREATE : (xvfs_op_kind)below(8);
    op->inum = shared_of(SHARED) + below(15);
    if (op->kind == XVFS_OP_CREATE) op->inum = one_in(5) ? below(65536) : 1 + below(3);
    op->offset = one_in(2) ? 0 : one_in(5) ? below(300000) : below(9000);
    op->len = below(3100);
    if (op->kind != XVFS_OP_WRITE) return;
    it->len = below(XVFS_TRANSFER + 1);
    it->number = below(256);
}

size_t files_think(uint32_t pid, xvfs_op *op, uint8_t *bytes) {
    struct handed *it = &processes[pid].next;
    uint32_t kind = below(20);
    *op = (xvfs_op){XVFS_OP_STAT, own_of(pid), 0, 0};
    memset(it, 0, sizeof *it);
    if (kind < 12) think_of_own(op, it);
    else if (kind < 15) think_of_shared(op, it);
    else think_of_any(op, it);
    it->op = *op;
    fill(it, bytes);
    return it->len;
}

void files_hand(uint32_t pid) {
    struct process *process = &processes[pid];
    MUST(process->handed - process->folded < QUEUE);
    *at(process, process->handed++) = process->next;
    if (process->next.target != OF_ALL || process->next.op.kind != XVFS_OP_WRITE) return;
    MUST(record_count < WRITES);
    records[record_count++] = (struct record){pid, NEVER, NEVER, 0};
}

uint64_t files_count(uint32_t pid) { return processes[pid].handed; }

unsigned files_left(uint32_t pid) { return (unsigned)(processes[pid].handed - processes[pid].answered); }

void files_begin(uint32_t pid) {
    struct process *process = &processes[pid];
    struct handed *it = at(process, process->answered);
    MUST(process->answered < process->handed);
    if (it->has_begun) return;
    it->has_begun = 1;
    moment += 1;
    if (it->target != OF_ALL) return;
    if (it->op.kind == XVFS_OP_WRITE) records[it->number].begun = moment;
    else it->floor = floors[it->op.inum - shared_of(0)];
}

/* Answers. */

/* Makes an operation of an own file in its small image. */
static void make_own(uint8_t *image, const struct handed *it, size_t len, xvfs_answer *out, uint8_t *into) {
    static uint8_t bytes[2 * XVFS_TRANSFER];
    xvfs_op op = it->op;
    op.inum = 1;
    fill(it, bytes);
    second_call(image, &op, bytes, len, out, into);
}

static uint32_t size_of_own(uint8_t *image) {
    struct handed stat = {.op = {XVFS_OP_STAT, 1, 0, 0}};
    xvfs_answer answer;
    make_own(image, &stat, 0, &answer, NULL);
    return answer.size;
}

static void answer_own(struct process *process, struct handed *it, const xvfs_answer *ours,
                       const uint8_t *bytes) {
    static uint8_t wanted[XVFS_TRANSFER];
    xvfs_answer theirs;
    if (ours->reply == XVFS_REPLY_WROTE && it->op.kind == XVFS_OP_RESIZE) {
        /* Where no block was free, the file ends with a block. */
        uint32_t end = size_of_own(process->now) + ours->value;
        MUST(end == it->op.len || (end < it->op.len && end % XVFS_BLOCK_SIZE == 0));
        it->op.len = end;
        if (ours->value == 0) return;
    } else if (ours->reply == XVFS_REPLY_WROTE && ours->value < it->len) {
        /* No block was free: the write ended with a block, and with the file. */
        uint32_t end = it->op.offset + ours->value;
        MUST(end % XVFS_BLOCK_SIZE == 0 && end >= size_of_own(process->now));
        it->len = ours->value;
    }
    make_own(process->now, it, it->len, &theirs, wanted);
    MUST(ours->reply == theirs.reply && ours->value == theirs.value && ours->size == theirs.size);
    MUST(ours->len == theirs.len && ours->links == theirs.links);
    MUST(memcmp(bytes, wanted, ours->len) == 0);
}

/* The record of a shared file. */
static uint32_t record_in(const uint8_t *bytes) {
    struct handed it = {.target = OF_ALL, .len = RECORD};
    static uint8_t wanted[RECORD];
    for (unsigned k = 0; k < 4; k++) it.number |= (uint32_t)bytes[k] << k * 8;
    fill(&it, wanted);
    MUST(memcmp(bytes, wanted, RECORD) == 0);
    return it.number;
}

/* When a record of a file was answered: 0 of that of the opening. */
static uint64_t answered_at(uint32_t file, uint32_t number) {
    if (number == at_first[file]) return 0;
    MUST(number >= first_record && number < record_count && records[number].begun != NEVER);
    return records[number].answered;
}

static void answer_shared(const struct handed *it, const xvfs_answer *ours, const uint8_t *bytes) {
    uint32_t file = it->op.inum - shared_of(0);
    if (it->op.kind == XVFS_OP_READ) {
        MUST(ours->reply == XVFS_REPLY_BYTES && ours->len == RECORD);
        MUST(answered_at(file, record_in(bytes)) >= it->floor);
        return;
    }
    struct record *record = &records[it->number];
    MUST(ours->reply == XVFS_REPLY_WROTE && ours->value == RECORD);
    record->answered = moment;
    record->group = ours->group;
    if (record->begun > floors[file]) floors[file] = record->begun;
}

void files_answer(uint32_t pid, const xvfs_answer *answer, const uint8_t *bytes) {
    struct process *process = &processes[pid];
    struct handed *it = at(process, process->answered);
    MUST(process->answered < process->handed && answer->seq == process->answered + 1);
    MUST(answer->group <= committed + 1 && (!is_question(&it->op) || answer->group == 0));
    MUST((answer->group > 0) == (it->has_begun && !is_question(&it->op)));
    MUST(answer->reply == XVFS_REPLY_BYTES || answer->len == 0);
    moment += 1;
    it->group = answer->group;
    if (it->target == OWN) {
        /* What comes short may change nothing, and isn't seen then. */
        int adds = it->op.kind == XVFS_OP_RESIZE;
        int may_be_missed =
            answer->reply == XVFS_REPLY_WROTE && (adds ? answer->value == 0 : answer->value < it->len);
        MUST(answer->group == 0 || may_be_missed || answer->group > process->missed);
        MUST(answer->group <= process->shown);
        answer_own(process, it, answer, bytes);
    }
    if (it->target == OF_ALL) answer_shared(it, answer, bytes);
    process->answered += 1;
    process->missed = 0;
    process->shown = NEVER;
}

void files_commit(uint64_t groups) {
    static uint8_t into[XVFS_TRANSFER];
    xvfs_answer answer;
    committed = groups;
    for (uint32_t p = 0; p < FILES_PROCESSES; p++) {
        struct process *process = &processes[p];
        for (; process->folded < process->answered; process->folded++) {
            struct handed *it = at(process, process->folded);
            if (it->group > groups) break;
            if (it->target == OWN) make_own(process->kept, it, it->len, &answer, into);
            for (uint32_t f = 0; f < SHARED; f++)
                if (is_of_record(it, f) && records[it->number].begun > kept_floors[f])
                    kept_floors[f] = records[it->number].begun;
        }
    }
}

/* What a stop left. */

static int is_same_file(uint8_t *image, uint32_t inum, uint8_t *small) {
    static uint8_t bytes[XVFS_TRANSFER], wanted[XVFS_TRANSFER];
    xvfs_op stat = {XVFS_OP_STAT, inum, 0, 0}, read = {XVFS_OP_READ, inum, 0, XVFS_TRANSFER};
    xvfs_answer ours, theirs;
    second_call(image, &stat, bytes, 0, &ours, bytes);
    stat.inum = 1;
    second_call(small, &stat, bytes, 0, &theirs, bytes);
    if (memcmp(&ours, &theirs, sizeof ours)) return 0;
    for (; read.offset < ours.size; read.offset += XVFS_TRANSFER) {
        read.inum = inum;
        second_call(image, &read, bytes, 0, &ours, bytes);
        read.inum = 1;
        second_call(small, &read, bytes, 0, &theirs, wanted);
        if (ours.len != theirs.len || memcmp(bytes, wanted, ours.len)) return 0;
        if (ours.len < XVFS_TRANSFER) break;
    }
    return 1;
}

/* The small image of an own file after what is answered of so many groups. `next` is the first operation
 * that is not of them. */
static uint8_t *state_after(struct process *process, uint64_t groups, uint64_t *next) {
    static uint8_t state[SMALL], into[XVFS_TRANSFER];
    xvfs_answer answer;
    copy_small(state, process->kept);
    for (*next = process->folded; *next < process->answered; ++*next) {
        struct handed *it = at(process, *next);
        if (it->group > groups) break;
        if (it->target == OWN) make_own(state, it, it->len, &answer, into);
    }
    return state;
}

/* Makes what is under way in a state, too: whether it is then the file of the image. Where no block was
 * free its write may have come short. */
static int shows_next(uint8_t *image, uint32_t inum, uint8_t *state, const struct handed *it) {
    static uint8_t before[SMALL], into[XVFS_TRANSFER];
    xvfs_answer answer;
    copy_small(before, state);
    for (size_t len = it->len;;) {
        make_own(state, it, len, &answer, into);
        if (is_same_file(image, inum, state)) return 1;
        copy_small(state, before);
        size_t end = len ? (it->op.offset + len - 1) / XVFS_BLOCK_SIZE * XVFS_BLOCK_SIZE : 0;
        if (end <= it->op.offset) return 0;
        len = end - it->op.offset;
    }
}

enum seen { OTHER, WITHOUT, WITH, EITHER };

/* What an image shows of an own file: what is answered of so many groups, without the operation that is
 * under way or with it. `state` is the file then. */
static enum seen see_own(uint8_t *image, uint32_t pid, uint64_t groups, uint8_t **state) {
    struct process *process = &processes[pid];
    uint64_t next;
    *state = state_after(process, groups, &next);
    int is_without = is_same_file(image, own_of(pid), *state);
    struct handed *it = at(process, next);
    if (next < process->answered || next == process->handed || !it->has_begun || it->target != OWN ||
        is_question(&it->op))
        return is_without ? WITHOUT : OTHER;
    int is_with = shows_next(image, own_of(pid), *state, it);
    return is_with ? is_without ? EITHER : WITH : is_without ? WITHOUT : OTHER;
}

/* Whether an image shows of a shared file a record that it may have after so many groups. A write that is
 * under way is noted in `early`, by process. */
static int may_see_shared(uint8_t *image, uint32_t file, uint64_t groups, uint32_t *early) {
    static uint8_t bytes[XVFS_TRANSFER];
    xvfs_op read = {XVFS_OP_READ, shared_of(file), 0, RECORD};
    xvfs_answer answer;
    second_call(image, &read, bytes, 0, &answer, bytes);
    MUST(answer.len == RECORD);
    uint32_t number = record_in(bytes);
    uint64_t answered = answered_at(file, number);
    if (answered == NEVER) *early |= 1u << records[number].pid;
    else if (answered > 0 && records[number].group > groups) return 0;
    for (uint32_t p = 0; p < FILES_PROCESSES; p++)
        for (uint64_t n = processes[p].folded; n < processes[p].answered; n++) {
            struct handed *it = at(&processes[p], n);
            if (!is_of_record(it, file) || it->group > groups) continue;
            if (records[it->number].begun > answered) return 0;
        }
    return answered >= kept_floors[file];
}

/* Whether an image has the files after so many groups. Of those that are under way only the operation of
 * which the commit is made can be among them. */
static int is_after(uint8_t *image, uint64_t groups) {
    uint32_t early = 0;
    uint8_t *state;
    for (uint32_t p = 0; p < FILES_PROCESSES; p++) {
        enum seen seen = see_own(image, p, groups, &state);
        if (seen == OTHER) return 0;
        if (seen == WITH) early |= 1u << p;
    }
    for (uint32_t f = 0; f < SHARED; f++)
        if (!may_see_shared(image, f, groups, &early)) return 0;
    return (early & (early - 1)) == 0;
}

/* Notes which operations under way a stop of so many groups had. */
static void note(uint8_t *image, uint64_t groups) {
    uint8_t *state;
    for (uint32_t p = 0; p < FILES_PROCESSES; p++) {
        struct process *process = &processes[p];
        enum seen seen = see_own(image, p, groups, &state);
        uint64_t next;
        state_after(process, groups, &next);
        if (next < process->answered || next == process->handed || !at(process, next)->has_begun) continue;
        if (at(process, next)->target != OWN || is_question(&at(process, next)->op)) continue;
        if (seen == WITHOUT && process->missed < groups) process->missed = groups;
        if (seen == WITH && process->shown > groups) process->shown = groups;
    }
}

unsigned files_judge(uint8_t *image) {
    unsigned judged = 0;
    for (unsigned more = 0; more < 2; more++)
        if (is_after(image, committed + more)) judged |= 1u << more;
    if (judged == 1 || judged == 2) note(image, committed + judged - 1);
    return judged;
}

void files_restart(uint8_t *image, unsigned judged) {
    static uint8_t bytes[XVFS_TRANSFER];
    xvfs_answer answer;
    uint8_t *state;
    for (uint32_t p = 0; p < FILES_PROCESSES; p++) {
        enum seen seen = see_own(image, p, committed + (judged == 2), &state);
        MUST(seen != OTHER);
        copy_small(processes[p].now, state);
        copy_small(processes[p].kept, state);
    }
    for (uint32_t f = 0; f < SHARED; f++) {
        xvfs_op read = {XVFS_OP_READ, shared_of(f), 0, RECORD};
        second_call(image, &read, bytes, 0, &answer, bytes);
        at_first[f] = record_in(bytes);
    }
    forget();
}
