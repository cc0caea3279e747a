/* Rudekpi for C and C++: maintains a maximal matching on a changing network. Every function is proved.
 *
 * The caller must keep these rules; no call checks them:
 * - All bytes of a slot are 0 before its first call (`struct rudekpi_slot slot = RUDEKPI_NONE;`). After that
 *   only these calls write to it. A full slot is never copied; rudekpi_session_free frees it.
 * - Only one thread at a time uses a session, even to ask a question: each call takes the session out of its
 *   slot and puts it back, so no slot is const. Different threads may use different sessions.
 * - No pointer is null, even if a length is 0. A length is at most the number of elements at its pointer.
 * - malloc, realloc and free belong to one allocator. No call is made in a signal handler, or in the forked
 *   child of a process with threads.
 *
 * No call keeps a pointer. No call ends the process, waits, starts a thread or writes anywhere else. */
#ifndef RUDEKPI_H
#define RUDEKPI_H

#include <stdbool.h>
#include <stddef.h>
#include <stdint.h>

#ifdef __cplusplus
extern "C" {
#endif

/* The version of this header: major, minor and patch number, and the same as one number. */
#define RUDEKPI_VERSION "1.0.0"
#define RUDEKPI_VERSION_NUMBER 1000000

/* The status that a call returns. */
enum {
    RUDEKPI_DONE = 0,         /* success */
    RUDEKPI_BAD_LINE = 1,     /* the line is neither empty nor a command; nothing changed */
    RUDEKPI_LOG_FULL = 2,     /* the log has 16,777,216 entries and takes no more before rudekpi_session_renumber */
    RUDEKPI_NO_MEMORY = 3,    /* memory ran out; the session remains usable */
    RUDEKPI_NO_SESSION = 4,   /* the slot holds no session, or no audit */
    RUDEKPI_BAD_ARGUMENT = 5, /* an argument is out of range; nothing changed */
    RUDEKPI_REFUSED = 6,      /* the machine refused the event, and an entry says so; the network is unchanged */
    RUDEKPI_DAMAGED = 7,      /* the bytes are no transcript; those fed to an audit, whatever follows */
    RUDEKPI_NOT_SILENT = 8,   /* a rule is enabled, and the call needs a silent network; nothing changed */
    RUDEKPI_NOT_SHOWN = 9,    /* no state of the machine shows what a node holds */
    RUDEKPI_NOT_COUNTED = 10  /* rounds are not counted */
};

/* The rule sets: Hsu and Huang (1992), one enabled node moves at a time; Manne, Mjelde, Pilard and Tixeuil
 * (2009), any set of enabled nodes moves at once. */
enum { RUDEKPI_HSU_HUANG = 0, RUDEKPI_MANNE = 1 };

/* A slot holds one session or none. */
struct rudekpi_slot {
    void *at;
    bool full;
};
#define RUDEKPI_NONE {0, false}

/* The version of the library as one number: 1,000,000 times the major, plus 1,000 times the minor, plus the
 * patch number. A program compares it with RUDEKPI_VERSION_NUMBER. */
uint32_t rudekpi_version(void);

/* Begins a session of a new network and replaces what the slot held. The names are 1 to `nodes`, at most
 * 65,535; nodes 1 to `present` are present. The session's text begins with the transcript's header. Takes
 * some fifty bytes a name.
 * DONE; BAD_ARGUMENT for unknown rules, too many names, or more present nodes than names; NO_MEMORY. The slot
 * is empty after an error. */
uint32_t rudekpi_session_new(uint32_t rules, uint32_t nodes, uint32_t present, struct rudekpi_slot *slot);

struct rudekpi_verdict;

/* Begins a session that goes on where the run of a transcript ended, and replaces what the slot held. The
 * bytes are a transcript, or a base alone. `verdict` becomes what rudekpi_audit says of them. The session's
 * text begins with the base at the end of the run, and the next entry has the next number: so the bytes with
 * the session's text appended are one transcript. Lines are counted from 1 again. Costs an audit, and a look
 * at all names and edges.
 * DONE: the verdict is ACCEPTED, with its counts; DAMAGED: the verdict is a damage, of kind 1 to 5; NO_MEMORY:
 * it is UNJUDGED, or ACCEPTED if memory ran out afterwards. The slot is empty after an error. */
uint32_t rudekpi_session_resume(struct rudekpi_slot *slot, const uint8_t *bytes, size_t length,
                                struct rudekpi_verdict *verdict);

/* Carries out the next line of a script, given without its LF. Writes the line's number, counted from 1, and
 * appends the text of the line's entries to the session's text.
 * - DONE: also for an empty line, and for a refused event, whose entry has the refusal.
 * - BAD_LINE.
 * - LOG_FULL: earlier turns of a `drive` or `scramble` remain.
 * - NO_MEMORY: nothing was done, except that first turns of a `drive` or `scramble` may remain, with their
 *   text. The caller may give the line again.
 * - NO_SESSION: `number` is unchanged.
 * A link costs at most some microseconds, `enabled` and `matching` the length of their lists, a `checkpoint` a
 * look at all names and edges. */
uint32_t rudekpi_session_feed(struct rudekpi_slot *slot, const uint8_t *line, size_t length, uint64_t *number);

/* How many bytes of text are unread; 0 without a session. */
size_t rudekpi_session_length(struct rudekpi_slot *slot);

/* If `out` has room for all unread text, copies that text to the start of `out` and forgets it; otherwise
 * changes nothing. Returns the length of the text, which was copied if its length is at most `room`.
 * All that was read of a session that kept its text from the start, in order, with what is unread, is a
 * transcript at any time: an audit accepts it. After rudekpi_session_resume so is the resumed transcript with
 * all of this appended. After rudekpi_session_renumber this holds of the text after the first `ended` bytes. It
 * is proved call by call (`session_texts_are_accepted` in crates/rudekpi_c). */
size_t rudekpi_session_read(struct rudekpi_slot *slot, uint8_t *out, size_t room);

/* Ends the session and frees its memory. The slot may be empty before, and is empty afterwards. */
void rudekpi_session_free(struct rudekpi_slot *slot);

/* The calls from here to rudekpi_checkpoint do the same, with numbers instead of lines. Each does what its line
 * of a script does, down to the bytes of the session's text, but does not count as a line.
 *
 * Each event adds one entry, even if the event is a question or is refused:
 *   DONE          the entry was added, and its reply is no refusal;
 *   REFUSED       the entry was added, `refusal` says why, and the network is unchanged;
 *   LOG_FULL, NO_MEMORY, NO_SESSION, BAD_ARGUMENT   no entry was added and nothing changed. A name is out of
 *                 range if it is 0 or above 65,535; the machine refuses one that is only above the session's
 *                 `nodes`.
 * BAD_ARGUMENT takes precedence over all others. Every call writes all fields of `told`; one without a value
 * is 0. */
struct rudekpi_told {
    uint32_t entry;   /* the entry's number, 1 to 16,777,216; of _drive, _scramble and _checkpoint the last entry's */
    uint32_t refusal; /* why the event was refused, or 0 */
    uint32_t target;  /* the pointer that rudekpi_show asks for; 0 is null */
    size_t rows;      /* how many rows the answer has: moves of a step, enabled nodes, or pairs */
};

/* Why an event is refused: the first reason that applies, in the order given in docs/USE.md. */
enum {
    RUDEKPI_UNKNOWN_NODE = 1,
    RUDEKPI_SELF_LOOP = 2,
    RUDEKPI_ALREADY_LINKED = 3,
    RUDEKPI_NOT_LINKED = 4,
    RUDEKPI_TOO_MANY_EDGES = 5,
    RUDEKPI_NOT_NEIGHBOUR = 6,
    RUDEKPI_NO_FLAG = 7,
    RUDEKPI_EMPTY_CHOICE = 8,
    RUDEKPI_NOT_CENTRAL = 9,
    RUDEKPI_CHOSEN_TWICE = 10,
    RUDEKPI_NOT_ENABLED = 11,
    RUDEKPI_BAD_TARGET = 12,
    RUDEKPI_ALREADY_PRESENT = 13
};

/* `link a b`, `unlink a b`: adds or removes an edge. At most some microseconds. */
uint32_t rudekpi_link(struct rudekpi_slot *slot, uint32_t a, uint32_t b, struct rudekpi_told *told);
uint32_t rudekpi_unlink(struct rudekpi_slot *slot, uint32_t a, uint32_t b, struct rudekpi_told *told);

/* `join node`: a node arrives. `leave node`: a node departs, with its edges and the pointers at it. Costs the
 * node's degree. */
uint32_t rudekpi_join(struct rudekpi_slot *slot, uint32_t node, struct rudekpi_told *told);
uint32_t rudekpi_leave(struct rudekpi_slot *slot, uint32_t node, struct rudekpi_told *told);

/* `point node target`, `point node -`: a fault writes a node's pointer; target 0 is null. */
uint32_t rudekpi_point(struct rudekpi_slot *slot, uint32_t node, uint32_t target, struct rudekpi_told *told);

/* `flag node 0`, `flag node 1`: a fault writes a node's married flag. */
uint32_t rudekpi_flag(struct rudekpi_slot *slot, uint32_t node, bool value, struct rudekpi_told *told);

/* A chosen node, and the neighbour that the node is to point at; a wish of 0 leaves any that its rule allows. */
struct rudekpi_item {
    uint32_t node;
    uint32_t wish;
};

/* `step ..`: these nodes move, all at once. The order of the list decides only which refusal is reported.
 * BAD_ARGUMENT also for more than 65,535 items; the machine refuses an empty list. The rows are the moves.
 * Costs the degrees of the nodes that move. */
uint32_t rudekpi_step(struct rudekpi_slot *slot, const struct rudekpi_item *items, size_t length, struct rudekpi_told *told);

/* `show node`: reads a node's pointer. */
uint32_t rudekpi_show(struct rudekpi_slot *slot, uint32_t node, struct rudekpi_told *told);

/* `enabled`: lists the enabled nodes, each with its rule. The rows are the nodes. */
uint32_t rudekpi_enabled(struct rudekpi_slot *slot, struct rudekpi_told *told);

/* `matching`: lists the pairs of nodes that point at each other. The rows are the pairs. Looks at each name. */
uint32_t rudekpi_pairs(struct rudekpi_slot *slot, struct rudekpi_told *told);

struct rudekpi_counts {
    uint32_t nodes;   /* the nodes that are present */
    uint32_t edges;
    uint32_t pairs;
    uint32_t enabled; /* the nodes that may move */
    uint32_t charge;  /* the potential: at most this many moves precede the next edit or fault */
    uint32_t spent;   /* the moves since the last accepted edit or fault, or since the start */
};

/* `status`: counts. Writes every field of `counts`; all are 0 if the call does not return DONE. */
uint32_t rudekpi_status(struct rudekpi_slot *slot, struct rudekpi_counts *counts, struct rudekpi_told *told);

struct rudekpi_row {
    uint32_t node;  /* the node that moved or may move; in a pair, the lower name */
    uint32_t rule;  /* the node's rule; in a pair, 0 */
    uint32_t other; /* the new pointer of a node that moved, 0 for null; in a pair, the higher name; else 0 */
};
enum { RUDEKPI_UPDATE = 1, RUDEKPI_MARRY = 2, RUDEKPI_SEDUCE = 3, RUDEKPI_ABANDON = 4 };

/* Copies the rows of the last answer to the start of `out`, ascending by `node`, if there is room; otherwise
 * `out` is unchanged. Returns how many rows there are; they were copied if that number is at most `room`.
 * Returns 0 without a session, or if the answer has no rows. The last answer is that of the latest of these
 * calls that found the session and no bad argument. The session keeps the answer for later calls. */
size_t rudekpi_rows(struct rudekpi_slot *slot, struct rudekpi_row *out, size_t room);

/* `drive seed count`: makes up to `count` steps of a seeded daemon, and stops when no node is enabled.
 * `scramble seed count`: makes `count` seeded faults of registers. Each turn, a step or a fault, adds an entry.
 * If a drive returns DONE, and `count` is at least the charge before the drive, no node is enabled afterwards.
 * DONE; LOG_FULL and NO_MEMORY: earlier turns remain; NO_SESSION; BAD_ARGUMENT above 1,000,000 turns. */
uint32_t rudekpi_drive(struct rudekpi_slot *slot, uint64_t seed, uint32_t count, struct rudekpi_told *told);
uint32_t rudekpi_scramble(struct rudekpi_slot *slot, uint64_t seed, uint32_t count, struct rudekpi_told *told);

/* `checkpoint`: appends the lines of a base to the text. They are no entry. An audit can begin at a base.
 * DONE; NO_MEMORY: nothing changed; NO_SESSION. A look at all names and edges. */
uint32_t rudekpi_checkpoint(struct rudekpi_slot *slot, struct rudekpi_told *told);

/* Decides whether the session keeps its text from here on, as it does at the start. If `keeps` is false, the
 * session forgets its text, and forgets what each later call adds. A session of weeks then needs memory for
 * its network alone. To begin a transcript anew, call this with false, then with true, then call
 * rudekpi_checkpoint: the text then begins with a base.
 * DONE; NO_SESSION. */
uint32_t rudekpi_transcript(struct rudekpi_slot *slot, bool keeps);

/* Numbers the entries from 1 again: a session of any length never meets a full log if this is called before
 * the log is full, or then. Appends two bases to the session's text. The first is the base of the state, as
 * rudekpi_checkpoint writes it, and ends the transcript so far. The second is the base of the same state with
 * the number 0, and begins the next transcript. The network and its moves spent stay as they are, and the next
 * entry is 1. `ended` becomes how many bytes of the unread text end the first transcript: the bytes after them
 * begin the next one. An audit accepts both. Without a kept transcript there is no text, and `ended` is 0.
 * DONE; NO_MEMORY: nothing changed; NO_SESSION. `ended` is 0 if the status is not DONE. Two looks at all names
 * and edges. */
uint32_t rudekpi_session_renumber(struct rudekpi_slot *slot, size_t *ended);

/* The calls from here to rudekpi_rounds_left only ask: they change nothing in the network and add no entry.
 * They return BAD_ARGUMENT for a name that is 0 or above 65,535; only a target may be 0, for null. The result
 * is written in each case: 0 or false if the status is not DONE.
 *
 * Writes a node's partner, or 0 if the node has none or is not present. Reads two registers.
 * DONE; NO_SESSION; BAD_ARGUMENT. */
uint32_t rudekpi_partner(struct rudekpi_slot *slot, uint32_t node, uint32_t *partner);

/* Writes the cost of an edit or a fault, in moves. If the event came at this moment, the charge would grow by
 * at most its cost. The cost is 0 if the machine would refuse the event. The cost is computed from the
 * registers and degrees of the nodes that the event touches (table in docs/BOUNDS.md), whatever the size of
 * the network.
 * DONE; NO_SESSION; BAD_ARGUMENT. */
uint32_t rudekpi_cost_of_link(struct rudekpi_slot *slot, uint32_t a, uint32_t b, uint32_t *cost);
uint32_t rudekpi_cost_of_unlink(struct rudekpi_slot *slot, uint32_t a, uint32_t b, uint32_t *cost);
uint32_t rudekpi_cost_of_join(struct rudekpi_slot *slot, uint32_t node, uint32_t *cost);
uint32_t rudekpi_cost_of_leave(struct rudekpi_slot *slot, uint32_t node, uint32_t *cost);
uint32_t rudekpi_cost_of_point(struct rudekpi_slot *slot, uint32_t node, uint32_t target, uint32_t *cost);
uint32_t rudekpi_cost_of_flag(struct rudekpi_slot *slot, uint32_t node, bool value, uint32_t *cost);

/* Writes the silent cost of an edit or a fault, in moves: if the network is silent when the event comes, at most
 * this many moves follow before the next edit or fault, whatever the daemon chooses. Only unmarried neighbours
 * count. Under RUDEKPI_HSU_HUANG the silent cost is at most the cost above. Under RUDEKPI_MANNE it is at most
 * that cost plus 2 if a new pair may form, plus 1 for rudekpi_silent_cost_of_leave. The silent cost is 0 if the
 * machine would refuse the event. Looks at the neighbours of at most two nodes.
 * DONE; NOT_SILENT if a rule is enabled; NO_SESSION; BAD_ARGUMENT. */
uint32_t rudekpi_silent_cost_of_link(struct rudekpi_slot *slot, uint32_t a, uint32_t b, uint32_t *cost);
uint32_t rudekpi_silent_cost_of_unlink(struct rudekpi_slot *slot, uint32_t a, uint32_t b, uint32_t *cost);
uint32_t rudekpi_silent_cost_of_join(struct rudekpi_slot *slot, uint32_t node, uint32_t *cost);
uint32_t rudekpi_silent_cost_of_leave(struct rudekpi_slot *slot, uint32_t node, uint32_t *cost);
uint32_t rudekpi_silent_cost_of_point(struct rudekpi_slot *slot, uint32_t node, uint32_t target, uint32_t *cost);
uint32_t rudekpi_silent_cost_of_flag(struct rudekpi_slot *slot, uint32_t node, bool value, uint32_t *cost);

/* Writes whether a node is at rest: it is paired, or it points nowhere while all its neighbours are paired; and
 * its flag is right if the rules use flags. Whatever the daemon chooses, a node at rest does not move until an
 * edit or a fault reaches it. An absent node is at rest. Looks at the node's neighbours only if the node points
 * nowhere.
 * DONE; NO_SESSION; BAD_ARGUMENT. */
uint32_t rudekpi_is_at_rest(struct rudekpi_slot *slot, uint32_t node, bool *rests);

/* Lists the nodes that an edit or a fault would reach if the event came at this moment: every other node at
 * rest stays at rest. Copies the names of the nodes reached, ascending, to the start of `out` if there is room
 * for all; otherwise `out` is unchanged. Writes how many they are to `count`; their names were copied if
 * `count` is at most `room`. The list is empty if the machine would refuse the event. Costs one pass through
 * the neighbours of the nodes that the event names, and of their partners (table with limits in
 * docs/BOUNDS.md).
 * DONE; NO_MEMORY; NO_SESSION; BAD_ARGUMENT. If the status is not DONE, `out` is unchanged. */
uint32_t rudekpi_reach_of_link(struct rudekpi_slot *slot, uint32_t a, uint32_t b, uint32_t *out, size_t room, size_t *count);
uint32_t rudekpi_reach_of_unlink(struct rudekpi_slot *slot, uint32_t a, uint32_t b, uint32_t *out, size_t room, size_t *count);
uint32_t rudekpi_reach_of_join(struct rudekpi_slot *slot, uint32_t node, uint32_t *out, size_t room, size_t *count);
uint32_t rudekpi_reach_of_leave(struct rudekpi_slot *slot, uint32_t node, uint32_t *out, size_t room, size_t *count);
uint32_t rudekpi_reach_of_point(struct rudekpi_slot *slot, uint32_t node, uint32_t target, uint32_t *out, size_t room, size_t *count);
uint32_t rudekpi_reach_of_flag(struct rudekpi_slot *slot, uint32_t node, bool value, uint32_t *out, size_t room, size_t *count);

/* A node's registers, and whether the node is present. An absent node has the pointer 0 and no flag. */
struct rudekpi_node {
    uint32_t pointer; /* 0 is null */
    bool flag;
    bool present;
};

/* Writes the registers of a node. A name above the session's `nodes` is absent. Three looks, whatever the size
 * of the network and of the log.
 * DONE; NO_SESSION; BAD_ARGUMENT. */
uint32_t rudekpi_registers(struct rudekpi_slot *slot, uint32_t node, struct rudekpi_node *registers);

/* Lists all neighbours of a node, ascending; an absent node has none. Copies their names to the start of `out`
 * if there is room for all; otherwise `out` is unchanged. Writes how many they are to `count`; their names were
 * copied if `count` is at most `room`. Takes no memory. Costs the node's degree.
 * DONE; NO_SESSION; BAD_ARGUMENT. If the status is not DONE, `out` is unchanged. */
uint32_t rudekpi_neighbours(struct rudekpi_slot *slot, uint32_t node, uint32_t *out, size_t room, size_t *count);

/* Like rudekpi_neighbours, for all nodes that are present. Looks at each name.
 * DONE; NO_MEMORY; NO_SESSION. */
uint32_t rudekpi_nodes(struct rudekpi_slot *slot, uint32_t *out, size_t room, size_t *count);

/* Like rudekpi_neighbours, for all nodes that are not at rest: only these may move before the next edit or
 * fault. Looks at each name, and at the neighbours of nodes that point nowhere.
 * DONE; NO_MEMORY; NO_SESSION. */
uint32_t rudekpi_restless(struct rudekpi_slot *slot, uint32_t *out, size_t room, size_t *count);

/* Like rudekpi_neighbours, for all edges, as rows: `node` is the lower end, `other` the higher end, `rule` is 0.
 * The rows ascend by lower end, then by higher end. Looks at all names and edges.
 * DONE; NO_MEMORY; NO_SESSION. */
uint32_t rudekpi_edges(struct rudekpi_slot *slot, struct rudekpi_row *out, size_t room, size_t *count);

/* Writes how many moves can still come before the next accepted edit or fault, whatever the daemon chooses:
 * 0 if no rule is enabled, else at most the charge, and under RUDEKPI_HSU_HUANG also at most n*n/2 + n - 2
 * among n nodes, the half rounded down. Looks at what has changed since the last such call or `status`.
 * DONE; NO_SESSION. */
uint32_t rudekpi_moves_left(struct rudekpi_slot *slot, uint32_t *moves);

/* Counts rounds from here on, or from here anew. A round is the shortest part of a run after which each node
 * that was enabled at its start has moved, or was not enabled in some state since. From then on a step costs
 * a look or two more at each mover and at each node that it disables. A round's first step also copies the set
 * of enabled nodes, 64 names at a time. Takes some nine kilobytes. A resumed session counts no rounds before
 * this call; renumbering changes no count.
 * DONE; NO_MEMORY: nothing changed; NO_SESSION. */
uint32_t rudekpi_count_rounds(struct rudekpi_slot *slot);

/* Writes how many rounds are complete since the last accepted edit or fault, or since counting began. Constant
 * time. DONE; NOT_COUNTED; NO_SESSION. */
uint32_t rudekpi_rounds(struct rudekpi_slot *slot, uint32_t *rounds);

/* Writes how many rounds can still be completed before the next accepted edit or fault, whatever the daemon
 * chooses: 0 if no rule is enabled, and at most what rudekpi_moves_left writes. Of n nodes, those complete and
 * those left are together at most n under RUDEKPI_HSU_HUANG, and 2n under RUDEKPI_MANNE, or 2n - 1 if n is odd.
 * Costs what rudekpi_moves_left costs. DONE; NOT_COUNTED; NO_SESSION. */
uint32_t rudekpi_rounds_left(struct rudekpi_slot *slot, uint32_t *left);

/* The verdict of an audit. */
struct rudekpi_verdict {
    uint32_t kind;    /* one of the following */
    uint32_t entries; /* of a transcript: its entries, epochs and moves; otherwise 0 */
    uint32_t epochs;
    uint64_t moves;
    uint64_t line;    /* of other bytes: the number of the first wrong line, from 1; otherwise 0 */
};
enum {
    RUDEKPI_ACCEPTED = 0,       /* the transcript of a run of the rules */
    RUDEKPI_BAD_HEADER = 1,     /* the first line begins neither a header nor a base */
    RUDEKPI_NOT_A_LINE = 2,     /* the line is no line of a transcript */
    RUDEKPI_OUT_OF_ORDER = 3,   /* the line does not have the next number */
    RUDEKPI_NOT_THE_REPLY = 4,  /* the rules give another reply */
    RUDEKPI_BAD_BASE = 5,       /* the base at this point has another line here */
    RUDEKPI_UNJUDGED = 6        /* memory ran out: the bytes were not judged */
};

/* Judges bytes without the engine that writes transcripts: accepts exactly the transcripts of runs, and names
 * the first damage of all other bytes. Costs what the program's `audit` costs. Uses no slot, so any thread may
 * call it. */
void rudekpi_audit(const uint8_t *bytes, size_t length, struct rudekpi_verdict *verdict);

/* Joins the verdicts of two texts that meet: the first text ends with all lines of a base, and the next text
 * begins with the same lines. The joined text has that base once. The first text may lack that base if it is a
 * transcript, and the next begins with the base at the end of its run, as a session's text does after
 * rudekpi_session_resume: then the joined text is both, one after the other. `verdict` is that of the first
 * text, and becomes what rudekpi_audit says of the joined text:
 * - accepted exactly if both texts are: with the sums of entries and moves, and the sum of epochs less one;
 * - UNJUDGED if the first is unjudged, or if the first is accepted and the next is unjudged;
 * - otherwise the damage of the first text, or else that of the next, `lines` further on.
 * `lines` is how many lines the first text has before that base: all of them if it lacks the base. Texts that
 * meet in a row are joined in order, two by two, in any grouping. The caller ensures that the texts meet.
 * DONE; BAD_ARGUMENT for a kind above 6, or a sum that its field cannot hold: `verdict` is unchanged. Takes no
 * memory and no slot. */
uint32_t rudekpi_audit_join(struct rudekpi_verdict *verdict, uint64_t lines, const struct rudekpi_verdict *next);

/* A slot for an audit that is fed a transcript piece by piece; the rules for slots apply. */
struct rudekpi_audit_slot {
    void *at;
    bool full;
};

/* Begins an audit and replaces what the slot held. DONE; NO_MEMORY: the slot is empty. */
uint32_t rudekpi_audit_new(struct rudekpi_audit_slot *slot);

/* Feeds the next bytes, cut anywhere. DONE if no damage was found yet; DAMAGED if the bytes so far begin no
 * transcript; NO_MEMORY, after which the audit judges nothing; NO_SESSION. After a status other than DONE each
 * later call returns that status again. The audit keeps only an incomplete line or base. Costs what
 * rudekpi_audit costs for the lines that end in these bytes. */
uint32_t rudekpi_audit_feed(struct rudekpi_audit_slot *slot, const uint8_t *bytes, size_t length);

/* Writes the verdict that rudekpi_audit would give on all bytes fed, and ends the audit. The slot is empty
 * afterwards.
 * DONE; NO_SESSION, with the verdict UNJUDGED. The verdict is UNJUDGED also if memory ran out at this call or
 * before. */
uint32_t rudekpi_audit_finish(struct rudekpi_audit_slot *slot, struct rudekpi_verdict *verdict);

/* Ends the audit without a verdict and frees its memory. The slot may be empty before, and is so after. */
void rudekpi_audit_free(struct rudekpi_audit_slot *slot);

/* The rule of one node, for nodes of your own: docs/LOCAL.md. The calls from here on need no session and take
 * no memory, so any thread may call them at any time.
 *
 * What a node holds of itself, or of a neighbour: names 1 to 65,535, and the registers. */
struct rudekpi_record {
    uint32_t node;
    uint32_t pointer; /* 0 is null */
    bool flag;        /* false under RUDEKPI_HSU_HUANG */
};

/* The move of a node, or the first fault of what the node holds. */
struct rudekpi_local_move {
    uint32_t rule;    /* RUDEKPI_UPDATE to RUDEKPI_ABANDON, RUDEKPI_REPAIR; 0: no rule is enabled */
    uint32_t target;  /* the least allowed target of marry and seduce; else 0 */
    uint32_t pointer; /* the registers to write; those that the node has if no rule is enabled */
    bool flag;
    uint32_t fault;   /* 0, or one of the following */
    uint32_t at;      /* the name that the fault is about, or 0 */
};
enum {
    RUDEKPI_NOT_ASCENDING = 1,     /* this neighbour is not above the one before it: out of order, or listed twice */
    RUDEKPI_OWN_NEIGHBOUR = 2,     /* the node is listed among its own neighbours */
    RUDEKPI_POINTS_AT_ITSELF = 3,  /* this neighbour points at itself */
    RUDEKPI_POINTS_AT_STRANGER = 4 /* the node points at this name, which is no neighbour: of a repair alone */
};
/* No rule of the machine: the node's pointer is at no neighbour, as after a link went, and becomes null. */
enum { RUDEKPI_REPAIR = 5 };

/* Writes what a node does by its rule, from what it holds alone: `own`, and its neighbours' records, ascending
 * by name. In every state of the machine that shows this at the node, `move` is what the machine's step of the
 * node alone does. If no state shows it, `move` has the first fault. If that is the node's pointer at no
 * neighbour, the status is DONE and `move` the repair; else the status is NOT_SHOWN. Whether the neighbours hold
 * the same now is the caller's to ensure, as by locks.
 * DONE; NOT_SHOWN; BAD_ARGUMENT for unknown rules, or a number out of range: all fields of `move` are then 0.
 * Some passes over the neighbours. */
uint32_t rudekpi_local_rule(uint32_t rules, const struct rudekpi_record *own, const struct rudekpi_record *neighbours,
                            size_t length, struct rudekpi_local_move *move);

/* Writes whether the machine may move the node by this rule, to this target: marry and seduce have a target,
 * and for the others it is 0.
 * DONE; NOT_SHOWN, also if the node needs a repair; BAD_ARGUMENT also for an unknown rule. `may` is false if the
 * status is not DONE. */
uint32_t rudekpi_may_move(uint32_t rules, const struct rudekpi_record *own, const struct rudekpi_record *neighbours,
                          size_t length, uint32_t rule, uint32_t target, bool *may);

/* The text of a status, in ASCII; "unknown" for an unknown number. */
static inline const char *rudekpi_status_text(uint32_t status) {
    static const char *const texts[] = {"done",       "not a command", "the log is full", "memory was refused",
                                        "no session", "bad argument",  "refused",         "no transcript",
                                        "not silent", "shown by no state", "not counted"};
    return status < sizeof texts / sizeof *texts ? texts[status] : "unknown";
}

/* The word for a refusal in a transcript; "unknown" for an unknown number. */
static inline const char *rudekpi_refusal_text(uint32_t refusal) {
    static const char *const texts[] = {"unknown",      "unknown-node",   "self-loop",    "already-linked",
                                        "not-linked",   "too-many-edges", "not-neighbour", "no-flag",
                                        "empty-choice", "not-central",    "chosen-twice", "not-enabled",
                                        "bad-target",   "already-present"};
    return refusal < sizeof texts / sizeof *texts ? texts[refusal] : "unknown";
}

/* The word for a rule in a transcript; "unknown" for an unknown number. */
static inline const char *rudekpi_rule_text(uint32_t rule) {
    static const char *const texts[] = {"unknown", "update", "marry", "seduce", "abandon"};
    return rule < sizeof texts / sizeof *texts ? texts[rule] : "unknown";
}

/* The text of a fault of what a node holds; "unknown" for an unknown number. */
static inline const char *rudekpi_view_fault_text(uint32_t fault) {
    static const char *const texts[] = {"unknown", "the neighbours are not ascending by name, each once",
                                        "the node is among its own neighbours", "a neighbour points at itself",
                                        "the node points at a name that is no neighbour"};
    return fault < sizeof texts / sizeof *texts ? texts[fault] : "unknown";
}

/* A verdict in the words of the program's `audit`; "unknown" for an unknown number. */
static inline const char *rudekpi_verdict_text(uint32_t kind) {
    static const char *const texts[] = {"accepted",
                                        "bad header",
                                        "not a transcript line",
                                        "out of order",
                                        "not the machine's reply",
                                        "bad base",
                                        "unjudged"};
    return kind < sizeof texts / sizeof *texts ? texts[kind] : "unknown";
}

#ifdef __cplusplus
}
#endif

#endif
