/* Rules of tractor-guidance terminals: reading, truth on a repeating course, and the decision, at once or in two: building and search;
 * that of safety rules, which takes no profiles; the lookup of a rule by its number, in a dealer's sheet before the factory's; the decision
 * whether one course meets all rules of a sheet; and a rule with one of its entries replaced.
 *
 * Each function answers one number. Its lowest byte is the number of a refusal, or 0; what the answer carries stands above it:
 *   reading    accepted: the number of entries; refused 1 to 9: its places
 *   entry      accepted: 8 bits each for the command, its argument and the entry after its last, the first lowest; all 0 if there is no
 *              such entry; refused 1 to 9: its places
 *   truth      told: 1 for true, 0 for false; refused 1 to 9: its places; refused 16 to 19: nothing
 *   decision   1 + 2 * sizes for MET, 2 * sizes for NOT, where sizes has 13 bits each for lead-in length, loop length, nodes and
 *              profiles, the first lowest; refused 1 to 9: its places; refused 11 to 15: nothing
 *   building   built: the number of nodes, K; refused 1 to 9: its places; refused 11, 12 or 14: nothing
 *   search     MET and NOT as the decision has them; refused 1 to 9: its places; refused 11 to 13, 15 or 36: nothing
 *   safety     MET and NOT as the decision has them, the 13 bits of the profiles being 0; refused 1 to 9 or 43: its places; refused 11 to
 *              14: nothing
 *   lookup     found or refused 30: the sheet, 0 for the dealer's, 1 for the factory's; refused 31: nothing
 *   set        MET as the decision has it; NOT too, with the clashing rules in the lowest 8 of the lead-in's bits; refused 1 to 9: its
 *              places, in 16 bits always, and above these the rule's position; refused 35: 8 bits for the rules that were tried; refused
 *              30, 34 or 11 to 13: nothing
 *   edit       edited: 8 bits each for the bytes and for the entries of the spliced rule, the first lowest; refused 1 to 9: its places, in
 *              16 bits always, and above these which rule it speaks of, 0 for the old, 1 for the new, 2 for the spliced one; refused 37:
 *              nothing
 * The places of a refusal are 8 bits for the byte's place and, of 8 alone, 8 bits above them for where the variable's fixpoint begins.
 * Rules of a set are told by their positions in the sheet, from 0 on; of several, bit p is set for the rule at position p.
 * What can be any place in memory does not fit beside a refusal: where a rule or a fault stands in a sheet, the lookup and the decision of
 * a set put into words that the caller lends. docs/FORMULAS.md lists the refusals; later versions may have more. Ask for a refusal before
 * taking an answer apart.
 *
 * No function asks anything of its arguments but that a pointer has as many elements as the length behind it says, or, where no length
 * stands behind it, one, and an edit's spliced and table YUKTROB_SPLICED_LEN and YUKTROB_TABLE_LEN, and that what a function writes
 * overlaps nothing else that it is given. */
#ifndef YUKTROB_H
#define YUKTROB_H

#include <stddef.h>
#include <stdint.h>

/* The most places of a course, and the most nodes and profiles for which room may be asked. */
#define YUKTROB_MOST_PLACES 8192
#define YUKTROB_MOST_NODES 1024
#define YUKTROB_MOST_PROFILES 4096

/* The most rules of a set. */
#define YUKTROB_MOST_RULES 8

/* The most entries of a rule. */
#define YUKTROB_MOST_ENTRIES 48

/* A place of a course has 16 bits, bit j for signal j. Signals 14 and 15 are the scale flags: a heading has the previous revision's scale,
 * or the current one's. Each place has exactly one of these two bits, and any of the others. */
#define YUKTROB_PREVIOUS_SCALE 0x4000u
#define YUKTROB_CURRENT_SCALE 0x8000u

/* The two sheets of a lookup. */
#define YUKTROB_DEALER 0
#define YUKTROB_FACTORY 1

/* The three rules that an edit can be refused for: the one that is edited, the one that is to stand in it, and what comes of it. */
#define YUKTROB_OLD 0
#define YUKTROB_NEW 1
#define YUKTROB_SPLICED 2

/* How large the areas must be: the bytes of the work area of building, which are the first ones of a search's, and of a safety rule, whose
 * course buffer has as many places as there is room for nodes; the bytes of the work area and the places of the course buffer of a decision
 * or a search; the words of truth. */
#define YUKTROB_NODES_LEN(nodes) ((size_t)8 * (nodes))
#define YUKTROB_WORK_LEN(nodes, profiles) (YUKTROB_NODES_LEN(nodes) + (size_t)192 * (profiles))
#define YUKTROB_COURSE_LEN(nodes, profiles) ((size_t)(nodes) + (size_t)(profiles))
#define YUKTROB_WORDS_LEN(places) ((size_t)(places))

/* How many bytes an edit writes: for the spliced rule, and for the table, which has three of each entry. */
#define YUKTROB_SPLICED_LEN 97
#define YUKTROB_TABLE_LEN (3 * YUKTROB_MOST_ENTRIES)

#ifdef __cplusplus
extern "C" {
#endif

/* Reads a rule: how many entries it has. */
uint64_t yuktrob_read(const uint8_t *rule, size_t rule_len);

/* Entry e of a rule. The argument is a signal's number for signal present and absent, the entry of its fixpoint for a variable, the second
 * operand for or and and, else 0. A first operand is the entry after its command. */
uint64_t yuktrob_entry(const uint8_t *rule, size_t rule_len, size_t e);

/* Is a rule true on a course, whose loop is what stands behind the lead-in? Told, word i has the bits of the entries that are true at place
 * i, and later words keep what they had; refused, no word is written. A course with any place that has both scale flags or neither is
 * refused with 19, which is asked behind 17 and before 18. */
uint64_t yuktrob_truth(const uint8_t *rule, size_t rule_len, const uint16_t *places, size_t places_len, size_t lead_len, uint64_t *words,
                       size_t words_len);

/* Whether any course meets a rule, with room for so many nodes and profiles. If some course does, room is needed for the profiles of runs
 * of at most as many steps as the shortest good loop has, and otherwise for all profiles; 15 says that there is less. More room changes
 * neither MET nor NOT, nor its numbers, nor the course. After MET the buffer begins with the course; the rest of it, and all of it after
 * any other answer, is unchanged. After MET, NOT, 14 and 15 the first YUKTROB_WORK_LEN(nodes, profiles) bytes of the work area are zero;
 * otherwise the work area is unchanged.
 *
 * The rule alone settles the course. The loop has as few places as any good loop, the lead-in as few as any from the root to a loop so
 * short, and of the courses left it is the first by pick words: from the first step of the lead-in to the last of the loop these are
 * compared one after another, as numbers. Bit j of a step's pick word says what the step picks at or number j, the ors being numbered from
 * 0 as they begin in the rule: 1 for the right operand, 0 for the left one and where the step does not meet that or. So left comes before
 * right, and where several ors differ the last of them decides. */
uint64_t yuktrob_decide(const uint8_t *rule, size_t rule_len, size_t nodes, size_t profiles, uint8_t *work, size_t work_len,
                        uint16_t *course, size_t course_len);

/* Builds the nodes of a rule's graph, with room for so many, to be searched as often as need be. The first YUKTROB_NODES_LEN(nodes) bytes
 * of the work area then have the nodes: eight bytes each, the lowest first, bit e for entry e, and zeros behind the last. The root comes
 * first, and the others stand in the order in which they are first come to, breadth first, a node's steps by rising pick word. After 14,
 * which says that there are more nodes, these bytes are zero; after any other refusal they are unchanged. The bytes behind them are
 * unchanged always, and 12 does not ask for them. */
uint64_t yuktrob_build(const uint8_t *rule, size_t rule_len, size_t nodes, uint8_t *work, size_t work_len);

/* The decision over nodes that are built: built is K as building answered it, and the work area begins with the YUKTROB_NODES_LEN(nodes)
 * bytes that it left, in their place or copied to a larger area, with anything behind them. The answer and the course are those of
 * yuktrob_decide with the same room, and a search that is refused with 15 can be repeated over the same nodes with more profiles.
 *
 * 36, which is asked behind 13 and before 15, says that built or these bytes are not what building with so many nodes leaves for this rule:
 * they are another rule's, or have been changed, or the rule has more nodes than that. After MET, NOT and 15 the nodes are unchanged, and
 * the bytes behind them, up to YUKTROB_WORK_LEN(nodes, profiles), are zero; otherwise the work area is unchanged. The course buffer is
 * written by MET alone, and then begins with the course. */
uint64_t yuktrob_search(const uint8_t *rule, size_t rule_len, size_t built, size_t nodes, size_t profiles, uint8_t *work, size_t work_len,
                        uint16_t *course, size_t course_len);

/* The decision of a safety rule, which has greatest fixpoints alone, with room for so many nodes. Such a rule has no bad loop, so there are
 * no profiles to find room for, and no 15. The work area needs YUKTROB_NODES_LEN(nodes) bytes, the course buffer nodes places. The answer
 * and the course are those of yuktrob_decide with as many nodes, wherever that has room for the profiles that it needs; lead-in and loop
 * together have at most K places. More room changes nothing. The call takes some 150,000 bytes of the stack.
 *
 * 43, which is asked behind reading and before 11, says that the rule has a least fixpoint, and has the place of the first one's byte 09.
 * After MET, NOT and 14 the first YUKTROB_NODES_LEN(nodes) bytes of the work area are zero; otherwise the work area is unchanged. The
 * course buffer is written by MET alone, and then begins with the course. */
uint64_t yuktrob_decide_safety(const uint8_t *rule, size_t rule_len, size_t nodes, uint8_t *work, size_t work_len, uint16_t *course,
                               size_t course_len);

/* Looks up the rule of a number: the dealer's, if that sheet has one, and otherwise the factory's. The rule is handed back as a part of the
 * sheet that has it, of *size bytes from byte *start on; these may be any bytes, or none. Nothing is copied.
 *
 * A sheet has one record behind another, or none. A record is the byte 20, the rule's number in two bytes, the lower one first, a byte that
 * says how many bytes the rule has, and these. Each number is larger than that of the record before. Both sheets are gone through to the
 * end. 30 says that one of them is not laid out so, the dealer's if neither is; it is answered whatever number is looked for, and for the
 * factory's sheet also where the dealer's has the rule. *start is then the first place where something is wrong: that of a byte that should
 * open a record and is not 20, or of the lower byte of a number that does not rise, or, where the last record lacks bytes, the sheet's
 * length. 31, which is asked behind 30, says that neither sheet has the number; *start is then 0. *size is 0 after either. Both words are
 * written always. */
uint64_t yuktrob_lookup(const uint8_t *dealer, size_t dealer_len, const uint8_t *factory, size_t factory_len, uint16_t number,
                        size_t *start, size_t *size);

/* Whether one course meets all rules of a sheet, one to eight of them, with room for so many nodes and profiles. The sheet is laid out as
 * for a lookup; a rule's position is how many stand before it, whatever its number is. It is decided as yuktrob_decide decides the rules'
 * conjunction, the first and (the second and (the third ..)): with its areas, its MET and its course, and with the K and P of its NOT. NOT
 * also has the clashing rules: no course meets these, and without any one of them some course does. Of several such subsets it is the one
 * that is left if, from the last rule to the first, each is left out for good where the others that are left still cannot be met.
 *
 * The questions, in this order: 30 says that the sheet is damaged, and *place is then the first place where something is wrong, as the
 * lookup's *start is; 34 that it has no rules or more than YUKTROB_MOST_RULES; 1 to 9 are what reading says of the first rule that it
 * refuses; 11 to 13 are the decision's; 35 says that some rules, all of them or what leaving out has left, could not be decided: as one
 * rule they are refused with 3 or 4, or there is no room, 14 or 15. *place is written always, and is 0 but after 30.
 *
 * After MET, NOT, and 35 through 14 or 15 the first YUKTROB_WORK_LEN(nodes, profiles) bytes of the work area are zero; otherwise, after 35
 * through 3 or 4 too, the work area is unchanged. The course buffer is written by MET alone, and then begins with the course. */
uint64_t yuktrob_decide_set(const uint8_t *sheet, size_t sheet_len, size_t nodes, size_t profiles, uint8_t *work, size_t work_len,
                            uint16_t *course, size_t course_len, size_t *place);

/* Puts a rule in place of entry e of another. The spliced rule has the old rule's bytes, with the new rule's for those of entry e, from its
 * command to the end of its last operand; if that is not refused it can be decided like any other. The table has its entries, as reading it
 * gives them: byte e is the command of entry e, byte 48 + e its argument, as yuktrob_entry has it but 0 for or and and, and byte 96 + e its
 * length, which is how many commands it has: entry e holds the entries from e up to e plus its length. Entries before e keep command and
 * argument, and their length but where they hold e. The new rule's entries come next, with e added to the number of each and to that of a
 * variable's fixpoint, and what was behind entry e follows them.
 *
 * The questions, in this order: 1 to 9 are what reading says of the old rule, and then what it says of the new one, which has to be a rule
 * by itself, so that its variables name no fixpoint of the old one; 37 says that the old rule has no entry e; 3 and 4 are what reading says
 * of the spliced rule, which can have no other fault.
 *
 * Both areas are written whole, always. Edited, spliced begins with the spliced rule, with zeros behind it; refused, it is all zeros. The
 * table is the spliced rule's or, refused, the old one's, with zeros behind the last entry; where the old rule is refused, all is zero. */
uint64_t yuktrob_edit(const uint8_t *old_rule, size_t old_len, size_t e, const uint8_t *new_rule, size_t new_len, uint8_t *spliced,
                      uint8_t *table);

/* Taking an answer apart. Every answer: the refusal's number, or 0; whether the answer has a byte's place, as 1 to 9 and 43 have it (that
 * of 30 is in the word *start or *place, and not in the answer); and the place. Then whether it has a fixpoint's place too, which 8 alone
 * has; and that place. */
static inline unsigned yuktrob_refusal(uint64_t answer) { return (unsigned)(answer & 255); }
static inline int yuktrob_has_place(uint64_t answer) {
    return (1 <= yuktrob_refusal(answer) && yuktrob_refusal(answer) <= 9) || yuktrob_refusal(answer) == 43;
}
static inline unsigned yuktrob_place(uint64_t answer) { return (unsigned)(answer >> 8 & 255); }
static inline int yuktrob_has_fixpoint(uint64_t answer) { return yuktrob_refusal(answer) == 8; }
static inline unsigned yuktrob_fixpoint(uint64_t answer) { return (unsigned)(answer >> 16 & 255); }

/* Reading, not refused. */
static inline unsigned yuktrob_entry_count(uint64_t answer) { return (unsigned)(answer >> 8); }

/* An entry, not refused: the command is 0 if there is no such entry. */
static inline unsigned yuktrob_command(uint64_t answer) { return (unsigned)(answer >> 8 & 255); }
static inline unsigned yuktrob_argument(uint64_t answer) { return (unsigned)(answer >> 16 & 255); }
static inline unsigned yuktrob_end(uint64_t answer) { return (unsigned)(answer >> 24 & 255); }

/* Truth, not refused. */
static inline int yuktrob_is_true(uint64_t answer) { return (answer & 255) == 0 && answer >> 8 == 1; }

/* Building, not refused: K. */
static inline unsigned yuktrob_built(uint64_t answer) { return (unsigned)(answer >> 8); }

/* A decision or a search, of a set too, not refused; the lengths are 0 after NOT, but of a set the lead-in's bits have the clash then. The
 * nodes are K. After NOT the profiles are P; after MET they are those of runs of at most as many steps as the loop has; of a safety rule's
 * decision they are 0 and say nothing. */
static inline int yuktrob_is_met(uint64_t answer) { return (answer & 255) == 0 && (answer >> 8 & 1) == 1; }
static inline unsigned yuktrob_lead_len(uint64_t answer) { return (unsigned)(answer >> 9 & 8191); }
static inline unsigned yuktrob_loop_len(uint64_t answer) { return (unsigned)(answer >> 22 & 8191); }
static inline unsigned yuktrob_nodes(uint64_t answer) { return (unsigned)(answer >> 35 & 8191); }
static inline unsigned yuktrob_profiles(uint64_t answer) { return (unsigned)(answer >> 48 & 8191); }

/* A lookup, found or refused with 30: YUKTROB_DEALER or YUKTROB_FACTORY. */
static inline unsigned yuktrob_sheet(uint64_t answer) { return (unsigned)(answer >> 8); }

/* A set. After NOT: the rules that clash. Refused with 1 to 9: the position of that rule. Refused with 35: the rules that were tried. */
static inline unsigned yuktrob_clash(uint64_t answer) { return (unsigned)(answer >> 9 & 255); }
static inline unsigned yuktrob_position(uint64_t answer) { return (unsigned)(answer >> 24); }
static inline unsigned yuktrob_tried(uint64_t answer) { return (unsigned)(answer >> 8 & 255); }

/* An edit, not refused: how many bytes the spliced rule has, and how many entries. Refused with 1 to 9: which rule it speaks of,
 * YUKTROB_OLD, YUKTROB_NEW or YUKTROB_SPLICED, in whose bytes the places are counted. */
static inline unsigned yuktrob_edited_len(uint64_t answer) { return (unsigned)(answer >> 8 & 255); }
static inline unsigned yuktrob_edited_count(uint64_t answer) { return (unsigned)(answer >> 16 & 255); }
static inline unsigned yuktrob_source(uint64_t answer) { return (unsigned)(answer >> 24); }

/* A table: how many entries it has, which is the length of entry 0, or 0 if the old rule was refused; and of entry e, which is less than
 * YUKTROB_MOST_ENTRIES, the command, the argument and the length, all 0 if there is no such entry. */
static inline unsigned yuktrob_table_count(const uint8_t *table) { return table[2 * YUKTROB_MOST_ENTRIES]; }
static inline unsigned yuktrob_table_command(const uint8_t *table, size_t e) { return table[e]; }
static inline unsigned yuktrob_table_argument(const uint8_t *table, size_t e) { return table[YUKTROB_MOST_ENTRIES + e]; }
static inline unsigned yuktrob_table_length(const uint8_t *table, size_t e) { return table[2 * YUKTROB_MOST_ENTRIES + e]; }

#ifdef __cplusplus
}
#endif

#endif
