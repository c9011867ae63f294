/* Lists the entries of a rule, decides a few, one of them with little room, tries the course of each that has one, and a course that is
 * refused; then builds the nodes of a rule once and searches them with little room, with more, and for another rule; then decides safety
 * rules with room for nodes alone; then looks rules up in two sheets; then decides sheets of rules at once, one of which can be met and one
 * of which clashes; then replaces entries of a rule that cannot be met. Each answer is asked for a refusal before it is taken apart. */
#include "../include/yuktrob.h"
#include <stdio.h>

enum { NODES = 256, PROFILES = 300 };

static uint8_t work[YUKTROB_WORK_LEN(NODES, PROFILES)];
static uint16_t course[YUKTROB_COURSE_LEN(NODES, PROFILES)];

static void print_refusal(uint64_t answer) {
    printf("refused %u", yuktrob_refusal(answer));
    if (yuktrob_has_place(answer)) printf(" at byte %u", yuktrob_place(answer));
    if (yuktrob_has_fixpoint(answer)) printf(", for the fixpoint at byte %u", yuktrob_fixpoint(answer));
    printf("\n");
}

/* Each entry: its command, its argument, the entry after its last. */
static void list(const uint8_t *rule, size_t rule_len) {
    uint64_t answer = yuktrob_read(rule, rule_len);
    if (yuktrob_refusal(answer)) {
        print_refusal(answer);
        return;
    }
    for (size_t e = 0; e < yuktrob_entry_count(answer); e++) {
        uint64_t entry = yuktrob_entry(rule, rule_len, e);
        printf("entry %u: %02x %u %u\n", (unsigned)e, yuktrob_command(entry), yuktrob_argument(entry), yuktrob_end(entry));
    }
}

static void print_sizes(uint64_t answer) {
    printf("MET, lead-in %u, loop %u, K %u", yuktrob_lead_len(answer), yuktrob_loop_len(answer), yuktrob_nodes(answer));
}

static void print_course(uint64_t answer) {
    unsigned n = yuktrob_lead_len(answer) + yuktrob_loop_len(answer);
    for (unsigned i = 0; i < n; i++) printf(" %04x", (unsigned)course[i]);
    printf("\n");
}

/* Whether the rule is true on a course of n places. */
static void try_course(const uint8_t *rule, size_t rule_len, const uint16_t *places, size_t n, size_t lead_len) {
    static uint64_t words[YUKTROB_WORDS_LEN(YUKTROB_COURSE_LEN(NODES, PROFILES))];
    uint64_t answer = yuktrob_truth(rule, rule_len, places, n, lead_len, words, sizeof words / sizeof words[0]);
    if (yuktrob_refusal(answer)) {
        print_refusal(answer);
    } else {
        printf("%s on it\n", yuktrob_is_true(answer) ? "true" : "false");
    }
}

/* A course from the previous scale to the current one, and one with a place that has neither. */
static void try_scales(const uint8_t *rule, size_t rule_len) {
    const uint16_t handover[] = {YUKTROB_PREVIOUS_SCALE, YUKTROB_CURRENT_SCALE};
    const uint16_t no_flag[] = {YUKTROB_CURRENT_SCALE, 0x0000};
    try_course(rule, rule_len, handover, 2, 1);
    try_course(rule, rule_len, no_flag, 2, 1);
}

/* What a decision or a search answered. */
static void print_verdict(uint64_t answer, const uint8_t *rule, size_t rule_len) {
    if (yuktrob_refusal(answer)) {
        print_refusal(answer);
    } else if (yuktrob_is_met(answer)) {
        size_t lead_len = yuktrob_lead_len(answer);
        print_sizes(answer);
        printf(", profiles up to the loop's length %u:", yuktrob_profiles(answer));
        print_course(answer);
        try_course(rule, rule_len, course, lead_len + yuktrob_loop_len(answer), lead_len);
    } else {
        printf("NOT, K %u, P %u\n", yuktrob_nodes(answer), yuktrob_profiles(answer));
    }
}

/* The decision with room for so many profiles, PROFILES at most. */
static void decide_within(size_t profiles, const uint8_t *rule, size_t rule_len) {
    uint64_t answer =
        yuktrob_decide(rule, rule_len, NODES, profiles, work, sizeof work, course, sizeof course / sizeof course[0]);
    print_verdict(answer, rule, rule_len);
}

static void decide(const uint8_t *rule, size_t rule_len) { decide_within(PROFILES, rule, rule_len); }

/* Builds the nodes of a rule in the work area and prints each as a word: how many there are. */
static size_t build(const uint8_t *rule, size_t rule_len) {
    uint64_t answer = yuktrob_build(rule, rule_len, NODES, work, sizeof work);
    if (yuktrob_refusal(answer)) {
        print_refusal(answer);
        return 0;
    }
    printf("K %u:", yuktrob_built(answer));
    for (size_t i = 0; i < yuktrob_built(answer); i++) {
        uint64_t node = 0;
        for (size_t j = 8; j > 0; j--) node = node << 8 | work[YUKTROB_NODES_LEN(i) + j - 1];
        printf(" %llx", (unsigned long long)node);
    }
    printf("\n");
    return yuktrob_built(answer);
}

/* The search over the nodes in the work area, with room for so many profiles, PROFILES at most. */
static void search_within(size_t profiles, size_t built, const uint8_t *rule, size_t rule_len) {
    size_t places = sizeof course / sizeof course[0];
    uint64_t answer = yuktrob_search(rule, rule_len, built, NODES, profiles, work, sizeof work, course, places);
    print_verdict(answer, rule, rule_len);
}

/* The decision of a safety rule, with room for so many nodes, NODES at most, in areas that are just as long. */
static void decide_safety(size_t nodes, const uint8_t *rule, size_t rule_len) {
    uint64_t answer = yuktrob_decide_safety(rule, rule_len, nodes, work, YUKTROB_NODES_LEN(nodes), course, nodes);
    if (yuktrob_refusal(answer)) {
        print_refusal(answer);
    } else if (yuktrob_is_met(answer)) {
        size_t lead_len = yuktrob_lead_len(answer);
        print_sizes(answer);
        printf(":");
        print_course(answer);
        try_course(rule, rule_len, course, lead_len + yuktrob_loop_len(answer), lead_len);
    } else {
        printf("NOT, K %u\n", yuktrob_nodes(answer));
    }
}

/* Looks a rule up, and decides what is found where it stands. */
static void look_up(const uint8_t *dealer, size_t dealer_len, const uint8_t *factory, size_t factory_len, uint16_t number) {
    size_t start, size;
    uint64_t answer = yuktrob_lookup(dealer, dealer_len, factory, factory_len, number, &start, &size);
    int is_dealers = yuktrob_sheet(answer) == YUKTROB_DEALER;
    const char *whose = is_dealers ? "dealer's" : "factory's";
    if (yuktrob_refusal(answer) == 30) {
        printf("refused 30 at byte %zu of the %s sheet\n", start, whose);
    } else if (yuktrob_refusal(answer)) {
        print_refusal(answer);
    } else {
        printf("rule %u: %zu bytes of the %s sheet from byte %zu on\n", (unsigned)number, size, whose, start);
        decide((is_dealers ? dealer : factory) + start, size);
    }
}

/* Two rules of the factory's, one of which the dealer overrides; without the dealer's sheet; with either sheet damaged. */
static void look_up_some(void) {
    const uint8_t factory[] = {0x20, 0x07, 0x00, 0x02, 0x03, 0x00, /* rule 7: signal 0 */
                               0x20, 0x2C, 0x01, 0x02, 0x04, 0x01}; /* rule 300: no signal 1 */
    const uint8_t dealer[] = {0x20, 0x07, 0x00, 0x02, 0x03, 0x02}; /* rule 7: signal 2 */
    look_up(dealer, sizeof dealer, factory, sizeof factory, 7);
    look_up(dealer, sizeof dealer, factory, sizeof factory, 300);
    look_up(dealer, sizeof dealer, factory, sizeof factory, 8);
    look_up(dealer, 0, factory, sizeof factory, 7);
    look_up(dealer, sizeof dealer - 1, factory, sizeof factory, 300);
    look_up(dealer, sizeof dealer, factory, sizeof factory - 1, 7);
    look_up(dealer, sizeof dealer, factory + 1, sizeof factory - 1, 7);
}

/* The positions of some rules of a set. */
static void print_rules(unsigned rules) {
    for (unsigned p = 0; p < YUKTROB_MOST_RULES; p++)
        if (rules >> p & 1) printf(" %u", p);
    printf("\n");
}

/* All rules of a sheet at once, with room for so many nodes, NODES at most. */
static void decide_set(size_t nodes, const uint8_t *sheet, size_t sheet_len) {
    size_t places = sizeof course / sizeof course[0], place;
    uint64_t answer = yuktrob_decide_set(sheet, sheet_len, nodes, PROFILES, work, sizeof work, course, places, &place);
    if (yuktrob_refusal(answer) == 30) {
        printf("refused 30 at byte %zu\n", place);
    } else if (yuktrob_refusal(answer) == 35) {
        printf("refused 35 for the rules at");
        print_rules(yuktrob_tried(answer));
    } else if (yuktrob_refusal(answer)) {
        if (yuktrob_has_place(answer)) printf("the rule at %u: ", yuktrob_position(answer));
        print_refusal(answer);
    } else if (yuktrob_is_met(answer)) {
        print_sizes(answer);
        printf(":");
        print_course(answer);
    } else {
        printf("NOT, K %u, P %u, clashing:", yuktrob_nodes(answer), yuktrob_profiles(answer));
        print_rules(yuktrob_clash(answer));
    }
}

/* A handover file of four rules, of which the first and the last clash; without its last rule; and what is refused. */
static void decide_sets(void) {
    const uint8_t handover[] = {0x20, 0x0A, 0x00, 0x02, 0x03, 0x01, /* rule 10: the change is announced */
                                0x20, 0x14, 0x00, 0x03, 0x08, 0x03, 0x00, /* rule 20: at the next place the revision changes */
                                0x20, 0x1E, 0x00, 0x07, 0x0A, 0x07, 0x04, 0x0E, 0x08, 0x05, 0x00, /* rule 30: never the previous scale */
                                0x20, 0x2C, 0x01, 0x07, 0x0A, 0x07, 0x04, 0x01, 0x08, 0x05, 0x00}; /* rule 300: never an announcement */
    const uint8_t unguarded[] = {0x20, 0x0A, 0x00, 0x01, 0x01, 0x20, 0x14, 0x00, 0x03, 0x09, 0x05, 0x00}; /* rule 20 lacks a next */
    decide_set(NODES, handover, sizeof handover);
    decide_set(NODES, handover, sizeof handover - 11);
    decide_set(2, handover, sizeof handover);
    decide_set(NODES, handover, sizeof handover - 1);
    decide_set(NODES, handover, 0);
    decide_set(NODES, unguarded, sizeof unguarded);
    decide_set(0, handover, sizeof handover);
}

/* The entries of a table: command, argument, length. */
static void print_table(const uint8_t *table) {
    printf("entries:");
    for (size_t e = 0; e < yuktrob_table_count(table); e++)
        printf(" %02x/%u/%u", yuktrob_table_command(table, e), yuktrob_table_argument(table, e), yuktrob_table_length(table, e));
    printf("\n");
}

/* Puts a rule in place of an entry, and decides what comes of it. */
static void edit(const uint8_t *old_rule, size_t old_len, size_t e, const uint8_t *new_rule, size_t new_len) {
    static const char *const whose[] = {"old", "new", "spliced"};
    uint8_t spliced[YUKTROB_SPLICED_LEN], table[YUKTROB_TABLE_LEN];
    uint64_t answer = yuktrob_edit(old_rule, old_len, e, new_rule, new_len, spliced, table);
    if (yuktrob_refusal(answer)) {
        if (yuktrob_has_place(answer)) printf("the %s rule: ", whose[yuktrob_source(answer)]);
        print_refusal(answer);
        print_table(table);
        return;
    }
    printf("edited, bytes %u, entries %u:", yuktrob_edited_len(answer), yuktrob_edited_count(answer));
    for (size_t i = 0; i < yuktrob_edited_len(answer); i++) printf(" %02x", spliced[i]);
    printf("\n");
    print_table(table);
    decide(spliced, yuktrob_edited_len(answer));
}

/* Sooner or later the revision changes, and it never does: the second is mended, or the whole replaced; and what is refused. */
static void edit_some(void) {
    const uint8_t clashing[] = {0x07, 0x09, 0x06, 0x03, 0x00, 0x08, 0x05, 0x00, 0x0A, 0x07, 0x04, 0x00, 0x08, 0x05, 0x00};
    const uint8_t until[] = {0x0A, 0x06, 0x03, 0x01, 0x07, 0x04, 0x00, 0x08, 0x05, 0x00}; /* no change until it is announced */
    const uint8_t later[] = {0x08, 0x08, 0x08, 0x08, 0x08, 0x08, 0x08, 0x08, 0x08, 0x08, 0x08, 0x03, 0x01}; /* announced 11 places on */
    const uint8_t unguarded[] = {0x09, 0x05, 0x00};
    decide(clashing, sizeof clashing);
    edit(clashing, sizeof clashing, 6, until, sizeof until);
    edit(clashing, sizeof clashing, 0, until + 2, 2);
    edit(clashing, sizeof clashing - 1, 6, until, sizeof until);
    edit(clashing, sizeof clashing, 6, unguarded, sizeof unguarded);
    edit(clashing, sizeof clashing, 11, until, sizeof until);
    edit(clashing, sizeof clashing, 8, later, sizeof later);
}

int main(void) {
    const uint8_t eventually[] = {0x09, 0x06, 0x03, 0x00, 0x08, 0x05, 0x00}; /* sooner or later signal 0 */
    const uint8_t either[] = {0x06, 0x03, 0x01, 0x03, 0x00}; /* signal 1 or signal 0: two courses as short, the left one is given */
    const uint8_t never[] = {0x02};
    const uint8_t unguarded[] = {0x09, 0x05, 0x00};
    const uint8_t next_outside[] = {0x08, 0x09, 0x05, 0x00};
    const uint8_t unfinished[] = {0x06, 0x01};
    const uint8_t often[] = {0x0A, 0x07, 0x09, 0x06, 0x03, 0x00, 0x08, 0x05, 0x00, 0x08, 0x05, 0x00}; /* infinitely often signal 0 */
    const uint8_t never_previous[] = {0x0A, 0x07, 0x04, 0x0E, 0x08, 0x05, 0x00}; /* always signal 14 absent */
    /* signal 0 at every second place and signal 1 at every third */
    const uint8_t by_turns[] = {0x07, 0x0A, 0x07, 0x03, 0x00, 0x08, 0x08, 0x05, 0x00,
                                0x0A, 0x07, 0x03, 0x01, 0x08, 0x08, 0x08, 0x05, 0x00};
    list(eventually, sizeof eventually);
    list(unguarded, sizeof unguarded);
    decide(eventually, sizeof eventually);
    decide(either, sizeof either);
    decide(never, sizeof never);
    decide(unguarded, sizeof unguarded);
    decide(next_outside, sizeof next_outside);
    decide(unfinished, sizeof unfinished);
    decide_within(4, often, sizeof often);
    decide_within(3, often, sizeof often);
    decide(never_previous, sizeof never_previous);
    try_scales(never_previous, sizeof never_previous);
    size_t built = build(often, sizeof often);
    search_within(3, built, often, sizeof often);
    search_within(4, built, often, sizeof often);
    search_within(4, built, eventually, sizeof eventually);
    build(unguarded, sizeof unguarded);
    decide_safety(NODES, by_turns, sizeof by_turns);
    decide_safety(6, by_turns, sizeof by_turns);
    decide_safety(NODES, never_previous, sizeof never_previous);
    decide_safety(NODES, never, sizeof never);
    decide_safety(NODES, often, sizeof often);
    decide_safety(NODES, unguarded, sizeof unguarded);
    look_up_some();
    decide_sets();
    edit_some();
    return 0;
}
