/* The names of all answers of gz_space.h with their numbers and texts; then the answers and the replies that calls may
   give, met on one thread, with what is held after them. It prints one line for each call, with the number that the
   library answered and the name that the header gives it, so two names that change places there are noticed. */
#include "gz_space.h"

#include <errno.h>
#include <inttypes.h>
#include <stdio.h>

#define PAGE ((uint64_t)GZ_SPACE_PAGE)
#define LIMIT ((uint64_t)GZ_SPACE_LIMIT)
#define HIGHEST (LIMIT * PAGE) /* the first address that is never mapped */

static const uint32_t RW = GZ_SPACE_READ | GZ_SPACE_WRITE, AT = GZ_SPACE_PRIVATE | GZ_SPACE_FIXED;
static gz_space_reply reply;
static gz_space_counts counts = { 1, 1 };

static const char *name_of(uint32_t answer) {
    switch (answer) {
    case GZ_SPACE_DONE: return "DONE";
    case GZ_SPACE_LATER: return "LATER";
    case GZ_SPACE_AT_ONCE: return "AT_ONCE";
    case GZ_SPACE_HOLDS: return "HOLDS";
    case GZ_SPACE_HOLDS_NONE: return "HOLDS_NONE";
    case GZ_SPACE_IS_CLOSED: return "IS_CLOSED";
    case GZ_SPACE_IS_OPEN: return "IS_OPEN";
    case GZ_SPACE_NO_MEMORY: return "NO_MEMORY";
    case GZ_SPACE_BAD_CALLERS: return "BAD_CALLERS";
    case GZ_SPACE_BAD_CUT: return "BAD_CUT";
    case GZ_SPACE_NONE_LEFT: return "NONE_LEFT";
    case GZ_SPACE_BAD_CALL: return "BAD_CALL";
    case GZ_SPACE_SPENT: return "SPENT";
    default: return "no answer";
    }
}

static void names(void) {
    for (uint32_t answer = 0; answer <= GZ_SPACE_SPENT + 1; answer++)
        printf("%2u %-11s %s\n", answer, name_of(answer), gz_space_text((gz_space_answer)answer));
}

static void says(const char *call, uint32_t answer) { printf("%-52s %2u %s\n", call, answer, name_of(answer)); }

static const char *error_of(uint32_t error) {
    switch (error) {
    case EINVAL: return "EINVAL";
    case ENOMEM: return "ENOMEM";
    case EEXIST: return "EEXIST";
    case EPERM: return "EPERM";
    case EFAULT: return "EFAULT";
    default: return "no error";
    }
}

static const char *cause_of(uint32_t cause) {
    static const char *const causes[] = { "none",     "ADDR",   "LEN",  "FLAGS", "END",    "MISSING",
                                          "PAST_END", "NO_GAP", "ROWS", "TAKEN", "SEALED", "OTHER" };
    return cause < sizeof causes / sizeof *causes ? causes[cause] : "no cause";
}

/* A call and what the space replied. */
static void replies(const char *call, uint32_t answer) {
    static const char *const kinds[] = { "NOTHING", "ADDRESS", "ZERO", "GRANTED", "REFUSED", "MAPERR", "ACCERR" };
    says(call, answer);
    printf("    %s", reply.kind <= GZ_SPACE_ACCERR ? kinds[reply.kind] : "no kind");
    if (reply.kind == GZ_SPACE_REFUSED) printf(" %s %s", error_of(reply.error), cause_of(reply.cause));
    if (reply.kind == GZ_SPACE_GRANTED || reply.kind == GZ_SPACE_ACCERR)
        printf(" prot %u shared %u sealed %u", reply.prot, reply.shared, reply.sealed);
    else if (reply.prot || reply.shared || reply.sealed) printf(" with a protection");
    printf(reply.kind == GZ_SPACE_ADDRESS ? " %#" PRIx64 "\n" : " at %" PRIu64 "\n", reply.at);
}

static void looks(const char *whose, const gz_space *handle) {
    gz_space_range held;
    says(whose, gz_space_held(handle, &held));
    printf("    caller %u, %" PRIu64 " to %" PRIu64 ", %s\n", held.caller, held.lo, held.hi,
           held.writer ? "writer" : "reader");
}

/* A look for an area, and what it found. */
static void finds(const char *look, uint32_t answer, gz_space_mapping area) {
    says(look, answer);
    printf("    %s %" PRIu64 " to %" PRIu64 ", prot %u shared %u sealed %u\n", area.mapped ? "area" : "none", area.lo,
           area.hi, area.prot, area.shared, area.sealed);
}

/* A look for areas, with what it counted, and what is then in the first of the places that it was given. */
static void lists(const char *look, uint32_t answer, const gz_space_mapping *areas, size_t shown) {
    says(look, answer);
    printf("    areas %" PRIu64 ", pages %" PRIu64 "%s", counts.areas, counts.pages, shown ? ":" : "");
    for (const gz_space_mapping *at = areas; at < areas + shown; at++)
        printf(" %" PRIu64 " to %" PRIu64 " prot %u%s", at->lo, at->hi, at->prot, at + 1 < areas + shown ? "," : "");
    printf("\n");
}

static void closed_handles(void) {
    gz_space handle = GZ_SPACE_CLOSED, other = GZ_SPACE_CLOSED;
    gz_space_mapping area = { 1, 1, 1, 1, 1, 1 };
    says("share of a closed handle", gz_space_share(&handle, &other));
    replies("map by a closed handle", gz_space_map(&handle, 0, PAGE, RW, AT, &reply));
    replies("fault by a closed handle", gz_space_fault(&handle, 0, GZ_SPACE_READ, &reply));
    replies("bad fault by a closed handle", gz_space_fault(&handle, 0, 3, &reply));
    uint32_t answer = gz_space_area(&handle, HIGHEST, &area);
    finds("area by a closed handle", answer, area);
    area.prot = 7;
    lists("areas by a closed handle", gz_space_areas(&handle, 1, 0, &area, 1, &counts), &area, 1);
    says("done by a closed handle", gz_space_done(&handle));
    looks("what a closed handle holds", &handle);
    says("close of a closed handle", gz_space_close(&handle));
}

static void openings(void) {
    gz_space handle = GZ_SPACE_CLOSED, other = GZ_SPACE_CLOSED, third = GZ_SPACE_CLOSED;
    says("open of no caller", gz_space_open(0, 1, 16, &handle));
    says("open of 17 callers", gz_space_open(17, 1, 16, &handle));
    says("open of no region", gz_space_open(2, 0, 16, &handle));
    says("open of 17 regions", gz_space_open(2, 17, 16, &handle));
    says("open of blocks of 2^63 pages", gz_space_open(2, 7, 63, &handle));
    says("open of no caller in no region", gz_space_open(0, 0, 16, &handle));
    says("open of 2 callers", gz_space_open(2, 7, 62, &handle));
    says("open of an open handle", gz_space_open(0, 1, 16, &handle));
    looks("what it holds", &handle);
    says("share of the second caller", gz_space_share(&handle, &other));
    looks("what that holds", &other);
    says("share into an open handle", gz_space_share(&handle, &other));
    says("share where none is left", gz_space_share(&handle, &third));
    says("share of a handle that was shared", gz_space_share(&other, &third));
    replies("map by the second, which goes on holding", gz_space_map_held(&other, 0x10000, PAGE, RW, AT, &reply));
    looks("what it holds", &other);
    says("end with an open handle to put there", gz_space_end(&other, handle));
    looks("what it holds", &other);
    says("close of it while it holds", gz_space_close(&other));
    replies("fault by the first", gz_space_fault(&handle, 0x10000, GZ_SPACE_READ, &reply));
    says("share of the caller that was closed", gz_space_share(&handle, &third));
    says("close", gz_space_close(&handle));
    says("open of 16 callers in 16 regions", gz_space_open(16, 16, 0, &handle));
    says("share", gz_space_share(&handle, &other));
    replies("map by the first, which goes on holding", gz_space_map_held(&handle, 0x10000, PAGE, RW, AT, &reply));
    says("close of it", gz_space_close(&handle));
    replies("fault by the one that is left", gz_space_fault(&other, 0x10fff, GZ_SPACE_WRITE, &reply));
    looks("what it holds", &other);
    says("close", gz_space_close(&other));
}

/* Which of LATER and AT_ONCE a try is answered, and when, isn't said. */
static const char *outcome(uint32_t answer) {
    return answer == GZ_SPACE_LATER || answer == GZ_SPACE_AT_ONCE ? "refused" : name_of(answer);
}

/* One handle holds pages, and so may make no call; another one's try is refused. */
static void holding(gz_space *a, gz_space *b) {
    const gz_space_call unmap = { .kind = GZ_SPACE_UNMAP, .addr = 0x20000, .len = PAGE };
    uint32_t round = 0;
    says("done without pages", gz_space_done(a));
    replies("map that goes on holding", gz_space_map_held(a, 0x10000, 4 * PAGE, RW, AT, &reply));
    looks("what it holds", a);
    replies("map while pages are held", gz_space_map(a, 0x20000, PAGE, RW, AT, &reply));
    replies("fault while pages are held", gz_space_fault(a, 0x10000, GZ_SPACE_READ, &reply));
    replies("protect of no bytes while pages are held", gz_space_protect(a, 0x10000, 0, 1, &reply));
    replies("bad protect while pages are held", gz_space_protect(a, 0x10000, 0, 8, &reply));
    uint32_t answer = gz_space_try_fault(b, 0x10000, GZ_SPACE_READ, false, false, &reply);
    printf("another's try of a fault: %s\n", outcome(answer));
    answer = gz_space_try(b, &unmap, &round, false, &reply);
    printf("another's try of an unmap: %s\n", outcome(answer));
    says("done", gz_space_done(a));
    says("done once more", gz_space_done(a));
    answer = gz_space_make(b, &unmap, false, &reply);
    replies("another's unmap", answer);
    replies("fault that goes on holding", gz_space_fault_held(a, 0x12345, GZ_SPACE_WRITE, false, &reply));
    looks("what it holds", a);
    replies("another's fault of the page", gz_space_fault(b, 0x12fff, GZ_SPACE_READ, &reply));
    answer = gz_space_try_fault(b, 0x12000, GZ_SPACE_READ, true, false, &reply);
    printf("another's try of it alone: %s\n", outcome(answer));
    replies("another's fault of the next page, alone", gz_space_fault_held(b, 0x13000, GZ_SPACE_EXEC, true, &reply));
    looks("what that holds", b);
    says("done", gz_space_done(b));
    says("done", gz_space_done(a));
    replies("fault of no page that goes on holding", gz_space_fault_held(a, 0x20000, GZ_SPACE_READ, false, &reply));
    looks("what it holds", a);
    says("done", gz_space_done(a));
    replies("refused unmap that goes on holding", gz_space_unmap_held(a, 1, PAGE, &reply));
    says("done", gz_space_done(a));
    replies("refused map that goes on holding",
            gz_space_map_held(a, 0x10000, PAGE, RW, GZ_SPACE_PRIVATE | GZ_SPACE_FIXED_NOREPLACE, &reply));
    looks("what it holds", a);
    says("done", gz_space_done(a));
}

static void bad_calls(gz_space *a) {
    const gz_space_call none = { .kind = 6, .addr = 0x10000, .len = PAGE };
    uint32_t round = 0;
    replies("call of kind 6", gz_space_try(a, &none, &round, false, &reply));
    replies("map with protection 8", gz_space_map(a, 0x10000, PAGE, 8, AT, &reply));
    replies("map with flag 16", gz_space_map(a, 0x10000, PAGE, RW, AT | 16, &reply));
    replies("protect with protection 8", gz_space_protect(a, 0x10000, PAGE, 8, &reply));
    replies("remap with flag 2", gz_space_remap(a, 0x10000, PAGE, PAGE, 2, 0, &reply));
    replies("fault of no access", gz_space_fault(a, 0x10000, 0, &reply));
    replies("fault of two accesses", gz_space_fault(a, 0x10000, RW, &reply));
}

static void maps(gz_space *a) {
    uint32_t hint = GZ_SPACE_PRIVATE, alone = GZ_SPACE_PRIVATE | GZ_SPACE_FIXED_NOREPLACE;
    replies("map of no bytes", gz_space_map(a, 0, 0, RW, hint, &reply));
    replies("map at byte 1", gz_space_map(a, 1, PAGE, RW, AT, &reply));
    replies("map both shared and private", gz_space_map(a, 0, PAGE, RW, 3, &reply));
    replies("map neither shared nor private", gz_space_map(a, 0, PAGE, RW, GZ_SPACE_FIXED, &reply));
    replies("map of the last page", gz_space_map(a, HIGHEST - PAGE, PAGE, RW, AT, &reply));
    replies("map past the last page", gz_space_map(a, HIGHEST - PAGE, PAGE + 1, RW, AT, &reply));
    replies("map of all bytes there are", gz_space_map(a, 0, UINT64_MAX, RW, AT, &reply));
    replies("map of more than is free", gz_space_map(a, 0, HIGHEST, RW, hint, &reply));
    replies("map of what is mapped", gz_space_map(a, 0xf000, 3 * PAGE, RW, alone, &reply));
    replies("map of one byte, anywhere", gz_space_map(a, 0, 1, 0, GZ_SPACE_SHARED, &reply));
    replies("map of a hint below page 16", gz_space_map(a, 0xf000, PAGE, RW, hint, &reply));
    replies("map of a hint in page 32", gz_space_map(a, 0x20fff, PAGE, RW, hint, &reply));
    replies("fault of the last page", gz_space_fault(a, HIGHEST - 1, GZ_SPACE_READ, &reply));
    replies("fault past the last page", gz_space_fault(a, HIGHEST, GZ_SPACE_READ, &reply));
    replies("fault of the last byte there is, held", gz_space_fault_held(a, UINT64_MAX, GZ_SPACE_EXEC, true, &reply));
    says("done", gz_space_done(a));
}

/* Pages 16 to 19 and 32 are mapped as private, readable and writable. */
static void changes(gz_space *a) {
    replies("unmap at byte 1", gz_space_unmap(a, 1, PAGE, &reply));
    replies("unmap of no bytes", gz_space_unmap(a, 0, 0, &reply));
    replies("unmap past the last page", gz_space_unmap(a, 0, HIGHEST + 1, &reply));
    replies("unmap of free pages", gz_space_unmap(a, 0x40000, 0x10000, &reply));
    replies("protect at byte 1", gz_space_protect(a, 1, 0, 0, &reply));
    replies("protect of no bytes", gz_space_protect(a, 0, 0, 0, &reply));
    replies("protect past the last page", gz_space_protect(a, PAGE, HIGHEST, 0, &reply));
    replies("protect over a gap", gz_space_protect(a, 0x12000, 4 * PAGE, 1, &reply));
    replies("protect of page 17", gz_space_protect(a, 0x11000, 1, GZ_SPACE_READ, &reply));
    replies("write of page 17", gz_space_fault(a, 0x11004, GZ_SPACE_WRITE, &reply));
    replies("remap at byte 1", gz_space_remap(a, 1, PAGE, PAGE, 0, 0, &reply));
    replies("remap to no bytes", gz_space_remap(a, 0x10000, PAGE, 0, 0, 0, &reply));
    replies("remap past the last page", gz_space_remap(a, 0, HIGHEST + 1, PAGE, 0, 0, &reply));
    replies("remap of two kinds", gz_space_remap(a, 0x10000, 2 * PAGE, 3 * PAGE, 0, 0, &reply));
    replies("remap that may not move", gz_space_remap(a, 0x10000, PAGE, 3 * PAGE, 0, 0, &reply));
    replies("remap to page 64", gz_space_remap(a, 0x10000, PAGE, 3 * PAGE, GZ_SPACE_MAYMOVE, 0x40000, &reply));
    replies("remap in place", gz_space_remap(a, 0x40000, 3 * PAGE, 4 * PAGE, GZ_SPACE_MAYMOVE, 0, &reply));
    replies("remap to fewer pages", gz_space_remap(a, 0x40000, 4 * PAGE, PAGE, 0, 0, &reply));
    replies("brk of base 0", gz_space_brk(a, 0, 0x40000, &reply));
    replies("brk of a base at byte 1", gz_space_brk(a, 0x40001, 0x40001, &reply));
    replies("brk of a base past the last page", gz_space_brk(a, HIGHEST, HIGHEST, &reply));
    replies("brk that asks", gz_space_brk(a, 0x40000, 0, &reply));
    replies("brk that grows", gz_space_brk(a, 0x40000, 0x42001, &reply));
    replies("brk that asks", gz_space_brk(a, 0x40000, 0, &reply));
    replies("brk past the last page", gz_space_brk(a, 0x40000, UINT64_MAX, &reply));
    replies("brk that shrinks to nothing", gz_space_brk(a, 0x40000, 0x40000, &reply));
}

static void seals(gz_space *a) {
    replies("seal with a flag", gz_space_seal(a, 0x20000, PAGE, 1, &reply));
    replies("seal of no bytes", gz_space_seal(a, 0x20000, 0, 1, &reply));
    replies("seal at byte 1", gz_space_seal(a, 1, PAGE, 0, &reply));
    replies("seal past the last page", gz_space_seal(a, PAGE, HIGHEST, 0, &reply));
    replies("seal over a gap", gz_space_seal(a, 0x20000, 2 * PAGE, 0, &reply));
    replies("seal of page 32", gz_space_seal(a, 0x20000, PAGE, 0, &reply));
    replies("write of it", gz_space_fault(a, 0x20000, GZ_SPACE_WRITE, &reply));
    replies("run of it", gz_space_fault(a, 0x20000, GZ_SPACE_EXEC, &reply));
    replies("unmap of it", gz_space_unmap(a, 0x1f000, 3 * PAGE, &reply));
    replies("map over it", gz_space_map(a, 0x1f000, 3 * PAGE, RW, AT, &reply));
    replies("protect of it", gz_space_protect(a, 0x20000, PAGE, RW, &reply));
    replies("remap of it", gz_space_remap(a, 0x20000, PAGE, PAGE, 0, 0, &reply));
}

/* Looks for areas: by the call that waits, and by single ones, of which each tells the pages for the next. */
static void areas(gz_space *a, gz_space *b) {
    gz_space_mapping area;
    gz_space_pages around = { 0, 0 };
    uint32_t round = 0, answer;
    replies("map of page 98", gz_space_map(a, 98 * PAGE, PAGE, GZ_SPACE_READ, AT, &reply));
    replies("map of pages 99 to 102", gz_space_map(a, 99 * PAGE, 4 * PAGE, RW, AT, &reply));
    replies("map of pages 103 and 104", gz_space_map(a, 103 * PAGE, 2 * PAGE, RW, AT, &reply));
    answer = gz_space_area(a, 100 * PAGE + 1, &area);
    finds("area of page 100", answer, area);
    answer = gz_space_area(a, 98 * PAGE, &area);
    finds("area of page 98", answer, area);
    answer = gz_space_area(a, 97 * PAGE, &area);
    finds("area of page 97", answer, area);
    answer = gz_space_area(a, 0x20000, &area);
    finds("area of page 32", answer, area);
    answer = gz_space_area(a, HIGHEST - 1, &area);
    finds("area of the last page", answer, area);
    answer = gz_space_area(a, HIGHEST, &area);
    finds("area past the last page", answer, area);
    replies("fault that goes on holding", gz_space_fault_held(b, 100 * PAGE, GZ_SPACE_READ, false, &reply));
    answer = gz_space_area(b, 100 * PAGE, &area);
    finds("area by a handle that holds", answer, area);
    for (int look = 1; look <= 3; look++) {
        answer = gz_space_try_area(a, 100, &round, &around, &area);
        finds("another's look at page 100", answer, area);
        printf("    round %u, around %" PRIu64 " to %" PRIu64 "\n", round, around.lo, around.hi);
    }
    says("done", gz_space_done(b));
    replies("fault alone that goes on holding", gz_space_fault_held(b, 104 * PAGE, GZ_SPACE_READ, true, &reply));
    answer = gz_space_try_area(a, 100, &round, &around, &area);
    printf("another's look at page 100: %s\n", outcome(answer));
    says("done", gz_space_done(b));
    looks("what is held", a);
}

/* Lists the areas of spans: all at one moment, each clipped, as many as have room. */
static void spans(gz_space *a, gz_space *b) {
    static const gz_space_mapping untouched = { 7, 7, 7, 7, 7, 7 };
    const gz_space_call unmap = { .kind = GZ_SPACE_UNMAP, .addr = 98 * PAGE, .len = PAGE };
    gz_space_mapping at[3] = { untouched, untouched, untouched };
    uint32_t round = 0;
    lists("areas of pages 98 to 103", gz_space_areas(a, 98, 104, at, 3, &counts), at, 3);
    lists("areas of pages 100 and 101", gz_space_areas(a, 100, 102, at, 3, &counts), at, 1);
    lists("areas of free pages", gz_space_areas(a, 105, 200, at, 3, &counts), at, 1);
    at[0] = at[1] = untouched;
    lists("areas of pages 0 to 199, room for one", gz_space_areas(a, 0, 200, at, 1, &counts), at, 2);
    lists("count of all pages", gz_space_count(a, 0, GZ_SPACE_LIMIT, &counts), at, 0);
    lists("areas of no page", gz_space_areas(a, 98, 98, at, 2, &counts), at, 2);
    lists("areas past the last page", gz_space_areas(a, 98, GZ_SPACE_LIMIT + 1, at, 2, &counts), at, 2);
    replies("fault that goes on holding", gz_space_fault_held(b, 100 * PAGE, GZ_SPACE_READ, false, &reply));
    lists("areas by a handle that holds", gz_space_areas(b, 98, 104, at, 2, &counts), at, 2);
    lists("another's areas, held", gz_space_areas_held(a, 98, 104, at, 2, &counts), at, 2);
    looks("what it holds", a);
    says("done", gz_space_done(b));
    replies("another's fault of a page of them", gz_space_fault(b, 99 * PAGE, GZ_SPACE_READ, &reply));
    printf("another's try of an unmap of one: %s\n", outcome(gz_space_try(b, &unmap, &round, false, &reply)));
    says("done", gz_space_done(a));
    round = 0;
    replies("fault alone that goes on holding", gz_space_fault_held(b, 104 * PAGE, GZ_SPACE_READ, true, &reply));
    at[0] = untouched;
    printf("another's look at pages 98 to 104: %s\n",
           outcome(gz_space_try_areas(a, 98, 105, &round, true, at, 2, &counts)));
    printf("    areas %" PRIu64 ", and the first place has prot %u\n", counts.areas, at[0].prot);
    lists("its areas of pages 98 to 103", gz_space_areas(a, 98, 104, at, 2, &counts), at, 2);
    says("done", gz_space_done(b));
    looks("what is held", a);
}

/* As many areas as there may be rows for, each of one page between two gaps, and then one more. */
static void rows(void) {
    gz_space handle = GZ_SPACE_CLOSED;
    uint64_t refused = 0, next = 16 * PAGE;
    says("open", gz_space_open(1, 1, 16, &handle));
    for (uint64_t areas = 0; areas < GZ_SPACE_MOST_ROWS / 2; areas++, next += 2 * PAGE)
        if (gz_space_map(&handle, next, PAGE, RW, AT, &reply) || reply.kind != GZ_SPACE_ADDRESS) refused++;
    printf("maps of %d pages that don't touch: refused %" PRIu64 "\n", GZ_SPACE_MOST_ROWS / 2, refused);
    replies("map of one more that doesn't touch", gz_space_map(&handle, next, PAGE, RW, AT, &reply));
    replies("fault of it", gz_space_fault(&handle, next, GZ_SPACE_READ, &reply));
    replies("protect of a page that touches none", gz_space_protect(&handle, 16 * PAGE, PAGE, GZ_SPACE_READ, &reply));
    replies("map that touches the one below", gz_space_map(&handle, 17 * PAGE, PAGE, GZ_SPACE_READ, AT, &reply));
    says("close", gz_space_close(&handle));
}

/* What a caller waits that looks six times. */
static void pauses(void) {
    uint32_t turns = 0;
    for (int i = 0; i < 6; i++) {
        bool longest = gz_space_pause(&turns);
        printf("    a pause, one of the longest: %s; the next is of %u turns\n", longest ? "yes" : "no", turns);
    }
}

int main(void) {
    gz_space a = GZ_SPACE_CLOSED, b = GZ_SPACE_CLOSED;
    names();
    closed_handles();
    openings();
    says("open", gz_space_open(2, 1, 16, &a));
    says("share", gz_space_share(&a, &b));
    holding(&a, &b);
    bad_calls(&a);
    maps(&a);
    changes(&a);
    seals(&a);
    areas(&a, &b);
    spans(&a, &b);
    rows();
    pauses();
    says("close of the other", gz_space_close(&b));
    says("close", gz_space_close(&a));
    says("close once more", gz_space_close(&a));
    return 0;
}
