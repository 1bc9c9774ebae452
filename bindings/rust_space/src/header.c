/* What gz_space.h has as C of its own, for Rust, which can't call a function that stands in a header alone. The asserts
   are that src/raw.rs has the header's numbers. */
#include <gz_space.h>

gz_space_answer gz_rust_space_make(gz_space *handle, const gz_space_call *call, bool keep, gz_space_reply *reply);
gz_space_answer gz_rust_space_fault(gz_space *handle, uint64_t addr, uint32_t access, bool alone, bool keep,
                                    gz_space_reply *reply);
gz_space_answer gz_rust_space_area(gz_space *handle, uint64_t addr, gz_space_mapping *area);
gz_space_answer gz_rust_space_areas(gz_space *handle, uint64_t lo, uint64_t hi, bool keep, gz_space_mapping *areas,
                                    size_t room, gz_space_counts *counts);
gz_space_answer gz_rust_space_close(gz_space *handle);

gz_space_answer gz_rust_space_make(gz_space *handle, const gz_space_call *call, bool keep, gz_space_reply *reply) {
    return gz_space_make(handle, call, keep, reply);
}

gz_space_answer gz_rust_space_fault(gz_space *handle, uint64_t addr, uint32_t access, bool alone, bool keep,
                                    gz_space_reply *reply) {
    return gz_space_fault_by(handle, addr, access, alone, keep, reply);
}

gz_space_answer gz_rust_space_area(gz_space *handle, uint64_t addr, gz_space_mapping *area) {
    return gz_space_area(handle, addr, area);
}

gz_space_answer gz_rust_space_areas(gz_space *handle, uint64_t lo, uint64_t hi, bool keep, gz_space_mapping *areas,
                                    size_t room, gz_space_counts *counts) {
    return gz_space_areas_by(handle, lo, hi, keep, areas, room, counts);
}

gz_space_answer gz_rust_space_close(gz_space *handle) { return gz_space_close(handle); }

#define SAME(name, number) _Static_assert(GZ_SPACE_##name == (number), "src/raw.rs has the number of " #name)
SAME(DONE, 0);
SAME(HOLDS, 3);
SAME(NO_MEMORY, 7);
SAME(BAD_CALLERS, 8);
SAME(BAD_CUT, 9);
SAME(NONE_LEFT, 10);
SAME(BAD_CALL, 11);
SAME(SPENT, 12);
SAME(MAP, 0);
SAME(UNMAP, 1);
SAME(PROTECT, 2);
SAME(REMAP, 3);
SAME(SEAL, 4);
SAME(BRK, 5);
SAME(ADDRESS, 1);
SAME(ZERO, 2);
SAME(GRANTED, 3);
SAME(REFUSED, 4);
SAME(MAPERR, 5);
SAME(ACCERR, 6);
SAME(ADDR, 1);
SAME(LEN, 2);
SAME(FLAGS, 3);
SAME(END, 4);
SAME(MISSING, 5);
SAME(PAST_END, 6);
SAME(NO_GAP, 7);
SAME(ROWS, 8);
SAME(TAKEN, 9);
SAME(SEALED, 10);
SAME(OTHER, 11);
SAME(READ, 1);
SAME(WRITE, 2);
SAME(EXEC, 4);
SAME(SHARED, 1);
SAME(PRIVATE, 2);
SAME(FIXED, 4);
SAME(FIXED_NOREPLACE, 8);
SAME(MAYMOVE, 1);
SAME(MOST_CALLERS, 16);
SAME(LIMIT, (1ull << 44) - 1);
