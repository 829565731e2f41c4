# Document 01's words to the glossary's: turns a reference written in document 01's words into this one:
#
#     sed -E -f words.sed
#
# It needs GNU sed. The files ref2650.c and ref2650.h keep their names; ref_floor.c and ref_floor.h become
# ref_supervisor.c and ref_supervisor.h.
#
# The order matters: a name that another thing needs is given up first, and the rules about comments come last.
# A few rules take or add spaces, so that comments and parameters stay in their columns.

# the machine's operations, before the table's take the names run and new
s/\bref_fresh\b/ref_machine_fresh/g
s/\bref_step\b/ref_machine_step/g
s/\bref_run\b/ref_machine_run/g
s/\bref_psu\b/ref_machine_psu/g
s/(ref_machine_psu\(m\);.*) {8}(.. SPSU)/\1\2/
s/(break;) {8}(.. TPSL)/\1                \2/

# the table's operations, and the functions that only they use
s/\bref_report\b/ref_reported/g
s/\bref_fresh_record\b/ref_new/g
s/\bref_mount\b/ref_load/g
s/\bref_lift\b/ref_unload/g
s/\bref_collect\b/ref_drain/g
s/\bref_collect_lent\b/ref_drain_lent/g
s/\bref_pass\b/ref_run/g
s/\bref_report_station\b/ref_report/g
s/\bref_round\b/ref_backlog/g
s/\bref_find\b/ref_fit/g
s/\bref_touch\b/ref_interrupt/g
s/\btake_touch\b/take_interrupt/g
s/\bcollect\(/drain(/g
s/\bstint\((&|ref_)/take_quantum(\1/g
s/\bhead\((const|r,)/slot_refusal(\1/g
s/\bno( =| \?|\)| :|;)/refusal\1/g

# files and types
s/\bref_floor\b/ref_supervisor/g
s/\bREF_FLOOR_H\b/REF_SUPERVISOR_H/g
s/\bref_station\b/ref_slot/g
s/\bref_station_sound\b/ref_slot_sound/g
s/\bref_record\b/ref_table/g
s/\bref_values\b/ref_parameters/g
s/\bfree_stretches\b/free_extents/g
s/\bfree stretches\b/free extents/g
s/\bfree stretch\b/free extent/g
s/\bstretch( f\[|;| \{| \*)/extent\1/g

# limits
s/\bSTATIONS\b/SLOTS/g
s/\bFLOOR_MAX\b/MEMORY_MAX/g
s/\bSIZE_MAX_BAY\b/PARTITION_MAX/g

# the table, its memory and its slots; in r##k, r is a register
s/\br->length\b/r->memory_length/g
s/\buint32_t length;/uint32_t memory_length;/
s/\bs\[/slots[/g
/##/!s/\br\b/table/g
s/\bflen\b|\bfloor_length\b/memory_length/g
s/\bfloor\b/memory/g
s/\bstation\b/slot/g
s/\bstations\b/slots/g
s/\brecord\b/table/g
s/\bmounted\b/loaded/g
s/\bcount\b/rounds/g

# a partition: its start is its base, and its sizes have the names that a layout has; the first input gives up `input`
s/\bbay_size\b/partition_size/g
s/(->|\.)bay\b/\1base/g
s/\buint32_t bay; /uint32_t base;/
s/\bbay\b/partition/g
s/\bbays\b/partitions/g
s/\bstint\b/quantum/g
s/\*input, size_t inlen\b/*first, size_t first_length/g
s/\binput, inlen\b/first, first_length/g
s/\binlen\b/first_length/g
s/\bilen\b/image_length/g
s/\bicap, ocap; {3}/input, output;/
s/\bicap\b/input/g
s/\bocap\b/output/g
s/\bm(->|\.)window\b/m\1window_bytes/g
s/\bm(->|\.)in\b/m\1input_bytes/g
s/\bm(->|\.)out\b/m\1output_bytes/g
s/\*window, \*in, \*out;/*window_bytes, *input_bytes, *output_bytes;/
s/\bwsize; /window;/
s/\bwsize\b/window/g

# parameters; pc is the program counter alone, so a file's code and first input have names of their own
s/\bpc_at\b/code_at/g
s/\bpc_len\b/code_length/g
s/\bpi_at\b/first_at/g
s/\bpi_len\b/first_length/g
s/([*&])v\b/\1p/g
s/\bmemset\(v,/memset(p,/
s/\bv\./p./g
s/\bref_parameters v;/ref_parameters p;/

# a place in the memory is a location; an address is the machine's
/\bin place at\b/!s/\bplace\b/location/g
s/\*start\b/*location/g
s/^ {14}const uint8_t \*file, size_t n, uint64_t location/             const uint8_t *file, size_t n, uint64_t location/

# how many bytes are locked (U6); the test whether a file is of form 2 gives up that name
s/\bconst int locked\b/const int form_2/
s/!locked\b/!form_2/
s/\blocked( \?| &&)/form_2\1/g
s/^ {21}(form_2 \?)/                         \1/
s/(m->lock : 0;) {4}/\1/
s/(uint32_t lock;) {26}(.. U6: 0 in form 1)/\1                                          \2/
s/\buint32_t lock;  /uint32_t locked;/
s/\buint32_t lock\b/uint32_t locked/
s/(->|\.)lock\b/\1locked/g
s/\block( \?|\)| >|;)/locked\1/g

# interrupts (U8)
s/\b([Aa]) touch\b/\1n interrupt/g
s/\btouch\b/interrupt/g

# comments; those of definitions say which term of document 01, or 02, a thing is
s/\(fresh: /(new: /
s/\bcollecting\b/draining/g
s/over one lent slot table/over one lent slot/
s/the same with a locked;/the same with locked bytes;/
s/memory location of the partition's start/where its partition starts in the memory/
s/document 01's memory of eight slots, pattern files/eight slots over one memory (document 01: stations, floor), and pattern files/
s/ \(new: hands back an all-zero table\)/&. Document 01's fresh, mount, lift, collect and\n * pass are new, load, unload, drain and run./
s/the draining round;/the backlog (document 02: collecting round);/
s/U8: an interrupt\./U8: an interrupt (document 02: touch)./
s/^typedef struct ref_slot \{/\/* document 01's station; base, window, input and output are its bay, the quantum its stint *\/\n&/
s/^typedef struct ref_table \{/\/* document 01's record *\/\n&/
s/^typedef struct ref_parameters \{/\/* document 01's values of a pattern, and where its code and first input lie *\/\n&/

# lines that have grown long
s/(partition_size\(&table->slots\[i\]\),) (table->slots\[j\])/\1\n                      \2/
s/(ST_EMPTY &&) (meets\(location)/\1\n            \2/
s/(return ref_write_locked\(.* 0,) /\1\n                            /
s/^(    if \(ref_level >= 7 .*\)) (return)/\1\n        \2/
