/*
 * A user-mode simulator of the DEC PDP-10 with the KA10 processor, for tests only.
 *
 * It is written apart from the library, and in another way (it unpacks the whole block into an
 * array, interprets, and packs it back), so that a mistake in one is unlikely to stand in the
 * other too.
 */
#ifndef SIMULATOR_H
#define SIMULATOR_H

#include <stddef.h>
#include <stdint.h>

/* Does exactly what include/ka10.h says of ka10_run. */
uint32_t simulator_run(uint8_t *core, size_t core_len, uint64_t base, uint64_t blocks,
                       uint64_t steps, uint8_t *record, size_t record_len, uint8_t *reply,
                       size_t reply_len);

/* Word `address` of a packed core that is long enough to have it. */
uint64_t simulator_core_word(const uint8_t *core, size_t address);

/* Replaces that word by the low 36 bits of `word`, and touches no other word. */
void simulator_set_core_word(uint8_t *core, size_t address, uint64_t word);

/* Number `index` of a record or of a reply: eight bytes, highest byte first. */
uint64_t simulator_number(const uint8_t *numbers, size_t index);
void simulator_set_number(uint8_t *numbers, size_t index, uint64_t value);

#endif
