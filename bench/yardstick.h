/* yardstick.h - the calls of phlernsap.h under the prefix yard_, so that the yardstick links
 * beside another implementation. See include/phlernsap.h for what each call does. */
#ifndef YARDSTICK_H
#define YARDSTICK_H

#include <stddef.h>
#include <stdint.h>

uint32_t yard_check(uint32_t n, const uint32_t *table, size_t table_len,
                   uint32_t *place, uint32_t *count);

uint32_t yard_orbit(uint32_t n, const uint32_t *table, size_t table_len,
                   uint8_t *marks, size_t marks_len, uint32_t mask, uint32_t d,
                   uint32_t *place, uint32_t *count);

uint32_t yard_sheet(uint32_t n, const uint32_t *table, size_t table_len,
                   uint8_t *marks, size_t marks_len, uint32_t d,
                   uint32_t *place, uint32_t *count);

uint32_t yard_pick(uint32_t n, const uint32_t *table, size_t table_len,
                  uint8_t *marks, size_t marks_len, uint32_t *queue, size_t queue_len,
                  uint32_t d, uint32_t *taken, uint32_t *place, uint32_t *count);

uint32_t yard_add(uint32_t n, uint32_t *table, size_t table_len,
                 uint32_t *journal, size_t journal_len, uint32_t tag,
                 uint32_t *place, uint32_t *count);

uint32_t yard_sew(uint32_t n, uint32_t *table, size_t table_len,
                 uint32_t *journal, size_t journal_len, uint32_t tag,
                 uint32_t i, uint32_t d, uint32_t e, uint32_t *place, uint32_t *count);

uint32_t yard_sew_list(uint32_t n, uint32_t *table, size_t table_len,
                      uint32_t *journal, size_t journal_len, uint32_t tag,
                      const uint32_t *list, size_t list_len, uint32_t *place, uint32_t *count);

uint32_t yard_unsew(uint32_t n, uint32_t *table, size_t table_len,
                   uint32_t *journal, size_t journal_len, uint32_t tag,
                   uint32_t i, uint32_t d, uint32_t *place, uint32_t *count);

uint32_t yard_remove(uint32_t n, uint32_t *table, size_t table_len,
                    uint8_t *marks, size_t marks_len, uint32_t *journal, size_t journal_len,
                    uint32_t tag, uint32_t d, uint32_t *place, uint32_t *count);

uint32_t yard_split(uint32_t n, uint32_t *table, size_t table_len,
                   uint8_t *marks, size_t marks_len, uint32_t *journal, size_t journal_len,
                   uint32_t tag, uint32_t d, uint32_t *place, uint32_t *count);

uint32_t yard_insert(uint32_t n, uint32_t *table, size_t table_len,
                    const uint8_t *marks, size_t marks_len,
                    uint32_t *journal, size_t journal_len, uint32_t tag,
                    uint32_t *place, uint32_t *count);

uint32_t yard_read_vtk(uint32_t n, uint32_t *table, size_t table_len,
                      uint32_t *journal, size_t journal_len, uint32_t tag,
                      const uint8_t *text, size_t text_len, uint32_t *place, uint32_t *count);

uint32_t yard_undo(uint32_t n, uint32_t *table, size_t table_len,
                  uint32_t *journal, size_t journal_len,
                  uint32_t *place, uint32_t *count);

uint32_t yard_redo(uint32_t n, uint32_t *table, size_t table_len,
                  uint32_t *journal, size_t journal_len,
                  uint32_t *place, uint32_t *count);

#endif
