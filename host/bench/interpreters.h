/* Three C interpreters of the same machine, the measures for the library's speed. The first two
 * answer and leave what lc3_run does. */
#ifndef INTERPRETERS_H
#define INTERPRETERS_H

#include <fanthrig/lc3.h>

typedef lc3_answer run_function(lc3_record record, uint16_t *memory, size_t memory_len,
                                const uint64_t *times, size_t times_len, const uint8_t *bytes,
                                size_t bytes_len, uint8_t *output, size_t output_len, uint64_t n);

run_function plain_run;  /* as one writes it at first */
run_function tuned_run;  /* made for speed */
run_function expert_run; /* an expert's, which stops before a step that meets a device */

/* The expert's interpreter is to read memory anew, since others than it have altered words. */
void expert_forget(void);

#endif
