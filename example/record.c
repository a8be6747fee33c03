/* Writes one record, its sequence in lines of 4 bytes, by Larizemba's C edge. README.md says how to link it. */
#include <stdio.h>
#include <string.h>

#include "larizemba.h"

int main(void) {
    const char *id = "id1", *desc = "a first record", *seq = "ACGTACGTAC";
    uint8_t out[100];
    size_t len;
    uint32_t refusal = larizemba_write_wrap((const uint8_t *)id, strlen(id), true, (const uint8_t *)desc, strlen(desc),
                                            (const uint8_t *)seq, strlen(seq), 4, &len, out, sizeof out);
    if (refusal != LARIZEMBA_DONE) {
        fprintf(stderr, "refused with %u, length %zu\n", (unsigned)refusal, len);
        return 1;
    }
    return fwrite(out, 1, len, stdout) == len ? 0 : 1;
}
