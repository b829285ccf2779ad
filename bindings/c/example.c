#include "celtisdarts.h"
#include <stdio.h>
#include <string.h>

int main(void) {
    const char *text = "crate a\ntrait Show\nimpl Show for u8\n", *asked = "prove in a fn(u8): Fn<?x>";
    celtisdarts_handle handle;
    uint32_t line, fault;
    uint8_t answer[4096];
    size_t length;
    if (celtisdarts_new(&handle.at) != CELTISDARTS_DONE) return 1;
    uint32_t word = celtisdarts_read(&handle, (const uint8_t *)text, strlen(text), 128, &line, &fault);
    if (word == CELTISDARTS_DONE)
        word = celtisdarts_ask(&handle, (const uint8_t *)asked, strlen(asked), answer, sizeof answer, &length, &fault);
    if (word == CELTISDARTS_DONE) fwrite(answer, 1, length, stdout);
    celtisdarts_close(handle);
    return word != CELTISDARTS_DONE;
}
