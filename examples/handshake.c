/*
 * The handshake of examples/handshake.vio called from C: the messages sent, and what both ends agree on.
 * Build: tools/build vio_exports && cc -Iinclude examples/handshake.c target/staticlib/libvio_exports.a
 */
#include "arkelutz_vio.h"

#include <inttypes.h>
#include <stdio.h>

static void show(const char *name, const uint64_t *end)
{
    if (end[ARKELUTZ_VIO_STAGE] != ARKELUTZ_VIO_AGREED) {
        printf("%s no version\n", name);
        return;
    }
    printf("%s agreed %" PRIu64 " %" PRIu64 " session %" PRIu64 "\n", name, end[ARKELUTZ_VIO_MAJOR], end[ARKELUTZ_VIO_MINOR],
           end[ARKELUTZ_VIO_ID]);
}

int main(void)
{
    static const uint64_t device[] = {5, 3, 3, 1, 1, 0};
    static const uint64_t network_switch[] = {4, 0, 2, 2, 1, 6};
    struct arkelutz_vio_ready a = arkelutz_vio_setup(1, 2, device, sizeof device / sizeof *device);
    struct arkelutz_vio_ready b = arkelutz_vio_setup(2, 1, network_switch, sizeof network_switch / sizeof *network_switch);
    uint32_t id = 0x11;
    struct arkelutz_vio_answer sent = arkelutz_vio_start(a.end, ARKELUTZ_VIO_END_WORDS, id);

    while (sent.count == 2) {
        printf("request %016" PRIx64 " %016" PRIx64 "\n", sent.first, sent.second);
        sent = arkelutz_vio_receive(b.end, ARKELUTZ_VIO_END_WORDS, 0, sent.first, sent.second);
        printf("answer %016" PRIx64 " %016" PRIx64 "\n", sent.first, sent.second);
        id += 0x11;
        sent = arkelutz_vio_receive(a.end, ARKELUTZ_VIO_END_WORDS, id, sent.first, sent.second);
    }
    show("switch", b.end);
    show("device", a.end);
    return a.refusal != 0 || b.refusal != 0 || sent.refusal != 0;
}
