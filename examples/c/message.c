/* Decodes one message to a train, given in hexadecimal digits, encodes it again, and prints its variables and its bytes.

   cc -I include examples/c/message.c include/heap.c crates/ertms_c/out/libertms_c.a -o message
   ./message 1002800000005FFFFFE0 */
#include "ertms.h"

#include <stdio.h>
#include <string.h>

static void print_packet(const ertms_packet *packet) {
    printf("packet %u id %u scale %u dir %u front %u speed %u start %u length %u\n", (unsigned)packet->kind, (unsigned)packet->id,
           (unsigned)packet->scale, (unsigned)packet->dir, (unsigned)packet->front, (unsigned)packet->speed,
           (unsigned)packet->start, (unsigned)packet->length);
}

int main(int argc, char **argv) {
    uint8_t bytes[ERTMS_TO_TRAIN_BYTES] = {0};
    size_t length = argc == 2 ? strlen(argv[1]) / 2 : 0;
    if (length == 0 || length > sizeof bytes) {
        fputs("message: usage: message HEX, 1 to 1024 bytes\n", stderr);
        return 2;
    }
    for (size_t i = 0; i < length; i++) {
        unsigned byte;
        if (sscanf(argv[1] + 2 * i, "%2x", &byte) != 1)
            return 2;
        bytes[i] = (uint8_t)byte;
    }
    ertms_to_train fields;
    uint32_t code = ertms_read_to_train(bytes, length, &fields);
    if (code != ERTMS_OK) {
        printf("refused %u\n", (unsigned)code);
        return 1;
    }
    printf("kind %u stamp %u ack %u lrbg %u id %u scale %u dir %u reference %d distance %u count %u\n", (unsigned)fields.kind,
           (unsigned)fields.stamp, (unsigned)fields.ack, (unsigned)fields.lrbg, (unsigned)fields.id, (unsigned)fields.scale,
           (unsigned)fields.dir, (int)fields.reference, (unsigned)fields.distance, (unsigned)fields.count);
    for (uint32_t i = 0; i < fields.count; i++)
        print_packet(&fields.packets[i]);
    uint32_t used = ertms_write_to_train(&fields, bytes);
    for (uint32_t i = 0; i < used; i++)
        printf("%02X", bytes[i]);
    putchar('\n');
    return used == length ? 0 : 1;
}
