/*
 * Runs the fuzz target of sheet_text.c on the named files, without a fuzzer: on each file, on each of its beginnings,
 * and, where it is small, on it with each byte in turn replaced by each of a few others.
 */
#include <stdint.h>
#include <stdio.h>

int LLVMFuzzerTestOneInput(const uint8_t *data, size_t size);

enum { SMALL = 1024 };

int main(int count, char **names)
{
    static const uint8_t others[] = {' ', '0', '9', '-', '\n', '\r', 'x', 0, 255};
    static uint8_t bytes[1 << 16];
    unsigned long runs = 0;
    for (int i = 1; i < count; i++) {
        FILE *file = fopen(names[i], "rb");
        size_t size = file == NULL ? sizeof bytes : fread(bytes, 1, sizeof bytes, file);
        if (size == sizeof bytes || fclose(file) != 0) {
            fprintf(stderr, "%s: it cannot be read, or is too large\n", names[i]);
            return 1;
        }
        for (size_t end = 0; end <= size; end++, runs++)
            LLVMFuzzerTestOneInput(bytes, end);
        for (size_t at = 0; at < size && size <= SMALL; at++) {
            uint8_t was = bytes[at];
            for (size_t other = 0; other < sizeof others; other++, runs++) {
                bytes[at] = others[other];
                LLVMFuzzerTestOneInput(bytes, size);
            }
            bytes[at] = was;
        }
    }
    printf("sheet_text: %d files, %lu inputs, as a second reading has them\n", count - 1, runs);
    return count < 2;
}
