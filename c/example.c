/* Lists the patches in a file of dumps, opens each one's filter, and writes them to another file with
 * the numbers they had:  example IN.syx OUT.syx */
#include <matrix.h>

#include <stdio.h>

int main(int argc, char **argv)
{
    static uint8_t input[65536];
    uint8_t packed[MATRIX_MASTER_BYTES], name[MATRIX_NAME_BYTES], dump[MATRIX_PATCH_MESSAGE];
    FILE *in = argc == 3 ? fopen(argv[1], "rb") : NULL;
    FILE *out = in != NULL ? fopen(argv[2], "wb") : NULL;
    if (out == NULL) {
        fprintf(stderr, "example IN.syx OUT.syx\n");
        return 1;
    }
    size_t length = fread(input, 1, sizeof input, in);
    size_t place = 0;

    for (;;) {
        matrix_reading r = matrix_read(input, length, place, packed, sizeof packed);
        matrix_outcome found = r.report.outcome;
        uint8_t number = r.bytes[0];
        if (found.answer == MATRIX_NO_MESSAGE)
            break;
        place = r.report.end;
        if (found.answer != MATRIX_DONE)
            fprintf(stderr, "bytes %zu to %zu: refused by %d (%zu, %d)\n",
                    r.report.start, r.report.end, found.answer, found.detail, found.value);
        if (found.answer != MATRIX_DONE || found.detail != MATRIX_OPCODE_PATCH)
            continue;

        /* A patch that was read is good: none of these three is refused. */
        matrix_show_name(packed, MATRIX_PATCH_BYTES, name, sizeof name);
        matrix_apply_edit(packed, MATRIX_PATCH_BYTES, MATRIX_VCF_FREQUENCY, 127);
        matrix_write_patch(number, packed, MATRIX_PATCH_BYTES, dump, sizeof dump);
        printf("%2d  %.8s\n", number, (const char *)name);
        fwrite(dump, 1, sizeof dump, out);
    }
    int failed = ferror(in) || ferror(out);
    return fclose(out) != 0 || failed;
}
