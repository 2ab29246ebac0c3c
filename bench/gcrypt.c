/* Reads a case file of the carrier (second/README.md) from standard input, has libgcrypt read each file in it, and prints how many it took. */
#include <gcrypt.h>
#include <stdio.h>

static char bytes[1 << 20];

/* The string at an offset: where its octets begin. Its count is put into *count. */
static size_t string(size_t at, size_t *count) {
    *count = 0;
    while (bytes[at] != ':') *count = *count * 10 + (size_t)(bytes[at++] - '0');
    return at + 1;
}

int main(void) {
    size_t end = fread(bytes, 1, sizeof bytes - 1, stdin), at = 0, count;
    int taken = 0;
    if (!gcry_check_version(NULL)) return 2;
    gcry_control(GCRYCTL_DISABLE_SECMEM, 0);
    gcry_control(GCRYCTL_INITIALIZATION_FINISHED, 0);
    while (at < end) {
        gcry_sexp_t read;
        at = string(at, &count);
        at = string(at + count, &count);
        if (gcry_sexp_sscan(&read, NULL, bytes + at, count) == 0) {
            taken++;
            gcry_sexp_release(read);
        }
        at += count;
    }
    printf("%d\n", taken);
    return 0;
}
