/* A host program in C: it compiles against the header and links the archive. */
#include <stdio.h>
#include "free_space.h"

int main(void) {
    static const uint8_t text[] = "Four score and seven years ago";
    int fine = jenkins_lookup3(text, sizeof text - 1) == 0x17770551u
        && jenkins_lookup3(text, 0) == 0xdeadbeefu
        && enc_size(255) == 1 && enc_size(256) == 2
        && fshd_len(0) == 0 && fshd_len(1) == 75 && fshd_len(8) == 82 && fshd_len(9) == 0;
    puts(fine ? "the header and the archive agree" : "the header and the archive differ");
    return !fine;
}
