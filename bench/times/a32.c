/* Linked before all else, it moves the code of ours and of the yardsticks by 32 bytes: a search is one loop of a few instructions, and takes up to a fifth more or less as the linker happens to place it. */
__asm__(".text\n\t.p2align 6\n\t.skip 32\n");
