// Bytes in front of all code, so that loops lie elsewhere: linked first, then ours, then the rest. bench/run says how many.
#define TEXT(x) #x
#define BYTES(x) TEXT(x)
__asm__(".text\n.p2align 6\n.skip 64 + " BYTES(SHIFT) "\n");
