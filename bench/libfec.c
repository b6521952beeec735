/* Thin functions over libfec (Debian's libfec-dev), another Reed-Solomon coder, for the benchmark: bench/run builds them. Han Xin's blocks
   are words of 255 bytes over the polynomial 0x163, first root 1, of which the first 255 - length are zeros that nobody stores. */
#include <stddef.h>
#include <fec.h>

void *bench_fec_new(int length, int parity) { return init_rs_char(8, 0x163, 1, 1, parity, 255 - length); }

int bench_fec_correct(void *code, unsigned char *block) { return decode_rs_char(code, block, NULL, 0); }

void bench_fec_parity(void *code, unsigned char *block, int data) { encode_rs_char(code, block, block + data); }
