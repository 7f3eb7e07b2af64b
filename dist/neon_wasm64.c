/* The instructions of aarch64 that the module of the program qpk names, and that WebAssembly lacks: functions of 16 bytes in
 * their place. tests/wasm64/neon.c compares them with the processor's. Nothing proves this file; it is part of what you trust.
 * It includes no header. */
typedef unsigned char bytes __attribute__((vector_size(16)));

bytes neon_addp(bytes low, bytes high);
bytes neon_tbl1(bytes table, bytes at);

/* Adds neighbours, modulo 256: the sums of |low| come first. */
bytes neon_addp(bytes low, bytes high) {
  bytes sums;
  for (int i = 0; i < 8; i++) {
    sums[i] = (unsigned char)(low[2 * i] + low[2 * i + 1]);
    sums[8 + i] = (unsigned char)(high[2 * i] + high[2 * i + 1]);
  }
  return sums;
}

/* Looks bytes up by their places in a table of 16. A place from 16 on has the byte 0. */
bytes neon_tbl1(bytes table, bytes at) {
  bytes found;
  for (int i = 0; i < 16; i++) found[i] = at[i] < 16 ? table[at[i]] : 0;
  return found;
}
