/* The memory of qemu's mps2-an386. */
MEMORY {
  FLASH (rx) : ORIGIN = 0, LENGTH = 4M
  RAM (rwx) : ORIGIN = 0x20000000, LENGTH = 4M
}
INCLUDE sections.ld
