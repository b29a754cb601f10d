/* The memory of qemu's microbit. */
MEMORY {
  FLASH (rx) : ORIGIN = 0, LENGTH = 256K
  RAM (rwx) : ORIGIN = 0x20000000, LENGTH = 16K
}
INCLUDE sections.ld
