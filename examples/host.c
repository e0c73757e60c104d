/* A host for blink.iv: what a board would give, as lines on standard output. Build it with the C text of the module:
 *
 *     ./ivoryc emit examples/blink.iv > blink.c
 *     gcc -std=c99 -Wall -Wextra -pedantic blink.c examples/host.c -o blink && ./blink
 */
#include <stdint.h>
#include <stdio.h>
#include <stdlib.h>

/* the procedures that the module exports */
void iv_setup(void);
void iv_blink(void);

/* the imports of the module */
void iv_tick(void) {
  printf("tick\n");
}

void iv_led(uint8_t on) {
  printf("led %u\n", (unsigned)on);
}

void iv_color(uint8_t red, uint8_t green, uint8_t blue) {
  printf("color %u %u %u\n", (unsigned)red, (unsigned)green, (unsigned)blue);
}

/* a check of the module that fails ends here, with its number; it must not return */
void ivory_stop(uint32_t site) {
  printf("stop %lu\n", (unsigned long)site);
  exit(EXIT_FAILURE);
}

int main(void) {
  iv_setup();
  iv_blink();
  iv_blink();
  return EXIT_SUCCESS;
}
