/* The trace: 65,535 rows of 32 pins A B C P03 .. P31; a pin is set anew about every third row, one time in 50 to any
   of the eight states. */
#include <stdint.h>
#include <stdio.h>

enum { ROWS = 65535, PINS = 32 };

static uint64_t state = 1;

static unsigned below(unsigned n)
{
    state = state * 6364136223846793005u + 1442695040888963407u;
    return (unsigned)(state >> 33) % n;
}

static void put_word(uint32_t x) { for (int i = 0; i < 4; i++) putchar((int)(x >> 8 * i & 255)); }

int main(void)
{
    uint8_t pins[PINS] = {0};
    for (int i = 0; i < PINS; i++) {
        char name[8];
        int n = i < 3 ? sprintf(name, "%c", 'A' + i) : sprintf(name, "P%02d", i);
        printf("NM%c%s", n, name);
    }
    for (uint32_t r = 0; r < ROWS; r++) {
        printf("RW");
        put_word(10 * r);
        for (int i = 0; i < PINS; i++) {
            if (below(3) == 0) pins[i] = (uint8_t)(below(50) == 0 ? below(8) : below(2));
            putchar(pins[i]);
        }
    }
    printf("EN");
    put_word(ROWS);
}
