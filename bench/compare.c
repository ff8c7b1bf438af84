// Compares the pictures that the program `draw` prints with those of pixman, on random scenes.
//
//   compare DRAW SCENES SEED
//
// Each scene is written to a file, drawn by the program DRAW, and drawn again here with pixman's OVER (format 0) and SRC
// (format 1). Ends with status 1 at the first pixel that differs.
#include <pixman.h>
#include <stdint.h>
#include <stdio.h>
#include <stdlib.h>

enum { MEMORY = 6000, MOST_ELEMENTS = 32, LONGEST = 96 };

struct element {
    int x, y;
    unsigned first, width, height, stride, format;
};

struct scene {
    int width, height, count;
    struct element elements[MOST_ELEMENTS];
    uint32_t memory[MEMORY];
};

static uint64_t state;

static uint32_t random32(void) {
    // xorshift64*
    state ^= state >> 12;
    state ^= state << 25;
    state ^= state >> 27;
    return (uint32_t)((state * 2685821657736338717ull) >> 32);
}

static int between(int low, int high) {
    return low + (int)(random32() % (uint32_t)(high - low + 1));
}

// Pixels of every kind: any 32 bits, opaque, clear, premultiplied, and a clear one with colour.
static uint32_t random_pixel(void) {
    uint32_t p = random32();
    switch (random32() % 5) {
    case 0:
        return p;
    case 1:
        return p | 0xff000000u;
    case 2:
        return 0;
    case 3: {
        uint32_t a = p >> 24, r = p >> 16 & 255, g = p >> 8 & 255, b = p & 255;
        return a << 24 | r * a / 255 << 16 | g * a / 255 << 8 | b * a / 255;
    }
    default:
        return p & 0x00ffffffu;
    }
}

static void make(struct scene *s) {
    s->width = between(1, LONGEST);
    s->height = between(1, LONGEST);
    s->count = between(0, MOST_ELEMENTS);
    for (int i = 0; i < MEMORY; i++)
        s->memory[i] = random_pixel();
    for (int i = 0; i < s->count; i++) {
        struct element *e = &s->elements[i];
        e->width = (unsigned)between(1, 60);
        e->height = (unsigned)between(1, 60);
        e->stride = e->width + (unsigned)between(0, 20);
        e->first = (unsigned)between(0, MEMORY - (int)(e->stride * e->height));
        e->format = random32() % 2;
        e->x = between(-70, LONGEST + 10);
        e->y = between(-70, LONGEST + 10);
    }
}

static void save(const struct scene *s, const char *path) {
    FILE *f = fopen(path, "w");
    if (!f) {
        perror(path);
        exit(2);
    }
    fprintf(f, "console %d %d composer %d\npixels 0", s->width, s->height, MEMORY);
    for (int i = 0; i < MEMORY; i++)
        fprintf(f, " %08x", s->memory[i]);
    fprintf(f, "\n");
    for (int i = 0; i < s->count; i++) {
        const struct element *e = &s->elements[i];
        fprintf(f, "element %d %d %u %u %u %u %u\n", e->x, e->y, e->first, e->width, e->height, e->stride, e->format);
    }
    fclose(f);
}

static void draw(struct scene *s, uint32_t *frame) {
    for (int i = 0; i < s->width * s->height; i++)
        frame[i] = 0xff000000u;
    pixman_image_t *to = pixman_image_create_bits(PIXMAN_a8r8g8b8, s->width, s->height, frame, s->width * 4);
    for (int i = 0; i < s->count; i++) {
        const struct element *e = &s->elements[i];
        pixman_format_code_t format = e->format ? PIXMAN_x8r8g8b8 : PIXMAN_a8r8g8b8;
        pixman_image_t *from = pixman_image_create_bits(format, (int)e->width, (int)e->height, s->memory + e->first, (int)e->stride * 4);
        pixman_image_composite32(e->format ? PIXMAN_OP_SRC : PIXMAN_OP_OVER, from, NULL, to, 0, 0, 0, 0, e->x, e->y, (int)e->width, (int)e->height);
        pixman_image_unref(from);
    }
    pixman_image_unref(to);
}

// Reads what the program prints, and compares it pixel by pixel.
static int differs(const struct scene *s, const uint32_t *frame, FILE *printed) {
    char word[16];
    uint32_t number, station, fault, crc;
    if (fscanf(printed, "answer %u %u %u glass %x", &number, &station, &fault, &crc) != 4 || number) {
        printf("the program refused the scene\n");
        return 1;
    }
    for (int i = 0; i < s->width * s->height; i++) {
        if (fscanf(printed, "%15s", word) != 1 || strtoul(word, NULL, 16) != frame[i]) {
            printf("column %d of row %d is %s, not %08x\n", i % s->width, i / s->width, word, frame[i]);
            return 1;
        }
    }
    return 0;
}

int main(int argc, char **argv) {
    static struct scene s;
    static uint32_t frame[LONGEST * LONGEST];
    if (argc != 4) {
        fprintf(stderr, "compare DRAW SCENES SEED\n");
        return 2;
    }
    long scenes = atol(argv[2]);
    state = strtoull(argv[3], NULL, 10) * 2 + 1;
    char path[] = "/tmp/compare-scene-XXXXXX";
    if (mkstemp(path) < 0)
        return 2;
    char command[4200];
    snprintf(command, sizeof command, "%.4000s %s", argv[1], path);
    unsigned long long pixels = 0;
    for (long k = 0; k < scenes; k++) {
        make(&s);
        save(&s, path);
        draw(&s, frame);
        FILE *printed = popen(command, "r");
        int bad = !printed || differs(&s, frame, printed);
        if (printed)
            bad |= pclose(printed) != 0;
        if (bad) {
            printf("scene %ld differs; it is in %s\n", k, path);
            return 1;
        }
        pixels += (unsigned long long)s.width * (unsigned)s.height;
    }
    remove(path);
    printf("%llu pixels of %ld scenes are equal\n", pixels, scenes);
    return 0;
}
