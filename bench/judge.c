/*
 * The proved judge beside the plain one, on the same images, in one process: nanoseconds per image byte, and how they compare; each image again
 * and again, and through the whole set, where the processor has not just seen the image.
 * Argument: a file with lines `J image ..`, the image in hex. Every image is judged by both first, and they must agree. With a second
 * argument, `plain`, `proved` or `none`, that judge alone goes once through the images, for a count of its instructions.
 */
#define _POSIX_C_SOURCE 199309L
#include <stdio.h>
#include <stdlib.h>
#include <string.h>
#include <time.h>

#include "laverockin.h"
#include "plain_judge.h"

enum { IMAGES_MOST = 1000, IMAGE_BYTES = 4200, LINE_BYTES = 16384, TYPE_BYTES = 256, WORK_BYTES = 40960, ROUNDS = 25 };

struct image { uint8_t bytes[IMAGE_BYTES]; size_t n; };

static struct image images[IMAGES_MOST];
static size_t count;
static uint8_t types[TYPE_BYTES], work[WORK_BYTES];

static int digit(char c)
{
    if (c >= '0' && c <= '9') return c - '0';
    if (c >= 'A' && c <= 'F') return c - 'A' + 10;
    return -1;
}

static void take(const char *hex)
{
    struct image *m = &images[count];
    m->n = 0;
    while (digit(hex[0]) >= 0 && digit(hex[1]) >= 0 && m->n < IMAGE_BYTES) {
        m->bytes[m->n++] = (uint8_t)(digit(hex[0]) * 16 + digit(hex[1]));
        hex += 2;
    }
    count++;
}

static uint64_t plain(const struct image *m)
{
    struct plain_judged j = plain_judge(m->bytes, m->n, types, TYPE_BYTES, work, WORK_BYTES);
    return j.answer + 256 * (uint64_t)(j.answer ? j.place : j.length);
}

static uint64_t proved(const struct image *m)
{
    return laverockin_judge(m->bytes, m->n, types, TYPE_BYTES, work, WORK_BYTES);
}

static double now(void)
{
    struct timespec t;
    clock_gettime(CLOCK_MONOTONIC, &t);
    return (double)t.tv_sec * 1e9 + (double)t.tv_nsec;
}

/* The least of several rounds, each long enough to time. */
static double nanoseconds(uint64_t (*judge)(const struct image *), const struct image *m)
{
    double best = 1e18;
    volatile uint64_t sink = 0;
    for (int round = 0; round < ROUNDS; round++) {
        double start = now();
        for (int i = 0; i < 20; i++) sink += judge(m);
        double each = (now() - start) / 20;
        if (each < best) best = each;
    }
    return best;
}

/* The least of several rounds through all images. */
static double through(uint64_t (*judge)(const struct image *))
{
    double best = 1e18;
    volatile uint64_t sink = 0;
    for (int round = 0; round < ROUNDS * 20; round++) {
        double start = now();
        for (size_t i = 0; i < count; i++) sink += judge(&images[i]);
        double each = now() - start;
        if (each < best) best = each;
    }
    return best;
}

static int read_images(const char *name)
{
    static char line[LINE_BYTES];
    FILE *f = fopen(name, "r");
    if (!f) return 0;
    while (fgets(line, sizeof line, f) && count < IMAGES_MOST)
        if (line[0] == 'J' && line[2] != '-') take(line + 2);
    fclose(f);
    return 1;
}

/* One judge alone, once through the images. */
static int once(uint64_t (*judge)(const struct image *))
{
    volatile uint64_t sink = 0;
    for (size_t i = 0; i < count; i++) sink += judge(&images[i]);
    return 0;
}

int main(int argc, char **argv)
{
    double a = 0, b = 0, bytes = 0, worst = 0;
    if (argc < 2 || !read_images(argv[1])) return fprintf(stderr, "judge: a file of vectors\n"), 2;
    if (argc == 3 && strcmp(argv[2], "none") == 0) return 0;
    if (argc == 3) return once(strcmp(argv[2], "plain") == 0 ? plain : proved);
    for (size_t i = 0; i < count; i++) {
        if (plain(&images[i]) != proved(&images[i])) return printf("image %zu: they differ\n", i), 1;
        double p = nanoseconds(plain, &images[i]), q = nanoseconds(proved, &images[i]);
        a += p, b += q, bytes += (double)images[i].n;
        if (q / p > worst) worst = q / p;
    }
    printf("%zu images, %.0f bytes: plain %.1f ns a byte, proved %.1f ns a byte, ratio %.2f (worst image %.2f)\n",
           count, bytes, a / bytes, b / bytes, b / a, worst);
    a = through(plain), b = through(proved);
    printf("through the set: plain %.1f ns a byte, proved %.1f ns a byte, ratio %.2f\n", a / bytes, b / bytes, b / a);
    return 0;
}
