/*
 * Times the engine beside what a maker would use instead: plain C loops, memset and memcpy, SDL2's blits and pixman.
 *
 * Each operation is drawn in each format on a picture of 320 x 240 pixels, by a job and by a panel, over a byte board and over a word
 * board. Before it is timed, its picture is compared with that of the C loop over all of memory; one that differs ends the program with
 * status 1. `run`, beside this file, builds and runs it.
 */
#define _POSIX_C_SOURCE 200809L
#include <SDL.h>
#include <pixman.h>
#include <stdbool.h>
#include <stdint.h>
#include <stdio.h>
#include <stdlib.h>
#include <string.h>
#include <time.h>

#define INLINE static inline __attribute__((always_inline))

/* ---- the engine: crates/speed ---- */

typedef struct { uint8_t depth; uint32_t start; uint16_t image, left, top; } Surface;
typedef struct { uint8_t red, green, blue; } Colour;
typedef struct {
    uint8_t operation, code;
    bool large;
    uint8_t level;
    Surface first, second, target;
    uint16_t width, height;
    Colour foreground, background;
} Settings;
typedef struct { uint8_t reg, value; } RegisterWrite;

/* where a block is handed back */
typedef struct { void *block; size_t length; } Lent;

int64_t speed_bytes(uint8_t *memory, size_t size, const Settings *settings, const uint8_t *sent, size_t length, size_t burst, Lent *back);
int64_t speed_words(uint16_t *memory, size_t words, const Settings *settings, const uint8_t *sent, size_t length, size_t burst, Lent *back);
int64_t speed_panel(uint8_t *memory, size_t size, const RegisterWrite *writes, size_t count, const uint8_t *sent, size_t length, size_t burst, Lent *back);
int64_t speed_panel_words(uint16_t *memory, size_t words, const RegisterWrite *writes, size_t count, const uint8_t *sent, size_t length, size_t burst, Lent *back);

/* ---- what is drawn ---- */

enum { WIDTH = 320, HEIGHT = 240, SMALL = 16, FIRST = 0, SECOND = 0x50000, TARGET = 0xA0000, BITS = 0xF0000, SIZE = 0x100000 };
enum { FROM_HOST = 0, RASTER = 2, KEY = 5, PATTERN = 6, BLEND = 10, FILL = 12, EXPAND = 14 }; /* operation codes */
enum { XOR = 6, COPY = 12, TOP_BIT = 15 };                                                    /* raster rules, and a start bit */

static const Colour foreground = {255, 128, 64}, background = {0, 0, 255};
static const char *const formats[3] = {"3:3:2", "5:6:5", "8:8:8"};

static _Alignas(64) uint8_t memory[SIZE];
static _Alignas(64) uint8_t expected[SIZE];
static uint8_t start[SIZE], sent[WIDTH * HEIGHT * 3];

typedef struct Case Case;
typedef void Draw(const Case *c, uint8_t *m);

/* a row of the table; where it has no peer, there is none to call */
typedef struct {
    const char *name;
    uint8_t operation, code;
    uint32_t second; /* where the second source begins */
    size_t burst;    /* the bytes of a burst, where the host serves it */
    bool small;      /* 16 x 16 pixels, timed by the call */
    Draw *loop, *library, *sdl, *pixman;
    bool alike; /* whether the peers draw the very same picture */
} Operation;

/* an operation in one format */
struct Case {
    const Operation *operation;
    int depth, bytes; /* the bytes of a pixel */
    int width, height, stride; /* in pixels */
    Settings settings;
    RegisterWrite writes[64];
    size_t write_count, sent_length;
    uint32_t ink, paper; /* foreground and background in that format */
};

/* ---- pixels ---- */

static uint32_t packed(int depth, unsigned red, unsigned green, unsigned blue)
{
    switch (depth) {
    case 0: return (red >> 5) << 5 | (green >> 5) << 2 | blue >> 6;
    case 1: return (red >> 3) << 11 | (green >> 2) << 5 | blue >> 3;
    default: return red << 16 | green << 8 | blue;
    }
}

INLINE uint32_t load(const uint8_t *at, int bytes)
{
    uint16_t two;
    switch (bytes) {
    case 1: return *at;
    case 2: memcpy(&two, at, 2); return two;
    default: return at[0] | at[1] << 8 | (uint32_t)at[2] << 16;
    }
}

INLINE void store(uint8_t *at, int bytes, uint32_t value)
{
    uint16_t two = (uint16_t)value;
    switch (bytes) {
    case 1: *at = (uint8_t)value; break;
    case 2: memcpy(at, &two, 2); break;
    default: at[0] = (uint8_t)value; at[1] = (uint8_t)(value >> 8); at[2] = (uint8_t)(value >> 16);
    }
}

INLINE void copy_pixel(uint8_t *to, const uint8_t *from, int bytes)
{
    if (bytes == 3) {
        to[0] = from[0];
        to[1] = from[1];
        to[2] = from[2];
    } else
        store(to, bytes, load(from, bytes));
}

INLINE unsigned mixed(unsigned a, unsigned b, unsigned level) { return (a * level + b * (32 - level)) / 32; }

/* fields of two, three, five and six bits as channels */
INLINE unsigned wide2(unsigned v) { return v * 85; }
INLINE unsigned wide3(unsigned v) { return v << 5 | v << 2 | v >> 1; }
INLINE unsigned wide5(unsigned v) { return v << 3 | v >> 2; }
INLINE unsigned wide6(unsigned v) { return v << 2 | v >> 4; }

/* the blend of two values in the format that has so many bytes */
INLINE uint32_t blended(uint32_t a, uint32_t b, unsigned level, int bytes)
{
    unsigned red, green, blue;
    switch (bytes) {
    case 1:
        red = mixed(wide3(a >> 5), wide3(b >> 5), level);
        green = mixed(wide3(a >> 2 & 7), wide3(b >> 2 & 7), level);
        blue = mixed(wide2(a & 3), wide2(b & 3), level);
        return (red >> 5) << 5 | (green >> 5) << 2 | blue >> 6;
    case 2:
        red = mixed(wide5(a >> 11), wide5(b >> 11), level);
        green = mixed(wide6(a >> 5 & 63), wide6(b >> 5 & 63), level);
        blue = mixed(wide5(a & 31), wide5(b & 31), level);
        return (red >> 3) << 11 | (green >> 2) << 5 | blue >> 3;
    default:
        red = mixed(a >> 16, b >> 16, level);
        green = mixed(a >> 8 & 255, b >> 8 & 255, level);
        blue = mixed(a & 255, b & 255, level);
        return red << 16 | green << 8 | blue;
    }
}

/* ---- the C loops: sides and stride are known only when they run, the size of a pixel when they are compiled ---- */

INLINE void fill(const Case *c, uint8_t *m, int bytes)
{
    uint8_t *to = m + TARGET;
    const int width = c->width, height = c->height, stride = c->stride;
    const uint32_t ink = c->ink;
    for (int y = 0; y < height; y++)
        for (int x = 0; x < width; x++)
            store(to + (y * stride + x) * bytes, bytes, ink);
}

INLINE void copy(const Case *c, uint8_t *m, int bytes)
{
    const uint8_t *from = m + FIRST;
    uint8_t *to = m + TARGET;
    const int width = c->width, height = c->height, stride = c->stride;
    for (int y = 0; y < height; y++)
        for (int x = 0; x < width; x++)
            copy_pixel(to + (y * stride + x) * bytes, from + (y * stride + x) * bytes, bytes);
}

INLINE void exclusive_or(const Case *c, uint8_t *m, int bytes)
{
    const uint8_t *a = m + FIRST, *b = m + c->operation->second;
    uint8_t *to = m + TARGET;
    const int width = c->width, height = c->height, stride = c->stride;
    for (int y = 0; y < height; y++)
        for (int i = y * stride * bytes; i < (y * stride + width) * bytes; i++)
            to[i] = a[i] ^ b[i];
}

INLINE void key(const Case *c, uint8_t *m, int bytes)
{
    const uint8_t *from = m + FIRST;
    uint8_t *to = m + TARGET;
    const int width = c->width, height = c->height, stride = c->stride;
    const uint32_t paper = c->paper;
    for (int y = 0; y < height; y++)
        for (int x = 0; x < width; x++) {
            int i = (y * stride + x) * bytes;
            if (load(from + i, bytes) != paper)
                copy_pixel(to + i, from + i, bytes);
        }
}

INLINE void blend(const Case *c, uint8_t *m, int bytes)
{
    const uint8_t *a = m + FIRST, *b = m + SECOND;
    uint8_t *to = m + TARGET;
    const int width = c->width, height = c->height, stride = c->stride;
    const unsigned level = c->settings.level;
    for (int y = 0; y < height; y++)
        for (int x = 0; x < width; x++) {
            int i = (y * stride + x) * bytes;
            store(to + i, bytes, blended(load(a + i, bytes), load(b + i, bytes), level, bytes));
        }
}

/* units of 16 bits, low byte first, from the top bit on; each row begins a unit */
INLINE void expand(const Case *c, uint8_t *m, int bytes)
{
    const uint8_t *bits = m + BITS;
    uint8_t *to = m + TARGET;
    const unsigned width = (unsigned)c->width, height = (unsigned)c->height, stride = (unsigned)c->stride, units = (width + 15) / 16;
    const uint32_t inks[2] = {c->paper, c->ink};
    for (unsigned y = 0; y < height; y++)
        for (unsigned x = 0; x < width; x++) {
            uint32_t unit = load(bits + (y * units + x / 16) * 2, 2);
            store(to + (y * stride + x) * bytes, bytes, inks[unit >> (15 - x % 16) & 1]);
        }
}

INLINE void pattern(const Case *c, uint8_t *m, int bytes)
{
    const uint8_t *cell = m + FIRST;
    uint8_t *to = m + TARGET;
    const int width = c->width, height = c->height, stride = c->stride;
    for (int y = 0; y < height; y++)
        for (int x = 0; x < width; x++)
            copy_pixel(to + (y * stride + x) * bytes, cell + (y % 8 * stride + x % 8) * bytes, bytes);
}

/* bytes as a host sends them: a pixel may be cut between two bursts */
typedef struct { uint8_t *to, waiting[3]; int width, height, stride, x, y, count; } Feed;

INLINE void feed(Feed *f, const uint8_t *from, size_t length, int bytes)
{
    for (size_t i = 0; i < length && f->y < f->height;) {
        const uint8_t *pixel = from + i;
        if (f->count == 0 && length - i >= (size_t)bytes)
            i += (size_t)bytes;
        else {
            f->waiting[f->count++] = from[i++];
            if (f->count < bytes)
                continue;
            f->count = 0;
            pixel = f->waiting;
        }
        copy_pixel(f->to + (f->y * f->stride + f->x) * bytes, pixel, bytes);
        if (++f->x == f->width) {
            f->x = 0;
            f->y++;
        }
    }
}

INLINE void host(const Case *c, uint8_t *m, int bytes)
{
    Feed f = {.to = m + TARGET, .width = c->width, .height = c->height, .stride = c->stride};
    const size_t burst = c->operation->burst;
    for (size_t i = 0; i < c->sent_length; i += burst)
        feed(&f, sent + i, c->sent_length - i < burst ? c->sent_length - i : burst, bytes);
}

/* a loop for each size of a pixel, and the choice between them */
#define BY_SIZE(loop)                                 \
    static void loop##_loop(const Case *c, uint8_t *m) \
    {                                                 \
        if (c->bytes == 1)                            \
            loop(c, m, 1);                            \
        else if (c->bytes == 2)                       \
            loop(c, m, 2);                            \
        else                                          \
            loop(c, m, 3);                            \
    }
BY_SIZE(fill)
BY_SIZE(copy)
BY_SIZE(exclusive_or)
BY_SIZE(key)
BY_SIZE(blend)
BY_SIZE(expand)
BY_SIZE(pattern)
BY_SIZE(host)

/* ---- the C library ---- */

/* memset knows bytes alone: its picture is another where a pixel has several */
static void memset_all(const Case *c, uint8_t *m) { memset(m + TARGET, 0x5A, (size_t)(c->width * c->height * c->bytes)); }
static void memcpy_all(const Case *c, uint8_t *m) { memcpy(m + TARGET, m + FIRST, (size_t)(c->width * c->height * c->bytes)); }
static void memcpy_sent(const Case *c, uint8_t *m) { memcpy(m + TARGET, sent, c->sent_length); }

static void memcpy_bursts(const Case *c, uint8_t *m)
{
    const size_t burst = c->operation->burst;
    for (size_t i = 0; i < c->sent_length; i += burst)
        memcpy(m + TARGET + i, sent + i, c->sent_length - i < burst ? c->sent_length - i : burst);
}

/* ---- SDL2 and pixman, over `memory` ---- */

typedef struct { SDL_Surface *first, *keyed, *half, *target, *bits; pixman_image_t *pixman_first, *pixman_target, *tile; } Peers;
static Peers peers[3];
static pixman_image_t *mask;

static SDL_Surface *surface_at(uint32_t at, int depth)
{
    const Uint32 sdl_formats[3] = {SDL_PIXELFORMAT_RGB332, SDL_PIXELFORMAT_RGB565, SDL_PIXELFORMAT_BGR24};
    const int bytes = depth + 1;
    return SDL_CreateRGBSurfaceWithFormatFrom(memory + at, WIDTH, HEIGHT, 8 * bytes, WIDTH * bytes, sdl_formats[depth]);
}

static void make_peers(void)
{
    const pixman_format_code_t pixman_formats[3] = {PIXMAN_r3g3b2, PIXMAN_r5g6b5, PIXMAN_r8g8b8};
    SDL_Color inks[2] = {{background.red, background.green, background.blue, 255}, {foreground.red, foreground.green, foreground.blue, 255}};
    pixman_color_t half_cover = {0, 0, 0, 0x8000};
    mask = pixman_image_create_solid_fill(&half_cover);
    for (int depth = 0; depth < 3; depth++) {
        Peers *p = &peers[depth];
        const int row = WIDTH * (depth + 1);
        p->first = surface_at(FIRST, depth);
        p->keyed = surface_at(FIRST, depth);
        p->half = surface_at(FIRST, depth);
        p->target = surface_at(TARGET, depth);
        p->bits = SDL_CreateRGBSurfaceWithFormatFrom(memory + BITS, WIDTH, HEIGHT, 1, WIDTH / 8, SDL_PIXELFORMAT_INDEX1MSB);
        if (!p->first || !p->keyed || !p->half || !p->target || !p->bits) {
            fprintf(stderr, "compare: SDL2: %s\n", SDL_GetError());
            exit(1);
        }
        SDL_SetColorKey(p->keyed, SDL_TRUE, packed(depth, background.red, background.green, background.blue));
        SDL_SetSurfaceBlendMode(p->half, SDL_BLENDMODE_BLEND);
        SDL_SetSurfaceAlphaMod(p->half, 127);
        SDL_SetPaletteColors(p->bits->format->palette, inks, 0, 2);
        p->pixman_first = pixman_image_create_bits(pixman_formats[depth], WIDTH, HEIGHT, (uint32_t *)(memory + FIRST), row);
        p->pixman_target = pixman_image_create_bits(pixman_formats[depth], WIDTH, HEIGHT, (uint32_t *)(memory + TARGET), row);
        p->tile = pixman_image_create_bits(pixman_formats[depth], 8, 8, (uint32_t *)(memory + FIRST), row);
        pixman_image_set_repeat(p->tile, PIXMAN_REPEAT_NORMAL);
    }
}

static void fill_by_sdl(const Case *c, uint8_t *m) { (void)m; SDL_FillRect(peers[c->depth].target, NULL, c->ink); }

static void sdl_blit(const Case *c, SDL_Surface *from)
{
    SDL_Rect all = {0, 0, c->width, c->height}, to = all;
    SDL_BlitSurface(from, &all, peers[c->depth].target, &to);
}

static void copy_by_sdl(const Case *c, uint8_t *m) { (void)m; sdl_blit(c, peers[c->depth].first); }
static void key_by_sdl(const Case *c, uint8_t *m) { (void)m; sdl_blit(c, peers[c->depth].keyed); }

/* onto D, half and half: neither SDL2 nor pixman has a blend of two sources into a third picture */
static void blend_by_sdl(const Case *c, uint8_t *m) { (void)m; sdl_blit(c, peers[c->depth].half); }
/* bytes from the top bit on, in place of units of 16 bits */
static void expand_by_sdl(const Case *c, uint8_t *m) { (void)m; sdl_blit(c, peers[c->depth].bits); }

static void composite(const Case *c, pixman_op_t operation, pixman_image_t *from, pixman_image_t *through)
{
    pixman_image_composite32(operation, from, through, peers[c->depth].pixman_target, 0, 0, 0, 0, 0, 0, c->width, c->height);
}

static void fill_by_pixman(const Case *c, uint8_t *m)
{
    const pixman_color_t ink = {foreground.red * 257, foreground.green * 257, foreground.blue * 257, 0xFFFF};
    const pixman_box32_t all = {0, 0, c->width, c->height};
    (void)m;
    pixman_image_fill_boxes(PIXMAN_OP_SRC, peers[c->depth].pixman_target, &ink, 1, &all);
}

static void copy_by_pixman(const Case *c, uint8_t *m) { (void)m; composite(c, PIXMAN_OP_SRC, peers[c->depth].pixman_first, NULL); }
static void blend_by_pixman(const Case *c, uint8_t *m) { (void)m; composite(c, PIXMAN_OP_OVER, peers[c->depth].pixman_first, mask); }
static void pattern_by_pixman(const Case *c, uint8_t *m) { (void)m; composite(c, PIXMAN_OP_SRC, peers[c->depth].tile, NULL); }

/* ---- the rows of the table ---- */

static const Operation operations[] = {
    {"fill", FILL, 0, SECOND, 0, false, fill_loop, memset_all, fill_by_sdl, fill_by_pixman, true},
    {"copy", RASTER, COPY, SECOND, 0, false, copy_loop, memcpy_all, copy_by_sdl, copy_by_pixman, true},
    {"exclusive or, S1 apart", RASTER, XOR, SECOND, 0, false, exclusive_or_loop, NULL, NULL, NULL, true},
    {"exclusive or, S1 = D", RASTER, XOR, TARGET, 0, false, exclusive_or_loop, NULL, NULL, NULL, true},
    {"key", KEY, 0, SECOND, 0, false, key_loop, NULL, key_by_sdl, NULL, true},
    {"blend, level 16", BLEND, 0, SECOND, 0, false, blend_loop, NULL, blend_by_sdl, blend_by_pixman, false},
    {"one-bit expansion", EXPAND, TOP_BIT, SECOND, 0, false, expand_loop, NULL, expand_by_sdl, NULL, false},
    {"pattern, 8 x 8", PATTERN, COPY, SECOND, 0, false, pattern_loop, NULL, NULL, pattern_by_pixman, true},
    {"host copy, one burst", FROM_HOST, COPY, SECOND, sizeof sent, false, host_loop, memcpy_sent, NULL, NULL, true},
    {"host copy, bursts of 32", FROM_HOST, COPY, SECOND, 32, false, host_loop, memcpy_bursts, NULL, NULL, true},
    {"copy of 16 x 16", RASTER, COPY, SECOND, 0, true, copy_loop, NULL, copy_by_sdl, copy_by_pixman, true},
};

static void write_register(Case *c, int reg, unsigned value)
{
    c->writes[c->write_count++] = (RegisterWrite){(uint8_t)reg, (uint8_t)value};
}

static void write_number(Case *c, int reg, int bytes, unsigned value)
{
    for (int i = 0; i < bytes; i++)
        write_register(c, reg + i, value >> 8 * i);
}

static void write_surface(Case *c, int reg, const Surface *surface)
{
    write_number(c, reg, 4, surface->start);
    write_number(c, reg + 4, 2, surface->image);
    write_number(c, reg + 6, 2, surface->left);
    write_number(c, reg + 8, 2, surface->top);
}

static void write_colour(Case *c, int reg, Colour colour)
{
    write_register(c, reg, colour.red);
    write_register(c, reg + 1, colour.green);
    write_register(c, reg + 2, colour.blue);
}

/* the register writes that set the settings and start */
static void write_settings(Case *c)
{
    const Settings *s = &c->settings;
    write_register(c, 0x91, s->operation | s->code << 4);
    write_register(c, 0x92, s->first.depth << 5 | s->second.depth << 2 | s->target.depth);
    write_surface(c, 0x93, &s->first);
    write_surface(c, 0x9D, &s->second);
    write_surface(c, 0xA7, &s->target);
    write_number(c, 0xB1, 2, s->width);
    write_number(c, 0xB3, 2, s->height);
    write_register(c, 0xB5, s->level);
    write_colour(c, 0xD2, s->foreground);
    write_colour(c, 0xD5, s->background);
    write_register(c, 0x90, 0x10 | s->large);
}

static Case case_of(const Operation *operation, int depth)
{
    const bool bits = operation->operation == EXPAND;
    const uint8_t d = (uint8_t)depth;
    Case c = {.operation = operation, .depth = depth, .bytes = depth + 1};
    c.width = operation->small ? SMALL : WIDTH;
    c.height = operation->small ? SMALL : HEIGHT;
    c.stride = WIDTH;
    c.sent_length = operation->burst ? (size_t)(c.width * c.height * c.bytes) : 0;
    c.ink = packed(depth, foreground.red, foreground.green, foreground.blue);
    c.paper = packed(depth, background.red, background.green, background.blue);
    c.settings = (Settings){
        .operation = operation->operation, .code = operation->code, .level = 16,
        .first = {bits ? 1 : d, bits ? BITS : FIRST, WIDTH, 0, 0}, /* depth 1: units of 16 bits */
        .second = {d, operation->second, WIDTH, 0, 0}, .target = {d, TARGET, WIDTH, 0, 0},
        .width = (uint16_t)c.width, .height = (uint16_t)c.height, .foreground = foreground, .background = background,
    };
    write_settings(&c);
    return c;
}

/* ---- the four ways of the engine ---- */

static int64_t drawn; /* what the last of them answered, and the block that it handed back */
static Lent back;
static const Lent nothing = {expected, 0};

static void job_bytes(const Case *c, uint8_t *m)
{
    back = nothing;
    drawn = speed_bytes(m, SIZE, &c->settings, sent, c->sent_length, c->operation->burst, &back);
}

static void job_words(const Case *c, uint8_t *m)
{
    back = nothing;
    drawn = speed_words((uint16_t *)m, SIZE / 2, &c->settings, sent, c->sent_length, c->operation->burst, &back);
}

static void panel_bytes(const Case *c, uint8_t *m)
{
    back = nothing;
    drawn = speed_panel(m, SIZE, c->writes, c->write_count, sent, c->sent_length, c->operation->burst, &back);
}

static void panel_words(const Case *c, uint8_t *m)
{
    back = nothing;
    drawn = speed_panel_words((uint16_t *)m, SIZE / 2, c->writes, c->write_count, sent, c->sent_length, c->operation->burst, &back);
}

typedef struct { const char *name; Draw *draw; } Way;
static const Way ways[] = {{"job, bytes", job_bytes}, {"job, words", job_words}, {"panel, bytes", panel_bytes}, {"panel, words", panel_words}};
enum { WAYS = sizeof ways / sizeof *ways, OPERATIONS = sizeof operations / sizeof *operations };

/* ---- pictures ---- */

/* memory as it is before each drawing: of the first source each third pixel is the key */
static void make_start(const Case *c)
{
    for (size_t i = 0; i < SIZE; i++)
        start[i] = (uint8_t)((i * 2654435761u) >> 13);
    for (int k = 0; k < WIDTH * HEIGHT; k += 3)
        store(start + FIRST + k * c->bytes, c->bytes, c->paper);
}

/* whether a way draws the expected picture */
static bool same_picture(const Case *c, const char *name, Draw *draw)
{
    memcpy(memory, start, SIZE);
    draw(c, memory);
    for (size_t i = 0; i < SIZE; i++)
        if (memory[i] != expected[i]) {
            printf("%s, %s, %s: byte %zX is %02X and not %02X\n", c->operation->name, formats[c->depth], name, i, memory[i], expected[i]);
            return false;
        }
    return true;
}

static bool same_pictures(const Case *c)
{
    const Operation *o = c->operation;
    bool same = true;
    make_start(c);
    memcpy(expected, start, SIZE);
    o->loop(c, expected);
    for (int i = 0; i < WAYS; i++) {
        same &= same_picture(c, ways[i].name, ways[i].draw);
        if (drawn != c->width * c->height || back.block != memory) {
            printf("%s, %s, %s: answered %lld, or another block came back\n", o->name, formats[c->depth], ways[i].name, (long long)drawn);
            same = false;
        }
    }
    if (o->alike && o->sdl)
        same &= same_picture(c, "SDL2", o->sdl);
    if (o->alike && o->pixman)
        same &= same_picture(c, "pixman", o->pixman);
    memcpy(memory, start, SIZE);
    return same;
}

/* ---- times ---- */

static double now(void)
{
    struct timespec t;
    clock_gettime(CLOCK_THREAD_CPUTIME_ID, &t);
    return (double)t.tv_sec + (double)t.tv_nsec * 1e-9;
}

static double seconds(const Case *c, Draw *draw, int repeats)
{
    double begun = now();
    for (int i = 0; i < repeats; i++)
        draw(c, memory);
    return (now() - begun) / repeats;
}

/* the best of several rounds, each of two milliseconds or of one drawing */
static double best_seconds(const Case *c, Draw *draw)
{
    enum { ROUNDS = 15 };
    double once = seconds(c, draw, 3), best = once;
    int repeats = once > 2e-3 ? 1 : (int)(2e-3 / (once > 1e-8 ? once : 1e-8)) + 1;
    for (int round = 0; round < ROUNDS; round++) {
        double time = seconds(c, draw, repeats);
        if (time < best)
            best = time;
    }
    return best;
}

/* Mpixel/s, or nanoseconds a call for a small picture; answers the time */
static double print_time(const Case *c, Draw *draw)
{
    if (!draw) {
        printf(" |");
        return 0;
    }
    double time = best_seconds(c, draw);
    double shown = c->operation->small ? time * 1e9 : c->width * c->height / time / 1e6;
    printf(shown < 100 ? " %.1f |" : " %.0f |", shown);
    return time;
}

/* how fast the engine is, as a part of a peer */
static void print_ratio(double ours, double peer)
{
    if (peer == 0)
        printf(" |");
    else if (peer < ours)
        printf(" 1/%.0f |", ours / peer);
    else
        printf(" %.1f |", peer / ours);
}

static void print_row(const Case *c)
{
    const Operation *o = c->operation;
    printf("| %s%s | %s |", o->name, o->small ? ", ns a call" : "", formats[c->depth]);
    double ours = print_time(c, ways[0].draw);
    for (int i = 1; i < WAYS; i++)
        print_time(c, ways[i].draw);
    double loop = print_time(c, o->loop);
    print_time(c, o->library);
    double sdl = print_time(c, o->sdl);
    print_time(c, o->pixman);
    print_ratio(ours, loop);
    print_ratio(ours, sdl);
    puts("");
    fflush(stdout);
}

static const int depth_order[3] = {1, 2, 0};

int main(void)
{
    bool same = true;
    for (size_t i = 0; i < sizeof sent; i++)
        sent[i] = (uint8_t)((i * 40503u) >> 7);
    make_peers();
    printf("| operation | format |");
    for (int i = 0; i < WAYS; i++)
        printf(" %s |", ways[i].name);
    puts(" C loop | memset, memcpy | SDL2 | pixman | ours / C loop | ours / SDL2 |");
    puts("|---|---|---|---|---|---|---|---|---|---|---|---|");
    for (int o = 0; o < OPERATIONS; o++)
        for (int d = 0; d < 3; d++) {
            const Case c = case_of(&operations[o], depth_order[d]);
            same &= same_pictures(&c);
            print_row(&c);
        }
    if (!same)
        return 1;
    puts("\nAll pictures are those of the C loops.");
    return 0;
}
