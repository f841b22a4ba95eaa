/* Codes a picture and shows it again, by way of include/zukhtavo.h.
 *
 *   ./build
 *   cc -std=c99 -Wall -Wextra -Iinclude examples/camera.c target/staticlib/libcamera.a -o camera
 *
 * It prints what it got, and fails if a pixel shown is further than half a step from its source. */
#include <inttypes.h>
#include <stdio.h>
#include <stdlib.h>

#include "zukhtavo.h"

enum { ACROSS = 4, DOWN = 3, STEP = 8, WIDTH = 4 * ACROSS, HEIGHT = 4 * DOWN, PIXELS = WIDTH * HEIGHT };

/* Enough for any frame of this size, as zukhtavo_worst_case says. */
enum { ROOM = 280 * ACROSS * DOWN + 8 };

/* Stops unless an answer is of the kind that was expected. */
static uint64_t expect(const char *call, int kind, uint64_t answer) {
    if (zukhtavo_kind(answer) != kind) {
        printf("%s: kind %d, rejection %d at %" PRIu64 "\n", call, zukhtavo_kind(answer), zukhtavo_rejection(answer), zukhtavo_number(answer));
        exit(1);
    }
    return zukhtavo_number(answer);
}

/* The greatest distance of a pixel from its source. */
static int worst_distance(const uint8_t *shown, const uint8_t *source) {
    int worst = 0;
    for (int i = 0; i < PIXELS; i++) {
        int distance = abs(shown[i] - source[i]);
        if (distance > worst) worst = distance;
    }
    return worst;
}

/* A light square on a gradient, so far to the right. */
static void draw(uint8_t *picture, int right) {
    for (int i = 0; i < PIXELS; i++) {
        int x = i % WIDTH, y = i / WIDTH;
        int square = x >= right && x < right + 5 && y >= 3 && y < 8;
        picture[i] = (uint8_t)(square ? 230 : 40 + 5 * x + 3 * y);
    }
}

int main(void) {
    static uint8_t source[PIXELS], reference[PIXELS], output[PIXELS], buffer[ROOM];
    static uint8_t shown[PIXELS], picture[PIXELS];
    zukhtavo_receiver receiver = {0, 0};
    int worst = 0;

    uint64_t room = expect("worst case", ZUKHTAVO_LENGTH, zukhtavo_worst_case(ACROSS, DOWN, STEP));
    printf("any frame fits in %" PRIu64 " bytes\n", room);
    if (room != ROOM) return 1;

    for (uint64_t number = 0; number < 4; number++) {
        uint64_t key = number == 0;
        draw(source, 2 + 2 * (int)number);
        uint64_t length = expect("code", ZUKHTAVO_LENGTH,
            zukhtavo_code(ACROSS, DOWN, STEP, key, source, PIXELS, reference, PIXELS, buffer, ROOM, output, PIXELS));
        expect("show", ZUKHTAVO_SHOWN,
            zukhtavo_show(ACROSS, DOWN, STEP, key, buffer, length, reference, PIXELS, shown, PIXELS));
        expect("receive", ZUKHTAVO_SURE,
            zukhtavo_receive(ACROSS, DOWN, STEP, &receiver, number, key, buffer, length, picture, PIXELS));
        int distance = worst_distance(shown, source);
        printf("frame %" PRIu64 ": %" PRIu64 " bytes, worst pixel %d from its source\n", number, length, distance);
        if (distance > worst) worst = distance;
        if (worst_distance(shown, output) > 0 || worst_distance(picture, output) > 0) return 1;
        for (int i = 0; i < PIXELS; i++) reference[i] = output[i];
    }

    uint64_t short_answer = zukhtavo_code(ACROSS, DOWN, STEP, 1, source, PIXELS, reference, PIXELS, buffer, 3, output, PIXELS);
    expect("code into three bytes", ZUKHTAVO_REJECTED, short_answer);
    printf("three bytes: rejection %d at %" PRIu64 "\n", zukhtavo_rejection(short_answer), zukhtavo_number(short_answer));

    return worst > STEP / 2;
}
