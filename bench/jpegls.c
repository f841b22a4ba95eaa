/* JPEG-LS by CharLS, for comparison: codes each picture of a raw grey video for itself, within a bound.
 *
 *   jpegls WIDTH HEIGHT NEAR < video      prints the bytes of all pictures, and how far the worst pixel is off */
#include <charls/charls.h>
#include <stdio.h>
#include <stdlib.h>

static void check(charls_jpegls_errc error) {
    if (error != CHARLS_JPEGLS_ERRC_SUCCESS) {
        fprintf(stderr, "jpegls: %s\n", charls_get_error_message(error));
        exit(1);
    }
}

static size_t encode(const unsigned char *picture, charls_frame_info info, int near, unsigned char *bytes, size_t room) {
    size_t size = 0;
    charls_jpegls_encoder *encoder = charls_jpegls_encoder_create();
    check(charls_jpegls_encoder_set_frame_info(encoder, &info));
    check(charls_jpegls_encoder_set_near_lossless(encoder, near));
    check(charls_jpegls_encoder_set_destination_buffer(encoder, bytes, room));
    check(charls_jpegls_encoder_encode_from_buffer(encoder, picture, (size_t)info.width * info.height, 0));
    check(charls_jpegls_encoder_get_bytes_written(encoder, &size));
    charls_jpegls_encoder_destroy(encoder);
    return size;
}

static void decode(const unsigned char *bytes, size_t size, unsigned char *picture, size_t pixels) {
    charls_jpegls_decoder *decoder = charls_jpegls_decoder_create();
    check(charls_jpegls_decoder_set_source_buffer(decoder, bytes, size));
    check(charls_jpegls_decoder_read_header(decoder));
    check(charls_jpegls_decoder_decode_to_buffer(decoder, picture, pixels, 0));
    charls_jpegls_decoder_destroy(decoder);
}

int main(int count, char **words) {
    if (count != 4) {
        fprintf(stderr, "usage: jpegls WIDTH HEIGHT NEAR < video\n");
        return 1;
    }
    charls_frame_info info = {(unsigned)atoi(words[1]), (unsigned)atoi(words[2]), 8, 1};
    size_t pixels = (size_t)info.width * info.height;
    size_t room = 4 * pixels + 1024;
    unsigned char *picture = malloc(pixels), *shown = malloc(pixels), *bytes = malloc(room);
    size_t total = 0;
    int worst = 0;
    while (fread(picture, 1, pixels, stdin) == pixels) {
        size_t size = encode(picture, info, atoi(words[3]), bytes, room);
        decode(bytes, size, shown, pixels);
        for (size_t i = 0; i < pixels; i++) {
            int distance = abs(picture[i] - shown[i]);
            worst = distance > worst ? distance : worst;
        }
        total += size;
    }
    printf("%zu %d\n", total, worst);
    return 0;
}
