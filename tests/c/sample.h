/* Sample B of Paper 01, "Sample logs", as the bytes of its header and of its buffer, in both byte orders. */
#ifndef SAMPLE_H
#define SAMPLE_H

#define ZEROS_3 0, 0, 0
#define ZEROS_5 ZEROS_3, 0, 0
#define ZEROS_8 ZEROS_5, ZEROS_3
#define ZEROS_13 ZEROS_8, ZEROS_5
#define ZEROS_15 ZEROS_13, 0, 0

/* A buffer of 96 bytes: NewBuffer of thread 7, WallTimeMarker, NewCPUId 0 at 1000, Entry and Exit of 5, EndOfBuffer and
 * a rest of 16. */
#define BUFFER \
    0x01, 7, 0, ZEROS_13, 0x09, ZEROS_15, 0x05, 0, 0, 0xE8, 3, 0, 0, 0, 0, 0, 0, ZEROS_5, 0x50, 0, 0, 0, 10, 0, 0, 0, \
        0x52, 0, 0, 0, 30, 0, 0, 0, 0x03, ZEROS_15, ZEROS_15, 0

/* The same, with the highest byte of each number first. */
#define BIG_BUFFER \
    0x80, 0, 7, ZEROS_13, 0x84, ZEROS_15, 0x82, 0, 0, 0, 0, 0, 0, 0, 0, 3, 0xE8, ZEROS_5, 0, 0, 0, 5, 0, 0, 0, 10, \
        0x10, 0, 0, 5, 0, 0, 0, 30, 0x81, ZEROS_15, ZEROS_15, 0

/* 1,000,000,000 Hz, both flags, a buffer_size of 96. */
#define HEADER 1, 0, 1, 0, 3, 0, 0, 0, 0x00, 0xCA, 0x9A, 0x3B, 0, 0, 0, 0, 96, 0, 0, 0, 0, 0, 0, 0, ZEROS_8
#define BIG_HEADER 0, 1, 0, 1, 0xC0, 0, 0, 0, 0, 0, 0, 0, 0x3B, 0x9A, 0xCA, 0x00, 0, 0, 0, 0, 0, 0, 0, 96, ZEROS_8

#endif
