/* Parts of streams in hexadecimal digits. */
#ifndef STREAM_H
#define STREAM_H

/* 16 by 16, 25 frames, 1,000,000 bits a second, buffer 327,680 bits, for either standard; MPEG-2's extension; a group. */
#define SEQUENCE "000001B301001013027120A0"
#define EXTENSION "000001B5148200010000"
#define GROUP "000001B800080040"
/* Picture headers of I pictures, by their delay. */
#define I_22118 "00000100000AB330"
#define I_FFFF "00000100000FFFF8"
/* Those of P and B pictures, codes 7, delay 0xFFFF. */
#define P_FFFF "000001000017FFFB80"
#define B_FFFF "00000100001FFFFBB8"
/* A slice; before it, in MPEG-2, the coding extension of a frame, a top field, a bottom field. */
#define SLICE "000001011234"
#define FRAME "000001B58FFFF34180" SLICE
#define TOP "000001B58FFFF14180" SLICE
#define BOTTOM "000001B58FFFF24180" SLICE

#endif
