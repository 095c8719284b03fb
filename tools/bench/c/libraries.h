/* What asn1c's code is linked with, and the message that it has, by one set of names: its own library in UPER, or where
   ALIGNED is defined Osmocom's in APER, which takes its memory from talloc. */
#ifndef BENCH_LIBRARIES_H
#define BENCH_LIBRARIES_H
#include "bench.h"
#include <BOOLEAN.h>
#include <asn_application.h>

#ifdef ALIGNED
#include <SupportedTAList.h>
#include <asn_internal.h>
#define VARIANT "aper"
#define decode_complete aper_decode_complete
#define encode_to_buffer aper_encode_to_buffer
#define encode_to_new_buffer aper_encode_to_new_buffer
#define MESSAGE {"areas", &asn_DEF_SupportedTAList, of_message}

/* The parent of all memory that the library takes. */
void *talloc_asn1_ctx;

static void give_back(void *octets) { talloc_free(octets); }

/* The library's own encoder of BOOLEAN in APER refuses all values; it is one bit there too (X.691 12). */
static void prepare(void) { asn_DEF_BOOLEAN.aper_encoder = BOOLEAN_encode_uper; }

static uint64_t of_message(const void *value)
{
    const SupportedTAList_t *areas = value;
    return (uint64_t)areas->list.count;
}
#else
#include <CAM.h>
#define VARIANT "uper"
#define decode_complete uper_decode_complete
#define encode_to_buffer uper_encode_to_buffer
#define encode_to_new_buffer uper_encode_to_new_buffer
#define MESSAGE {"cam", &asn_DEF_CAM, of_message}

static void give_back(void *octets) { free(octets); }

static void prepare(void) {}

static uint64_t of_message(const void *value)
{
    const CAM_t *cam = value;
    return (uint64_t)cam->header.stationID & 255;
}
#endif
#endif
