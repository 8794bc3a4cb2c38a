/* OpenJPEG's own packet functions for the benchmark, built from its sources, and stand-ins for what they name of its other files. */
#define OPJ_SKIP_POISON
#include "opj_includes.h"

#include "bio.c"
#include "opj_malloc.c"
#include "t2.c"
#include "tgt.c"

/* ---- stand-ins: none decides a bit of a packet */

OPJ_BOOL opj_event_msg(opj_event_mgr_t *manager, OPJ_INT32 kind, const char *format, ...) {
    (void)manager, (void)kind, (void)format;
    return OPJ_TRUE;
}
OPJ_BOOL opj_tcd_is_band_empty(opj_tcd_band_t *band) {
    return band->x1 == band->x0 || band->y1 == band->y0;
}
void opj_tcd_reinit_segment(opj_tcd_seg_t *segment) {
    memset(segment, 0, sizeof *segment);
}
OPJ_BOOL opj_tcd_is_subband_area_of_interest(opj_tcd_t *a, OPJ_UINT32 b, OPJ_UINT32 c, OPJ_UINT32 d, OPJ_UINT32 e, OPJ_UINT32 f,
                                            OPJ_UINT32 g, OPJ_UINT32 h) {
    (void)a, (void)b, (void)c, (void)d, (void)e, (void)f, (void)g, (void)h;
    abort();
}
OPJ_UINT32 opj_get_encoding_packet_count(const opj_image_t *a, const opj_cp_t *b, OPJ_UINT32 c) {
    (void)a, (void)b, (void)c;
    abort();
}
opj_pi_iterator_t *opj_pi_create_decode(opj_image_t *a, opj_cp_t *b, OPJ_UINT32 c, opj_event_mgr_t *d) {
    (void)a, (void)b, (void)c, (void)d;
    abort();
}
opj_pi_iterator_t *opj_pi_initialise_encode(const opj_image_t *a, opj_cp_t *b, OPJ_UINT32 c, J2K_T2_MODE d, opj_event_mgr_t *e) {
    (void)a, (void)b, (void)c, (void)d, (void)e;
    abort();
}
void opj_pi_create_encode(opj_pi_iterator_t *a, opj_cp_t *b, OPJ_UINT32 c, OPJ_UINT32 d, OPJ_UINT32 e, OPJ_INT32 f, J2K_T2_MODE g) {
    (void)a, (void)b, (void)c, (void)d, (void)e, (void)f, (void)g;
    abort();
}
void opj_pi_destroy(opj_pi_iterator_t *a, OPJ_UINT32 b) {
    (void)a, (void)b;
    abort();
}
OPJ_BOOL opj_pi_next(opj_pi_iterator_t *a) {
    (void)a;
    abort();
}

/* ---- one precinct, with bands of one size */

typedef struct {
    int writer;
    OPJ_UINT32 count, blocks, layer;
    opj_tcd_precinct_t precincts[3];
    opj_tcd_pass_t *passes;
    opj_tcd_layer_t *layers;
    opj_tcd_tile_t tile;
    opj_tcd_tilecomp_t component;
    opj_tcd_resolution_t resolution;
    opj_tcp_t tcp;
    opj_tccp_t tccp;
    opj_cp_t cp;
    opj_t2_t t2;
    opj_event_mgr_t manager;
} openjpeg_precinct;

openjpeg_precinct *openjpeg_new(int writer, OPJ_UINT32 count, OPJ_UINT32 side, OPJ_UINT32 planes, const OPJ_UINT32 *block_planes) {
    openjpeg_precinct *p = calloc(1, sizeof *p);
    p->writer = writer;
    p->count = count;
    p->blocks = side * side;
    p->resolution.pw = p->resolution.ph = 1;
    p->resolution.numbands = count;
    for (OPJ_UINT32 b = 0; b < count; b++) {
        opj_tcd_precinct_t *there = &p->precincts[b];
        opj_tcd_band_t *band = &p->resolution.bands[b];
        there->cw = there->ch = side;
        there->incltree = opj_tgt_create(side, side, &p->manager);
        there->imsbtree = opj_tgt_create(side, side, &p->manager);
        there->cblks.blocks = calloc(p->blocks, writer ? sizeof(opj_tcd_cblk_enc_t) : sizeof(opj_tcd_cblk_dec_t));
        for (OPJ_UINT32 i = 0; writer && i < p->blocks; i++) {
            there->cblks.enc[i].numbps = block_planes[b * p->blocks + i];
        }
        band->bandno = b;
        band->numbps = (OPJ_INT32)planes;
        band->x1 = band->y1 = 1;
        band->precincts = there;
        band->precincts_data_size = sizeof *there;
    }
    p->component.resolutions = &p->resolution;
    p->component.numresolutions = p->component.minimum_num_resolutions = 1;
    p->tile.comps = &p->component;
    p->tile.numcomps = 1;
    p->tcp.tccps = &p->tccp;
    p->cp.strict = 1;
    p->t2.cp = &p->cp;
    return p;
}

void openjpeg_free(openjpeg_precinct *p) {
    for (OPJ_UINT32 b = 0; b < p->count; b++) {
        for (OPJ_UINT32 i = 0; !p->writer && i < p->blocks; i++) {
            opj_free(p->precincts[b].cblks.dec[i].segs);
        }
        opj_tgt_destroy(p->precincts[b].incltree);
        opj_tgt_destroy(p->precincts[b].imsbtree);
        free(p->precincts[b].cblks.blocks);
    }
    free(p->passes);
    free(p->layers);
    free(p);
}

static opj_pi_iterator_t iterator(const openjpeg_precinct *p) {
    opj_pi_iterator_t pi;
    memset(&pi, 0, sizeof pi);
    pi.layno = p->layer;
    return pi;
}

/* Gives the blocks their passes of the next layer, none terminated; their pointers lie before the lists by what earlier layers had. */
void openjpeg_give(openjpeg_precinct *p, const OPJ_UINT32 *counts, const OPJ_UINT32 *lengths, size_t passes, OPJ_BYTE *body) {
    free(p->passes);
    free(p->layers);
    p->passes = calloc(passes + 1, sizeof *p->passes);
    p->layers = calloc(p->count * p->blocks, sizeof *p->layers);
    for (size_t i = 0; i < passes; i++) {
        p->passes[i].len = lengths[i];
    }
    opj_tcd_pass_t *pass = p->passes;
    opj_tcd_layer_t *layer = p->layers;
    for (OPJ_UINT32 k = 0; k < p->count * p->blocks; k++) {
        opj_tcd_cblk_enc_t *block = &p->precincts[k / p->blocks].cblks.enc[k % p->blocks];
        layer->numpasses = counts[k];
        layer->data = body;
        for (OPJ_UINT32 i = 0; i < counts[k]; i++) {
            layer->len += pass[i].len;
        }
        body += layer->len;
        block->passes = pass - (p->layer == 0 ? 0 : block->numpasses);
        block->layers = layer - p->layer;
        pass += counts[k];
        layer++;
    }
}

/* The packet's bytes, or 0. */
size_t openjpeg_write(openjpeg_precinct *p, OPJ_BYTE *output, size_t room) {
    opj_pi_iterator_t pi = iterator(p);
    OPJ_UINT32 bytes = 0;
    OPJ_BOOL done = opj_t2_encode_packet(0, &p->tile, &p->tcp, &pi, output, &bytes, (OPJ_UINT32)room, NULL, FINAL_PASS, &p->manager);
    p->layer++;
    return done ? bytes : 0;
}

/* The bytes taken, or 0; the passes are settled by the next function. */
size_t openjpeg_read(openjpeg_precinct *p, OPJ_BYTE *src, size_t n) {
    opj_pi_iterator_t pi = iterator(p);
    OPJ_UINT32 taken = 0;
    OPJ_BOOL present = OPJ_FALSE;
    OPJ_BOOL done = opj_t2_read_packet_header(&p->t2, &p->tile, &p->tcp, &pi, &present, src, &taken, (OPJ_UINT32)n, NULL, &p->manager);
    return done ? taken : 0;
}

void openjpeg_settle(openjpeg_precinct *p) {
    opj_pi_iterator_t pi = iterator(p);
    OPJ_UINT32 skipped = 0;
    opj_t2_skip_packet_data(&p->t2, &p->tile, &pi, &skipped, UINT32_MAX, NULL, &p->manager);
    p->layer++;
}
