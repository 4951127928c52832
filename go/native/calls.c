// The calls of sflight.h as the package makes them: see calls_amd64.s. A handle is followed by the stack that it is called on.
#include <stddef.h>
#include "sflight.h"

// What an asking writes: see asked in calls.go.
typedef struct {
	sflight_id id;
	sflight_stamp stamp;
} asked;

uint32_t sfgo_open(sflight_handle *h, uint64_t cells, uint64_t seed0, uint64_t seed1) { return sflight_open(h, cells, seed0, seed1); }

uint32_t sfgo_split(sflight_handle *h, sflight_handle *other) { return sflight_split(h, other); }

void sfgo_close(sflight_handle *h) { sflight_close(h); }

uint32_t sfgo_make(sflight_handle *h, sflight_call *c) { return sflight_make(h, c); }

uint32_t sfgo_free(sflight_handle *h, sflight_call *c) {
	(void)h; // whose stack it is called on
	return sflight_free(c);
}

uint32_t sfgo_ask(sflight_handle *h, sflight_call *c, const uint8_t *key, size_t len, uint32_t tries, asked *out) {
	return sflight_ask(h, c, key, len, tries, &out->id, &out->stamp);
}

uint32_t sfgo_settle(sflight_handle *h, sflight_call *c, uint64_t value, sflight_audience *told) { return sflight_settle(h, c, value, told); }

uint32_t sfgo_leave(sflight_handle *h, sflight_call *c, uint64_t *value) { return sflight_leave(h, c, value); }

uint32_t sfgo_forget(sflight_handle *h, const uint8_t *key, size_t len, uint32_t tries, sflight_id *id) { return sflight_forget(h, key, len, tries, id); }

uint32_t sfgo_forget_call(sflight_handle *h, const uint8_t *key, size_t len, const sflight_id *id, const sflight_stamp *stamp, uint32_t tries) {
	return sflight_forget_call(h, key, len, id, stamp, tries);
}

uint32_t sfgo_is_still(sflight_handle *h, const sflight_stamp *stamp) { return sflight_is_still(h, stamp); }

uint32_t sfgo_grow(sflight_handle *h) { return sflight_grow(h); }

uint32_t sfgo_measure(sflight_handle *h, sflight_size *size) { return sflight_measure(h, size); }
