/* Calls functions of the library, also with a long key, for unwind.py to step through. */
#include "sflight.h"
#include <string.h>

int main(void) {
    sflight_handle a = SFLIGHT_HANDLE_NONE, b = SFLIGHT_HANDLE_NONE;
    sflight_call one = SFLIGHT_CALL_NONE, other = SFLIGHT_CALL_NONE;
    sflight_id id;
    sflight_stamp stamp;
    sflight_audience audience;
    sflight_size size;
    uint64_t value;
    uint8_t key[100];
    memset(key, 'k', sizeof key);
    if (sflight_open(&a, 4, 1, 2) || sflight_split(&a, &b)) return 1;
    if (sflight_make(&a, &one) || sflight_make(&b, &other)) return 2;
    for (size_t len = 10; len <= 100; len += 90) {
        if (sflight_ask(&a, &one, key, len, 1, &id, &stamp) != SFLIGHT_LED) return 3;
        if (sflight_ask(&b, &other, key, len, 1, &id, &stamp) != SFLIGHT_JOINED) return 4;
        if (sflight_look(&b, &other, &value) != SFLIGHT_PENDING) return 5;
        if (sflight_settle(&a, &one, 5, &audience) != SFLIGHT_TOLD) return 6;
        if (sflight_look(&b, &other, &value) || sflight_leave(&a, &one, &value)) return 7;
        if (sflight_leave(&b, &other, &value) != SFLIGHT_LAST || !sflight_is_still(&b, &stamp)) return 8;
        if (sflight_forget_call(&a, key, len, &id, &stamp, 1) != SFLIGHT_CLEARED) return 9;
        if (sflight_ask(&a, &one, key, len, 1, &id, &stamp) != SFLIGHT_LED) return 10;
        if (sflight_forget(&b, key, len, 1, &id) || sflight_forget(&b, key, len, 1, &id) != SFLIGHT_NOTHING) return 11;
        if (sflight_settle(&a, &one, 5, &audience) != SFLIGHT_TOLD || sflight_leave(&a, &one, &value) != SFLIGHT_LAST) return 12;
        if (sflight_ask(&a, &one, key, len, 1, &id, &stamp) != SFLIGHT_LED) return 13;
        if (sflight_settle(&a, &one, 5, &audience) != SFLIGHT_ALONE || sflight_grow(&a)) return 14;
    }
    if (sflight_measure(&a, &size) || sflight_free(&one) || sflight_free(&other)) return 15;
    sflight_close(&b);
    sflight_close(&a);
    return 0;
}
