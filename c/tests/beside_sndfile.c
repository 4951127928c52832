/* A program that links libsndfile too, whose names begin with sf_ and SF_. */
#include "sflight.h"
#include <sndfile.h>
#include <stdio.h>
#include <string.h>

int main(void) {
    SF_INFO info = {0};
    sflight_handle handle = SFLIGHT_HANDLE_NONE;
    sflight_call call = SFLIGHT_CALL_NONE;
    sflight_id id;
    sflight_stamp stamp;
    sflight_audience audience;
    const uint8_t key[] = "k";
    int holds = sf_open("/no such folder/file.wav", SFM_READ, &info) == NULL;
    holds = holds && strlen(sf_strerror(NULL)) > 0;
    holds = holds && sflight_open(&handle, 1, 1, 2) == SFLIGHT_DONE && sflight_make(&handle, &call) == SFLIGHT_DONE;
    holds = holds && sflight_ask(&handle, &call, key, 1, 64, &id, &stamp) == SFLIGHT_LED;
    holds = holds && sflight_settle(&handle, &call, 7, &audience) == SFLIGHT_ALONE;
    sflight_free(&call);
    sflight_close(&handle);
    puts(holds ? "well" : "FAILED");
    return !holds;
}
