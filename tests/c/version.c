/* The version: that of the library is that of the header, as numbers and as text. The names of codes. */
#include "checks.h"

#include <stdio.h>
#include <string.h>

void check_version(void) {
    struct hs_library_version version = {UNTOLD, UNTOLD, UNTOLD};
    hs_library_version(&version);
    HOLDS(version.major == HS_LIBRARY_MAJOR);
    HOLDS(version.minor == HS_LIBRARY_MINOR);
    HOLDS(version.patch == HS_LIBRARY_PATCH);
    char text[40];
    snprintf(text, sizeof text, "%u.%u.%u", (unsigned)version.major, (unsigned)version.minor, (unsigned)version.patch);
    HOLDS(strcmp(text, HS_LIBRARY_VERSION) == 0);
    HOLDS(strcmp(hs_code_name(HS_DONE), "HS_DONE") == 0);
    HOLDS(strcmp(hs_code_name(HS_NOT_OWNED), "HS_NOT_OWNED") == 0);
    HOLDS(strcmp(hs_code_name(HS_OTHER_PLACE), "HS_OTHER_PLACE") == 0);
    HOLDS(strcmp(hs_code_name(HS_FENCED), "HS_FENCED") == 0);
    HOLDS(strcmp(hs_code_name(HS_FENCED + 1), "unknown") == 0);
    HOLDS(strcmp(hs_code_name(HS_OTHER_JOB - 1), "unknown") == 0);
}
