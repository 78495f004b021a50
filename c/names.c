/* The names of the statuses, and the version. */
#include "oascanon.h"

/* Each name at its number: scripts/library makes reasons.h of the definitions in crates/oas_num and crates/oas_standard. */
static const char *const names[] = {
    [OASCANON_DONE] = "Done",
    [OASCANON_NO] = "No",
    [OASCANON_TOO_SMALL] = "TooSmall",
    [OASCANON_NOT_LIMITS] = "NotLimits",
    [OASCANON_NULL] = "Null",
    [OASCANON_UNKNOWN_DROP] = "UnknownDrop",
#include "reasons.h"
};

const char *oascanon_status_name(uint32_t status) {
    if (status < sizeof names / sizeof names[0] && names[status] != NULL)
        return names[status];
    return "Unknown";
}

const char *oascanon_version(void) {
    return OASCANON_VERSION;
}
