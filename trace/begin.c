/* The beginning and the end of the library in a process. */
#include <pthread.h>

#include "sites.h"
#include "trace.h"

struct settings settings;

/// In a child of fork.
static void forget(void)
{
    portals_forget();
    sites_forget();
}

static void begin(void)
{
    settings = settings_default();
    settings_import(&settings);
    started_begin();
    written_begin();
    memory_begin();
    board_begin();
    order_begin();
    sites_begin(); /* before CPUID faults */
    pthread_atfork(NULL, NULL, forget);
    signals_install();
}

/// Before the program's own code: its settings, and our handlers. Constructors of other libraries may come before ours,
/// so it is called when the first of the device's files is used too.
__attribute__((constructor)) void library_begin(void)
{
    static pthread_once_t once = PTHREAD_ONCE_INIT;
    pthread_once(&once, begin);
}

/// After the program's own code, unless it leaves by _exit or is killed: then the launcher tidies the recording.
__attribute__((destructor)) static void end(void)
{
    order_finish();
}
