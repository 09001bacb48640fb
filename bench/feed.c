/* A host that feeds: it does in C what fiobench does, and lends the library what it reads, piece by piece. */
#include "fio.h"
#include "pieces.h"

int main(void) {
    static uint8_t input[PIECE], output[ROOM], buffer[128];
    fio_session session = fio_session_start();
    size_t length;
    while ((length = get(input)) > 0) {
        for (size_t used = 0; used < length;) {
            /* No flag of a session that the library made is above 1, so that the answer is Done. */
            fio_fed fed = fio_session_feed(session, buffer, input + used, length - used, output, ROOM);
            put(output, fed.written);
            session = fed.session;
            used += fed.used;
        }
    }
    put(output, fio_session_finish(session, buffer, output, ROOM).written);
    return 0;
}
