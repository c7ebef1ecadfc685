// One call of a script on the model.
#include "model.h"
#include "script.h"

static struct answer call(struct function *f, struct step s, uint8_t *out) {
    switch (s.call) {
    case RESET: return reset(f, s.number, s.flags, s.address & 255);
    case ENABLE: return enable(f);
    case DISABLE: return disable(f);
    case ASK: return ask(f, s.address, s.number, s.flags & 1, out, s.room);
    case READ: return access(f, false, s.address, s.number, s.bytes, s.load, out, s.room);
    case WRITE: return access(f, true, s.address, s.number, s.bytes, s.load, out, s.room);
    case RECEIVE: return receive(f, s.bytes, s.load);
    case DRAIN: return drain(f, out, s.room);
    case SWITCH_ON: return pages_on(f, s.number);
    case SWITCH_OFF: return pages_off(f);
    default: return page_request(f, s.address, s.number, s.flags & 1, s.flags & 2, s.flags & 4, out, s.room);
    }
}
