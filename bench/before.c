/* A library of version 3 of the header beside that of today: the same stores, states and answers, and emit and receive take no profile.
 * What fits a profile with smaller loads it takes as well. run.sh gives its calls these names. */
#include "calls.h"

uint32_t before_judge(const uint8_t *, size_t, uint8_t *, size_t);
uint32_t before_try(const uint8_t *, size_t, uint32_t, uint32_t, uint8_t *, size_t);
uint32_t before_data_count(const uint8_t *, size_t, uint32_t, uint8_t *, size_t);
uint32_t before_fresh_emitter(const uint8_t *, size_t, uint32_t, uint8_t *, size_t, uint8_t *, size_t);
uint32_t before_fresh_receiver(const uint8_t *, size_t, uint32_t, uint8_t *, size_t, uint8_t *, size_t);
uint32_t before_emit(const uint8_t *, size_t, uint32_t, uint8_t *, size_t, const uint8_t *, size_t, uint8_t *, size_t, uint8_t *, size_t);
uint32_t before_flush(const uint8_t *, size_t, uint32_t, uint8_t *, size_t, uint8_t *, size_t, uint8_t *, size_t);
uint32_t before_receive(const uint8_t *, size_t, uint32_t, uint32_t, uint8_t *, size_t, const uint8_t *, size_t, uint8_t *, size_t,
                        uint8_t *, size_t);
uint32_t before_modulate(const uint8_t *, size_t, const uint8_t *, size_t, const uint8_t *, size_t, float *, size_t, uint8_t *, size_t);

static uint32_t emit(const uint8_t *plan, size_t plan_len, const uint8_t *profile, size_t profile_len, uint32_t phase, uint8_t *store,
                     size_t store_len, const uint8_t *data, size_t data_len, uint8_t *symbol, size_t symbol_len, uint8_t *answer,
                     size_t answer_len)
{
    (void)profile, (void)profile_len;
    return before_emit(plan, plan_len, phase, store, store_len, data, data_len, symbol, symbol_len, answer, answer_len);
}

static uint32_t receive(const uint8_t *plan, size_t plan_len, const uint8_t *profile, size_t profile_len, uint32_t phase, uint32_t heard,
                        uint8_t *store, size_t store_len, const uint8_t *symbol, size_t symbol_len, uint8_t *data, size_t data_len,
                        uint8_t *answer, size_t answer_len)
{
    (void)profile, (void)profile_len;
    return before_receive(plan, plan_len, phase, heard, store, store_len, symbol, symbol_len, data, data_len, answer, answer_len);
}

extern const struct calls before;

const struct calls before = {"before", "a library of version 3", 116126, before_judge, before_try, NULL, before_data_count, NULL,
                             before_fresh_emitter, before_fresh_receiver, emit, before_flush, receive, NULL, NULL, NULL,
                             before_modulate};
